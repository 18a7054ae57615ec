/* measure whole|told TIMES WHAT INPUT -- NAME PROGRAM [ARG ..] -- NAME PROGRAM [ARG ..] [-- ..]: runs two or three programs by turns on an input, so many
   times each. Prints the median time of each, and the ratios of the others to the last one and of the first to the second: the median of the ratios
   within a turn, and their quartiles in brackets. All orders of the programs take turns, so that none always comes after another.
   whole: the processor time of a run from its beginning to its end, its output thrown away; and the largest memory. told: the program says on its output
   how many nanoseconds of processor time its work took, how many pieces that had, and in one word what it came to, which must be the same in all runs;
   the time of a piece is printed. */
#define _GNU_SOURCE
#include <fcntl.h>
#include <stdio.h>
#include <stdlib.h>
#include <string.h>
#include <sys/resource.h>
#include <sys/wait.h>
#include <unistd.h>

enum { MOST_SIDES = 3, MOST_TIMES = 9999 };

struct side {
  char *name, **words;
  double times[MOST_TIMES];                           /* by turn: milliseconds of a run, or nanoseconds of a piece */
  long memory;                                        /* the most of all runs, in kilobytes */
};

static struct side sides[MOST_SIDES];
static int count, times, whole;
static const char *what, *input;
static char came_to[64];                              /* what the work of the first run came to */

/* ---- one run */

static void fail(const struct side *side, const char *why) {
  fprintf(stderr, "bench: %s: %s %s\n", what, side->name, why);
  exit(1);
}

static void become(const struct side *side, int output) {
  int from = open(input, O_RDONLY);
  if (from < 0 || output < 0 || dup2(from, 0) < 0 || dup2(output, 1) < 0) _exit(126);
  execv(side->words[0], side->words);
  _exit(127);
}

static double milliseconds(const struct rusage *used) {
  return (double)(used->ru_utime.tv_sec + used->ru_stime.tv_sec) * 1e3 + (double)(used->ru_utime.tv_usec + used->ru_stime.tv_usec) / 1e3;
}

static double told(const struct side *side, int from) {
  char line[256], state[sizeof came_to];
  double nanoseconds, pieces;
  size_t held = 0;
  ssize_t got;
  while ((got = read(from, line + held, sizeof line - 1 - held)) > 0) held += (size_t)got;
  line[held] = 0;
  if (sscanf(line, "%lf %lf %63s", &nanoseconds, &pieces, state) != 3) fail(side, "did not tell its time");
  if (!came_to[0]) strcpy(came_to, state);
  if (strcmp(came_to, state)) fail(side, "came to something else");
  return nanoseconds / pieces;
}

static double run(struct side *side) {
  int pipes[2] = {-1, -1}, status;
  double time = 0;
  struct rusage used;
  if (!whole && pipe2(pipes, O_CLOEXEC)) fail(side, "got no pipe");
  pid_t child = fork();
  if (child < 0) fail(side, "could not be started");
  if (child == 0) become(side, whole ? open("/dev/null", O_WRONLY) : pipes[1]);
  if (!whole) {
    close(pipes[1]);
    time = told(side, pipes[0]);
    close(pipes[0]);
  }
  wait4(child, &status, 0, &used);
  if (status) fail(side, "failed");
  if (used.ru_maxrss > side->memory) side->memory = used.ru_maxrss;
  if (whole) time = milliseconds(&used);
  if (!(time > 0)) fail(side, "took no time that the clock shows");
  return time;
}

static void take_turns(void) {
  static const int two[2][2] = {{0, 1}, {1, 0}};
  static const int three[6][3] = {{0, 1, 2}, {2, 1, 0}, {1, 2, 0}, {0, 2, 1}, {2, 0, 1}, {1, 0, 2}};
  for (int k = 0; k < times; k++) {
    const int *order = count == 2 ? two[k % 2] : three[k % 6];
    for (int i = 0; i < count; i++) sides[order[i]].times[k] = run(&sides[order[i]]);
  }
}

/* ---- what is printed */

static double numbers[MOST_TIMES];                    /* one for each turn */

static int by_size(const void *a, const void *b) {
  double x = *(const double *)a, y = *(const double *)b;
  return (x > y) - (x < y);
}

static void sort_numbers(void) { qsort(numbers, (size_t)times, sizeof *numbers, by_size); }

/* The sorted number that a part of them lies below, or what lies between two. */
static double at_part(double part) {
  double place = part * (times - 1);
  int below = (int)place;
  return below + 1 < times ? numbers[below] + (place - below) * (numbers[below + 1] - numbers[below]) : numbers[below];
}

static void print_time(const struct side *side) {
  memcpy(numbers, side->times, sizeof numbers);
  sort_numbers();
  if (whole) printf("%s %.2f ms and %ld KB", side->name, at_part(0.5), side->memory);
  else printf("%s %.1f ns", side->name, at_part(0.5));
}

static void print_ratio(const struct side *a, const struct side *b) {
  for (int k = 0; k < times; k++) numbers[k] = a->times[k] / b->times[k];
  sort_numbers();
  printf("%s/%s %.2f (%.2f to %.2f), ", a->name, b->name, at_part(0.5), at_part(0.25), at_part(0.75));
}

static void print_all(void) {
  printf("  %-32s", what);
  for (int i = 0; i < count; i++) {
    print_time(&sides[i]);
    printf(i + 1 < count ? ", " : ";");
  }
  if (count == 3) printf("\n  %-31s", "");
  printf(" ");
  for (int i = 0; i + 1 < count; i++) print_ratio(&sides[i], &sides[count - 1]);
  if (count == 3) print_ratio(&sides[0], &sides[1]);
  printf("%d %s%s\n", times, count == 2 ? "pair" : "turn", times == 1 ? "" : "s");
}

int main(int argc, char **argv) {
  if (argc < 6) return 2;
  whole = strcmp(argv[1], "whole") == 0;
  times = atoi(argv[2]);
  what = argv[3];
  input = argv[4];
  for (int i = 5; i < argc; i++) {
    if (strcmp(argv[i], "--")) continue;
    if (count == MOST_SIDES || argc - i < 3) return 2;
    argv[i] = NULL;
    sides[count].name = argv[i + 1];
    sides[count++].words = argv + i + 2;
  }
  if (count < 2 || times < 1 || times > MOST_TIMES) return 2;
  take_turns();
  print_all();
  return 0;
}
