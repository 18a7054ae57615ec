/* report SEED COMMAND..: the year report, run by this command, against the plain implementation's own text, on books of every sort that arrive as a
   file, at once, in odd pieces and byte by byte; then with an output that is closed and with inputs that cannot be read. */
#define _GNU_SOURCE
#include <errno.h>
#include <fcntl.h>
#include <inttypes.h>
#include <poll.h>
#include <sched.h>
#include <signal.h>
#include <stdio.h>
#include <stdlib.h>
#include <string.h>
#include <sys/ioctl.h>
#include <sys/socket.h>
#include <sys/wait.h>
#include <unistd.h>

#include "chance.h"
#include "make.h"

enum { SECONDS = 60, BOOK_ROOM = 2000000, LONGEST = 65535, MOST_BYTE_BY_BYTE = 70000, MOST_TRIES = 400 };
enum { AS_FILE, AT_ONCE, IN_PIECES, BYTE_BY_BYTE, WAYS };

static const char *const ways[WAYS] = {"as a file", "at once", "in odd pieces", "byte by byte"};

uint64_t chance_seed;
static uint64_t first_seed;
static char **command;
static char kept_book[4096];                      /* where a book with a difference is kept: beside this program */
static unsigned runs, books;
static void (*on_broken_pipe)(int) = SIG_DFL;     /* what the program is started with */

/* ---- a run of the program */

struct run {
    pid_t child;
    int out, err;                 /* where its outputs are read from */
    char text[2][4096];
    size_t size[2];
    int status;
};

static void give_up(const char *what) {
    printf("report: %s: %s\n", what, strerror(errno));
    exit(2);
}

static void make_pipe(int ends[2], int flags) {
    if (pipe2(ends, O_CLOEXEC | flags)) give_up("no pipe");
}

/* Starts the program with this input; output -1 is read back, any other is its standard output, and -2 is none at all. */
static struct run start(int input, int output) {
    struct run run = {0};
    int out[2], err[2];
    make_pipe(out, 0);
    make_pipe(err, 0);
    fflush(stdout);
    run.child = fork();
    if (run.child < 0) give_up("no process");
    if (run.child == 0) {
        signal(SIGPIPE, on_broken_pipe);
        alarm(SECONDS);
        dup2(err[1], 2);
        if (input >= 0)
            dup2(input, 0);
        else
            close(0);
        if (output == -2)
            close(1);
        else
            dup2(output == -1 ? out[1] : output, 1);
        execv(command[0], command);
        _exit(127);
    }
    close(out[1]);
    close(err[1]);
    run.out = out[0];
    run.err = err[0];
    return run;
}

static void read_all(int from, char *text, size_t *size) {
    ssize_t got;
    while (*size < 4095 && (got = read(from, text + *size, 4095 - *size)) > 0) *size += (size_t)got;
    text[*size] = 0;
    close(from);
}

static void finish(struct run *run) {
    read_all(run->out, run->text[0], &run->size[0]);
    read_all(run->err, run->text[1], &run->size[1]);
    waitpid(run->child, &run->status, 0);
    runs++;
    if (WIFSIGNALED(run->status) && WTERMSIG(run->status) == SIGALRM) {
        printf("report: the program does not end; seed %" PRIu64 "\n", first_seed);
        exit(1);
    }
}

/* ---- ways for a book to arrive */

/* Waits until the program has read what is in the pipe, so that the next piece is one of its own. Answers 0 where it no longer reads. */
static int drained(int pipe) {
    for (;;) {
        int left = 0;
        struct pollfd end = {.fd = pipe, .events = POLLOUT};
        if (ioctl(pipe, FIONREAD, &left) || left == 0) return 1;
        if (poll(&end, 1, 0) == 1 && (end.revents & POLLERR)) return 0;
        sched_yield();
    }
}

/* How far it gets with a book that breaks off is the program's affair, and changes nothing of the books that follow. */
static void deliver(int pipe, const uint8_t *book, size_t bytes, int way) {
    uint64_t seed = chance_seed;
    for (size_t at = 0; at < bytes;) {
        size_t piece = way == AT_ONCE ? bytes - at : way == BYTE_BY_BYTE ? 1 : (size_t)one_of(1, 2, 3, 17, 53, below(600), 4095, 4097, below(20000));
        if (piece > bytes - at) piece = bytes - at;
        if (way == IN_PIECES && !drained(pipe)) break;
        ssize_t put = write(pipe, book + at, piece);
        if (put < 0) break;       /* it ended at a broken length, and reads no further */
        at += (size_t)put;
    }
    chance_seed = seed;
}

static struct run run_on(const uint8_t *book, size_t bytes, int way) {
    struct run run;
    if (way == AS_FILE) {
        FILE *file = tmpfile();
        if (!file || fwrite(book, 1, bytes, file) != bytes || fflush(file)) give_up("no file");
        rewind(file);
        run = start(fileno(file), -1);
        fclose(file);
    } else {
        int ends[2];
        make_pipe(ends, way == BYTE_BY_BYTE ? O_DIRECT : 0);         /* O_DIRECT: a pipe that keeps what was written apart */
        if (way == BYTE_BY_BYTE) fcntl(ends[1], F_SETPIPE_SZ, 1 << 20);
        run = start(ends[0], -1);
        close(ends[0]);
        deliver(ends[1], book, bytes, way);
        close(ends[1]);
    }
    finish(&run);
    return run;
}

/* ---- books */

/* What the report of a book must be. */
static void report_of(const uint8_t *book, size_t bytes, char text[PLAIN_TEXT]) {
    static uint8_t map[PLAIN_MAP_BYTES];
    plain_ledger ledger;
    plain_read outcome;
    memset(&ledger, 0, sizeof ledger);
    memset(map, 0, sizeof map);
    plain_take_book(&ledger, map, sizeof map, book, bytes, &outcome);
    plain_report(&ledger, outcome.refused, text);
}

static int differs(const uint8_t *book, size_t bytes, int way, struct run *run) {
    char text[PLAIN_TEXT];
    report_of(book, bytes, text);
    *run = run_on(book, bytes, way);
    return strcmp(text, run->text[0]) != 0 || run->size[1] != 0 || run->status != 0;
}

/* The book with pieces left out, as long as the difference stays. */
static void fail(uint8_t *book, size_t bytes, int way, const char *name) {
    static uint8_t less[BOOK_ROOM];
    struct run run;
    char text[PLAIN_TEXT];
    unsigned tries = 0;
    for (size_t piece = bytes / 2; piece > 0; piece /= 2)
        for (size_t at = 0; at + piece <= bytes && tries < MOST_TRIES; tries++) {
            memcpy(less, book, at);
            memcpy(less + at, book + at + piece, bytes - at - piece);
            if (differs(less, bytes - piece, way, &run))
                memcpy(book, less, bytes -= piece);
            else
                at += piece;
        }
    differs(book, bytes, way, &run);
    report_of(book, bytes, text);
    printf("report: DIFFERENCE: %s, %s; seed %" PRIu64 "\n", name, ways[way], first_seed);
    FILE *file = fopen(kept_book, "w");
    if (file && fwrite(book, 1, bytes, file) == bytes && !fclose(file))
        printf("run it again, on a small book with it of %zu bytes: .ci/x86-64 target/bin/year_report <%s\n", bytes, kept_book);
    for (size_t k = 0; k < bytes && k < 200; k++) printf("%02x", book[k]);
    printf("\nit must print\n%sand status %d came with\n%s%s", text, run.status, run.text[0], run.text[1]);
    exit(1);
}

static void compare(const char *name, uint8_t *book, size_t bytes) {
    struct run run;
    books++;
    for (int way = 0; way < WAYS; way++) {
        if (way == BYTE_BY_BYTE && bytes > MOST_BYTE_BY_BYTE) continue;
        if (differs(book, bytes, way, &run)) fail(book, bytes, way, name);
    }
}

static uint8_t book[BOOK_ROOM + 100];

/* A record of the length, of a kind that no book has. */
static size_t padding(uint8_t *at, size_t length) {
    memset(at, 0x5a, length);
    make_two(at, (unsigned)length);
    make_two(at + 2, 99);
    return length;
}

static void short_books(void) {
    static const uint8_t stray[] = {7, 0, 0, 0, 0};
    compare("no bytes", book, 0);
    for (size_t bytes = 1; bytes < 6; bytes++) {
        memcpy(book, stray, 5);
        compare("stray bytes", book, bytes);
    }
    size_t sheet = make_sheet(book, 2009, 1000, 10, 1);
    for (size_t bytes = 1; bytes <= sheet; bytes += 4) compare("a part of a sheet", book, bytes);
    compare("a sheet", book, sheet);
    make_sheet(book, 2100, 1000, 10, 1);
    compare("a sheet out of range", book, sheet);
}

/* Records as long as records can be, and ones that end just before, at and behind 65,536 bytes. */
static void long_records(void) {
    make_event event = {.number = 1, .type = 11, .voltage = 1, .t = {0, 0, 50, 50, 50}, .n = {{1000, 0, 0}, {1000, 0, 0}}};
    size_t sheet = make_sheet(book, 2009, 1000, 10, 1), size = sheet;
    for (unsigned k = 0; k < 4; k++) {
        size += padding(book + size, LONGEST - k);
        event.number = k + 1;
        size += make_simple(book + size, &event);
    }
    compare("records of 65,535 bytes", book, size);
    compare("the last of them cut", book, size - 60);
    for (size_t end = 65534; end <= 65538; end++) {
        size = sheet;
        size += padding(book + size, end - size);
        size += make_simple(book + size, &event);
        compare("a record's end about 65,536", book, size);
        size = sheet + padding(book + sheet, end - sheet - PLAIN_SIMPLE_BYTES);
        size += make_simple(book + size, &event);
        compare("an event's end about 65,536", book, size);
    }
}

static void books_by_chance(unsigned count) {
    for (unsigned k = 0; k < count; k++) {
        static const unsigned wrong[] = {0, 2, 8, 40};
        unsigned records = k % 3 == 0 ? from_to(0, 60) : k % 3 == 1 ? from_to(100, 400) : from_to(1000, 4000);
        size_t bytes = make_book(book, BOOK_ROOM, records, wrong[below(4)]);
        if (bytes && one_in(4)) bytes = below(bytes + 1);
        if (bytes && one_in(4)) book[below(bytes)] ^= (uint8_t)(1u << below(8));
        if (one_in(5)) {
            for (size_t stray = 0; stray < 4; stray++) book[bytes + stray] = (uint8_t)chance();
            bytes += from_to(0, 4);
        }
        compare("a book by chance", book, bytes);
    }
}

/* A book whose figures are as large as they can be. */
static void largest_figures(void) {
    make_event event = {.type = 16, .voltage = 7, .t = {0, 600000, 600000, 600000, 600000}};
    for (int level = 0; level < PLAIN_LEVELS; level++) event.n[0][level] = event.n[1][level] = PLAIN_MOST_CUSTOMERS;
    size_t size = make_sheet(book, 2000, PLAIN_MOST_CUSTOMERS, PLAIN_MOST_CUSTOMERS, PLAIN_MOST_CUSTOMERS);
    for (event.number = 1; event.number < 20000; event.number++) size += make_simple(book + size, &event);
    compare("large figures", book, size);
}

/* ---- outputs and inputs that fail */

static void expect_end(const char *name, int output) {
    size_t bytes = make_book(book, BOOK_ROOM, 50, 0);
    for (int ignored = 0; ignored < 2; ignored++) {
        on_broken_pipe = ignored ? SIG_IGN : SIG_DFL;
        FILE *file = tmpfile();
        if (!file || fwrite(book, 1, bytes, file) != bytes || fflush(file)) give_up("no file");
        rewind(file);
        struct run run = start(fileno(file), output);
        fclose(file);
        finish(&run);
        if (run.size[0]) printf("report: %s: something on standard output\n", name), exit(1);
    }
    on_broken_pipe = SIG_DFL;
}

static void closed_outputs(void) {
    int ends[2], full = open("/dev/full", O_WRONLY | O_CLOEXEC);
    expect_end("no standard output", -2);
    make_pipe(ends, 0);
    close(ends[0]);
    expect_end("a pipe that nobody reads", ends[1]);
    close(ends[1]);
    if (full < 0) give_up("no /dev/full");
    expect_end("a full device", full);
    close(full);
}

static void expect_one_line(const char *name, int input) {
    struct run run = start(input, -1);
    finish(&run);
    char *end = strchr(run.text[1], '\n');
    if (run.size[0] == 0 && end && end > run.text[1] && end + 1 == run.text[1] + run.size[1]) return;
    printf("report: %s: must be one line on standard error and nothing on standard output\n%s%s", name, run.text[0], run.text[1]);
    exit(1);
}

static void unreadable_inputs(int emulated) {
    int directory = open("/", O_RDONLY | O_CLOEXEC), write_only = open("/dev/null", O_WRONLY | O_CLOEXEC), ends[2];
    expect_one_line("a directory", directory);
    expect_one_line("a file that may only be written", write_only);
    if (!emulated) expect_one_line("no standard input", -1);         /* an emulator may hold a file of its own there */
    close(directory);
    close(write_only);
    /* half a book and then an error: the end of a connection whose other side was not read out */
    size_t bytes = make_book(book, 50000, 100, 0);
    if (socketpair(AF_UNIX, SOCK_STREAM | SOCK_CLOEXEC, 0, ends) || write(ends[0], book, bytes / 2) < 0 || write(ends[1], "x", 1) != 1) give_up("no socket");
    close(ends[0]);
    expect_one_line("an input that fails in the middle", ends[1]);
    close(ends[1]);
}

int main(int argc, char **argv) {
    if (argc < 3) return 2;
    chance_seed = first_seed = strtoull(argv[1], NULL, 10);
    command = argv + 2;
    snprintf(kept_book, sizeof kept_book, "%s.book", argv[0]);
    signal(SIGPIPE, SIG_IGN);
    short_books();
    long_records();
    largest_figures();
    books_by_chance(45);
    closed_outputs();
    unreadable_inputs(argc > 3);
    printf("year report: seed %" PRIu64 ", %u books in up to four ways, closed outputs and unreadable inputs: %u runs as they must be\n", first_seed, books,
           runs);
    return 0;
}
