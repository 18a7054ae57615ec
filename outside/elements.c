/* elements SEED PROGRAM [FRONT..]: element_sheet against element_plain.c, which has K1 in ordinary C. On yearly files of every sort, named or on standard input
   in odd pieces, the printed sheet must be the same, byte by byte, with nothing on standard error. Where a word is no period, or a file cannot be opened or
   read, one line must be told and nothing printed. FRONT.. are words that go before the program: an emulator. */
#define _GNU_SOURCE
#include <errno.h>
#include <fcntl.h>
#include <inttypes.h>
#include <sched.h>
#include <signal.h>
#include <stdio.h>
#include <stdlib.h>
#include <string.h>
#include <sys/ioctl.h>
#include <sys/prctl.h>
#include <sys/resource.h>
#include <sys/socket.h>
#include <sys/wait.h>
#include <unistd.h>

#include <linux/capability.h>

#include "chance.h"
#include "element_plain.h"

enum {
    SECONDS = 60,
    SHEETS = 360,                 /* by chance */
    EMULATED = 12,                /* under an emulator a start takes longer, and about one in so many is made */
    FILES = 4,                    /* of one sheet by chance, at most; and one place for standard input */
    FILE_ROOM = 2000000,
    LONGEST = 65535,              /* of a record */
    BUFFER = 65536,               /* of the program */
    FRONT_WORDS = 16,
    MOST_WORDS = ELEMENT_FILES + FRONT_WORDS + 8
};
enum { AS_FILE, AT_ONCE, IN_PIECES, BYTE_BY_BYTE, WAYS };
enum { OUTPUT_READ, OUTPUT_CLOSED, OUTPUT_FULL, OUTPUT_UNREAD, OUTPUT_SHORT };

uint64_t chance_seed;
static uint64_t first_seed;
static unsigned runs;
static int emulated;

static void give_up(const char *what) {
    printf("elements: %s: %s\n", what, strerror(errno));
    exit(2);
}

/* ---- the program, its words, and the files between it and this one */

struct file {
    char name[4096];
    int number;
    uint8_t *at;
    size_t size;
};

static struct file yearly[FILES + 1], out_file, err_file;     /* beside this program; the last yearly file is standard input */
static struct file *const input = &yearly[FILES];
static char *command[MOST_WORDS];
static size_t program_words, words;
static char missing[4096], closed[4096];

static void open_file(struct file *file, const char *program, const char *ending) {
    snprintf(file->name, sizeof file->name, "%.4000s.%s", program, ending);
    file->number = open(file->name, O_RDWR | O_CREAT | O_TRUNC | O_CLOEXEC, 0644);
    file->at = malloc(FILE_ROOM + 100);
    if (file->number < 0 || !file->at) give_up(file->name);
}

static void put_file(const struct file *file) {
    if (ftruncate(file->number, 0)) give_up(file->name);
    for (size_t at = 0; at < file->size;) {
        ssize_t put = pwrite(file->number, file->at + at, file->size - at, (off_t)at);
        if (put <= 0) give_up(file->name);
        at += (size_t)put;
    }
    lseek(file->number, 0, SEEK_SET);
}

static void get_file(struct file *file) {
    file->size = 0;
    for (ssize_t got; (got = pread(file->number, file->at + file->size, FILE_ROOM - file->size, (off_t)file->size)) > 0;) file->size += (size_t)got;
    file->at[file->size] = 0;
}

static void begin_words(const char *period) {
    words = program_words;
    if (period) command[words++] = (char *)period;
    command[words] = NULL;
}

static void add_word(const char *word) {
    command[words++] = (char *)word;
    command[words] = NULL;
}

/* ---- a run */

static int status, output = OUTPUT_READ, broken_pipe_ignored, unprivileged;

/* What the program finds as its standard output. */
static void set_output(void) {
    int ends[2];
    struct rlimit most = {1000, 1000};
    dup2(out_file.number, 1);
    switch (output) {
    case OUTPUT_CLOSED: close(1); break;
    case OUTPUT_FULL: dup2(open("/dev/full", O_WRONLY | O_CLOEXEC), 1); break;
    case OUTPUT_UNREAD:
        if (pipe(ends)) _exit(126);
        dup2(ends[1], 1);
        close(ends[0]);
        close(ends[1]);
        break;
    case OUTPUT_SHORT:            /* it ends after so many bytes */
        signal(SIGXFSZ, SIG_IGN);
        setrlimit(RLIMIT_FSIZE, &most);
        break;
    }
}

static pid_t start(int from) {
    out_file.size = err_file.size = 0;
    put_file(&out_file);
    put_file(&err_file);
    fflush(stdout);
    pid_t child = fork();
    if (child < 0) give_up("no process");
    if (child > 0) return child;
    signal(SIGPIPE, broken_pipe_ignored ? SIG_IGN : SIG_DFL);
    alarm(SECONDS);
    if (from >= 0)
        dup2(from, 0);
    else
        close(0);
    dup2(err_file.number, 2);
    set_output();
    /* root may read every file, unless this is taken from it */
    if (unprivileged && geteuid() == 0 && (prctl(PR_CAPBSET_DROP, CAP_DAC_OVERRIDE) || prctl(PR_CAPBSET_DROP, CAP_DAC_READ_SEARCH))) _exit(126);
    execv(command[0], command);
    _exit(127);
}

static void finish(pid_t child) {
    waitpid(child, &status, 0);
    get_file(&out_file);
    get_file(&err_file);
    runs++;
}

/* Waits until the program has taken what is in the pipe, so that the next piece is one of its own, as long as it lives. */
static void drain(int pipe, pid_t child) {
    int left = 0;
    siginfo_t ended = {0};
    while (!ioctl(pipe, FIONREAD, &left) && left && !waitid(P_PID, (id_t)child, &ended, WEXITED | WNOHANG | WNOWAIT) && !ended.si_pid) sched_yield();
}

/* Hands the bytes of standard input on. Chance decides odd pieces, and goes on as if it had not. */
static void deliver(int pipe, int way, pid_t child) {
    uint64_t seed = chance_seed;
    for (size_t at = 0; at < input->size;) {
        size_t left = input->size - at, piece = way == AT_ONCE ? left : way == BYTE_BY_BYTE ? 1 : (size_t)one_of(1, 3, 17, below(600), 4095, 4097, below(20000), BUFFER);
        ssize_t put = write(pipe, input->at + at, piece < left ? piece : left);
        if (put < 0) break;       /* it reads no further, and its sheet will tell */
        at += (size_t)put;
        if (way != AT_ONCE) drain(pipe, child);
    }
    chance_seed = seed;
}

static void run(int way) {
    int ends[2];
    if (way == AS_FILE) {
        lseek(input->number, 0, SEEK_SET);
        finish(start(input->number));
        return;
    }
    if (pipe2(ends, O_CLOEXEC)) give_up("no pipe");
    pid_t child = start(ends[0]);
    close(ends[0]);
    deliver(ends[1], way, child);
    close(ends[1]);
    finish(child);
}

/* ---- what must come */

static char must[ELEMENT_TEXT];
static size_t must_size;

static void show(const char *what, const char *text, size_t size) {
    printf("%s:\n%.*s%s\n", what, (int)(size < 600 ? size : 600), text, size > 600 ? " .." : "");
}

static void fail(const char *name, const char *expected) {
    size_t at = 0;
    printf("elements: DIFFERENCE: %s; seed %" PRIu64 ", status %d\nits words:", name, first_seed, status);
    for (size_t k = program_words; command[k] && k < program_words + 8; k++) printf(" '%.200s'", command[k]);
    printf("\nstandard input, where it reads it, is %s\n", input->name);
    while (at < must_size && at < out_file.size && must[at] == (char)out_file.at[at]) at++;
    while (at > 0 && must[at - 1] != '\n') at--;
    show(expected, must + at, must_size - at);
    show("and standard output has there", (char *)out_file.at + at, out_file.size - at);
    show("standard error is", (char *)err_file.at, err_file.size);
    exit(1);
}

static int ended_well(void) { return WIFEXITED(status) && WEXITSTATUS(status) == 0; }

/* The sheet that was put into `must`, and nothing else. */
static void expect_sheet(const char *name) {
    if (ended_well() && err_file.size == 0 && out_file.size == must_size && !memcmp(out_file.at, must, must_size)) return;
    fail(name, "the sheet must go on with");
}

/* One line on standard error, this one where it is told, and nothing on standard output. */
static void expect_complaint(const char *name, const char *words_of_it, int way) {
    must_size = 0;
    run(way);
    const char *line = (const char *)err_file.at, *end = strchr(line, '\n');
    int one = end && end > line && end + 1 == line + err_file.size;
    if (ended_well() && out_file.size == 0 && one && (!words_of_it || !strcmp(line, words_of_it))) return;
    show("one line must be told", words_of_it ? words_of_it : "", words_of_it ? strlen(words_of_it) : 0);
    fail(name, "nothing must be printed");
}

/* The sheet of the files that the words name; without a name, of standard input. A second - finds it read. */
static void put_must(unsigned period) {
    static element_table table;
    static uint64_t refused[ELEMENT_FILES];
    size_t files = 0, inputs = 0;
    element_begin(&table, period);
    for (size_t k = program_words + 1; k < words; k++, files++) {
        const struct file *file = input;
        for (size_t f = 0; f < FILES; f++)
            if (!strcmp(command[k], yearly[f].name)) file = &yearly[f];
        refused[files] = file == input && inputs++ ? 0 : element_take_file(&table, file->at, file->size);
    }
    if (words == program_words + 1) refused[files++] = element_take_file(&table, input->at, input->size);
    must_size = element_put_sheet(&table, refused, files, must);
}

static void compare(const char *name, unsigned period, int way) {
    put_must(period);
    run(way);
    expect_sheet(name);
}

/* ---- records */

static size_t put_number(uint8_t *at, uint32_t number, unsigned bytes) {
    for (unsigned k = 0; k < bytes; k++, number >>= 8) at[k] = (uint8_t)number;
    return bytes;
}

static void add_number(struct file *file, uint32_t number, unsigned bytes) { file->size += put_number(file->at + file->size, number, bytes); }

static void add_sheet(struct file *file, unsigned year, uint32_t nn, uint32_t vn, uint32_t vvn) {
    add_number(file, ELEMENT_SHEET_BYTES, 2);
    add_number(file, ELEMENT_SHEET, 2);
    add_number(file, year, 2);
    add_number(file, nn, 4);
    add_number(file, vn, 4);
    add_number(file, vvn, 4);
}

static void add_outage(struct file *file, unsigned code, uint32_t from, uint32_t to) {
    add_number(file, ELEMENT_OUTAGE_BYTES, 2);
    add_number(file, ELEMENT_OUTAGE, 2);
    add_number(file, code, 2);
    add_number(file, from, 4);
    add_number(file, to, 4);
}

static void add_stock(struct file *file, unsigned code, unsigned unit, uint32_t amount) {
    add_number(file, ELEMENT_STOCK_BYTES, 2);
    add_number(file, ELEMENT_STOCK, 2);
    add_number(file, code, 2);
    add_number(file, unit, 1);
    add_number(file, amount, 4);
}

/* A record of the length, of a kind that no file has. */
static void add_padding(struct file *file, size_t length) {
    memset(file->at + file->size, 0x5a, length);
    put_number(file->at + file->size, (uint32_t)length, 2);
    file->size += length;
}

static void begin_file(struct file *file) {
    file->size = 0;
    add_sheet(file, 2009, 1000, 10, 1);
}

/* ---- files of chosen sorts, on standard input in every way that suits their size */

static void in_every_way(const char *name) {
    put_file(input);
    begin_words("3");
    for (int way = 0; way < WAYS; way++)
        if ((way != BYTE_BY_BYTE || input->size < 300) && (!emulated || one_in(EMULATED))) compare(name, 3, way);
}

static void short_files(void) {
    static const uint8_t stray[] = {7, 0, 0, 0, 0};
    for (size_t bytes = 0; bytes <= sizeof stray; bytes++) {
        memcpy(input->at, stray, input->size = bytes);
        in_every_way("stray bytes");
    }
    begin_file(input);
    size_t sheet = input->size;
    for (input->size = 1; input->size <= sheet; input->size += 4) in_every_way("a part of a sheet");
    add_outage(input, 6, 10, 100);
    for (; input->size > sheet; input->size -= 3) in_every_way("an outage, or a part of it");
}

static void sheets(void) {
    static const unsigned years[] = {0, 1999, 2000, 2099, 2100, 65535};
    for (size_t k = 0; k < sizeof years / sizeof *years; k++)
        for (uint32_t most = 10000000; most < 10000002; most++) {
            input->size = 0;
            add_outage(input, 1, 0, 1);
            add_sheet(input, years[k], k == 2 ? most : 1, k == 3 ? most : 1, most);
            add_outage(input, 1, 0, 60);
            add_stock(input, 1, ELEMENT_PIECES, 7);
            add_sheet(input, 2010, 1, 1, 1);
            add_outage(input, 259, 5, 5);
            in_every_way("a year sheet");
        }
}

/* Every code up to 300 and some behind, each once and with its stock. */
static void every_code(void) {
    begin_file(input);
    for (unsigned code = 0; code <= 300; code++) {
        add_outage(input, code, code, 2 * code);
        add_stock(input, code, code % 3, code + 1);
        add_outage(input, code + 256 * from_to(1, 255), 0, 1);
    }
    in_every_way("every code");
}

static void limits(void) {
    static const uint32_t times[] = {0, 1, 599999, 600000, 600001, 65536, 0x80000000, 0xffffffff};
    begin_file(input);
    for (size_t a = 0; a < 8; a++)
        for (size_t b = 0; b < 8; b++) add_outage(input, element_codes[8 * a % ELEMENT_CODES].code, times[a], times[b]);
    for (size_t a = 0; a < 8; a++) {
        add_stock(input, element_codes[8 * a % ELEMENT_CODES].code, (unsigned)(a & 1), times[a]);
        add_stock(input, element_codes[a].code, (unsigned)a, times[a]);
        add_stock(input, element_codes[a].code, 0, 1);
    }
    in_every_way("times and amounts");
}

static void lengths(void) {
    for (unsigned kind = 0; kind < 20; kind++)
        for (unsigned over = 0; over < 256; over += 255) {
            begin_file(input);
            for (size_t length = 4; length < 24; length++) {
                add_padding(input, length);
                put_number(input->at + input->size - length + 2, kind + 256 * over, 2);
                if (length >= 6) put_number(input->at + input->size - length + 4, 6, 2);
                if (length >= 7) input->at[input->size - length + 6] = 1;
            }
            if (kind % 5 == 0 || !over) in_every_way("kinds and lengths");
        }
}

/* Records as long as records can be, and ones that end just before, at and behind the program's buffer. */
static void long_records(void) {
    begin_file(input);
    for (unsigned k = 0; k < 4; k++) {
        add_padding(input, LONGEST - k);
        add_outage(input, 30, k, 100);
    }
    in_every_way("records of 65,535 bytes");
    input->size -= 20;
    in_every_way("the last of them cut");
    for (size_t end = BUFFER - 2; end <= BUFFER + 2; end++) {
        begin_file(input);
        add_padding(input, end - input->size > LONGEST ? LONGEST : end - input->size);
        add_outage(input, 30, 1, 100);
        add_stock(input, 30, ELEMENT_LINE, 1);
        in_every_way("a record's end about 65,536");
    }
}

/* One code with as many outages as it may have and some more; all of them, or none, as long as can be. */
static void most_outages(uint32_t minutes) {
    begin_file(input);
    add_stock(input, 6, ELEMENT_LINE, 1);
    for (unsigned k = 0; k < ELEMENT_OUTAGES + 3; k++) add_outage(input, 6, ELEMENT_LAST_MINUTE - minutes, ELEMENT_LAST_MINUTE);
    add_outage(input, 7, 0, 1);
    put_file(input);
    begin_words("1");
    compare("65,535 outages", 1, AS_FILE);
}

/* ---- files by chance */

static unsigned some_code(void) {
    unsigned code = element_codes[one_in(2) ? below(4) : below(ELEMENT_CODES)].code;
    return one_in(30) ? (unsigned)one_of(0, 31, 100, 110, 180, 185, 190, 198, 240, 248, 250, 260, 65535, code + 256, below(65536)) : code;
}

static void add_some_outage(struct file *file, int wrong) {
    uint32_t from = below(527040), to = from + below((uint64_t)one_of(2, 60, 600, 72000));
    if (wrong && one_in(2)) from = to + (uint32_t)one_of(1, 256, 65536, below(100000));
    if (wrong && one_in(2)) to = (uint32_t)one_of(600001, 4294967295, 16777216, 600000 + below(100000));
    add_outage(file, some_code(), from, to);
}

static void add_some_stock(struct file *file, int wrong) {
    uint32_t amount = (uint32_t)one_of(0, 1, 3, 7, 33333, 1000000, 4294967295, below(1000), below(100000000));
    add_stock(file, some_code(), wrong ? (unsigned)one_of(2, 128, 255, below(256)) : below(2), amount);
}

static void add_some_record(struct file *file, int wrong) {
    size_t at = file->size;
    if (wrong && one_in(4)) {
        add_padding(file, (size_t)one_of(4, 10, 11, 13, 14, 15, 18, 53, from_to(4, 200)));
        put_number(file->at + at + 2, (uint32_t)one_of(0, 2, 3, 4, 5, 6, 16, 17, 99, 260, 1028, below(65536)), 2);
    } else if (wrong && one_in(20)) {
        add_sheet(file, from_to(1990, 2110), below(20000000), 1, 1);
    } else if (one_in(30)) {
        add_some_stock(file, wrong);
    } else {
        add_some_outage(file, wrong);
    }
    if (wrong && one_in(10)) file->at[at + below(file->size - at)] ^= (uint8_t)(1u << below(8));
}

/* One record in `wrong` is not as it must be (0: all are); and then the whole file may be cut, or go on with stray bytes, or have a broken length. */
static void make_some_file(struct file *file, unsigned records, unsigned wrong) {
    file->size = 0;
    if (!wrong || !one_in(8)) add_sheet(file, from_to(2000, 2099), below(10000001), below(1000), below(10));
    for (unsigned k = 0; k < records && file->size < FILE_ROOM - 1000; k++) add_some_record(file, wrong && one_in(wrong));
    if (wrong && one_in(6)) file->size = below(file->size + 1);
    if (wrong && one_in(6) && file->size) put_number(file->at + below(file->size), (uint32_t)one_of(0, 1, 3, 65535, below(65536)), 2);
    for (unsigned stray = wrong && one_in(6) ? from_to(1, 5) : 0; stray > 0; stray--) file->at[file->size++] = (uint8_t)chance();
    put_file(file);
}

/* A period and up to four files, each once, with standard input among them or alone. */
static void sheets_by_chance(unsigned count) {
    for (unsigned k = 0; k < count; k++) {
        static const char *const periods[] = {"1", "2", "3", "7", "10", "49", "50", "05", "0050"};
        static const unsigned wrongs[] = {0, 0, 3, 20, 200};
        const char *period = periods[below(9)];
        unsigned files = k % 4 == 3 ? 0 : from_to(1, FILES), wrong = wrongs[below(5)];
        unsigned first_input = one_in(3) ? below(files + 1) : FILES;
        begin_words(period);
        for (unsigned f = 0; f < files; f++) {
            unsigned records = one_in(3) ? from_to(5000, 24000) : one_in(2) ? from_to(0, 60) : from_to(100, 3000);
            make_some_file(f == first_input ? input : &yearly[f], records, wrong);
            add_word(f == first_input ? "-" : yearly[f].name);
        }
        if (!files) make_some_file(input, one_in(2) ? from_to(5000, 24000) : from_to(0, 60), wrong);
        compare("files by chance", element_period(period), files && first_input >= files ? AS_FILE : (int)below(BYTE_BY_BYTE));
    }
}

/* ---- words */

static const char period_told[] = "element_sheet: the first word is not an observation period: a whole number of years, 1 to 50\n";

static void try_period(const char *word) {
    begin_words(word);
    if (element_period(word))
        compare("a period", element_period(word), AS_FILE);
    else
        expect_complaint("no period", period_told, AS_FILE);
}

static void periods(void) {
    static const char *const periods[] = {
        "", "0", "00", "1", "01", "2", "9", "10", "49", "50", "050", "51", "52", "59", "60", "99", "100", "101", "256", "257", "306", "65537", "65586",
        "4294967296", "4294967297", "4294967346", "18446744073709551617", "18446744073709551666", "340282366920938463463374607431768211457", "-1", "+1", "1x",
        "x", "x1", "2:", ":2", "1;", "1/", "/1", " 1", "1 ", "1\n", "\n1", "\t1", "1.0", "1,5", "1e1", "0x10", "1-50", "1 2", "\xef\xbc\x91", "--", "-", "years"};
    static char word[2 * ELEMENT_WORD];
    begin_file(input);
    add_stock(input, 15, ELEMENT_PIECES, 40);
    for (unsigned k = 0; k < 7; k++) add_outage(input, 15, k, 100);
    put_file(input);
    for (size_t k = 0; k < sizeof periods / sizeof *periods; k++) try_period(periods[k]);
    for (unsigned byte = 1; byte < 256; byte += emulated ? EMULATED : 1) {
        char two[] = {'2', (char)byte, 0};
        try_period(two);
        try_period(two + 1);
    }
    for (size_t length = ELEMENT_WORD - 96; length < 6000; length += 1000) {
        memset(word, '0', length);
        strcpy(word + length, "7");
        try_period(word);
        memset(word, '4', length);
        try_period(word);
    }
    begin_words(NULL);
    expect_complaint("no word", period_told, AS_FILE);
}

/* ---- files that cannot be opened or read. An emulator has files, rights and memory of its own: what hangs on these is left out there. */

static void told(const char *name, const char *why, int way) {
    static char line[2 * 4096];
    snprintf(line, sizeof line, "element_sheet: %s %s\n", name, why);
    expect_complaint(why, line, way);
}

/* A name in the first, a middle and the last place among good files. */
static void among_others(const char *word, const char *name, const char *why) {
    for (int place = 0; place < 3; place++) {
        begin_words("2");
        for (int k = 0; k < 3; k++) add_word(k == place ? word : yearly[k].name);
        told(name, why, AS_FILE);
    }
}

static void try_unprivileged(void) {
    unprivileged = 1;
    begin_words("2");
    add_word(yearly[0].name);
    add_word(closed);
    finish(start(input->number));
    unprivileged = WEXITSTATUS(status) != 126;       /* 126: root keeps what it may, and can read every file */
    if (unprivileged) among_others(closed, closed, "cannot be opened");
    unprivileged = 0;
}

static void unreadable_files(void) {
    static char long_name[2 * ELEMENT_WORD];
    for (int k = 0; k < FILES; k++) make_some_file(&yearly[k], 20, 0);
    make_some_file(input, 20, 0);
    among_others(missing, missing, "cannot be opened");
    among_others("", "", "cannot be opened");
    among_others("/", "/", "cannot be read");
    if (!emulated) among_others("/proc/self/mem", "/proc/self/mem", "cannot be read");
    if (!emulated) try_unprivileged();
    memset(long_name, 'a', ELEMENT_WORD + 1);
    among_others(long_name, "a file's name", "is too long");
    begin_words("2");
    add_word("--");
    told("--", "cannot be opened", AS_FILE);
}

static void many_files(void) {
    for (size_t count = ELEMENT_FILES; count <= ELEMENT_FILES + 1; count++) {
        begin_words("50");
        for (size_t k = 0; k < count && k < ELEMENT_FILES; k++) add_word(yearly[k % FILES].name);
        if (count == ELEMENT_FILES) {
            compare("1,024 files", 50, AS_FILE);
            continue;
        }
        add_word(yearly[0].name);
        expect_complaint("1,025 files", "element_sheet: more than 1,024 files are named\n", AS_FILE);
    }
}

/* Standard input named twice, before and behind a file: the second time there is nothing left of it. */
static void input_twice(void) {
    begin_words("4");
    add_word("-");
    add_word(yearly[0].name);
    add_word("-");
    for (int way = 0; way < BYTE_BY_BYTE; way++) compare("standard input twice", 4, way);
}

static void unreadable_input(int from) {
    for (int dash = 0; dash < 2; dash++) {
        begin_words("2");
        if (dash) add_word("-");
        must_size = 0;
        finish(start(from));
        if (!ended_well() || out_file.size || strcmp((char *)err_file.at, "element_sheet: standard input cannot be read\n"))
            fail("an input that cannot be read", "nothing must be printed");
    }
}

static void unreadable_inputs(void) {
    int directory = open("/", O_RDONLY | O_CLOEXEC), ends[2];
    unreadable_input(directory);
    close(directory);
    if (!emulated) unreadable_input(-1);
    /* half a file and then an error: the end of a connection whose other side was not read out */
    for (int dash = 0; dash < 2; dash++) {
        if (socketpair(AF_UNIX, SOCK_STREAM | SOCK_CLOEXEC, 0, ends) || write(ends[0], input->at, input->size / 2) < 0 || write(ends[1], "x", 1) != 1)
            give_up("no socket");
        close(ends[0]);
        begin_words("2");
        if (dash) add_word("-");
        must_size = 0;
        finish(start(ends[1]));
        close(ends[1]);
        if (out_file.size || !err_file.size) fail("an input that fails in the middle", "nothing must be printed");
    }
}

/* ---- outputs that cannot be written */

static void expect_lost(const char *name, int which, size_t written) {
    output = which;
    must_size = 0;
    lseek(input->number, 0, SEEK_SET);
    finish(start(input->number));
    output = OUTPUT_READ;
    if (ended_well() && out_file.size == written && !strcmp((char *)err_file.at, "element_sheet: the sheet cannot be written\n")) return;
    fail(name, "that the sheet cannot be written must be told");
}

static void lost_outputs(void) {
    for (int named = 0; named < 2; named++) {
        begin_words("2");
        if (named) add_word(yearly[0].name);
        expect_lost("a full device", OUTPUT_FULL, 0);
        if (!emulated) expect_lost("no standard output", OUTPUT_CLOSED, 0);
        if (!emulated) expect_lost("a device that is full after 1,000 bytes", OUTPUT_SHORT, 1000);
        broken_pipe_ignored = 1;
        expect_lost("a pipe that nobody reads", OUTPUT_UNREAD, 0);
        broken_pipe_ignored = 0;
    }
}

/* ---- all of it */

static void open_files(const char *program) {
    static const char *const endings[] = {"1.elements", "2.elements", "3.elements", "4.elements", "input.elements"};
    for (size_t k = 0; k <= FILES; k++) open_file(&yearly[k], program, endings[k]);
    open_file(&out_file, program, "out");
    open_file(&err_file, program, "err");
    snprintf(missing, sizeof missing, "%.4000s.missing", program);
    snprintf(closed, sizeof closed, "%.4000s.closed", program);
    unlink(missing);
    unlink(closed);
    int made = open(closed, O_WRONLY | O_CREAT | O_CLOEXEC, 0);
    if (made < 0) give_up(closed);
    close(made);
}

int main(int argc, char **argv) {
    if (argc < 3 || argc > 3 + FRONT_WORDS) return 2;
    chance_seed = first_seed = strtoull(argv[1], NULL, 10);
    signal(SIGPIPE, SIG_IGN);
    emulated = argc > 3;
    for (int k = 3; k < argc; k++) command[program_words++] = argv[k];
    command[program_words++] = argv[2];
    open_files(argv[0]);
    periods();
    short_files();
    sheets();
    every_code();
    limits();
    lengths();
    long_records();
    most_outages(0);
    most_outages(ELEMENT_LAST_MINUTE);
    sheets_by_chance(SHEETS / (emulated ? EMULATED : 1));
    unreadable_files();
    many_files();
    input_twice();
    unreadable_inputs();
    lost_outputs();
    printf("element sheet: seed %" PRIu64 ", %u runs as they must be\n", first_seed, runs);
    return 0;
}
