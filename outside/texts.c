/* texts SEED READ-PROGRAM WRITE-PROGRAM [FRONT..]: book_read and book_write against text.c, which has docs/TEXT.md in ordinary C. On books of every sort the
   printed text must be the same, byte by byte, and the book of that text the book. On texts that say a book in another way, and on texts with something wrong
   in them, the book or the whole message must be the same. FRONT.. are words that go before a program: an emulator. */
#define _GNU_SOURCE
#include <errno.h>
#include <fcntl.h>
#include <inttypes.h>
#include <sched.h>
#include <signal.h>
#include <stdio.h>
#include <stdlib.h>
#include <string.h>
#include <sys/ioctl.h>
#include <sys/mman.h>
#include <sys/wait.h>
#include <unistd.h>

#include "chance.h"
#include "make.h"
#include "text.h"

enum {
    SECONDS = 60,
    BOOKS = 1230,                 /* by chance */
    TEXTS = 2400,
    HANDS = 3,                    /* processes that share the work: most of the time a program's start or end is waited for */
    EMULATED = 12,                /* under an emulator a start takes longer, and one in so many is made */
    BOOK_ROOM = 400000,
    LONGEST = 65535,              /* of a record */
    FRONT_WORDS = 16,
    MOST_TRIES = 400
};

uint64_t chance_seed;
static uint64_t first_seed;

/* What a hand has compared, how often each answer was in a book, and how often each message was told of a text. */
static struct tally {
    unsigned books, texts, answers[TEXT_ANSWERS], messages[TEXT_MESSAGES];
} *tally;

static void give_up(const char *what) {
    printf("texts: %s: %s\n", what, strerror(errno));
    exit(2);
}

/* ---- the programs, and the files between them and this one */

struct file {
    char name[4096];
    int number;
};

static struct file book_file, text_file, out_file, err_file;         /* beside this program, each hand's own */
static char *read_command[FRONT_WORDS + 3], *write_command[FRONT_WORDS + 3];

static void open_file(struct file *file, const char *program, unsigned hand, const char *ending) {
    snprintf(file->name, sizeof file->name, "%s.%u.%s", program, hand, ending);
    file->number = open(file->name, O_RDWR | O_CREAT | O_TRUNC | O_CLOEXEC, 0644);
    if (file->number < 0) give_up(file->name);
}

static void write_file(const struct file *file, const text_bytes *bytes) {
    if (ftruncate(file->number, 0) || lseek(file->number, 0, SEEK_SET)) give_up(file->name);
    for (size_t at = 0; at < bytes->size;) {
        ssize_t put = write(file->number, bytes->at + at, bytes->size - at);
        if (put <= 0) give_up(file->name);
        at += (size_t)put;
    }
    lseek(file->number, 0, SEEK_SET);
}

static void read_file(const struct file *file, text_bytes *bytes) {
    off_t size = lseek(file->number, 0, SEEK_END);
    bytes->size = 0;
    text_have_room(bytes, (size_t)size);
    for (ssize_t got; bytes->size < (size_t)size; bytes->size += (size_t)got) {
        got = pread(file->number, bytes->at + bytes->size, (size_t)size - bytes->size, (off_t)bytes->size);
        if (got <= 0) give_up(file->name);
    }
}

static struct {
    text_bytes out, err;
    int status;
} run;

static const text_bytes nothing;

static pid_t start(char **command, int input) {
    write_file(&out_file, &nothing);
    write_file(&err_file, &nothing);
    fflush(stdout);
    pid_t child = fork();
    if (child < 0) give_up("no process");
    if (child > 0) return child;
    signal(SIGPIPE, SIG_DFL);
    alarm(SECONDS);
    dup2(input, 0);
    dup2(out_file.number, 1);
    dup2(err_file.number, 2);
    execv(command[0], command);
    _exit(127);
}

static void finish(pid_t child) {
    waitpid(child, &run.status, 0);
    read_file(&out_file, &run.out);
    read_file(&err_file, &run.err);
}

/* Waits until the program has taken what is in the pipe, so that the next piece is one of its own, as long as it lives. */
static void drain(int pipe, pid_t child) {
    int left = 0;
    siginfo_t ended = {0};
    while (!ioctl(pipe, FIONREAD, &left) && left && !waitid(P_PID, (id_t)child, &ended, WEXITED | WNOHANG | WNOWAIT) && !ended.si_pid) sched_yield();
}

/* The book reaches book_read in odd pieces. Chance decides them, and goes on as if it had not. */
static void read_in_pieces(const text_bytes *book) {
    uint64_t seed = chance_seed;
    int ends[2];
    if (pipe2(ends, O_CLOEXEC)) give_up("no pipe");
    pid_t child = start(read_command, ends[0]);
    close(ends[0]);
    for (size_t at = 0; at < book->size;) {
        size_t piece = (size_t)one_of(1, 3, 17, 53, below(600), 4095, 4097, below(20000), 65535, 65536), left = book->size - at;
        ssize_t put = write(ends[1], book->at + at, piece < left ? piece : left);
        if (put < 0) break;       /* it reads no further, and its text will tell */
        at += (size_t)put;
        drain(ends[1], child);
    }
    close(ends[1]);
    finish(child);
    chance_seed = seed;
}

/* ---- differences */

static struct {
    const char *what;
    const text_bytes *must, *came;
} difference;

static int as_it_must_be(const char *what, const text_bytes *must, const text_bytes *came) {
    if (text_is_same(must, came)) return 1;
    difference.what = what;
    difference.must = must;
    difference.came = came;
    return 0;
}

static int ended_well(const char *what) {
    if (run.status == 0) return 1;
    difference.what = WIFSIGNALED(run.status) && WTERMSIG(run.status) == SIGALRM ? "it does not end" : what;
    difference.must = &nothing;
    difference.came = &run.err;
    return 0;
}

static text_page printed;

static int book_is_right(const text_bytes *book) {
    static text_outcome outcome;
    text_put_book(&printed, TEXT_PRINTED, book);
    text_read(&outcome, text_file.name, &printed.text);
    if (!as_it_must_be("the plain implementation's own book of its text", book, &outcome.book)) return 0;
    write_file(&book_file, book);
    finish(start(read_command, book_file.number));
    if (!ended_well("book_read's end") || !as_it_must_be("book_read's text", &printed.text, &run.out)) return 0;
    if (!as_it_must_be("book_read's standard error", &nothing, &run.err)) return 0;
    write_file(&text_file, &printed.text);
    finish(start(write_command, book_file.number));
    if (!ended_well("book_write's end") || !as_it_must_be("book_write's standard error", &nothing, &run.err)) return 0;
    return as_it_must_be("book_write's book of that text", book, &run.out);
}

static int pieces_are_right(const text_bytes *book) {
    text_put_book(&printed, TEXT_PRINTED, book);
    read_in_pieces(book);
    if (!ended_well("book_read's end") || !as_it_must_be("book_read's text of a book in pieces", &printed.text, &run.out)) return 0;
    return as_it_must_be("book_read's standard error", &nothing, &run.err);
}

static text_outcome outcome_of_text;

/* Which status goes with a message is the program's affair; it must only not be stopped. */
static int text_is_right(const text_bytes *text) {
    text_read(&outcome_of_text, text_file.name, text);
    write_file(&text_file, text);
    finish(start(write_command, book_file.number));
    if (outcome_of_text.wrong && WIFEXITED(run.status) && WEXITSTATUS(run.status) != 127) run.status = 0;
    if (!ended_well("book_write's end") || !as_it_must_be("book_write's message", &outcome_of_text.message, &run.err)) return 0;
    return as_it_must_be("book_write's book", &outcome_of_text.book, &run.out);
}

static void show(const char *what, const text_bytes *bytes, size_t from) {
    printf("%s: ", what);
    for (size_t k = from; k < bytes->size && k < from + 200; k++) {
        if (bytes->at[k] >= 32 && bytes->at[k] < 127)
            putchar(bytes->at[k]);
        else
            printf("<%02x>", bytes->at[k]);
    }
    printf("%s\n", bytes->size > from + 200 ? " .." : "");
}

/* The book or text with pieces left out, as long as a difference stays. */
static void shrink(text_bytes *bytes, int (*is_right)(const text_bytes *)) {
    text_bytes less = {0};
    unsigned tries = 0;
    for (size_t piece = bytes->size / 2; piece > 0; piece /= 2)
        for (size_t at = 0; at + piece <= bytes->size && tries < MOST_TRIES; tries++) {
            less.size = 0;
            text_add(&less, bytes->at, bytes->size);
            text_replace(&less, at, piece, NULL, 0);
            if (is_right(&less))
                at += piece;
            else
                text_replace(bytes, at, piece, NULL, 0);
        }
    free(less.at);
}

static void fail(const char *name, const text_bytes *found, int (*is_right)(const text_bytes *), const struct file *kept, const char *again) {
    text_bytes small = {0};
    size_t from = 0;
    text_add(&small, found->at, found->size);
    shrink(&small, is_right);
    is_right(&small);
    while (from < difference.must->size && from < difference.came->size && difference.must->at[from] == difference.came->at[from]) from++;
    printf("texts: DIFFERENCE: %s: %s is another from byte %zu on; seed %" PRIu64 "\n", name, difference.what, from, first_seed);
    show("it must be", difference.must, from);
    show("and it is", difference.came, from);
    printf("status %d\n", run.status);
    write_file(kept, &small);
    printf("run it again, on a small one with it of %zu bytes: .ci/x86-64 %s%s\n", small.size, again, kept->name);
    show("which is", &small, 0);
    exit(1);
}

static void compare_book(const char *name, const text_bytes *book) {
    tally->books++;
    if (!book_is_right(book)) fail(name, book, book_is_right, &book_file, "target/bin/book_read <");
    if (tally->books % 4 == 0 && !pieces_are_right(book)) fail(name, book, pieces_are_right, &book_file, "target/bin/book_read <");
}

static void compare_text(const char *name, const text_bytes *text) {
    tally->texts++;
    if (!text_is_right(text)) fail(name, text, text_is_right, &text_file, "target/bin/book_write ");
    tally->messages[outcome_of_text.wrong]++;
}

/* ---- books by name */

static text_bytes book;

static void add_sheet(unsigned year, uint32_t nn, uint32_t vn, uint32_t vvn) {
    uint8_t record[MAKE_RECORD];
    text_add(&book, record, make_sheet(record, year, nn, vn, vvn));
}

static void add_event(unsigned kind, const make_event *event) {
    uint8_t record[MAKE_RECORD];
    text_add(&book, record, kind == PLAIN_SIMPLE ? make_simple(record, event) : make_stepped(record, event));
}

/* A record of the kind and length, whose other bytes chance decides. */
static void add_other(unsigned kind, size_t length) {
    static uint8_t record[LONGEST + 1];
    for (size_t k = 4; k < length; k++) record[k] = (uint8_t)chance();
    make_two(record, (unsigned)length);
    make_two(record + 2, kind);
    text_add(&book, record, length);
}

static const make_event an_event = {.number = 3, .type = 11, .voltage = 1, .t = {300, 300, 350, 350, 350}, .n = {{1000, 0, 0}, {1000, 0, 0}},
                                    .steps = 2, .time = {310, 86400}, .count = {{7, 0, 0}, {9, 0, 0}}};

static void compare_and_clear(const char *name) {
    compare_book(name, &book);
    book.size = 0;
}

static void short_books(void) {
    static const uint8_t stray[] = {5, 0, 9, 0, 7, 255};
    compare_and_clear("no bytes");
    for (size_t bytes = 1; bytes <= sizeof stray; bytes++) {
        text_add(&book, stray, bytes);
        compare_and_clear("stray bytes");
    }
    for (size_t bytes = 1; bytes <= PLAIN_SHEET_BYTES; bytes++) {
        add_sheet(2009, 1000, 10, 1);
        book.size = bytes;
        compare_and_clear("a sheet or a part of it");
    }
}

/* An event, a sheet, an event, a sheet that is in range, and an event: the times tell which sheet gave the year. */
static void sheets(void) {
    static const uint32_t years[] = {2009, 2008, 1999, 2000, 2099, 2100, 0, 65535}, customers[] = {0, 10000000, 10000001, UINT32_MAX};
    for (unsigned k = 0; k < 8 * 4 * 3; k++) {
        uint32_t totals[PLAIN_LEVELS] = {5000, 10, 1};
        make_event event = an_event;
        totals[k % 3] = customers[k / 3 % 4];
        add_event(PLAIN_SIMPLE, &event);
        add_sheet(years[k / 12], totals[0], totals[1], totals[2]);
        add_event(PLAIN_SIMPLE, &event);
        add_sheet(2012, 2000, 0, 0);
        event.number++;
        add_event(PLAIN_STEPPED, &event);
        compare_and_clear("two sheets");
    }
}

/* Each answer that a record of a book can get. */
static void every_answer(void) {
    make_event event = an_event;
    add_event(PLAIN_SIMPLE, &event);                 /* 5 */
    add_sheet(2100, 1000, 10, 1);                    /* 6 */
    add_sheet(2009, 1000, 10, 1);
    add_sheet(2009, 1000, 10, 1);                    /* 5 */
    for (int k = 0; k < 2; k++) {
        event.number += 2;
        add_event(PLAIN_SIMPLE, &event);
        add_event(PLAIN_SIMPLE, &event);             /* 14 */
        event.number = 0;
        add_event(PLAIN_SIMPLE, &event);             /* 7 */
        event.number = 60;
        event.t[3] = event.t[2] - 1;
        add_event(PLAIN_SIMPLE, &event);             /* 10 */
        event.t[3] = event.t[2];
        event.n[1][0] = 1001;
        add_event(PLAIN_SIMPLE, &event);             /* 11 */
        event.n[1][0] = 1000;
        event.n[0][1] = 1;
        add_event(PLAIN_SIMPLE, &event);             /* 12 */
        event.n[0][0] = event.n[0][1] = 0;
        add_event(PLAIN_SIMPLE, &event);             /* 13 */
        event.n[0][0] = 1000;
        event.t[1] = event.t[2] = event.t[3] = event.t[0] + 3;       /* and the second time short */
    }
    add_other(16, 13);                               /* 3 */
    add_other(2, 54);                                /* 4 */
    add_other(2, 53);
    make_two(book.at + book.size - 53, 54);          /* 2 */
    compare_and_clear("every answer");
}

/* Every day's first and last minute and one by chance, and the minutes after the year's end. */
static void every_day(unsigned year) {
    uint32_t minutes = plain_minutes(year);
    make_event event = {.type = 12, .voltage = 7};
    add_sheet(year, 10, 10, 10);
    for (uint32_t day = 0; day * 1440 <= minutes; day++) {
        uint32_t times[] = {1440 * day, 1440 * day + below(1440), 1440 * day + 1439};
        for (int k = 0; k < 3; k++) {
            if (event.steps == PLAIN_STEPS) {
                event.number++;
                add_event(PLAIN_STEPPED, &event);
                event.steps = 0;
                event.t[0] = times[k];
            }
            event.time[event.steps++] = times[k];
        }
    }
    add_event(PLAIN_STEPPED, &event);
    compare_and_clear("every day");
}

/* Records that only hex can say: the lengths about a line's 32 bytes, and the longest; and some that end about 65,536 bytes. */
static void long_records(void) {
    static const unsigned kinds[] = {0, 1, 2, 3, 4, 16, 256 + 2, 65535};
    static const size_t lengths[] = {4, 5, 17, 19, 31, 32, 33, 52, 54, 63, 64, 65, 4096, 65534, LONGEST};
    for (size_t k = 0; k < sizeof kinds / sizeof *kinds; k++) {
        add_sheet(2009, 1000, 10, 1);
        for (size_t i = 0; i < sizeof lengths / sizeof *lengths; i++) {
            add_other(kinds[k], lengths[i]);
            add_event(i % 2 ? PLAIN_SIMPLE : PLAIN_STEPPED, &an_event);
        }
        compare_book("long records", &book);
        book.size -= from_to(1, 60);
        compare_and_clear("long records, and the last one cut");
    }
    for (size_t end = 65530; end < 65542; end++) {
        add_sheet(2009, 1000, 10, 1);
        add_other(99, end - PLAIN_SHEET_BYTES > LONGEST ? LONGEST : end - PLAIN_SHEET_BYTES);
        add_event(PLAIN_SIMPLE, &an_event);
        add_event(PLAIN_STEPPED, &an_event);
        compare_and_clear("a record's end about 65,536");
    }
}

static void add_broken(unsigned length, size_t bytes) {
    for (size_t k = 0; k < bytes; k++) text_add_byte(&book, k < 2 ? length >> 8 * k : (unsigned)chance());
}

/* Few bytes and many behind a broken length, near the book's beginning and far from it: from the length on all is hex, 32 bytes on a line. */
static void broken_lengths(void) {
    static const unsigned lengths[] = {0, 1, 2, 3, LONGEST};
    static const size_t sizes[] = {1, 2, 3, 4, 31, 32, 33, 64, 65, 1000, 65533, 65534};
    for (size_t k = 0; k < 2 * sizeof sizes / sizeof *sizes; k++)
        for (int i = 0; i < 5; i++) {
            add_sheet(2009, 1000, 10, 1);
            add_event(PLAIN_SIMPLE, &an_event);
            if (k % 2) add_other(7, from_to(65000, LONGEST));
            add_broken(lengths[i], sizes[k / 2] + (lengths[i] < 4 && one_in(5) ? 70000 : 0));
            compare_and_clear("a broken length");
        }
}

/* ---- books by chance */

/* Where some record begins, or where the book ends or breaks off. */
static size_t some_record(void) {
    size_t found = 0, place = 0, length = 1;
    for (uint32_t records = 1; length; records++, place += length) {
        if (one_in(records)) found = place;
        length = text_length_at(&book, place);
    }
    return found;
}

static void insert_some_record(void) {
    static text_bytes rest;
    size_t place = some_record(), length = one_in(20) ? (size_t)one_of(LONGEST, from_to(4, LONGEST)) : (size_t)one_of(from_to(4, 100), from_to(4, 1000));
    rest.size = 0;
    text_add(&rest, book.at + place, book.size - place);
    book.size = place;
    if (one_in(3))
        add_sheet(from_to(1998, 2101), below(20000000), 0, (uint32_t)one_of(0, 9, UINT32_MAX));
    else
        add_other((unsigned)one_of(0, 1, 2, 3, 4, 9, 16, 17, 18, 99, below(65536)), length);
    text_add(&book, rest.at, rest.size);
}

static void damage_some_record(void) {
    uint8_t record[LONGEST + 100];
    size_t place = some_record(), length = text_length_at(&book, place);
    memcpy(record, book.at + place, length);
    text_replace(&book, place, length, record, make_damage(record, length));
}

static void break_some_length(void) {
    size_t place = some_record();
    if (book.size - place < 2) return;
    make_two(book.at + place, (unsigned)one_of(0, 1, 2, 3, LONGEST, below(65536), book.size - place + 1, book.size - place));
}

static void change_book(void) {
    if (one_in(5)) insert_some_record();
    switch (below(12)) {
    case 0: damage_some_record(); break;
    case 1: break_some_length(); break;
    case 2: book.size = below(book.size + 1); break;
    case 3:
        for (unsigned stray = from_to(1, 5); stray > 0; stray--) text_add_byte(&book, (unsigned)chance());
        break;
    case 4: case 5:
        if (book.size) book.at[below(book.size)] ^= (uint8_t)(1u << below(8));
        break;
    }
}

static void make_some_book(unsigned records) {
    static uint8_t made[BOOK_ROOM];
    book.size = 0;
    text_add(&book, made, make_book(made, BOOK_ROOM, records, (unsigned)one_of(0, 0, 1, 1, 2, 2, 8, 40)));
}

static void books_by_chance(unsigned count) {
    for (unsigned k = 0; k < count; k++) {
        make_some_book(k % 50 == 0 ? from_to(600, 2500) : k % 10 == 0 ? from_to(30, 200) : from_to(0, 25));
        change_book();
        compare_and_clear("a book by chance");
    }
}

/* ---- texts by name */

static text_page page;
static text_bytes *const text = &page.text;

static void both_wrong(const char *name) {
    printf("texts: %s: book_write and the plain implementation agree, and both are wrong about %s; seed %" PRIu64 "\n", name, text_file.name, first_seed);
    show("they say", outcome_of_text.wrong ? &outcome_of_text.message : &outcome_of_text.book, 0);
    exit(1);
}

/* What must come is known here without any reading of the text, so that the plain implementation is tried too. */
static void expect_wrong(const char *name, size_t line, size_t column, int wrong) {
    compare_text(name, text);
    if (outcome_of_text.wrong != wrong || outcome_of_text.line != line || outcome_of_text.column != column) both_wrong(name);
}

/* The book of the text must be the one at hand. */
static void expect_book(const char *name) {
    compare_text(name, text);
    if (outcome_of_text.wrong || !text_is_same(&outcome_of_text.book, &book)) both_wrong(name);
}

static void set_text(const char *words) {
    text->size = 0;
    text_add_words(text, words);
}

static void the_documents_texts(void) {
    make_event first = {.number = 1, .type = 13, .voltage = 7, .t = {100, 100, 104, 104, 104}, .n = {{1000, 10, 1}, {1000, 10, 1}}};
    make_event second = {.number = 2, .type = 11, .voltage = 5, .t = {103680}, .steps = 2, .time = {103764, 103767}, .count = {{62, 0, 0}, {618, 4, 0}}};
    make_event third = {.number = 3, .type = 11, .voltage = 1, .t = {300, 300, 350, 350, 350}, .n = {{1000, 0, 0}, {1000, 0, 0}}};
    make_event fourth = {.number = 4, .type = 2, .voltage = 1, .cause = 34, .t = {260610}, .steps = 1, .time = {260655}, .count = {{12, 0, 0}}};
    static const uint8_t other[] = {5, 0, 9, 0, 7};
    book.size = 0;
    add_sheet(2009, 1000, 10, 1);
    add_event(PLAIN_SIMPLE, &first);
    add_event(PLAIN_STEPPED, &second);
    text_add(&book, other, sizeof other);
    set_text("# An outage year in four lines.\n"
             "sheet 2009 | 1000 10 1\n"
             "simple 1 13 7 0 | 01-01 01:40 01-01 01:40 01-01 01:44 01-01 01:44 01-01 01:44 | 1000 10 1 | 1000 10 1\n"
             "stepped 2 11 5 0 | 03-14 00:00 | 03-14 01:24 62 0 0 | 03-14 01:27 618 4 0\n"
             "hex 05 00 09 00 07\n");
    expect_book("the document's text");
    book.size = 0;
    for (int k = 0; k < 2; k++) add_sheet(2009, 1000, 10, 1);
    for (int k = 0; k < 2; k++) add_event(PLAIN_SIMPLE, &third);
    for (int k = 0; k < 2; k++) add_event(PLAIN_STEPPED, &fourth);
    text_add(&book, other, sizeof other);
    set_text("sheet 2009 | 1000 10 1\n"
             "sheet,2009,1000,10,1\n"
             "simple 3 11 1 0 | 01-01 05:00 01-01 05:00 01-01 05:50 01-01 05:50 01-01 05:50 | 1000 0 0 | 1000 0 0\n"
             "simple;3;11;1;0;300;300;350;350;350;1000;0;0;1000;0;0\n"
             "stepped 4 2 1 34 | 06-30 23:30 | 07-01 00:15 12 0 0\n"
             "stepped 4 2 1 34 260610 260655 12 0 0      # the same in minutes\n"
             "hex 05 00 09 00 07\n");
    expect_book("the document's sorts of line");
}

/* Texts that are right, and the book's bytes. */
static void right_texts(void) {
    static const struct {
        const char *name, *text;
        size_t bytes;
        const char *book;
    } right[] = {
        {"no text", "", 0, ""},
        {"a newline", "\n", 0, ""},
        {"a carriage return", "\r", 0, ""},
        {"a comment without a newline", "#", 0, ""},
        {"lines that say nothing", "\n \t,;|\r\n\n# sheet\n;#;", 0, ""},
        {"bytes", "hex 0a FF fF A0#c", 4, "\x0a\xff\xff\xa0"},
        {"a sheet in hex", "hex 12 00 01 00 d9 07 00 00 00 00 00 00 00 00 00 00 00 00", 18, "\x12\0\1\0\xd9\7\0\0\0\0\0\0\0\0\0\0\0\0"},
        {"a sheet without a newline", "sheet 65535 4294967295 0 1", 18, "\x12\0\1\0\xff\xff\xff\xff\xff\xff\0\0\0\0\1\0\0\0"},
        {"a sheet behind gaps", "\r| sheet |2009\r 0000000000000000000000000000001|2 3\r\n", 18, "\x12\0\1\0\xd9\7\1\0\0\0\2\0\0\0\3\0\0\0"},
        {"cells parted by semicolons", "sheet;2009;1;2;3", 18, "\x12\0\1\0\xd9\7\1\0\0\0\2\0\0\0\3\0\0\0"},
        {"cells parted by commas, with spaces, bars and returns beside them", "sheet ,\r2009| , |1 ,2, 3\r\n", 18, "\x12\0\1\0\xd9\7\1\0\0\0\2\0\0\0\3\0\0\0"},
        {"cells parted by tabs, with tabs before and after", "\t\t sheet\t2009\t1\t2\t3\t\t \t", 18, "\x12\0\1\0\xd9\7\1\0\0\0\2\0\0\0\3\0\0\0"},
        {"separators alone, and in comments", ";;,;\n,\t# ;,\nsheet 2009 1 2 3#,;\t;", 18, "\x12\0\1\0\xd9\7\1\0\0\0\2\0\0\0\3\0\0\0"},
        {"a day in a cell", "sheet;2000;0;0;0\nstepped;1;2;3;4;02-29 23:59;12-31 00:00;5;6;7;;;", 48,
         "\x12\0\1\0\xd0\7\0\0\0\0\0\0\0\0\0\0\0\0\x1e\0\3\0\1\0\2\3\4\x7f\x51\1\0\1\x20\5\x08\0\5\0\0\0\6\0\0\0\7\0\0\0"},
        {"the largest of each", "stepped 65535 255 255 255 4294967295 0 4294967295 0 1", 30,
         "\x1e\0\3\0\xff\xff\xff\xff\xff\xff\xff\xff\xff\1\0\0\0\0\xff\xff\xff\xff\0\0\0\0\1\0\0\0"},
        {"the day that a leap year has more", "sheet 2000 0 0 0\nstepped 1 2 3 4 02-29 23:59 12-31 00:00 5 6 7", 48,
         "\x12\0\1\0\xd0\7\0\0\0\0\0\0\0\0\0\0\0\0\x1e\0\3\0\1\0\2\3\4\x7f\x51\1\0\1\x20\5\x08\0\5\0\0\0\6\0\0\0\7\0\0\0"},
    };
    for (size_t k = 0; k < sizeof right / sizeof *right; k++) {
        book.size = 0;
        text_add(&book, right[k].book, right[k].bytes);
        set_text(right[k].text);
        expect_book(right[k].name);
    }
}

/* Texts with something wrong in them: where and what. */
static void wrong_texts(void) {
    static const struct {
        const char *name, *text;
        size_t line, column;
        int wrong;
    } wrong[] = {
        {"a large letter", "Sheet 2009 1 1 1\n", 1, 1, TEXT_CAPITALS},
        {"large letters", " HEX FF\n", 1, 2, TEXT_CAPITALS},
        {"a word too long in large letters", "SHEETS 2009 1 1 1\n", 1, 1, TEXT_WORD},
        {"a word too long", "sheets 2009 1 1 1\n", 1, 1, TEXT_WORD},
        {"a word too short", "\n  step", 2, 3, TEXT_WORD},
        {"a word and a colon", "sheet: 2009 1 1 1\n", 1, 1, TEXT_WORD},
        {"a byte-order mark", "\xef\xbb\xbfsheet 2009 1 1 1\n", 1, 1, TEXT_MARK},
        {"a byte-order mark before a comment", "\xef\xbb\xbf# a book\n", 1, 1, TEXT_MARK},
        {"two bytes of a byte-order mark", "\xef\xbb", 1, 1, TEXT_WORD},
        {"a quoted word", "\"sheet\";2009;1;1;1\n", 1, 1, TEXT_QUOTED},
        {"a quoted number", "sheet;\"2009\";1;1;1\n", 1, 7, TEXT_QUOTED},
        {"a quoted time", "stepped;1;1;1;1;\"100\"\n", 1, 17, TEXT_QUOTED},
        {"a quotation mark before a dash", "stepped;1;1;1;1;\"1-1\"\n", 1, 17, TEXT_QUOTED},
        {"a quoted byte", "hex \"00\"\n", 1, 5, TEXT_QUOTED},
        {"a quotation mark behind a number", "sheet 2009\" 1 1 1\n", 1, 11, TEXT_GAP},
        {"a header row", "word;number;type;T0\n", 1, 1, TEXT_HEADER},
        {"a header row of another alphabet", "\xd0\xb2\xd0\xb8\xd0\xb4;7;\xd0\xb4\n", 1, 1, TEXT_HEADER},
        {"a word, and letters in a comment", "outage 1 2 #b c\n", 1, 1, TEXT_WORD},
        {"a word, and letters within items", "outage 1a 2b\n", 1, 1, TEXT_WORD},
        {"a word behind a number", "7 words\n", 1, 1, TEXT_WORD},
        {"a number for a word", "sheet 2009 1 1 1\n\r\n# a\n 7 1 1 1\n", 4, 2, TEXT_WORD},
        {"a word alone", "sheet", 1, 6, TEXT_MORE},
        {"a word and a comment", "hex#00\n", 1, 4, TEXT_MORE},
        {"the last number in a comment", "sheet 2009 1 1 # 1\n", 1, 16, TEXT_MORE},
        {"a number too few", "simple 1 2 3 4 5 6 7 8 9 10 11 12 13 14 |\n", 1, 42, TEXT_MORE},
        {"a cell too few", "simple;1;2;3;4;5;6;7;8;9;10;11;12;13;14;;;\n", 1, 43, TEXT_MORE},
        {"no step", "stepped 1 2 3 4 5\n", 1, 18, TEXT_MORE},
        {"a part of a step", "stepped 1 2 3 4 5 6 7 8 9 10 11 12", 1, 35, TEXT_MORE},
        {"no byte", "hex \n", 1, 5, TEXT_MORE},
        {"a number too many", "sheet 2009 1 1 1 1\n", 1, 18, TEXT_LINE_END},
        {"a word too many", "simple 1 2 3 4 5 6 7 8 9 10 11 12 13 14 15 x\n", 1, 44, TEXT_LINE_END},
        {"a letter", "sheet x 1 1 1\n", 1, 7, TEXT_WHOLE_NUMBER},
        {"a number below 0", "sheet 2009 1 -1 1\n", 1, 14, TEXT_WHOLE_NUMBER},
        {"a fraction", "sheet 2009 1.5 1 1\n", 1, 13, TEXT_GAP},
        {"an item that runs into another", "sheet 2009 1 1 1'\n", 1, 17, TEXT_GAP},
        {"a year too large", "sheet 65536 1 1 1\n", 1, 7, TEXT_MOST_65535},
        {"a number too large", "stepped 65536 1 1 1\n", 1, 9, TEXT_MOST_65535},
        {"a type too large", "simple 1 256 1 1\n", 1, 10, TEXT_MOST_255},
        {"a voltage of 20 digits", "simple 1 1 99999999999999999999 1\n", 1, 12, TEXT_MOST_255},
        {"a cause too large and more", "simple 1 1 1 257x\n", 1, 14, TEXT_MOST_255},
        {"a count too large", "sheet 2009 1 1 4294967296\n", 1, 16, TEXT_MOST_4294967295},
        {"a count of 20 digits", "sheet 2009 1 18446744073709551617 1\n", 1, 14, TEXT_MOST_4294967295},
        {"a count of 39 digits", "sheet 2009 340282366920938463463374607431768211457 1 1\n", 1, 12, TEXT_MOST_4294967295},
        {"minutes too many", "stepped 1 1 1 1 4294967296\n", 1, 17, TEXT_MOST_4294967295},
        {"a letter for a time", "stepped 1 1 1 1 a\n", 1, 17, TEXT_TIME},
        {"a day alone", "sheet 2009 1 1 1\nstepped 1 1 1 1 01-01\n", 2, 17, TEXT_OTHER_TIME},
        {"a tab after a day", "sheet 2009 1 1 1\nstepped\t1\t1\t1\t1\t01-01\t00:00\t1\t1\t1\t1\n", 2, 17, TEXT_OTHER_TIME},
        {"two spaces after a day", "sheet 2009 1 1 1\nstepped 1 1 1 1 01-01  00:00 1 1 1 1\n", 2, 17, TEXT_OTHER_TIME},
        {"an hour of one digit", "sheet 2009 1 1 1\nstepped 1 1 1 1 01-01 0:00 1 1 1 1\n", 2, 17, TEXT_OTHER_TIME},
        {"a minute of one digit", "sheet 2009 1 1 1\nstepped 1 1 1 1 01-01 00:0", 2, 17, TEXT_OTHER_TIME},
        {"a month of one digit", "sheet 2009 1 1 1\nstepped 1 1 1 1 1-01 00:00 1 1 1 1\n", 2, 18, TEXT_OTHER_TIME},
        {"a year before the month", "sheet 2009 1 1 1\nstepped 1 1 1 1 2009-01-01 00:00 1 1 1 1\n", 2, 21, TEXT_OTHER_TIME},
        {"seconds", "sheet 2009 1 1 1\nstepped 1 1 1 1 01-01 00:00:00 1 1 1 1\n", 2, 28, TEXT_OTHER_TIME},
        {"a day with points", "stepped;1;1;1;1;14.3.2009 1:24\n", 1, 19, TEXT_OTHER_TIME},
        {"a day with strokes", "stepped;1;1;1;1;3/14/2009 1:24\n", 1, 18, TEXT_OTHER_TIME},
        {"an hour alone", "simple 1 1 1 1 0 1:24\n", 1, 19, TEXT_OTHER_TIME},
        {"a later time of another form", "sheet 2009 1 1 1\nstepped 1 1 1 1 01-01 00:00 01-01 00:10 1 1 1 3-14 1:24\n", 2, 48, TEXT_OTHER_TIME},
        {"a day in a number's place", "sheet 2009 03-14 01:24 1\n", 1, 14, TEXT_GAP},
        {"a point behind a time", "stepped 1 1 1 1 100.\n", 1, 20, TEXT_GAP},
        {"a day before the sheet", "stepped 1 1 1 1 01-01 00:00 1 1 1 1\nsheet 2009 1 1 1\n", 1, 17, TEXT_SHEET},
        {"a day that is none, before the sheet", "stepped 1 1 1 1 99-99 99:99 1 1 1 1\nsheet 2009 1 1 1\n", 1, 17, TEXT_SHEET},
        {"a day after a sheet of 1999", "sheet 1999 1 1 1\nstepped 1 1 1 1 01-01 00:00 1 1 1 1\n", 2, 17, TEXT_SHEET},
        {"a day after a sheet of 2100", "sheet 2100 1 1 1\nstepped 1 1 1 1 01-01 00:00 1 1 1 1\n", 2, 17, TEXT_SHEET},
        {"a day after too many customers", "sheet 2009 1 1 10000001\nstepped 1 1 1 1 01-01 00:00 1 1 1 1\n", 2, 17, TEXT_SHEET},
        {"a day after a sheet in hex", "hex 12 00 01 00 d9 07 00 00 00 00 00 00 00 00 00 00 00 00\nstepped 1 1 1 1 01-01 00:00 1 1 1 1\n", 2, 17, TEXT_SHEET},
        {"02-29 in a common year", "sheet 2009 1 1 1\nsheet 2008 1 1 1\nstepped 1 1 1 1 02-29 00:00 1 1 1 1\n", 3, 17, TEXT_DAY},
        {"02-30 in a leap year", "sheet 2008 1 1 1\nstepped 1 1 1 1 02-30 00:00 1 1 1 1\n", 2, 17, TEXT_DAY},
        {"13-01", "sheet 2009 1 1 1\nstepped 1 1 1 1 13-01 00:00 1 1 1 1\n", 2, 17, TEXT_DAY},
        {"00-00", "sheet 2009 1 1 1\nstepped 1 1 1 1 00-00 00:00 1 1 1 1\n", 2, 17, TEXT_DAY},
        {"00-01", "sheet 2009 1 1 1\nstepped 1 1 1 1 00-01 00:00 1 1 1 1\n", 2, 17, TEXT_DAY},
        {"12-00", "sheet 2009 1 1 1\nstepped 1 1 1 1 12-00 00:00 1 1 1 1\n", 2, 17, TEXT_DAY},
        {"04-31", "sheet 2009 1 1 1\nstepped 1 1 1 1 04-31 00:00 1 1 1 1\n", 2, 17, TEXT_DAY},
        {"24:00", "sheet 2009 1 1 1\nstepped 1 1 1 1 12-31 24:00 1 1 1 1\n", 2, 17, TEXT_DAY},
        {"12:60", "sheet 2009 1 1 1\nstepped 1 1 1 1 12-31 12:60 1 1 1 1\n", 2, 17, TEXT_DAY},
        {"one hexadecimal digit", "hex 0", 1, 5, TEXT_TWO_DIGITS},
        {"a hexadecimal digit and a gap", "hex 00 1 2\n", 1, 8, TEXT_TWO_DIGITS},
        {"three hexadecimal digits", "hex 00 123\n", 1, 10, TEXT_GAP},
        {"a space in a cell", "simple;1;11;5;0;100;100;150;150;150;1 000;;0;1 000;;0\n", 1, 39, TEXT_SEPARATOR},
        {"an empty cell", "stepped;2;11;5;0;100;184;62;;;187;60;;\n", 1, 29, TEXT_EMPTY_CELL},
        {"a comma between semicolons", "stepped;2;11;7;0;0;1,084;2,062;1,000;1,000\n", 1, 21, TEXT_OTHER_SEPARATOR},
        {"an empty cell before the word's first item", "sheet,,2009,1,1,1", 1, 7, TEXT_EMPTY_CELL},
        {"an empty cell of spaces and bars", "sheet; | ;2009;1;1;1", 1, 10, TEXT_EMPTY_CELL},
        {"a space for the separator", "sheet 2009,1,1,1", 1, 7, TEXT_SEPARATOR},
        {"a bar for the separator", "sheet,2009|1,1,1", 1, 12, TEXT_SEPARATOR},
        {"a tab before spaces", "\tsheet 2009 1 1 1", 1, 8, TEXT_SEPARATOR},
        {"a semicolon behind spaces", "sheet 2009 1 1 1 ; # end", 1, 7, TEXT_SEPARATOR},
        {"another separator before the word", " ; ,sheet;2009;1;1;1", 1, 4, TEXT_OTHER_SEPARATOR},
        {"another separator before a wrong word", ";,Sheet", 1, 2, TEXT_OTHER_SEPARATOR},
        {"another separator behind the last cell", "sheet;2009;1;1;1;;\t;", 1, 19, TEXT_OTHER_SEPARATOR},
        {"another separator and an empty cell", "sheet;2009;;,1;1", 1, 13, TEXT_OTHER_SEPARATOR},
        {"another separator in a cell too many", "sheet;2009;1;1;1,1", 1, 17, TEXT_OTHER_SEPARATOR},
        {"an empty cell before a cell too many", "sheet;2009;1;1;1;;;1", 1, 20, TEXT_LINE_END},
        {"a space before a cell too many", "sheet;2009;1;1;1 1", 1, 18, TEXT_LINE_END},
        {"a letter behind f", "hex 0G\n", 1, 5, TEXT_TWO_DIGITS},
    };
    for (size_t k = 0; k < sizeof wrong / sizeof *wrong; k++) {
        set_text(wrong[k].text);
        expect_wrong(wrong[k].name, wrong[k].line, wrong[k].column, wrong[k].wrong);
    }
}

/* As many steps and bytes as a line may have, and one more. */
static void full_lines(void) {
    make_event event = {.number = 1, .type = 2, .voltage = 3, .cause = 4, .t = {5}, .steps = PLAIN_STEPS};
    book.size = 0;
    add_event(PLAIN_STEPPED, &event);
    set_text("stepped 1 2 3 4 5");
    for (int k = 0; k < PLAIN_STEPS; k++) text_add_words(text, " 0 0 0 0");
    expect_book("64 steps");
    text_add_words(text, " 0 0 0 0");
    expect_wrong("65 steps", 1, 17 + 64 * 8 + 2, TEXT_LINE_END);
    book.size = 0;
    set_text("hex");
    for (unsigned k = 0; k < TEXT_HEX_LINE; k++) {
        text_add_byte(&book, 0x77);
        text_add_words(text, " 77");
    }
    expect_book("32 bytes");
    text_add_words(text, " 77");
    expect_wrong("33 bytes", 1, 3 + 32 * 3 + 2, TEXT_LINE_END);
}

/* Every byte between two items, and as a hexadecimal digit. */
static void every_byte(void) {
    for (unsigned byte = 0; byte < 256; byte++)
        for (int k = 0; k < 2; k++) {
            set_text(k ? "\nhex 0" : "sheet 2009 1");
            text_add_byte(text, byte);
            text_add_words(text, k ? "\n" : "1 0\n");
            compare_text("every byte", text);
        }
}

/* A line of so many bytes, the rest of which is one byte again and again: as the first or a later line, with its newline and without. */
static void line_of(const char *words, unsigned byte, size_t bytes, int later, int newline) {
    set_text(later ? "# a line\n\n" : "");
    text_add_words(text, words);
    text_add_times(text, byte, bytes - strlen(words));
    text_add_words(text, newline ? "\n" : "");
}

static void long_lines(void) {
    for (unsigned k = 0; k < 8; k++) {
        int later = k & 1, newline = k >> 1 & 1;
        size_t over = k & 4 ? 1 : 3000;
        book.size = 0;
        line_of("# ", 'a', TEXT_LONGEST, later, newline);
        expect_book("a comment as long as it may be");
        line_of("# ", 'a', TEXT_LONGEST + over, later, newline);
        expect_wrong("a comment too long", later ? 3 : 1, TEXT_LONGEST + 1, TEXT_SHORTER_LINE);
        line_of("Sheet ", '7', TEXT_LONGEST + over, later, newline);
        expect_wrong("a wrong line that is too long", later ? 3 : 1, TEXT_LONGEST + 1, TEXT_SHORTER_LINE);
        line_of("Sheet ", '7', TEXT_LONGEST, later, newline);
        expect_wrong("a wrong line as long as it may be", later ? 3 : 1, 1, TEXT_CAPITALS);
        line_of("sheet ", '0', TEXT_LONGEST, later, newline);
        expect_wrong("a number as long as it may be", later ? 3 : 1, TEXT_LONGEST + 1, TEXT_MORE);
        add_sheet(2009, 1, 2, 3);
        line_of("sheet 2009 1 2 3", '\r', TEXT_LONGEST, later, newline);
        expect_book("a sheet's line as long as it may be");
        line_of("sheet 2009 1 2 3", ' ', TEXT_LONGEST + over, later, newline);
        expect_wrong("a sheet's line that is too long", later ? 3 : 1, TEXT_LONGEST + 1, TEXT_SHORTER_LINE);
        line_of("sheet 2009 1 2 3\n# ", 'a', TEXT_LONGEST + 17 + over, later, newline);
        expect_wrong("a sheet and a line that is too long", later ? 4 : 2, TEXT_LONGEST + 1, TEXT_SHORTER_LINE);
    }
}

/* ---- texts by chance */

static void make_text_book(void) {
    make_some_book(one_in(40) ? from_to(100, 600) : (unsigned)one_of(1, 2, 2, 3, 3, 4, from_to(1, 12)));
    change_book();
}

static void same_books(unsigned count) {
    for (unsigned k = 0; k < count; k++) {
        make_text_book();
        text_put_book(&page, TEXT_FREE, &book);
        expect_book("a book said freely");
    }
}

/* Some item, word or number between gaps: where it begins and how many bytes it has, 0 where there is none. */
static size_t some_item(size_t *place) {
    for (int attempt = 0; attempt < 20 && text->size; attempt++) {
        size_t first = below(text->size), end = first;
        while (end < text->size && !text_is_gap(text->at[end]) && text->at[end] != '\n') end++;
        while (first > 0 && !text_is_gap(text->at[first - 1]) && text->at[first - 1] != '\n') first--;
        *place = first;
        if (end > first) return end - first;
    }
    *place = 0;
    return 0;
}

/* Some day as MM-DD hh:mm, if there is one. */
static size_t some_day(size_t *place) {
    for (size_t k = 0, from = below(text->size + 1); k < text->size; k++) {
        *place = (from + k) % text->size;
        if (text->size - *place >= TEXT_DAY_WIDTH && text->at[*place + 2] == '-' && text->at[*place + 8] == ':') return TEXT_DAY_WIDTH;
    }
    return 0;
}

/* The line about a place, with its newline. */
static size_t some_line(size_t *place) {
    size_t first = below(text->size + 1), end = first;
    while (first > 0 && text->at[first - 1] != '\n') first--;
    while (end < text->size && text->at[end] != '\n') end++;
    *place = first;
    return end - first + (end < text->size);
}

static unsigned some_byte(void) {
    static const char favoured[] = " \t,;|\r\n\n##--::0019afAFgxS.+'\"";
    return one_in(3) ? (unsigned)one_of(0, 128, 255, below(256), from_to(128, 255)) : (uint8_t)favoured[below(sizeof favoured - 1)];
}

static void another_byte(void) {
    uint8_t byte = (uint8_t)some_byte();
    size_t place = below(text->size + 1), gone = 0;
    switch (below(4)) {
    case 0:
        if (place < text->size) text->at[place] ^= (uint8_t)(1u << below(8));
        return;
    case 1: gone = place < text->size; break;        /* in the place of one */
    case 2: break;                                   /* one more */
    case 3:                                          /* some less */
        gone = (size_t)one_of(1, 1, 1, 2, 5, below(80));
        if (gone > text->size - place) gone = text->size - place;
        text_replace(text, place, gone, NULL, 0);
        return;
    }
    text_replace(text, place, gone, &byte, 1);
}

static void another_item(void) {
    static const char *const items[] = {
        "0", "1", "007", "255", "256", "257", "511", "2008", "65535", "65536", "65537", "525599", "525600", "600001", "10000000", "10000001", "4294967295",
        "4294967296", "4294967297", "9999999999", "18446744073709551615", "18446744073709551616", "18446744073709551623", "99999999999999999999",
        "36893488147419103232", "340282366920938463463374607431768211463", "00000000000000000000000000000000000000012", "-1", "+1", "1.0", "1e3", "0x10",
        "1 000", "1'000", "\xef\xbc\x91", "\"1\"", "x", "-", "--", ":", "1-", "12-", "12-12", "1#", "#", "1#-", "a#-", "0a", "FF", "fF", "0g", "g0", "000",
        "/0", ":0", "@a", "`a", "0`", "sheet", "simple", "stepped", "hex", "Sheet", "SIMPLE", "sheets", "stepped2", "hexa", "shee", "hex:", "sheet#", "hex,00",
        "\nhex 00\n", "\n", "\r\n", "\nword,number,T0\n", "\n\xef\xbb\xbf", "\"sheet\"", "HEX", "sTepped"};
    const char *item = items[below(sizeof items / sizeof *items)];
    size_t place, size = some_item(&place);
    text_replace(text, place, size, item, strlen(item));
}

static void a_larger_number(void) {
    size_t place, size = some_item(&place);
    char number[32];
    for (int attempt = 0; attempt < 10 && size && (text->at[place] < '0' || text->at[place] > '9'); attempt++) size = some_item(&place);
    snprintf(number, sizeof number, "%" PRIu64, one_of(256, 300, 65536, 70000, UINT64_C(4294967296), UINT64_C(5000000000), chance(), chance() >> below(64)));
    if (one_in(4))
        text_replace(text, place + size, 0, "0000000000000000000", from_to(1, 19));
    else
        text_replace(text, place, size, number, strlen(number));
}

static void another_day(void) {
    static const char usual[] = "%02u-%02u %02u:%02u";
    static const char *const forms[] = {
        "%u-%u %u:%u",         "%02u-%02u\t%02u:%02u", "%02u-%02u  %02u:%02u", "%02u-%02u,%02u:%02u", "%02u-%02uT%02u:%02u",    "%02u-%02u\n%02u:%02u",
        "%02u/%02u %02u:%02u", "%02u-%02u %02u.%02u",  "%02u-%02u %02u%02u",   "%02u-%02u %02u:%02u#", "%02u-%02u %02u:%02u:00", "2009-%02u-%02u %02u:%02u",
        "%03u-%02u %02u:%02u", "%02u-%03u %02u:%02u",  "%u.%u.2009 %u:%u",     "%u/%u/2009 %u:%u",    "\"%02u-%02u %02u:%02u\"",
    };
    char day[64];
    size_t place, size = some_day(&place);
    if (!size || one_in(8)) size = some_item(&place);
    unsigned month = (unsigned)one_of(0, 1, 2, 2, 2, 3, 4, 6, 9, 11, 12, 13, from_to(1, 12), below(100));
    unsigned of_month = (unsigned)one_of(0, 1, 28, 29, 29, 30, 31, 32, from_to(1, 28), below(100));
    unsigned hour = (unsigned)one_of(0, 12, 23, 23, 24, below(24), below(100)), minute = (unsigned)one_of(0, 30, 59, 59, 60, below(60), below(100));
    snprintf(day, sizeof day, one_in(3) ? forms[below(sizeof forms / sizeof *forms)] : usual, month, of_month, hour, minute);
    text_replace(text, place, size, day, strlen(day));
}

/* A gap of another form: in a line of cells it has too few separators or too many, or another one. */
static void another_gap(void) {
    static const char *const gaps[] = {",", ";", "\t", " ", "|", ";;", ",,", "\t\t", "; ;", " ;", ", ", ",;", ";\t", "\t,", ";|;", ";;;", " | "};
    const char *gap = gaps[below(sizeof gaps / sizeof *gaps)];
    size_t first, place = some_item(&first), end;
    place += first;
    for (end = place; end < text->size && text_is_gap(text->at[end]); end++) {}
    if (one_in(2)) end = place;                      /* beside what stands there */
    text_replace(text, place, end - place, gap, strlen(gap));
}

/* An item or a line less, or once more. */
static void more_or_less(void) {
    static text_bytes copy;
    size_t place, to, size = one_in(3) ? some_line(&place) : some_item(&place);
    if (one_in(2)) {
        text_replace(text, place, size, NULL, 0);
        return;
    }
    copy.size = 0;
    text_add(&copy, text->at + place, size);
    if (size && copy.at[size - 1] != '\n') text_add_byte(&copy, ' ');
    if (one_in(3))
        some_line(&to);
    else
        to = place;
    text_replace(text, to, 0, copy.at, copy.size);
}

/* The first line goes to the end: most often it is the sheet's. */
static void first_line_last(void) {
    static text_bytes copy;
    size_t size = 0;
    while (size < text->size && text->at[size] != '\n') size++;
    if (size == text->size) return;
    copy.size = 0;
    text_add(&copy, text->at, size + 1);
    text_replace(text, 0, size + 1, NULL, 0);
    text_add(text, copy.at, copy.size);
}

static void change_text(void) {
    switch (below(19)) {
    case 0: case 1: case 2: case 3: another_byte(); break;
    case 4: case 5: case 6: another_item(); break;
    case 7: case 8: a_larger_number(); break;
    case 9: case 10: case 11: another_day(); break;
    case 12: case 13: more_or_less(); break;
    case 14: text->size = below(text->size + 1); break;
    case 15: first_line_last(); break;
    case 16: case 17: case 18: another_gap(); break;
    }
}

static void changed_texts(unsigned count) {
    for (unsigned k = 0; k < count; k++) {
        make_text_book();
        text_put_book(&page, (int)one_of(TEXT_PRINTED, TEXT_LINES, TEXT_LINES, TEXT_LINES, TEXT_FREE, TEXT_FREE), &book);
        for (unsigned changes = (unsigned)one_of(1, 1, 1, 2, 5); changes > 0; changes--) change_text();
        compare_text("a text changed by chance", text);
    }
}

/* ---- what cannot be opened or read */

static void expect_complaint(const char *name, char **command, int input, const char *words) {
    static text_bytes must;
    must.size = 0;
    text_add_words(&must, words);
    finish(start(command, input));
    if (WIFEXITED(run.status) && text_is_same(&must, &run.err) && (command == read_command || run.out.size == 0)) return;
    printf("texts: DIFFERENCE: %s: status %d\n", name, run.status);
    show("standard error must be", &must, 0);
    show("and is", &run.err, 0);
    show("standard output is", &run.out, 0);
    exit(1);
}

static void unreadable(size_t words) {
    char *command[FRONT_WORDS + 3], complaint[256];
    int directory = open("/", O_RDONLY | O_CLOEXEC);
    memcpy(command, write_command, sizeof command);
    command[words] = NULL;
    expect_complaint("no name", command, book_file.number, "book_write: the name of one text is needed: book_write TEXT >BOOK\n");
    for (int k = 0; k < 2; k++) {
        command[words] = k ? "/" : "/no/text";
        snprintf(complaint, sizeof complaint, "book_write: %s cannot be %s\n", command[words], k ? "read" : "opened");
        expect_complaint("a name of no text", command, book_file.number, complaint);
    }
    expect_complaint("a directory", read_command, directory, "book_read: standard input cannot be read\n");
    close(directory);
}

/* ---- all of it */

/* The emulator's words, the program, and the text's name. Answers where the name stands. */
static size_t make_command(char **command, char *program, char *name, char **front) {
    size_t words = 0;
    for (; front[words]; words++) command[words] = front[words];
    command[words++] = program;
    command[words] = name;
    command[words + 1] = NULL;
    return words;
}

static void work(unsigned hand, char **argv) {
    unsigned share = HANDS * (argv[4] ? EMULATED : 1);
    chance_seed = first_seed ^ (uint64_t)hand << 60;
    open_file(&book_file, argv[0], hand, "book");
    open_file(&text_file, argv[0], hand, "text");
    open_file(&out_file, argv[0], hand, "out");
    open_file(&err_file, argv[0], hand, "err");
    make_command(read_command, argv[2], NULL, argv + 4);
    size_t words = make_command(write_command, argv[3], text_file.name, argv + 4);
    switch (hand) {
    case 0:
        short_books();
        sheets();
        every_answer();
        for (unsigned year = 2000; year < 2100; year += 9) every_day(year);
        long_records();
        break;
    case 1: broken_lengths(); break;
    case 2:
        the_documents_texts();
        right_texts();
        wrong_texts();
        full_lines();
        every_byte();
        long_lines();
        unreadable(words);
        break;
    }
    books_by_chance(BOOKS / share);
    same_books(TEXTS / 3 / share);
    changed_texts(TEXTS * 2 / 3 / share);
    memcpy(tally->answers, printed.answers, sizeof tally->answers);
}

static void add_tally(struct tally *sum, const struct tally *more) {
    sum->books += more->books;
    sum->texts += more->texts;
    for (unsigned k = 0; k < TEXT_ANSWERS; k++) sum->answers[k] += more->answers[k];
    for (unsigned k = 0; k < TEXT_MESSAGES; k++) sum->messages[k] += more->messages[k];
}

static int missing(const struct tally *sum) {
    int count = 0;
    for (unsigned k = 0; k < TEXT_ANSWERS; k++)
        if (text_answers[k] && !sum->answers[k]) count++, printf("texts: FAILED: no book has %s", text_answers[k]);
    for (unsigned k = 0; k < TEXT_MESSAGES; k++)
        if (!sum->messages[k]) count++, printf("texts: FAILED: no text is %s%s\n", k ? "one of which this is told: " : "right", k ? text_messages[k] : "");
    return count;
}

int main(int argc, char **argv) {
    if (argc < 4 || argc > 4 + FRONT_WORDS) return 2;
    pid_t hands[HANDS];
    int failed = 0, status;
    struct tally sum = {0}, *tallies = mmap(NULL, HANDS * sizeof *tallies, PROT_READ | PROT_WRITE, MAP_SHARED | MAP_ANONYMOUS, -1, 0);
    if (tallies == MAP_FAILED) give_up("no memory");
    first_seed = strtoull(argv[1], NULL, 10);
    signal(SIGPIPE, SIG_IGN);
    for (unsigned hand = 0; hand < HANDS; hand++) {
        tally = &tallies[hand];
        hands[hand] = fork();
        if (hands[hand] < 0) give_up("no process");
        if (hands[hand] == 0) return work(hand, argv), 0;
    }
    for (unsigned hand = 0; hand < HANDS; hand++) {
        failed |= waitpid(hands[hand], &status, 0) != hands[hand] || status != 0;
        add_tally(&sum, &tallies[hand]);
    }
    if (failed || missing(&sum)) return 1;
    printf("texts: seed %" PRIu64 ", %u books and %u texts as they must be\n", first_seed, sum.books, sum.texts);
    return 0;
}
