/* calls library|plain book|records|desk BOOK: calls of the library through its C boundary, or the same of the plain implementation: a book whole, its records
   one by one, or desk messages under the book's sheet. Both sides make the same checks, soundness of what is lent in every call included. The work is done
   once before it is timed, so that code and input are at hand. Prints for bench/measure.c the nanoseconds of processor time, the number of records or
   messages, and a word made of the ledger and the map, which both sides must come to. */
#define _POSIX_C_SOURCE 200809L
#include <fcntl.h>
#include <inttypes.h>
#include <stdio.h>
#include <stdlib.h>
#include <string.h>
#include <sys/mman.h>
#include <sys/stat.h>
#include <time.h>

#include "../outside/plain.h"
#include "temelyak.h"

enum { OUTAGES = 4000, AT_A_TIME = 16, MOST_STEPS = 16 };

static const uint8_t *book;
static uint8_t messages[OUTAGES * (13 + 7 + 23 * MOST_STEPS)];
static size_t book_bytes, messages_bytes, records, message_count;

static temelyak_ledger ledger;
static temelyak_slot desk[TEMELYAK_SLOTS];
static uint8_t map[TEMELYAK_MAP_BYTES];

static plain_ledger other_ledger;
static plain_slot other_desk[PLAIN_SLOTS];
static uint8_t other_map[PLAIN_MAP_BYTES];

static uint64_t answers;          /* all answers added up, so that none is left out */

/* ---- input */

static uint64_t seed = 20091117;

static uint32_t below(uint32_t n) {
    seed = seed * UINT64_C(6364136223846793005) + UINT64_C(1442695040888963407);
    return (uint32_t)((seed >> 33) % n);
}

static void put(uint32_t number, int bytes) {
    for (; bytes > 0; bytes--, number >>= 8) messages[messages_bytes++] = (uint8_t)number;
}

static size_t length_at(const uint8_t *at) { return at[0] + 256u * at[1]; }

struct outage {
    unsigned number, level, steps, taken;
    uint32_t time;
};

static void put_open(struct outage *outage, unsigned number) {
    static const uint8_t types[] = {11, 12, 13, 14, 15, 16, 2};
    unsigned voltage = 1 + below(7);
    struct outage fresh = {number, voltage == 1 ? 0 : voltage == 7 ? 2 : 1, 1 + below(MOST_STEPS), 0, below(500000)};
    *outage = fresh;
    put(13, 2);
    put(16, 2);
    put(number, 2);
    put(types[below(sizeof types)], 1);
    put(voltage, 1);
    put(24, 1);
    put(outage->time, 4);
}

static void put_step(struct outage *outage) {
    outage->time += below(60);
    outage->taken++;
    put(23, 2);
    put(17, 2);
    put(outage->number, 2);
    put(outage->taken, 1);
    put(outage->time, 4);
    put(below(450001), 4);
    put(outage->level >= 1 ? below(1001) : 0, 4);
    put(outage->level >= 2 ? below(21) : 0, 4);
}

static void put_close(const struct outage *outage) {
    put(7, 2);
    put(18, 2);
    put(outage->number, 2);
    put(outage->steps, 1);
}

/* Outages that take turns: each message belongs to one of those that are open. */
static void make_messages(void) {
    static struct outage open[AT_A_TIME];
    for (unsigned number = 1, closed = 0; closed < OUTAGES; message_count++) {
        struct outage *outage = &open[below(AT_A_TIME)];
        if (outage->number == 0) {
            if (number > OUTAGES) {
                message_count--;
                continue;
            }
            put_open(outage, number++);
        } else if (outage->taken < outage->steps) {
            put_step(outage);
        } else {
            put_close(outage);
            outage->number = 0;
            closed++;
        }
    }
}

/* The file lies in memory once for all who map it, so that all sides read the same bytes at the same places. */
static void find_book(const char *name) {
    struct stat found;
    int file = open(name, O_RDONLY);
    if (file < 0 || fstat(file, &found)) exit(2);
    book_bytes = (size_t)found.st_size;
    book = mmap(NULL, book_bytes, PROT_READ, MAP_SHARED, file, 0);
    if (book == MAP_FAILED) exit(2);
    for (size_t at = 0; at < book_bytes; at += length_at(book + at)) records++;
}

/* ---- the two sides */

static void begin_library(void) {
    memset(map, 0, sizeof map);
    memset(desk, 0, sizeof desk);
    answers += temelyak_empty(TEMELYAK_HEADER, temelyak_words(&ledger), TEMELYAK_LEDGER_WORDS);
}

static void begin_plain(void) {
    memset(other_map, 0, sizeof other_map);
    memset(other_desk, 0, sizeof other_desk);
    memset(&other_ledger, 0, sizeof other_ledger);
}

static void library_book(void) {
    temelyak_read outcome;
    answers += temelyak_take_book(TEMELYAK_HEADER, temelyak_words(&ledger), TEMELYAK_LEDGER_WORDS, map, sizeof map, book, book_bytes,
                                  temelyak_words(&outcome), 2);
    answers += outcome.refused;
}

static void plain_book(void) {
    plain_read outcome;
    answers += plain_take_book(&other_ledger, other_map, sizeof other_map, book, book_bytes, &outcome);
    answers += outcome.refused;
}

static void library_records(void) {
    for (size_t at = 0, length; at < book_bytes; at += length) {
        length = length_at(book + at);
        answers += temelyak_take(TEMELYAK_HEADER, temelyak_words(&ledger), TEMELYAK_LEDGER_WORDS, map, sizeof map, book + at, length);
    }
}

static void plain_records(void) {
    for (size_t at = 0, length; at < book_bytes; at += length) {
        length = length_at(book + at);
        answers += plain_take(&other_ledger, other_map, sizeof other_map, book + at, length);
    }
}

static void library_messages(void) {
    answers += temelyak_take(TEMELYAK_HEADER, temelyak_words(&ledger), TEMELYAK_LEDGER_WORDS, map, sizeof map, book, length_at(book));
    for (size_t at = 0, length; at < messages_bytes; at += length) {
        length = length_at(messages + at);
        answers += temelyak_serve(TEMELYAK_HEADER, temelyak_words(&ledger), TEMELYAK_LEDGER_WORDS, map, sizeof map, desk, TEMELYAK_SLOTS, messages + at,
                                  length);
    }
}

static void plain_messages(void) {
    answers += plain_take(&other_ledger, other_map, sizeof other_map, book, length_at(book));
    for (size_t at = 0, length; at < messages_bytes; at += length) {
        length = length_at(messages + at);
        answers += plain_serve(&other_ledger, other_map, sizeof other_map, other_desk, PLAIN_SLOTS, messages + at, length);
    }
}

/* ---- what a side came to */

static uint64_t mixed = UINT64_C(14695981039346656037);

static void mix(uint64_t number) { mixed = (mixed ^ number) * UINT64_C(1099511628211); }

static void mix_map(const uint8_t *bytes) {
    for (size_t k = 0; k < PLAIN_MAP_BYTES; k++) mix(bytes[k]);
}

static void mix_library(void) {
    mix(ledger.year);
    mix(ledger.events);
    mix(ledger.short_events);
    for (unsigned row = 0; row < PLAIN_TYPES; row++)
        for (unsigned level = 0; level < PLAIN_LEVELS; level++) {
            mix(ledger.cells[row][level].customers);
            mix(ledger.cells[row][level].half_minutes);
        }
    mix_map(map);
}

static void mix_plain(void) {
    mix(other_ledger.year);
    mix(other_ledger.events);
    mix(other_ledger.shorts);
    for (unsigned row = 0; row < PLAIN_TYPES; row++)
        for (unsigned level = 0; level < PLAIN_LEVELS; level++) {
            mix(other_ledger.customers[row][level]);
            mix(other_ledger.half_minutes[row][level]);
        }
    mix_map(other_map);
}

/* ---- measuring */

static const struct side {
    const char *name;
    void (*begin)(void), (*mix)(void), (*book)(void), (*records)(void), (*messages)(void);
} sides[] = {{"library", begin_library, mix_library, library_book, library_records, library_messages},
             {"plain", begin_plain, mix_plain, plain_book, plain_records, plain_messages}};

static double nanoseconds_of(void (*work)(void)) {
    struct timespec from, to;
    clock_gettime(CLOCK_PROCESS_CPUTIME_ID, &from);
    work();
    clock_gettime(CLOCK_PROCESS_CPUTIME_ID, &to);
    return (double)(to.tv_sec - from.tv_sec) * 1e9 + (double)(to.tv_nsec - from.tv_nsec);
}

int main(int argc, char **argv) {
    if (argc != 4) return 2;
    const struct side *side = strcmp(argv[1], "library") == 0 ? &sides[0] : strcmp(argv[1], "plain") == 0 ? &sides[1] : NULL;
    if (!side) return 2;
    void (*work)(void) = strcmp(argv[2], "book") == 0 ? side->book : strcmp(argv[2], "records") == 0 ? side->records : side->messages;
    find_book(argv[3]);
    make_messages();
    side->begin();
    work();
    side->begin();
    double nanoseconds = nanoseconds_of(work);
    if (answers) {
        fprintf(stderr, "calls %s %s: something was refused\n", argv[1], argv[2]);
        return 1;
    }
    side->mix();
    printf("%.0f %zu %016" PRIx64 "\n", nanoseconds, work == side->messages ? message_count : records, mixed);
    return 0;
}
