/* The library and the plain implementation on the same input: see both.h. */
#define _DEFAULT_SOURCE
#define _POSIX_C_SOURCE 200809L
#include "both.h"

#include <inttypes.h>
#include <signal.h>
#include <stdio.h>
#include <stdlib.h>
#include <string.h>
#include <sys/mman.h>
#include <sys/wait.h>
#include <unistd.h>

#include "chance.h"

enum { AROUND = 64, ROOM = 1 << 23, SPARE_SLOTS = 8, OUT_WORDS = 2, MOST_TRIES = 40000, LONG_TEXT = 4000 };

make_world both;
uint64_t both_out[OUT_WORDS], both_answers[256], both_calls[CALLS];
uint64_t chance_seed;

/* What the library is lent: as the caller of temelyak.h has it. */
typedef struct lent {
    uint64_t ledger[TEMELYAK_LEDGER_WORDS];
    uint8_t map[TEMELYAK_MAP_BYTES];
    temelyak_slot desk[TEMELYAK_SLOTS];
} lent;

/* The lent memory, with bytes around each part that nobody may touch. More than the right length can be lent of each. */
static struct {
    uint8_t a[AROUND];
    uint64_t ledger[TEMELYAK_LEDGER_WORDS];
    uint8_t b[AROUND];
    uint8_t map[TEMELYAK_MAP_BYTES];
    uint8_t c[AROUND];
    temelyak_slot desk[TEMELYAK_SLOTS];
    uint8_t d[SPARE_SLOTS * sizeof(temelyak_slot)];
    uint64_t out[OUT_WORDS];
    uint8_t e[AROUND];
} memory;

static uint8_t around[SPARE_SLOTS * sizeof(temelyak_slot)];
static lent kept;                 /* as lent before the call */
static uint8_t *room;             /* records are laid here: before a page that cannot be read, or with bytes around them */
static const char *program_name = "compare";
static both_one current;
static uint64_t first_seed;
static int again;                 /* a printed case is run again */
static int stray;                 /* slots are lent with stray bytes where they have no field */

/* ---- between the two forms */

static void ledger_from_words(plain_ledger *ledger, const uint64_t words[TEMELYAK_LEDGER_WORDS]) {
    temelyak_ledger as_lent;
    memcpy(&as_lent, words, sizeof as_lent);
    ledger->sheet = as_lent.has_sheet;
    ledger->year = as_lent.year;
    memcpy(ledger->totals, as_lent.totals, sizeof ledger->totals);
    ledger->events = as_lent.events;
    ledger->shorts = as_lent.short_events;
    for (int row = 0; row < PLAIN_TYPES; row++)
        for (int level = 0; level < PLAIN_LEVELS; level++) {
            ledger->customers[row][level] = as_lent.cells[row][level].customers;
            ledger->half_minutes[row][level] = as_lent.cells[row][level].half_minutes;
        }
}

static void words_from_ledger(uint64_t words[TEMELYAK_LEDGER_WORDS], const plain_ledger *ledger) {
    temelyak_ledger as_lent;
    as_lent.has_sheet = ledger->sheet;
    as_lent.year = ledger->year;
    memcpy(as_lent.totals, ledger->totals, sizeof ledger->totals);
    as_lent.events = ledger->events;
    as_lent.short_events = ledger->shorts;
    for (int row = 0; row < PLAIN_TYPES; row++)
        for (int level = 0; level < PLAIN_LEVELS; level++) {
            as_lent.cells[row][level].customers = ledger->customers[row][level];
            as_lent.cells[row][level].half_minutes = ledger->half_minutes[row][level];
        }
    memcpy(words, &as_lent, sizeof as_lent);
}

static void slot_to_plain(plain_slot *to, const temelyak_slot *from) {
    memset(to, 0, sizeof *to);
    to->number = from->number;
    to->type = from->type;
    to->voltage = from->voltage;
    to->cause = from->cause;
    to->steps = from->steps;
    to->t0 = from->t0;
    to->last = from->last;
    memcpy(to->customers, from->customers, sizeof to->customers);
    memcpy(to->half_minutes, from->half_minutes, sizeof to->half_minutes);
}

static void slot_from_plain(temelyak_slot *to, const plain_slot *from) {
    memset(to, 0, sizeof *to);
    to->number = from->number;
    to->type = from->type;
    to->voltage = from->voltage;
    to->cause = from->cause;
    to->steps = from->steps;
    to->t0 = from->t0;
    to->last = from->last;
    memcpy(to->customers, from->customers, sizeof to->customers);
    memcpy(to->half_minutes, from->half_minutes, sizeof to->half_minutes);
}

static int slots_same(const temelyak_slot *a, const plain_slot *b) {
    return a->number == b->number && a->type == b->type && a->voltage == b->voltage && a->cause == b->cause && a->steps == b->steps && a->t0 == b->t0
        && a->last == b->last && !memcmp(a->customers, b->customers, sizeof a->customers)
        && !memcmp(a->half_minutes, b->half_minutes, sizeof a->half_minutes);
}

/* ---- lending */

static void lend_kept(void) {
    memcpy(memory.ledger, kept.ledger, sizeof memory.ledger);
    memcpy(memory.map, kept.map, sizeof memory.map);
    memcpy(memory.desk, kept.desk, sizeof memory.desk);
    ledger_from_words(&both.ledger, kept.ledger);
    memcpy(both.map, kept.map, sizeof both.map);
    for (unsigned i = 0; i < TEMELYAK_SLOTS; i++) slot_to_plain(&both.desk[i], &kept.desk[i]);
}

static void keep(const make_world *world) {
    words_from_ledger(kept.ledger, &world->ledger);
    memcpy(kept.map, world->map, sizeof kept.map);
    for (unsigned i = 0; i < TEMELYAK_SLOTS; i++) slot_from_plain(&kept.desk[i], &world->desk[i]);
}

void both_lend(const make_world *world) {
    stray = 0;
    keep(world);
    lend_kept();
}

void both_lend_stray(const make_world *world) {
    keep(world);
    stray = 1;
    for (unsigned i = 0; i < TEMELYAK_SLOTS; i++) {
        temelyak_slot *slot = &kept.desk[i], was = *slot;
        memset(slot, 0xee, sizeof *slot);
        slot->number = was.number;
        slot->type = was.type;
        slot->voltage = was.voltage;
        slot->cause = was.cause;
        slot->steps = was.steps;
        slot->t0 = was.t0;
        slot->last = was.last;
        memcpy(slot->customers, was.customers, sizeof was.customers);
        memcpy(slot->half_minutes, was.half_minutes, sizeof was.half_minutes);
    }
    lend_kept();
}

static void lay_around(void) {
    memcpy(memory.a, around, sizeof memory.a);
    memcpy(memory.b, around, sizeof memory.b);
    memcpy(memory.c, around, sizeof memory.c);
    memcpy(memory.d, around, sizeof memory.d);
    memcpy(memory.e, around, sizeof memory.e);
}

static int untouched(void) {
    return !memcmp(memory.a, around, sizeof memory.a) && !memcmp(memory.b, around, sizeof memory.b) && !memcmp(memory.c, around, sizeof memory.c)
        && !memcmp(memory.d, around, sizeof memory.d) && !memcmp(memory.e, around, sizeof memory.e);
}

/* Where the bytes are laid: every other time they end where no page can be read, else bytes stand behind them too. */
static uint8_t *lay(const uint8_t *bytes, size_t size, size_t *behind) {
    static unsigned turn;
    *behind = turn++ % 2 ? AROUND : 0;
    uint8_t *at = room + ROOM - *behind - size;
    memcpy(at - AROUND, around, AROUND);
    if (size) memcpy(at, bytes, size);
    memcpy(at + size, around, *behind);
    return at;
}

/* ---- the two sides */

/* Seven words before the cells, and two for each cell. */
enum { LEDGER_WORDS = 7 + 2 * PLAIN_TYPES * PLAIN_LEVELS };

static unsigned plain_side(const both_one *one) {
    int codes = one->what == CALL_INDEX || one->what == CALL_DECIMAL, writes = codes || one->what == CALL_BOOK;
    if (codes && (one->index < 1 || one->index > 3 || one->level < 1 || one->level > 4 || one->set > 2)) return 255;
    if (one->header != (UINT64_C(2) << 32) + (LEDGER_WORDS << 16) + 72) return 254;
    if (writes ? one->out_words != 2 : one->what == CALL_EMPTY && one->words != LEDGER_WORDS) return 251;
    if (one->words != LEDGER_WORDS) return 1;
    int index = (int)one->index - 1, level = (int)one->level - 1, set = one->set == 1 ? PLAIN_ALL : PLAIN_STD;
    plain_fraction fraction;
    plain_decimal decimal;
    plain_read read;
    unsigned answer = 0;
    switch (one->what) {
    case CALL_EMPTY: memset(&both.ledger, 0, sizeof both.ledger); break;
    case CALL_TAKE: answer = plain_take(&both.ledger, both.map, one->map_bytes, one->bytes, one->size); break;
    case CALL_SERVE: answer = plain_serve(&both.ledger, both.map, one->map_bytes, both.desk, one->slots, one->bytes, one->size); break;
    case CALL_BOOK:
        answer = plain_take_book(&both.ledger, both.map, one->map_bytes, one->bytes, one->size, &read);
        if (!answer) both_out[0] = read.refused, both_out[1] = read.broken;
        break;
    case CALL_INDEX:
        answer = plain_index(&both.ledger, index, level, set, &fraction);
        if (!answer) both_out[0] = fraction.top, both_out[1] = fraction.bottom;
        break;
    case CALL_DECIMAL:
        answer = plain_index_decimal(&both.ledger, index, level, set, one->digits, &decimal);
        if (!answer) both_out[0] = decimal.whole, both_out[1] = decimal.digits;
        break;
    }
    return answer;
}

static unsigned library_side(const both_one *one, const uint8_t *bytes) {
    switch (one->what) {
    case CALL_EMPTY: return temelyak_empty(one->header, memory.ledger, one->words);
    case CALL_TAKE: return temelyak_take(one->header, memory.ledger, one->words, memory.map, one->map_bytes, bytes, one->size);
    case CALL_SERVE:
        return temelyak_serve(one->header, memory.ledger, one->words, memory.map, one->map_bytes, memory.desk, one->slots, bytes, one->size);
    case CALL_BOOK:
        return temelyak_take_book(one->header, memory.ledger, one->words, memory.map, one->map_bytes, bytes, one->size, memory.out, one->out_words);
    case CALL_INDEX: return temelyak_index(one->header, memory.ledger, one->words, one->index, one->level, one->set, memory.out, one->out_words);
    default:
        return temelyak_decimal(one->header, memory.ledger, one->words, one->index, one->level, one->set, one->digits, memory.out, one->out_words);
    }
}

static const uint64_t out_as_lent[OUT_WORDS] = {UINT64_C(0x5aa5f00f12345678), UINT64_C(0xfedcba9876543210)};

/* What differs after a refusal: nothing may have changed. */
static const char *changed_by_refusal(void) {
    if (memcmp(memory.ledger, kept.ledger, sizeof memory.ledger)) return "a refusal changed the ledger";
    if (memcmp(memory.map, kept.map, sizeof memory.map)) return "a refusal changed the map";
    if (memcmp(memory.desk, kept.desk, sizeof memory.desk)) return "a refusal changed the desk";
    if (memcmp(memory.out, out_as_lent, sizeof memory.out)) return "a refusal changed the output";
    return NULL;
}

/* What differs after an accepted call. */
static const char *not_the_same(const both_one *one) {
    uint64_t words[TEMELYAK_LEDGER_WORDS];
    words_from_ledger(words, &both.ledger);
    if (memcmp(memory.ledger, words, sizeof words)) return "the ledgers differ";
    if (memcmp(memory.map, both.map, sizeof memory.map)) return "the maps differ";
    for (unsigned i = 0; i < TEMELYAK_SLOTS; i++)
        if (!slots_same(&memory.desk[i], &both.desk[i])) return "the desks differ";
    int writes = one->what == CALL_INDEX || one->what == CALL_DECIMAL || one->what == CALL_BOOK;
    if (memcmp(memory.out, writes ? both_out : out_as_lent, sizeof memory.out)) return "the outputs differ";
    return NULL;
}

struct outcome {
    unsigned library, plain;
    const char *difference;
};

static struct outcome run(const both_one *one) {
    struct outcome outcome = {0, 0, NULL};
    size_t behind;
    uint8_t *bytes = lay(one->bytes, one->size, &behind);
    memcpy(memory.out, out_as_lent, sizeof memory.out);
    outcome.library = library_side(one, bytes);
    outcome.plain = plain_side(one);
    if (outcome.library != outcome.plain)
        outcome.difference = "the answers differ";
    else if (!untouched() || memcmp(bytes - AROUND, around, AROUND) || memcmp(bytes + one->size, around, behind))
        outcome.difference = "bytes around the lent memory changed";
    else if (one->size && memcmp(bytes, one->bytes, one->size))
        outcome.difference = "the record changed";
    else
        outcome.difference = outcome.plain ? changed_by_refusal() : not_the_same(one);
    return outcome;
}

/* ---- a case as text */

static const char *const call_names[CALLS] = {"empty", "take", "book", "serve", "index", "decimal"};

static void print_slot(FILE *to, unsigned i, const temelyak_slot *slot) {
    fprintf(to, "%u:%u,%u,%u,%u,%" PRIu32 ",%" PRIu32 ",%u", i, slot->number, slot->type, slot->voltage, slot->cause, slot->t0, slot->last, slot->steps);
    for (unsigned k = 0; k < TEMELYAK_LEVELS; k++) fprintf(to, ",%" PRIu64, slot->customers[k]);
    for (unsigned k = 0; k < TEMELYAK_LEVELS; k++) fprintf(to, ",%" PRIu64, slot->half_minutes[k]);
    fprintf(to, ";");
}

static void print_case(FILE *to, const both_one *one) {
    fprintf(to, "call=%s header=%" PRIx64 " words=%zu map_bytes=%zu slots=%zu out=%zu index=%" PRIu32 " level=%" PRIu32 " set=%" PRIu32 " digits=%" PRIu32,
            call_names[one->what], one->header, one->words, one->map_bytes, one->slots, one->out_words, one->index, one->level, one->set, one->digits);
    fprintf(to, " stray=%d ledger=", stray);
    for (unsigned k = 0; k < TEMELYAK_LEDGER_WORDS; k++)
        if (kept.ledger[k]) fprintf(to, "%u:%" PRIx64 ";", k, kept.ledger[k]);
    fprintf(to, " map=");
    for (unsigned k = 0; k < TEMELYAK_MAP_BYTES; k++)
        if (kept.map[k]) fprintf(to, "%u:%x;", k, kept.map[k]);
    fprintf(to, " desk=");
    for (unsigned i = 0; i < TEMELYAK_SLOTS; i++) {
        plain_slot slot, zeros = {0};
        slot_to_plain(&slot, &kept.desk[i]);
        if (memcmp(&slot, &zeros, sizeof slot)) print_slot(to, i, &kept.desk[i]);
    }
    fprintf(to, " bytes=");
    for (size_t k = 0; k < one->size; k++) fprintf(to, "%02x", one->bytes[k]);
}

/* Where the value of a field of the text begins. */
static const char *field(const char *text, const char *name) {
    size_t length = strlen(name);
    for (const char *at = text; (at = strstr(at, name)) != NULL; at++)
        if ((at == text || at[-1] == ' ') && at[length] == '=') return at + length + 1;
    fprintf(stderr, "a case without %s\n", name);
    exit(2);
}

static uint64_t number_in(const char *text, const char *name, int base) { return strtoull(field(text, name), NULL, base); }

static const char *parse_pair(const char *at, unsigned long *place, uint64_t *value) {
    char *end;
    *place = strtoul(at, &end, 10);
    *value = strtoull(end + 1, &end, 16);
    return end + 1;
}

static const char *parse_slot(const char *at, make_world *world) {
    char *end;
    unsigned long i = strtoul(at, &end, 10) % PLAIN_SLOTS;
    uint64_t numbers[13];
    for (int k = 0; k < 13; k++) numbers[k] = strtoull(end + 1, &end, 10);
    plain_slot slot = {.number = (uint16_t)numbers[0], .type = (uint8_t)numbers[1], .voltage = (uint8_t)numbers[2], .cause = (uint8_t)numbers[3],
                       .steps = (uint8_t)numbers[6], .t0 = (uint32_t)numbers[4], .last = (uint32_t)numbers[5]};
    memcpy(slot.customers, numbers + 7, sizeof slot.customers);
    memcpy(slot.half_minutes, numbers + 10, sizeof slot.half_minutes);
    world->desk[i] = slot;
    return end + 1;
}

static int more(const char *at) { return *at != ' ' && *at != '\0'; }

static void parse_lent(const char *text, make_world *world) {
    uint64_t words[TEMELYAK_LEDGER_WORDS] = {0}, value;
    unsigned long place;
    for (const char *at = field(text, "ledger"); more(at);) {
        at = parse_pair(at, &place, &value);
        words[place % TEMELYAK_LEDGER_WORDS] = value;
    }
    for (const char *at = field(text, "map"); more(at);) {
        at = parse_pair(at, &place, &value);
        world->map[place % TEMELYAK_MAP_BYTES] = (uint8_t)value;
    }
    for (const char *at = field(text, "desk"); more(at);) at = parse_slot(at, world);
    ledger_from_words(&world->ledger, words);
}

static void parse_call(const char *text, both_one *one, uint8_t *bytes) {
    while (one->what < CALLS - 1 && strncmp(field(text, "call"), call_names[one->what], strlen(call_names[one->what]))) one->what++;
    one->header = number_in(text, "header", 16);
    one->words = number_in(text, "words", 10);
    one->map_bytes = number_in(text, "map_bytes", 10);
    one->slots = number_in(text, "slots", 10);
    one->out_words = number_in(text, "out", 10);
    one->index = (uint32_t)number_in(text, "index", 10);
    one->level = (uint32_t)number_in(text, "level", 10);
    one->set = (uint32_t)number_in(text, "set", 10);
    one->digits = (uint32_t)number_in(text, "digits", 10);
    for (const char *at = field(text, "bytes"); more(at) && at[1] && one->size < ROOM / 2; at += 2) {
        const char digits[3] = {at[0], at[1], 0};
        bytes[one->size++] = (uint8_t)strtoul(digits, NULL, 16);
    }
    one->bytes = bytes;
}

int both_case(const char *text) {
    static uint8_t bytes[ROOM];
    static make_world world;
    both_one one = both_right(CALL_EMPTY);
    parse_call(text, &one, bytes);
    parse_lent(text, &world);
    if (number_in(text, "stray", 10))
        both_lend_stray(&world);
    else
        both_lend(&world);
    again = 1;
    struct outcome outcome = run(&one);
    printf("library %u, plain %u: %s\n", outcome.library, outcome.plain, outcome.difference ? outcome.difference : "the same");
    return outcome.difference != NULL;
}

/* ---- making a difference small */

static unsigned tries;
static int by_children;           /* each try in a process of its own, which the library may end */

static int differs_in_child(const both_one *one) {
    fflush(stdout);
    pid_t child = fork();
    if (child == 0) {
        for (int k = 1; k < 32; k++) signal(k, SIG_DFL);
        alarm(2);
        lend_kept();
        _exit(run(one).difference != NULL);
    }
    int status = 0;
    waitpid(child, &status, 0);
    return status != 0;
}

static int still_differs(const both_one *one) {
    if (++tries > MOST_TRIES) return 0;
    if (by_children) return differs_in_child(one);
    lend_kept();
    int differs = run(one).difference != NULL;
    lay_around();
    return differs;
}

/* Zeros in the place of these bytes, where the difference stays. */
static void try_zeros(const both_one *one, void *at, size_t size) {
    static uint8_t was[sizeof(lent)];
    uint8_t any = 0;
    for (size_t k = 0; k < size; k++) any |= ((uint8_t *)at)[k];
    if (!any) return;
    memcpy(was, at, size);
    memset(at, 0, size);
    if (!still_differs(one)) memcpy(at, was, size);
}

static void make_small(both_one *one, uint8_t *bytes) {
    for (size_t size = TEMELYAK_MAP_BYTES; size > 0; size /= 8)
        for (size_t k = 0; k + size <= TEMELYAK_MAP_BYTES; k += size) try_zeros(one, kept.map + k, size);
    for (unsigned i = 0; i < TEMELYAK_SLOTS; i++) try_zeros(one, &kept.desk[i], sizeof kept.desk[i]);
    for (unsigned k = 0; k < TEMELYAK_LEDGER_WORDS; k++) try_zeros(one, &kept.ledger[k], sizeof kept.ledger[k]);
    for (size_t piece = one->size / 2; one->what == CALL_BOOK && piece > 0; piece /= 2)      /* a shorter book */
        for (size_t k = 0; k + piece <= one->size;) {
            static uint8_t was[ROOM];
            size_t size = one->size;
            memcpy(was, bytes, size);
            memmove(bytes + k, bytes + k + piece, size - k - piece);
            one->size -= piece;
            if (still_differs(one)) continue;
            one->size = size;
            memcpy(bytes, was, size);
            k += piece;
        }
    for (size_t k = 4; k < one->size; k++) try_zeros(one, bytes + k, 1);
}

/* A long text goes to a file beside the program. */
static void print_again(const both_one *one) {
    static char text[3 * ROOM];
    FILE *whole = fmemopen(text, sizeof text, "w");
    if (!whole) return;
    print_case(whole, one);
    fclose(whole);
    if (strlen(text) < LONG_TEXT) {
        printf("run it again: .ci/x86-64 %s case '%s'\n", program_name, text);
        return;
    }
    char name[4096];
    snprintf(name, sizeof name, "%s.case", program_name);
    FILE *file = fopen(name, "w");
    if (!file || fputs(text, file) < 0 || fclose(file)) return;
    printf("run it again: .ci/x86-64 %s case \"$(cat %s)\"\n", program_name, name);
}

static void print_small(const both_one *one) {
    static uint8_t bytes[ROOM];
    both_one small = *one;
    if (one->size) memcpy(bytes, one->bytes, one->size);
    small.bytes = bytes;
    make_small(&small, bytes);
    print_again(&small);
}

static void fail(const both_one *one, struct outcome outcome) {
    printf("\nDIFFERENCE: %s (library %u, plain %u), seed %" PRIu64 "\n", outcome.difference, outcome.library, outcome.plain, first_seed);
    print_small(one);
    exit(1);
}

/* The library ended the program; or it does not end, and the program is told to. */
static void on_signal(int number) {
    printf("\nDIFFERENCE: signal %d during a call, seed %" PRIu64 "\n", number, first_seed);
    by_children = 1;
    tries = MOST_TRIES - (number == SIGTERM ? 5 : 3000);
    if (!again) print_small(&current);
    fflush(stdout);
    _exit(1);
}

/* ---- calls */

void both_begin(const char *program, uint64_t seed) {
    static const int signals[] = {SIGSEGV, SIGBUS, SIGILL, SIGFPE, SIGABRT, SIGTERM};
    program_name = program;
    chance_seed = first_seed = seed;
    for (size_t k = 0; k < sizeof around; k++) around[k] = (uint8_t)(165 + 29 * k);
    lay_around();
    size_t page = (size_t)sysconf(_SC_PAGESIZE);
    if (page < 65536) page = 65536;
    room = mmap(NULL, ROOM + page, PROT_READ | PROT_WRITE, MAP_PRIVATE | MAP_ANONYMOUS, -1, 0);
    if (room == MAP_FAILED || mprotect(room + ROOM, page, PROT_NONE)) {
        fprintf(stderr, "no memory for records\n");
        exit(2);
    }
    for (size_t k = 0; k < sizeof signals / sizeof *signals; k++) signal(signals[k], on_signal);
}

both_one both_right(int what) {
    both_one one = {.what = what, .header = TEMELYAK_HEADER, .words = TEMELYAK_LEDGER_WORDS, .map_bytes = TEMELYAK_MAP_BYTES, .slots = TEMELYAK_SLOTS,
                    .out_words = OUT_WORDS, .index = 1, .level = 1, .set = 1};
    return one;
}

unsigned both_call(const both_one *one) {
    current = *one;
    struct outcome outcome = run(one);
    if (outcome.difference) fail(one, outcome);
    both_answers[outcome.plain & 255]++;
    both_calls[one->what]++;
    if (!outcome.plain && one->what != CALL_INDEX && one->what != CALL_DECIMAL) {
        memcpy(kept.ledger, memory.ledger, sizeof kept.ledger);
        if (one->what != CALL_EMPTY) memcpy(kept.map, memory.map, sizeof kept.map);
        if (one->what == CALL_SERVE) memcpy(kept.desk, memory.desk, sizeof kept.desk);
    }
    return outcome.plain;
}

unsigned both_take(const uint8_t *record, size_t bytes) {
    both_one one = both_right(CALL_TAKE);
    one.bytes = record;
    one.size = bytes;
    return both_call(&one);
}

unsigned both_serve(const uint8_t *message, size_t bytes) {
    both_one one = both_right(CALL_SERVE);
    one.bytes = message;
    one.size = bytes;
    return both_call(&one);
}

unsigned both_book(const uint8_t *book, size_t bytes) {
    both_one one = both_right(CALL_BOOK);
    one.bytes = book;
    one.size = bytes;
    return both_call(&one);
}

unsigned both_index(uint32_t index, uint32_t level, uint32_t set) {
    both_one one = both_right(CALL_INDEX);
    one.index = index;
    one.level = level;
    one.set = set;
    return both_call(&one);
}

unsigned both_decimal(uint32_t index, uint32_t level, uint32_t set, uint32_t digits) {
    both_one one = both_right(CALL_DECIMAL);
    one.index = index;
    one.level = level;
    one.set = set;
    one.digits = digits;
    return both_call(&one);
}

void both_expect(const char *name, uint64_t is, uint64_t must) {
    if (is == must) return;
    printf("\nDIFFERENCE: %s: %" PRIu64 ", and not %" PRIu64 "; seed %" PRIu64 "\n", name, is, must, first_seed);
    exit(1);
}
