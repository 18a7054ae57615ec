/* Sizes, offsets and constants of temelyak.h against the library's own: what it says it was built with, a slot and a ledger that it wrote, read
   field by field, and figures asked for by code. Compiled as C and as C++. With PACKED it is a caller for whom structs lie otherwise, under #pragma pack(1):
   temelyak.h does not compile there, and without its asserts (outside/run takes them out) every call answers 254 and leaves what was lent. With OLDER it is a
   caller of the version before, with this one's sizes: the same. */
#include <inttypes.h>
#include <stdio.h>
#include <stdlib.h>
#include <string.h>

#ifdef PACKED
#pragma pack(1)
#endif
#include "temelyak.h"
#ifdef PACKED
#pragma pack()
#endif

#ifdef OLDER
enum { OLDER_VERSION = TEMELYAK_VERSION - 1u };
#undef TEMELYAK_VERSION
#define TEMELYAK_VERSION OLDER_VERSION
#endif

static unsigned facts;

static void same(const char *name, uint64_t is, uint64_t must) {
    facts++;
    if (is == must) return;
    printf("layout: %s is %" PRIu64 ", and must be %" PRIu64 "\n", name, is, must);
    exit(1);
}

#if defined PACKED || defined OLDER

/* What is lent to a call, with room behind the desk for slots of the library's size. */
static struct lent {
    temelyak_ledger ledger;
    uint64_t out[2];
    uint8_t map[TEMELYAK_MAP_BYTES];
    temelyak_slot desk[TEMELYAK_SLOTS];
    uint8_t behind[TEMELYAK_SLOTS * TEMELYAK_SLOT_BYTES];
} lent, before;

static void refused(const char *name, uint32_t answer) {
    same(name, answer, TEMELYAK_REFUSED_HEADER);
    same("what was lent is changed", memcmp(&lent, &before, sizeof lent) != 0, 0);
}

/* A sheet, and the opening of an outage, both of which a library would take that did not look at sizes. */
static const uint8_t sheet_record[18] = {18, 0, 1, 0, 0xd9, 7, 100, 0, 0, 0, 10, 0, 0, 0, 1, 0, 0, 0};
static const uint8_t open_message[13] = {13, 0, 16, 0, 1, 0, 11, 7, 0, 0, 0, 0, 0};

int main(void) {
    uint64_t *words = temelyak_words(&lent.ledger);
    uint64_t *out = temelyak_words(&lent.out);
#ifdef PACKED
    same("bytes of a slot under #pragma pack(1)", sizeof(temelyak_slot), 62);
#endif
    refused("empty", temelyak_empty(TEMELYAK_HEADER, words, TEMELYAK_LEDGER_WORDS));
    refused("take", temelyak_take(TEMELYAK_HEADER, words, TEMELYAK_LEDGER_WORDS, lent.map, sizeof lent.map, sheet_record, sizeof sheet_record));
    refused("take_book", temelyak_take_book(TEMELYAK_HEADER, words, TEMELYAK_LEDGER_WORDS, lent.map, sizeof lent.map, sheet_record, sizeof sheet_record, out, 2));
    lent.ledger.has_sheet = 1;
    lent.ledger.year = 2009;
    for (unsigned level = 0; level < TEMELYAK_LEVELS; level++) lent.ledger.totals[level] = 100;
    before = lent;
    refused("serve", temelyak_serve(TEMELYAK_HEADER, words, TEMELYAK_LEDGER_WORDS, lent.map, sizeof lent.map, lent.desk, TEMELYAK_SLOTS, open_message,
                                    sizeof open_message));
    refused("index", temelyak_index(TEMELYAK_HEADER, words, TEMELYAK_LEDGER_WORDS, TEMELYAK_SAIFI, TEMELYAK_NN, TEMELYAK_SET_ALL, out, 2));
    refused("decimal", temelyak_decimal(TEMELYAK_HEADER, words, TEMELYAK_LEDGER_WORDS, TEMELYAK_SAIFI, TEMELYAK_NN, TEMELYAK_SET_ALL, 2, out, 2));
    printf("layout of a caller that is refused: %u facts the same\n", facts);
    return 0;
}

#else

#define FIELD(type, field, at, size)                                         \
    same("offset of " #type "." #field, offsetof(type, field), at);          \
    same("size of " #type "." #field, sizeof(((type *)0)->field), size)

struct after_a_byte {
    char byte;
    temelyak_slot slot;
};

/* ---- the header alone */

static void sizes_and_offsets(void) {
    same("size of a cell", sizeof(temelyak_cell), 16);
    FIELD(temelyak_cell, customers, 0, 8);
    FIELD(temelyak_cell, half_minutes, 8, 8);
    same("size of a ledger", sizeof(temelyak_ledger), 392);
    FIELD(temelyak_ledger, has_sheet, 0, 8);
    FIELD(temelyak_ledger, year, 8, 8);
    FIELD(temelyak_ledger, totals, 16, 24);
    FIELD(temelyak_ledger, events, 40, 8);
    FIELD(temelyak_ledger, short_events, 48, 8);
    FIELD(temelyak_ledger, cells, 56, 336);
    same("size of a slot", sizeof(temelyak_slot), 72);
    same("alignment of a slot", offsetof(struct after_a_byte, slot), 8);
    FIELD(temelyak_slot, number, 0, 2);
    FIELD(temelyak_slot, type, 2, 1);
    FIELD(temelyak_slot, voltage, 3, 1);
    FIELD(temelyak_slot, cause, 4, 1);
    FIELD(temelyak_slot, t0, 8, 4);
    FIELD(temelyak_slot, last, 12, 4);
    FIELD(temelyak_slot, steps, 16, 1);
    FIELD(temelyak_slot, customers, 24, 24);
    FIELD(temelyak_slot, half_minutes, 48, 24);
    same("size of a fraction", sizeof(temelyak_fraction), 16);
    FIELD(temelyak_fraction, top, 0, 8);
    FIELD(temelyak_fraction, bottom, 8, 8);
    same("size of a decimal", sizeof(temelyak_decimal_parts), 16);
    FIELD(temelyak_decimal_parts, whole, 0, 8);
    FIELD(temelyak_decimal_parts, digits, 8, 8);
    same("size of a reading", sizeof(temelyak_read), 16);
    FIELD(temelyak_read, refused, 0, 8);
    FIELD(temelyak_read, broken, 8, 8);
}

static void constants(void) {
    static const unsigned answers[] = {TEMELYAK_ACCEPTED,           TEMELYAK_REFUSED_UNSOUND,   TEMELYAK_REFUSED_FRAME,       TEMELYAK_REFUSED_KIND,
                                       TEMELYAK_REFUSED_LENGTH,     TEMELYAK_REFUSED_SHEET,     TEMELYAK_REFUSED_RANGE,       TEMELYAK_REFUSED_CODE,
                                       TEMELYAK_REFUSED_NOT_OPEN,   TEMELYAK_REFUSED_ORDINAL,   TEMELYAK_REFUSED_TIME,        TEMELYAK_REFUSED_COUNT,
                                       TEMELYAK_REFUSED_LEVEL,      TEMELYAK_REFUSED_NONE_THEN_SOME, TEMELYAK_REFUSED_USED,   TEMELYAK_REFUSED_FULL_LEDGER,
                                       TEMELYAK_REFUSED_FULL_DESK,  TEMELYAK_REFUSED_NOBODY,    TEMELYAK_REFUSED_DIGITS};
    for (unsigned k = 0; k < sizeof answers / sizeof *answers; k++) same("an answer", answers[k], k);
    same("answers", sizeof answers / sizeof *answers, 19);
    same("an output of another size", TEMELYAK_REFUSED_OUTPUT, 251);
    same("another header", TEMELYAK_REFUSED_HEADER, 254);
    same("no such code", TEMELYAK_REFUSED_NO_CODE, 255);
    same("rows", TEMELYAK_ROWS, 7);
    same("levels", TEMELYAK_LEVELS, 3);
    same("steps", TEMELYAK_STEPS, 64);
    same("events", TEMELYAK_EVENTS, 65535);
    same("digits", TEMELYAK_DIGITS, 6);
}

/* ---- the library's side */

static void built(void) {
    same("version", TEMELYAK_VERSION, temelyak_built(0));
    same("words of a ledger", TEMELYAK_LEDGER_WORDS, temelyak_built(1));
    same("bytes of a ledger", sizeof(temelyak_ledger), 8 * temelyak_built(1));
    same("bytes of a slot", TEMELYAK_SLOT_BYTES, temelyak_built(2));
    same("size of a slot", sizeof(temelyak_slot), temelyak_built(2));
    same("bytes of a map", TEMELYAK_MAP_BYTES, temelyak_built(3));
    same("slots of a desk", TEMELYAK_SLOTS, temelyak_built(4));
    same("nothing else", temelyak_built(5) | temelyak_built(6) | temelyak_built(256) | temelyak_built(UINT32_MAX), 0);
    same("the header's word", TEMELYAK_HEADER, (temelyak_built(0) << 32) + (temelyak_built(1) << 16) + temelyak_built(2));
}

static temelyak_ledger ledger;
static uint8_t map[TEMELYAK_MAP_BYTES], message[64];
static temelyak_slot desk[TEMELYAK_SLOTS];
static size_t size;

static void put(uint32_t number, int bytes) {
    for (; bytes > 0; bytes--, number >>= 8) message[size++] = (uint8_t)number;
}

static void begin(unsigned length, unsigned kind) {
    size = 0;
    put(length, 2);
    put(kind, 2);
}

static uint32_t take(void) {
    return temelyak_take(TEMELYAK_HEADER, temelyak_words(&ledger), TEMELYAK_LEDGER_WORDS, map, sizeof map, message, size);
}

static uint32_t serve(void) {
    return temelyak_serve(TEMELYAK_HEADER, temelyak_words(&ledger), TEMELYAK_LEDGER_WORDS, map, sizeof map, desk, TEMELYAK_SLOTS, message, size);
}

static void sheet(void) {
    memset(&ledger, 0xff, sizeof ledger);
    same("an empty ledger", temelyak_empty(TEMELYAK_HEADER, temelyak_words(&ledger), TEMELYAK_LEDGER_WORDS), 0);
    memset(map, 0, sizeof map);
    memset(desk, 0, sizeof desk);
    begin(18, 1);
    put(2011, 2);
    put(5000000, 4);
    put(60000, 4);
    put(700, 4);
    same("a sheet", take(), 0);
}

/* Every field of a slot that the library wrote has a value of its own. */
static void slot_that_it_wrote(void) {
    const temelyak_slot *slot = &desk[1];
    const uint8_t *bytes = (const uint8_t *)slot;
    sheet();
    for (unsigned number = 0x1201; number <= 0x1202; number++) {
        begin(13, 16);
        put(number, 2);
        put(13, 1);
        put(7, 1);
        put(39, 1);
        put(0x030405, 4);
        same("open", serve(), 0);
    }
    begin(23, 17);
    put(0x1202, 2);
    put(1, 1);
    put(0x030405 + 1000, 4);
    put(4000000, 4);
    put(50000, 4);
    put(600, 4);
    same("step", serve(), 0);
    same("slot.number", slot->number, 0x1202);
    same("slot.type", slot->type, 13);
    same("slot.voltage", slot->voltage, 7);
    same("slot.cause", slot->cause, 39);
    same("slot.t0", slot->t0, 0x030405);
    same("slot.last", slot->last, 0x030405 + 1000);
    same("slot.steps", slot->steps, 1);
    same("slot.customers[0]", slot->customers[0], 4000000);
    same("slot.customers[1]", slot->customers[1], 50000);
    same("slot.customers[2]", slot->customers[2], 600);
    same("slot.half_minutes[0]", slot->half_minutes[0], UINT64_C(8000000000));
    same("slot.half_minutes[1]", slot->half_minutes[1], 100000000);
    same("slot.half_minutes[2]", slot->half_minutes[2], 1200000);
    same("byte 0 of a slot", bytes[0], 0x02);
    same("byte 1 of a slot", bytes[1], 0x12);
    same("byte 9 of a slot", bytes[9], 0x04);
    same("byte 16 of a slot", bytes[16], 1);
    same("byte 48 of a slot", bytes[48], UINT64_C(8000000000) & 255);
    same("the slot before", desk[0].number, 0x1201);
    same("the slot behind", desk[2].number, 0);
}

/* One event of each type on each level, all different: each must come to its own cell. */
static void cells_that_it_wrote(void) {
    static const uint8_t types[TEMELYAK_ROWS] = {11, 12, 13, 14, 15, 16, 2};
    sheet();
    for (unsigned row = 0; row < TEMELYAK_ROWS; row++)
        for (unsigned level = 0; level < TEMELYAK_LEVELS; level++) {
            unsigned count = 1 + row * TEMELYAK_LEVELS + level;
            begin(53, 2);
            put(count, 2);
            put(types[row], 1);
            put(7, 1);
            put(0, 1);
            for (int k = 0; k < 2; k++) put(100, 4);
            for (int k = 0; k < 3; k++) put(100 + 10 * count, 4);
            for (int k = 0; k < 2; k++)
                for (unsigned h = 0; h < TEMELYAK_LEVELS; h++) put(h == level ? count : 0, 4);
            same("an event", take(), 0);
        }
    same("ledger.has_sheet", ledger.has_sheet, 1);
    same("ledger.year", ledger.year, 2011);
    same("ledger.totals[0]", ledger.totals[0], 5000000);
    same("ledger.totals[1]", ledger.totals[1], 60000);
    same("ledger.totals[2]", ledger.totals[2], 700);
    same("ledger.events", ledger.events, 21);
    same("ledger.short_events", ledger.short_events, 0);
    for (unsigned row = 0; row < TEMELYAK_ROWS; row++)
        for (unsigned level = 0; level < TEMELYAK_LEVELS; level++) {
            unsigned count = 1 + row * TEMELYAK_LEVELS + level;
            same("customers of a cell", ledger.cells[row][level].customers, count);
            same("half minutes of a cell", ledger.cells[row][level].half_minutes, 2 * count * 10 * count);
        }
}

static uint64_t divisor(uint64_t a, uint64_t b) { return b ? divisor(b, a % b) : a; }

/* Each code of index, level and set asks for what its name says. */
static void codes(void) {
    static const unsigned indices[] = {TEMELYAK_SAIFI, TEMELYAK_SAIDI, TEMELYAK_CAIDI};
    static const unsigned levels[] = {TEMELYAK_NN, TEMELYAK_VN, TEMELYAK_VVN, TEMELYAK_NETWORK};
    static const unsigned sets[] = {TEMELYAK_SET_UNNAMED, TEMELYAK_SET_ALL, TEMELYAK_SET_STD};
    for (unsigned i = 0; i < 3; i++)
        for (unsigned l = 0; l < 4; l++)
            for (unsigned s = 0; s < 3; s++) {
                uint64_t people = 0, customers = 0, halves = 0;
                for (unsigned h = 0; h < TEMELYAK_LEVELS; h++)
                    for (unsigned row = 0; row < TEMELYAK_ROWS; row++) {
                        if (l != 3 && h != l) continue;
                        if (row == 0) people += ledger.totals[h];
                        if (s != 1 && row >= 2 && row <= 5) continue;
                        customers += ledger.cells[row][h].customers;
                        halves += ledger.cells[row][h].half_minutes;
                    }
                uint64_t top = i == 0 ? customers : halves, bottom = i == 0 ? people : i == 1 ? 2 * people : 2 * customers, by = divisor(top, bottom);
                temelyak_fraction fraction;
                temelyak_decimal_parts parts;
                same("an index", temelyak_index(TEMELYAK_HEADER, temelyak_words(&ledger), TEMELYAK_LEDGER_WORDS, indices[i], levels[l], sets[s],
                                                temelyak_words(&fraction), 2), 0);
                same("its top", fraction.top, top / by);
                same("its bottom", fraction.bottom, bottom / by);
                same("a decimal", temelyak_decimal(TEMELYAK_HEADER, temelyak_words(&ledger), TEMELYAK_LEDGER_WORDS, indices[i], levels[l], sets[s], 3,
                                                   temelyak_words(&parts), 2), 0);
                same("its figure", 1000 * parts.whole + parts.digits, (2000 * top + bottom) / (2 * bottom));
            }
}

static void reading(void) {
    temelyak_read read = {7, 7};
    sheet();
    begin(7, 99);
    put(0, 3);
    put(3, 2);
    put(0, 2);
    same("a book", temelyak_take_book(TEMELYAK_HEADER, temelyak_words(&ledger), TEMELYAK_LEDGER_WORDS, map, sizeof map, message, size,
                                      temelyak_words(&read), 2), 0);
    same("read.refused", read.refused, 2);
    same("read.broken", read.broken, 1);
}

int main(void) {
    sizes_and_offsets();
    constants();
    built();
    slot_that_it_wrote();
    cells_that_it_wrote();
    codes();
    reading();
#ifdef __cplusplus
    printf("layout as C++: %u facts the same\n", facts);
#else
    printf("layout as C: %u facts the same\n", facts);
#endif
    return 0;
}

#endif
