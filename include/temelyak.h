/* Temelyak: continuity figures of an electricity distribution network (Annex 2 of the Czech distribution code).
 *
 * Every call but temelyak_built answers a number: 0 where it was accepted, else why it was refused (TEMELYAK_REFUSED_..). On a refusal no lent memory
 * is changed, outputs included. Calls keep nothing between them: ledger, map and desk are the caller's. Any content of lent memory gets an answer.
 * The three are one state: store them together and restore them together. A desk from before a close beside a ledger from after it counts that outage
 * twice; a map from before an open lets its number be used again, so that a late step can reach another outage. No call can tell.
 * What is lent to one call does not overlap, and a pointer is to as many elements as the number after it says.
 *
 * Link with libtemelyak.a, x86-64, and a C library (for memcpy and memset). C99; C++ too.
 */
#ifndef TEMELYAK_H
#define TEMELYAK_H

#include <stddef.h>
#include <stdint.h>

#ifdef __cplusplus
extern "C" {
#endif

/* The version of this header. It changes with every layout and with what a code means. */
#define TEMELYAK_VERSION 2u

/* ---- limits */

/* How many 64-bit words a ledger has: seven, and two for each cell. */
#define TEMELYAK_LEDGER_WORDS (7u + TEMELYAK_ROWS * TEMELYAK_LEVELS * 2u)
/* How many bytes a map of used event numbers has. */
#define TEMELYAK_MAP_BYTES 8192u
/* How many slots a desk has. */
#define TEMELYAK_SLOTS 32u
/* How many bytes a slot has. */
#define TEMELYAK_SLOT_BYTES 72u
/* How many event types, one row of cells each: 11, 12, 13, 14, 15, 16 and 2; and how many levels: NN, VN, VVN. */
#define TEMELYAK_ROWS 7u
#define TEMELYAK_LEVELS 3u
/* The most steps of one outage, and the most events of one ledger. */
#define TEMELYAK_STEPS 64u
#define TEMELYAK_EVENTS 65535u
/* The most digits of a decimal. */
#define TEMELYAK_DIGITS 6u

/* ---- what is lent */

/* The customers and the half customer-minutes (twice the minutes) of one event type on one level. */
typedef struct temelyak_cell {
    uint64_t customers;
    uint64_t half_minutes;
} temelyak_cell;

/* The ledger of a year. All words are 64 bits wide; a word too large for what it holds, or another number of words, is refused (1). */
typedef struct temelyak_ledger {
    uint64_t has_sheet;                                    /* 1 with a year sheet, 0 without */
    uint64_t year;                                         /* 2000 to 2099 */
    uint64_t totals[TEMELYAK_LEVELS];                      /* the customers of NN, VN, VVN */
    uint64_t events;                                       /* events taken, short ones included */
    uint64_t short_events;
    temelyak_cell cells[TEMELYAK_ROWS][TEMELYAK_LEVELS];   /* by type, in the order 11 12 13 14 15 16 2, and level */
} temelyak_ledger;

/* One slot of a desk: an open outage, or zeros only. An empty desk is TEMELYAK_SLOTS slots of zeros. */
typedef struct temelyak_slot {
    uint16_t number;                                       /* the outage's event number, 0 in a free slot */
    uint8_t type;
    uint8_t voltage;
    uint8_t cause;
    uint32_t t0;                                           /* minutes from 1 January 00:00 */
    uint32_t last;                                         /* the last step's time, T0 before the first */
    uint8_t steps;                                         /* steps taken */
    uint64_t customers[TEMELYAK_LEVELS];                   /* the largest counts so far */
    uint64_t half_minutes[TEMELYAK_LEVELS];
} temelyak_slot;

/* An exact fraction in lowest terms. */
typedef struct temelyak_fraction {
    uint64_t top;
    uint64_t bottom;
} temelyak_fraction;

/* A decimal: the whole part, and the digits after it as one number. */
typedef struct temelyak_decimal_parts {
    uint64_t whole;
    uint64_t digits;
} temelyak_decimal_parts;

/* What taking a book came to: the refused records (a broken length is one), and 1 where the book ended at a broken length. */
typedef struct temelyak_read {
    uint64_t refused;
    uint64_t broken;
} temelyak_read;

/* ---- the layout: a caller for whom a struct lies otherwise, as under #pragma pack, does not compile */

/* A struct behind a byte lies at its alignment. */
struct temelyak_byte_cell { char byte; temelyak_cell after; };
struct temelyak_byte_ledger { char byte; temelyak_ledger after; };
struct temelyak_byte_slot { char byte; temelyak_slot after; };
struct temelyak_byte_fraction { char byte; temelyak_fraction after; };
struct temelyak_byte_decimal { char byte; temelyak_decimal_parts after; };
struct temelyak_byte_read { char byte; temelyak_read after; };

/* C99 has no assert for the compiler: where a fact does not hold, an array of -1 bytes is declared by its name. */
#if defined(__cplusplus) && __cplusplus >= 201103L
#define TEMELYAK_ASSERT(name, fact) static_assert(fact, "temelyak_assert_" #name)
#else
#define TEMELYAK_ASSERT(name, fact) typedef char temelyak_assert_##name[(fact) ? 1 : -1]
#endif

TEMELYAK_ASSERT(cell_size, sizeof(temelyak_cell) == 16);
TEMELYAK_ASSERT(cell_aligned, offsetof(struct temelyak_byte_cell, after) == 8);
TEMELYAK_ASSERT(cell_customers, offsetof(temelyak_cell, customers) == 0);
TEMELYAK_ASSERT(cell_half_minutes, offsetof(temelyak_cell, half_minutes) == 8);

TEMELYAK_ASSERT(ledger_size, sizeof(temelyak_ledger) == 8 * TEMELYAK_LEDGER_WORDS);
TEMELYAK_ASSERT(ledger_aligned, offsetof(struct temelyak_byte_ledger, after) == 8);
TEMELYAK_ASSERT(ledger_has_sheet, offsetof(temelyak_ledger, has_sheet) == 0);
TEMELYAK_ASSERT(ledger_year, offsetof(temelyak_ledger, year) == 8);
TEMELYAK_ASSERT(ledger_totals, offsetof(temelyak_ledger, totals) == 16);
TEMELYAK_ASSERT(ledger_events, offsetof(temelyak_ledger, events) == 40);
TEMELYAK_ASSERT(ledger_short_events, offsetof(temelyak_ledger, short_events) == 48);
TEMELYAK_ASSERT(ledger_cells, offsetof(temelyak_ledger, cells) == 56);

TEMELYAK_ASSERT(slot_size, sizeof(temelyak_slot) == TEMELYAK_SLOT_BYTES);
TEMELYAK_ASSERT(slot_aligned, offsetof(struct temelyak_byte_slot, after) == 8);
TEMELYAK_ASSERT(slot_number, offsetof(temelyak_slot, number) == 0);
TEMELYAK_ASSERT(slot_type, offsetof(temelyak_slot, type) == 2);
TEMELYAK_ASSERT(slot_voltage, offsetof(temelyak_slot, voltage) == 3);
TEMELYAK_ASSERT(slot_cause, offsetof(temelyak_slot, cause) == 4);
TEMELYAK_ASSERT(slot_t0, offsetof(temelyak_slot, t0) == 8);
TEMELYAK_ASSERT(slot_last, offsetof(temelyak_slot, last) == 12);
TEMELYAK_ASSERT(slot_steps, offsetof(temelyak_slot, steps) == 16);
TEMELYAK_ASSERT(slot_customers, offsetof(temelyak_slot, customers) == 24);
TEMELYAK_ASSERT(slot_half_minutes, offsetof(temelyak_slot, half_minutes) == 48);

TEMELYAK_ASSERT(fraction_size, sizeof(temelyak_fraction) == 16);
TEMELYAK_ASSERT(fraction_aligned, offsetof(struct temelyak_byte_fraction, after) == 8);
TEMELYAK_ASSERT(fraction_top, offsetof(temelyak_fraction, top) == 0);
TEMELYAK_ASSERT(fraction_bottom, offsetof(temelyak_fraction, bottom) == 8);

TEMELYAK_ASSERT(decimal_size, sizeof(temelyak_decimal_parts) == 16);
TEMELYAK_ASSERT(decimal_aligned, offsetof(struct temelyak_byte_decimal, after) == 8);
TEMELYAK_ASSERT(decimal_whole, offsetof(temelyak_decimal_parts, whole) == 0);
TEMELYAK_ASSERT(decimal_digits, offsetof(temelyak_decimal_parts, digits) == 8);

TEMELYAK_ASSERT(read_size, sizeof(temelyak_read) == 16);
TEMELYAK_ASSERT(read_aligned, offsetof(struct temelyak_byte_read, after) == 8);
TEMELYAK_ASSERT(read_refused, offsetof(temelyak_read, refused) == 0);
TEMELYAK_ASSERT(read_broken, offsetof(temelyak_read, broken) == 8);

#undef TEMELYAK_ASSERT

/* What every call is told first: the version of the header that the caller was built with, and the sizes that ledger and slot have there. A library of
 * another header or another layout refuses it (254). */
#define TEMELYAK_HEADER \
    (((uint64_t)TEMELYAK_VERSION << 32) + ((uint64_t)(sizeof(temelyak_ledger) / sizeof(uint64_t)) << 16) + (uint64_t)sizeof(temelyak_slot))

/* ---- codes */

/* Which index. */
enum { TEMELYAK_SAIFI = 1, TEMELYAK_SAIDI = 2, TEMELYAK_CAIDI = 3 };
/* Of which level, or of the whole network. */
enum { TEMELYAK_NN = 1, TEMELYAK_VN = 2, TEMELYAK_VVN = 3, TEMELYAK_NETWORK = 4 };
/* Over which event types: no set named, which means the compliance set; all; or the compliance set (std): 11, 12 and 2. */
enum { TEMELYAK_SET_UNNAMED = 0, TEMELYAK_SET_ALL = 1, TEMELYAK_SET_STD = 2 };

/* ---- answers */
enum {
    TEMELYAK_ACCEPTED = 0,
    TEMELYAK_REFUSED_UNSOUND = 1,          /* map not 8,192 bytes, unsound ledger, desk not 32 slots or unsound */
    TEMELYAK_REFUSED_FRAME = 2,            /* under 4 bytes, or stated length is not the record's length */
    TEMELYAK_REFUSED_KIND = 3,             /* kind not taken at this call */
    TEMELYAK_REFUSED_LENGTH = 4,           /* length wrong for the kind; step count not 1 to 64 or not matching the length */
    TEMELYAK_REFUSED_SHEET = 5,            /* no year sheet yet, or a second one */
    TEMELYAK_REFUSED_RANGE = 6,            /* year or a level total out of range */
    TEMELYAK_REFUSED_CODE = 7,             /* number 0, or a type, voltage or cause not listed */
    TEMELYAK_REFUSED_NOT_OPEN = 8,         /* step or close for a number that is not open */
    TEMELYAK_REFUSED_ORDINAL = 9,          /* ordinal is not steps taken plus 1, or is over 64; close's count is 0 or not steps taken */
    TEMELYAK_REFUSED_TIME = 10,            /* a time breaks a rule */
    TEMELYAK_REFUSED_COUNT = 11,           /* a count exceeds its level's customers */
    TEMELYAK_REFUSED_LEVEL = 12,           /* a count above 0 on a level higher than the event's */
    TEMELYAK_REFUSED_NONE_THEN_SOME = 13,  /* simple event: n1 is 0 and n2 is not */
    TEMELYAK_REFUSED_USED = 14,            /* number already used, or already open */
    TEMELYAK_REFUSED_FULL_LEDGER = 15,     /* 65,535 events already */
    TEMELYAK_REFUSED_FULL_DESK = 16,       /* no slot is free */
    TEMELYAK_REFUSED_NOBODY = 17,          /* SAIFI or SAIDI with no customers, CAIDI with no customers interrupted */
    TEMELYAK_REFUSED_DIGITS = 18,          /* more than 6 decimals asked */
    TEMELYAK_REFUSED_OUTPUT = 251,         /* an output of another number of words; looked at after 255 and 254, and before what is lent */
    TEMELYAK_REFUSED_HEADER = 254,         /* the caller was built with another header */
    TEMELYAK_REFUSED_NO_CODE = 255         /* an index, level or set code that names none; looked at before all else */
};

/* ---- calls. A ledger is lent as its words: temelyak_words(&ledger), TEMELYAK_LEDGER_WORDS; outputs likewise, 2 words each. */

static inline uint64_t *temelyak_words(void *lent) { return (uint64_t *)lent; }

/* Writes an empty ledger: no sheet, all zero. The ledger is an output only: of another number of words it is refused with 251. */
uint32_t temelyak_empty(uint64_t header, uint64_t *ledger, size_t words);

/* Takes one record of a book: kinds 1 (year sheet), 2 (simple event), 3 (stepped event). */
uint32_t temelyak_take(uint64_t header, uint64_t *ledger, size_t words, uint8_t *map, size_t map_bytes, const uint8_t *record, size_t bytes);

/* Takes a whole book; a refused record is counted and passed over. `read` is a temelyak_read of 2 words. */
uint32_t temelyak_take_book(uint64_t header, uint64_t *ledger, size_t words, uint8_t *map, size_t map_bytes, const uint8_t *book, size_t bytes,
                            uint64_t *read, size_t read_words);

/* Serves one message at a desk: kinds 16 (open), 17 (step), 18 (close). Where `slots` is not TEMELYAK_SLOTS the answer is 1, and no slot is looked at. */
uint32_t temelyak_serve(uint64_t header, uint64_t *ledger, size_t words, uint8_t *map, size_t map_bytes, temelyak_slot *desk, size_t slots,
                        const uint8_t *message, size_t bytes);

/* An index as an exact fraction: `fraction` is a temelyak_fraction of 2 words. */
uint32_t temelyak_index(uint64_t header, const uint64_t *ledger, size_t words, uint32_t index, uint32_t level, uint32_t set, uint64_t *fraction,
                        size_t fraction_words);

/* An index with so many digits after the point, rounded to nearest, a tie upward: `decimal` is a temelyak_decimal_parts of 2 words. */
uint32_t temelyak_decimal(uint64_t header, const uint64_t *ledger, size_t words, uint32_t index, uint32_t level, uint32_t set, uint32_t digits,
                          uint64_t *decimal, size_t decimal_words);

/* What this library was built with: version, ledger words, slot bytes, map bytes and slots, one after the other (0 to 4); 0 for any other. */
uint64_t temelyak_built(uint32_t which);

#ifdef __cplusplus
}
#endif

#endif
