/* The rules of document 01 in ordinary C, written from the document alone and sharing nothing with the proved library: what the library is compared
   with, and at -O3 the measure of its speed. Each call answers 0, or the refusal's number; a refusal changes nothing. */
#ifndef PLAIN_H
#define PLAIN_H

#include <stddef.h>
#include <stdint.h>

enum { PLAIN_NN, PLAIN_VN, PLAIN_VVN, PLAIN_LEVELS, PLAIN_NETWORK = PLAIN_LEVELS };
enum { PLAIN_SAIFI, PLAIN_SAIDI, PLAIN_CAIDI, PLAIN_INDICES };
enum { PLAIN_ALL, PLAIN_STD, PLAIN_SETS };

enum {
    PLAIN_TYPES = 7,              /* 11, 12, 13, 14, 15, 16 and 2, in this order */
    PLAIN_SLOTS = 32,
    PLAIN_STEPS = 64,
    PLAIN_EVENTS = 65535,
    PLAIN_MAP_BYTES = 8192,
    PLAIN_DIGITS = 6,
    PLAIN_FIRST_YEAR = 2000,
    PLAIN_LAST_YEAR = 2099,
    PLAIN_LAST_TIME = 600000,     /* of every time but T0 */
    PLAIN_LONGEST_YEAR = 527040,
    PLAIN_MOST_CUSTOMERS = 10000000,
    PLAIN_SHORT = 3,              /* minutes */
    PLAIN_TEXT = 1024             /* room enough for every report */
};

/* What one event adds to a ledger of a full year, at most. */
#define PLAIN_MOST_HALF_MINUTES UINT64_C(12000000000000)

/* Kinds of records and of desk messages, and their lengths (a stepped event's without its steps). */
enum { PLAIN_SHEET = 1, PLAIN_SIMPLE = 2, PLAIN_STEPPED = 3, PLAIN_OPEN = 16, PLAIN_STEP = 17, PLAIN_CLOSE = 18 };
enum { PLAIN_SHEET_BYTES = 18, PLAIN_SIMPLE_BYTES = 53, PLAIN_STEPPED_BYTES = 14, PLAIN_ONE_STEP_BYTES = 16 };
enum { PLAIN_OPEN_BYTES = 13, PLAIN_STEP_BYTES = 23, PLAIN_CLOSE_BYTES = 7 };

/* The ledger of a year. Fields are as wide as what may be lent; whether they hold what they may is soundness. */
typedef struct plain_ledger {
    uint64_t sheet;                                  /* 1 with a year sheet, 0 without */
    uint64_t year;
    uint64_t totals[PLAIN_LEVELS];
    uint64_t events;                                 /* short ones included */
    uint64_t shorts;
    uint64_t customers[PLAIN_TYPES][PLAIN_LEVELS];
    uint64_t half_minutes[PLAIN_TYPES][PLAIN_LEVELS];
} plain_ledger;

/* One slot of a desk: an open outage, or zeros only. */
typedef struct plain_slot {
    uint16_t number;
    uint8_t type, voltage, cause;
    uint8_t steps;                                   /* taken so far */
    uint32_t t0, last;
    uint64_t customers[PLAIN_LEVELS];                /* the largest counts */
    uint64_t half_minutes[PLAIN_LEVELS];
} plain_slot;

typedef struct plain_fraction {
    uint64_t top, bottom;
} plain_fraction;

typedef struct plain_decimal {
    uint64_t whole, digits;
} plain_decimal;

/* What reading a book came to; broken is 1 where it ended at a broken length, which counts as refused. */
typedef struct plain_read {
    uint64_t refused, broken;
} plain_read;

/* ---- codes of section 9: -1 where the code is not listed */
int plain_row(unsigned type);
int plain_level(unsigned voltage);
int plain_cause_listed(unsigned cause);

/* How many minutes the year has. */
uint32_t plain_minutes(unsigned year);

/* ---- soundness */
int plain_ledger_sound(const plain_ledger *ledger);
int plain_slot_sound(const plain_slot *slot);
int plain_desk_sound(const plain_slot *desk, size_t slots);

/* ---- the entries */
unsigned plain_take(plain_ledger *ledger, uint8_t *map, size_t map_bytes, const uint8_t *record, size_t bytes);
unsigned plain_take_book(plain_ledger *ledger, uint8_t *map, size_t map_bytes, const uint8_t *book, size_t bytes, plain_read *read);
unsigned plain_serve(plain_ledger *ledger, uint8_t *map, size_t map_bytes, plain_slot *desk, size_t slots, const uint8_t *message, size_t bytes);

/* ---- figures */
unsigned plain_index(const plain_ledger *ledger, int index, int level, int set, plain_fraction *fraction);
unsigned plain_index_decimal(const plain_ledger *ledger, int index, int level, int set, unsigned digits, plain_decimal *decimal);
unsigned plain_round(plain_fraction fraction, unsigned digits, plain_decimal *decimal);

/* The year report of a sound ledger: the length of the text, which ends with a 0 that is not counted. */
size_t plain_report(const plain_ledger *ledger, uint64_t refused, char text[PLAIN_TEXT]);

#endif
