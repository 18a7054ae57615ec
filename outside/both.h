/* The library through its C boundary, and beside it the plain implementation, on the same input. Every call is made on both; answer, ledger, map, desk
   and outputs must be the same, a refusal must leave every lent byte as it was, and nothing around the lent memory may change. Where something
   differs the input is made smaller, printed in a form that can be run again, and the program ends with status 1. */
#ifndef BOTH_H
#define BOTH_H

#include "make.h"
#include "temelyak.h"

enum { CALL_EMPTY, CALL_TAKE, CALL_BOOK, CALL_SERVE, CALL_INDEX, CALL_DECIMAL, CALLS };

/* One call: everything that is handed over beside ledger, map and desk. */
typedef struct both_one {
    int what;
    uint64_t header;
    size_t words, map_bytes, slots, out_words;
    uint32_t index, level, set, digits;
    const uint8_t *bytes;
    size_t size;
} both_one;

/* The plain side's ledger, map and desk after the last call; the library's are the same. */
extern make_world both;
/* What an accepted index, decimal or book call wrote. */
extern uint64_t both_out[2];
/* How often each answer came, and how often each call was made. */
extern uint64_t both_answers[256], both_calls[CALLS];

/* The program as it is run again, and the seed of all chance. */
void both_begin(const char *program, uint64_t seed);

/* Lends this ledger, map and desk from here on; with stray bytes where a slot has no field. */
void both_lend(const make_world *world);
void both_lend_stray(const make_world *world);

/* A call with all lengths and the header right. */
both_one both_right(int what);
unsigned both_call(const both_one *one);

unsigned both_take(const uint8_t *record, size_t bytes);
unsigned both_serve(const uint8_t *message, size_t bytes);
unsigned both_book(const uint8_t *book, size_t bytes);
unsigned both_index(uint32_t index, uint32_t level, uint32_t set);
unsigned both_decimal(uint32_t index, uint32_t level, uint32_t set, uint32_t digits);

/* Runs a printed case again: 0 where both sides agree. */
int both_case(const char *text);

/* Where a case has a known outcome and something else came out: says so, and ends the program. */
void both_expect(const char *name, uint64_t is, uint64_t must);

#endif
