/* The examples of document 01 and of the annex, each with what must come out, through the library and the plain implementation at once.
   What must come out was worked out by hand. Cause is 0 throughout. worked case 'TEXT': one printed case again. */
#include <inttypes.h>
#include <stdio.h>
#include <string.h>

#include "both.h"

static unsigned cases;
static uint8_t record[MAKE_RECORD];

static void expect(const char *name, uint64_t is, uint64_t must) {
    both_expect(name, is, must);
    cases++;
}

static void expect_cell(const char *name, unsigned type, int level, uint64_t customers, uint64_t half_minutes) {
    int row = plain_row(type);
    both_expect(name, both.ledger.customers[row][level], customers);
    both_expect(name, both.ledger.half_minutes[row][level], half_minutes);
    cases++;
}

static void expect_fraction(const char *name, uint32_t index, uint32_t level, uint32_t set, uint64_t top, uint64_t bottom) {
    both_expect(name, both_index(index, level, set), 0);
    both_expect(name, both_out[0], top);
    both_expect(name, both_out[1], bottom);
    cases++;
}

static void expect_decimal(const char *name, uint32_t index, uint32_t level, uint32_t digits, uint64_t whole, uint64_t part) {
    both_expect(name, both_decimal(index, level, TEMELYAK_SET_ALL, digits), 0);
    both_expect(name, both_out[0], whole);
    both_expect(name, both_out[1], part);
    cases++;
}

/* ---- a year, and records of it */

static void year(unsigned number, uint32_t nn, uint32_t vn, uint32_t vvn) {
    static make_world empty;
    both_one one = both_right(CALL_EMPTY);
    both_lend(&empty);
    both_expect("an empty ledger", both_call(&one), 0);
    both_expect("a year sheet", both_take(record, make_sheet(record, number, nn, vn, vvn)), 0);
}

/* Interrupted at once and back at once: n1 = n2. */
static unsigned fault(unsigned number, unsigned type, unsigned voltage, uint32_t from, uint32_t to, uint32_t nn, uint32_t vn, uint32_t vvn) {
    make_event event = {.number = number, .type = type, .voltage = voltage, .t = {from, from, to, to, to}, .n = {{nn, vn, vvn}, {nn, vn, vvn}}};
    return both_take(record, make_simple(record, &event));
}

/* ---- the worked year: 003, 10.2 */

static void worked_year(void) {
    char text[PLAIN_TEXT];
    year(2009, 1000, 10, 1);
    expect("fault 1", fault(1, 13, 7, 0, 4, 1000, 10, 1), 0);
    expect("fault 2", fault(2, 11, 5, 100, 125, 1000, 10, 0), 0);
    expect("fault 3", fault(3, 11, 1, 200, 250, 1000, 0, 0), 0);
    expect_cell("P1 type 13", 13, PLAIN_NN, 1000, 8000);
    expect_cell("P1 type 11", 11, PLAIN_NN, 2000, 150000);
    expect_cell("P2 type 13", 13, PLAIN_VN, 10, 80);
    expect_cell("P2 type 11", 11, PLAIN_VN, 10, 500);
    expect_cell("P3 type 13", 13, PLAIN_VVN, 1, 8);
    expect_cell("P3 type 11", 11, PLAIN_VVN, 0, 0);
    expect_fraction("P4", TEMELYAK_SAIFI, TEMELYAK_NETWORK, TEMELYAK_SET_ALL, 1007, 337);
    expect_fraction("P5", TEMELYAK_SAIDI, TEMELYAK_NETWORK, TEMELYAK_SET_ALL, 79294, 1011);
    expect_fraction("P6", TEMELYAK_CAIDI, TEMELYAK_NETWORK, TEMELYAK_SET_ALL, 79294, 3021);
    expect_fraction("the network's CAIDI of std", TEMELYAK_CAIDI, TEMELYAK_NETWORK, TEMELYAK_SET_STD, 7525, 201);
    expect_fraction("P6 without a set", TEMELYAK_CAIDI, TEMELYAK_NETWORK, TEMELYAK_SET_UNNAMED, 7525, 201);
    expect_fraction("NN SAIDI", TEMELYAK_SAIDI, TEMELYAK_NN, TEMELYAK_SET_ALL, 79, 1);
    expect_fraction("NN CAIDI", TEMELYAK_CAIDI, TEMELYAK_NN, TEMELYAK_SET_ALL, 79, 3);
    expect_fraction("VVN std SAIFI", TEMELYAK_SAIFI, TEMELYAK_VVN, TEMELYAK_SET_STD, 0, 1);
    expect("VVN std CAIDI", both_index(TEMELYAK_CAIDI, TEMELYAK_VVN, TEMELYAK_SET_STD), 17);
    expect_decimal("table 6's CAIDI", TEMELYAK_CAIDI, TEMELYAK_NETWORK, 2, 26, 25);
    expect("7 digits", both_decimal(TEMELYAK_CAIDI, TEMELYAK_NETWORK, TEMELYAK_SET_ALL, 7), 18);
    expect("7 digits of nothing", both_decimal(TEMELYAK_CAIDI, TEMELYAK_VVN, TEMELYAK_SET_STD, 7), 17);
    plain_report(&both.ledger, 0, text);
    expect("the report", strcmp(text, "year 2009 events 3 short 0 refused 0\nNN all 3.00 79.00 26.33\nVN all 2.00 29.00 14.50\nVVN all 1.00 4.00 4.00\n"
                                      "SYS all 2.99 78.43 26.25\nNN std 2.00 75.00 37.50\nVN std 1.00 25.00 25.00\nVVN std 0.00 0.00 -\n"
                                      "SYS std 1.99 74.43 37.44\n"), 0);
}

/* ---- P7 to P14 */

static void stepped_examples(void) {
    make_event ten_five = {.number = 5, .type = 11, .voltage = 2, .steps = 4, .time = {84, 87, 167, 174},
                           .count = {{62, 0, 0}, {2418, 14, 0}, {62, 0, 0}, {2418, 14, 0}}};
    make_event two_levels = {.number = 13, .type = 12, .voltage = 2, .steps = 2, .time = {10, 20}, .count = {{10, 0, 0}, {0, 5, 0}}};
    year(2009, 450000, 1000, 0);
    expect("10.5", both_take(record, make_stepped(record, &ten_five)), 0);
    expect_cell("P7", 11, PLAIN_NN, 2418, 68696);
    expect_cell("P8", 11, PLAIN_VN, 14, 280);
    expect_fraction("10.5's SAIFI of NN", TEMELYAK_SAIFI, TEMELYAK_NN, TEMELYAK_SET_ALL, 403, 75000);
    year(2009, 450000, 1000, 0);
    expect("two levels", both_take(record, make_stepped(record, &two_levels)), 0);
    expect("P13", both.ledger.customers[1][PLAIN_NN] + both.ledger.customers[1][PLAIN_VN], 15);
    expect_fraction("P13 SAIFI", TEMELYAK_SAIFI, TEMELYAK_NETWORK, TEMELYAK_SET_ALL, 3, 90200);
}

static void simple_examples(void) {
    make_event nine = {.number = 9, .type = 11, .voltage = 1, .t = {0, 10, 15, 20, 20}, .n = {{3, 0, 0}, {2, 0, 0}}};
    make_event twelve = {.number = 12, .type = 11, .voltage = 1, .t = {0, 10, 15, 20, 20}, .n = {{0, 0, 0}, {1, 0, 0}}};
    make_event steps = {.number = 101, .type = 11, .voltage = 1, .steps = 1, .time = {3}, .count = {{4, 0, 0}}};
    year(2009, 1000, 10, 1);
    expect("n1 and n2", both_take(record, make_simple(record, &nine)), 0);
    expect_cell("P9", 11, PLAIN_NN, 3, 105);
    expect("P10", fault(10, 11, 1, 500, 503, 4, 0, 0), 0);
    expect("P10 stepped", both_take(record, make_stepped(record, &steps)), 0);
    expect_cell("P10 adds nothing", 11, PLAIN_NN, 3, 105);
    expect("P10 short", both.ledger.shorts, 2);
    expect("P11", fault(11, 11, 1, 500, 504, 4, 0, 0), 0);
    steps.number = 102;
    steps.time[0] = 4;
    expect("P11 stepped", both_take(record, make_stepped(record, &steps)), 0);
    expect_cell("P11 counts", 11, PLAIN_NN, 11, 169);
    expect("P11 events", both.ledger.events, 5);
    expect("P11 short", both.ledger.shorts, 2);
    expect("P12", both_take(record, make_simple(record, &twelve)), 13);
}

static void rounding(void) {
    plain_decimal decimal;
    plain_fraction eighth = {1, 8};
    expect("P14", plain_round(eighth, 2, &decimal), 0);
    expect("P14 whole", decimal.whole, 0);
    expect("P14 digits", decimal.digits, 13);
    year(2009, 8, 0, 0);
    expect("one of eight", fault(1, 11, 1, 0, 4, 1, 0, 0), 0);
    expect_decimal("P14 by SAIFI", TEMELYAK_SAIFI, TEMELYAK_NN, 2, 0, 13);
    expect_decimal("1/8, 3 digits", TEMELYAK_SAIFI, TEMELYAK_NN, 3, 0, 125);
    expect_decimal("1/8, none", TEMELYAK_SAIFI, TEMELYAK_NN, 0, 0, 0);
    expect_decimal("1/2, none: a tie upward", TEMELYAK_SAIDI, TEMELYAK_NN, 0, 1, 0);
}

/* ---- also run */

static void just_in_and_out(void) {
    make_event event = {.number = 1, .type = 11, .voltage = 1, .steps = 64};
    for (unsigned k = 0; k < 65; k++) event.time[k] = 10 + k;
    year(2009, 1000, 10, 1);
    expect("64 steps", both_take(record, make_stepped(record, &event)), 0);
    event.number = 2;
    event.steps = 65;
    expect("65 steps", both_take(record, make_stepped(record, &event)), 4);
    expect("T0 525,599 in 2009", fault(3, 11, 1, 525599, 525700, 5, 0, 0), 0);
    expect("T0 525,600 in 2009", fault(4, 11, 1, 525600, 525700, 5, 0, 0), 10);
    expect("time 600,000", fault(5, 11, 1, 525599, 600000, 5, 0, 0), 0);
    expect("time 600,001", fault(6, 11, 1, 525599, 600001, 5, 0, 0), 10);
    expect("a level's customers", fault(7, 11, 1, 0, 50, 1000, 0, 0), 0);
    expect("one more", fault(8, 11, 1, 0, 50, 1001, 0, 0), 11);
    expect("one more above its level", fault(8, 11, 1, 0, 50, 0, 11, 0), 11);
    expect("above its level", fault(8, 11, 1, 0, 50, 0, 10, 0), 12);
    expect("a number again", fault(7, 11, 1, 0, 50, 1, 0, 0), 14);
    expect("number 0", fault(0, 11, 1, 0, 50, 1, 0, 0), 7);
    expect("the group code 1", fault(9, 1, 1, 0, 50, 1, 0, 0), 7);
    expect("a second sheet", both_take(record, make_sheet(record, 1999, 0, 0, 0)), 5);
    year(2008, 1000, 10, 1);
    expect("T0 527,039 in 2008", fault(3, 11, 1, 527039, 527100, 5, 0, 0), 0);
    expect("T0 527,040 in 2008", fault(4, 11, 1, 527040, 527100, 5, 0, 0), 10);
    year(2009, 0, 0, 0);
    expect("a book with only a sheet", both_index(TEMELYAK_SAIFI, TEMELYAK_NETWORK, TEMELYAK_SET_ALL), 17);
}

/* A day at the desk: two outages, one in its first free slot again, a late step. */
static void at_the_desk(void) {
    const uint32_t all[PLAIN_LEVELS] = {1000, 10, 0}, some[PLAIN_LEVELS] = {100, 0, 0}, none[PLAIN_LEVELS] = {0, 0, 0};
    make_event first = {.number = 21, .type = 11, .voltage = 2, .t = {100}}, second = {.number = 22, .type = 2, .voltage = 1, .t = {90}};
    year(2009, 1000, 10, 1);
    expect("open 21", both_serve(record, make_open(record, &first)), 0);
    expect("open 21 again", both_serve(record, make_open(record, &first)), 14);
    expect("open 22", both_serve(record, make_open(record, &second)), 0);
    expect("close 21 before a step", both_serve(record, make_close(record, 21, 0)), 9);
    expect("step 1 of 21", both_serve(record, make_step(record, 21, 1, 110, all)), 0);
    expect("step 1 again", both_serve(record, make_step(record, 21, 1, 120, all)), 9);
    expect("a time before the last", both_serve(record, make_step(record, 21, 2, 109, all)), 10);
    expect("step 2 of 21", both_serve(record, make_step(record, 21, 2, 130, some)), 0);
    expect("close 21 with 1 step", both_serve(record, make_close(record, 21, 1)), 9);
    expect("close 21", both_serve(record, make_close(record, 21, 2)), 0);
    expect("a step after its close", both_serve(record, make_step(record, 21, 3, 140, none)), 8);
    expect("a close after its close", both_serve(record, make_close(record, 21, 2)), 8);
    expect_cell("21 on NN", 11, PLAIN_NN, 1000, 2 * (1000 * 10 + 100 * 20));
    expect_cell("21 on VN", 11, PLAIN_VN, 10, 2 * 10 * 10);
    first.number = 23;
    expect("open 23", both_serve(record, make_open(record, &first)), 0);
    expect("in the slot that is free", both.desk[0].number, 23);
    expect("a record of an open number", fault(23, 11, 1, 0, 50, 1, 0, 0), 14);
    expect("step 1 of 22", both_serve(record, make_step(record, 22, 1, 93, some)), 0);
    expect("close 22, short", both_serve(record, make_close(record, 22, 1)), 0);
    expect("short", both.ledger.shorts, 1);
    expect("events", both.ledger.events, 2);
}

int main(int argc, char **argv) {
    both_begin(argv[0], 0);
    if (argc > 2) return both_case(argv[2]);
    worked_year();
    stepped_examples();
    simple_examples();
    rounding();
    just_in_and_out();
    at_the_desk();
    printf("worked examples: %u outcomes as the document has them\n", cases);
    return 0;
}
