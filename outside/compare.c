/* compare [SEED [TIMES]]: the library through its C boundary against the plain implementation, on records, desk messages, books and ledgers of every sort;
   what chance decides is made so many times as much. compare case 'TEXT': one printed case again.
   It prints how often each answer came, and fails where one never did. */
#include <inttypes.h>
#include <stdio.h>
#include <stdlib.h>
#include <string.h>
#include <time.h>

#include "both.h"
#include "chance.h"

enum { DEFAULT_SEED = 20091117, RECORDS = 1150000, MESSAGES = 520000, BOOKS = 3000, DAYS = 160, NEARLY_SOUND = 60000, BOOK_ROOM = 4000000, MISUSE_IN = 40 };

static const uint64_t every_answer[] = {0, 1, 2, 3, 4, 5, 6, 7, 8, 9, 10, 11, 12, 13, 14, 15, 16, 17, 18, 251, 254, 255};

/* ---- worlds that are lent */

static make_world world;

/* A world with a sheet of 2009 and the worked year's customers, and nothing else. */
static void lend_worked_year(void) {
    memset(&world, 0, sizeof world);
    world.ledger.sheet = 1;
    world.ledger.year = 2009;
    world.ledger.totals[0] = 1000;
    world.ledger.totals[1] = 10;
    world.ledger.totals[2] = 1;
    both_lend(&world);
}

/* Answers whether the world is sound as far as chance was to make it so: then many calls are made on it. */
static int lend_some_world(void) {
    uint32_t sort = below(20);
    memset(&world, 0, sizeof world);
    if (sort >= 3) {
        make_sound_ledger(&world.ledger);
        make_map(world.map);
        if (!one_in(4)) make_sound_desk(world.desk);
    }
    switch (sort) {
    case 16: make_nearly_sound_ledger(&world.ledger); break;
    case 17: make_any_ledger(&world.ledger); break;
    case 18: make_nearly_sound_desk(world.desk); break;
    case 19: make_any_desk(world.desk); break;
    }
    if (one_in(4))
        both_lend_stray(&world);
    else
        both_lend(&world);
    return sort < 16;
}

/* A wrong header, or a wrong length of something. */
static void misuse(both_one *one) {
    switch (below(6)) {
    case 0: case 1:
        one->header = one_of(0, one->header + 1, one->header - 1, one->header ^ UINT64_C(1) << below(64), one->header + (1 << 16), chance(),
                             one->header & UINT32_MAX, one->header << 32, UINT64_MAX);
        break;
    case 2: one->words = (size_t)one_of(0, 1, 48, 50, 57); break;
    case 3: one->map_bytes = (size_t)one_of(0, 1, 8191, 8193, 8256, 4096); break;
    case 4: one->slots = (size_t)one_of(0, 1, 31, 33, 40); break;
    case 5: one->out_words = (size_t)one_of(0, 1, 3, 10); break;
    }
}

static uint32_t some_code(uint32_t least, uint32_t most) {
    return one_in(12) ? (uint32_t)one_of(least - 1, most + 1, most + 1, 256 + least, 65536 + least, UINT32_MAX, chance()) : from_to(least, most);
}

static void some_figure(void) {
    both_one one = both_right(one_in(2) ? CALL_INDEX : CALL_DECIMAL);
    one.index = some_code(1, 3);
    one.level = some_code(1, 4);
    one.set = some_code(0, 2);
    one.digits = one_in(8) ? (uint32_t)one_of(7, 7, 8, 64, 256, UINT32_MAX) : below(7);
    if (one_in(MISUSE_IN)) misuse(&one);
    both_call(&one);
}

/* ---- chance */

static void make_empty(void) {
    both_one one = both_right(CALL_EMPTY);
    if (one_in(MISUSE_IN)) misuse(&one);
    both_call(&one);
}

static void record_lives(uint64_t records) {
    static uint8_t record[MAKE_RECORD];
    while (both_calls[CALL_TAKE] < records) {
        unsigned calls = lend_some_world() ? from_to(20, 150) : from_to(1, 3);
        for (; calls > 0; calls--) {
            both_one one = both_right(CALL_TAKE);
            one.bytes = record;
            one.size = make_record(&both, record);
            if (one_in(MISUSE_IN)) misuse(&one);
            both_call(&one);
            if (one_in(16)) some_figure();
        }
        if (one_in(4)) make_empty();
    }
}

static void message_lives(uint64_t messages) {
    static uint8_t message[MAKE_RECORD];
    while (both_calls[CALL_SERVE] < messages) {
        unsigned calls = lend_some_world() ? from_to(20, 250) : from_to(1, 3);
        unsigned favoured = one_in(2) ? below(PLAIN_SLOTS) : PLAIN_SLOTS;    /* one outage that gets most of the steps, so that 64 are reached */
        for (; calls > 0; calls--) {
            both_one one = both_right(CALL_SERVE);
            one.bytes = message;
            one.size = make_message(&both, favoured, message);
            if (one_in(MISUSE_IN)) misuse(&one);
            both_call(&one);
            if (one_in(64)) some_figure();
        }
    }
}

/* Ledgers and desks with one field off, each for a call or two. */
static void nearly_sound(uint64_t worlds) {
    static uint8_t bytes[MAKE_RECORD];
    for (; worlds > 0; worlds--) {
        memset(&world, 0, sizeof world);
        do make_sound_ledger(&world.ledger);
        while (!world.ledger.sheet);
        if (one_in(3))
            make_nearly_sound_ledger(&world.ledger);
        else
            make_nearly_sound_desk(world.desk);
        both_lend(&world);
        if (one_in(4)) both_take(bytes, make_record(&both, bytes));
        both_serve(bytes, make_message(&both, PLAIN_SLOTS, bytes));
        if (one_in(4)) some_figure();
        if (one_in(8)) make_empty();
    }
}

/* ---- every value of something */

/* A simple and a stepped event, an opening, a step and a close that the lent world accepts. */
static size_t samples(uint8_t record[6][MAKE_RECORD], size_t bytes[6]) {
    make_event event = {.number = 700, .type = 12, .voltage = 7, .cause = 21, .t = {1000, 1000, 1100, 1200, 1300}, .n = {{300, 3, 1}, {400, 2, 1}}, .steps = 2,
                        .time = {1060, 1090}, .count = {{900, 9, 1}, {1000, 10, 0}}};
    const uint32_t counts[PLAIN_LEVELS] = {500, 5, 1};
    bytes[0] = make_sheet(record[0], 2009, 1000, 10, 1);
    bytes[1] = make_simple(record[1], &event);
    bytes[2] = make_stepped(record[2], &event);
    bytes[3] = make_open(record[3], &event);
    bytes[4] = make_step(record[4], 9, 2, 1200, counts);
    bytes[5] = make_close(record[5], 9, 1);
    return 6;
}

/* The desk with outage 9 open and one step taken, so that every sample is acceptable; no sheet for the sample that is one. */
static void lend_for_sample(size_t k) {
    lend_worked_year();
    if (k == 0) memset(&world.ledger, 0, sizeof world.ledger);
    plain_slot slot = {.number = 9, .type = 11, .voltage = 7, .cause = 1, .steps = 1, .t0 = 1000, .last = 1100, .customers = {10, 1, 1},
                       .half_minutes = {2000, 200, 200}};
    world.desk[3] = slot;
    both_lend(&world);
}

static unsigned at_both_entries(const uint8_t *bytes, size_t size) {
    unsigned book = both_take(bytes, size);
    return both_serve(bytes, size) * 256 + book;
}

/* Every byte of every kind of record, with each of its 256 values. */
static void every_byte(void) {
    static uint8_t record[6][MAKE_RECORD], changed[MAKE_RECORD];
    size_t bytes[6], kinds = samples(record, bytes);
    for (size_t k = 0; k < kinds; k++)
        for (size_t at = 0; at < bytes[k]; at++)
            for (unsigned value = 0; value < 256; value++) {
                memcpy(changed, record[k], bytes[k]);
                changed[at] = (uint8_t)value;
                unsigned answers = at_both_entries(changed, bytes[k]);
                if (answers % 256 == 0 || answers / 256 == 0 || value == 0) lend_for_sample(k);
            }
}

/* Every kind in the frame of every sample; every length of every kind, with the stated length right. */
static void every_kind_and_length(void) {
    static uint8_t record[6][MAKE_RECORD], changed[MAKE_RECORD];
    size_t bytes[6], kinds = samples(record, bytes);
    lend_worked_year();
    for (size_t k = 1; k < kinds; k++)
        for (unsigned kind = 0; kind < 65536; kind += k == 1 || kind < 300 ? 1 : 251) {
            memcpy(changed, record[k], bytes[k]);
            make_two(changed + 2, kind);
            if (at_both_entries(changed, bytes[k]) % 256 == 0) lend_for_sample(k);
        }
    for (size_t k = 0; k < kinds; k++)
        for (unsigned size = 0; size < 1100; size++) {
            memset(changed, 0, sizeof changed);
            memcpy(changed, record[k], bytes[k] < size ? bytes[k] : size);
            if (size >= 2) make_two(changed, size);
            if (k == 2 && size > 13) changed[13] = (uint8_t)((size - 14) / 16);
            lend_for_sample(k);
            at_both_entries(changed, size);
            if (size >= 2) make_two(changed, size + 1);
            at_both_entries(changed, size);
        }
}

/* Every event number, one after the other on one map; then every number a second time (14), and then on an empty map with a full ledger (15). */
static void every_number(void) {
    static uint8_t record[MAKE_RECORD];
    make_event event = {.type = 11, .voltage = 1, .t = {0, 0, 50, 50, 50}, .n = {{1000, 0, 0}, {1000, 0, 0}}, .steps = 1, .time = {4}, .count = {{10, 0, 0}}};
    lend_worked_year();
    for (event.number = 1; event.number < 65536; event.number++)
        both_expect("a number taken once", both_take(record, event.number % 2 ? make_simple(record, &event) : make_stepped(record, &event)), 0);
    for (event.number = 1; event.number < 65536; event.number += 5) both_expect("a number taken twice", both_take(record, make_simple(record, &event)), 14);
    world = both;
    memset(world.map, 0, sizeof world.map);
    both_lend(&world);
    for (event.number = 1; event.number < 65536; event.number += 5) both_expect("a full ledger", both_take(record, make_stepped(record, &event)), 15);
}

/* Each word of a ledger at its bound and beyond it, from a ledger of so many events that is otherwise full. */
static void every_ledger_word(uint64_t events) {
    static uint8_t record[MAKE_RECORD];
    make_event event = {.number = 7, .type = 16, .voltage = 7, .t = {0, 0, 50, 50, 50}};
    size_t bytes = make_simple(record, &event);
    const int cell_count = PLAIN_TYPES * PLAIN_LEVELS;
    for (int word = 0; word < 7 + 2 * cell_count; word++)
        for (int change = 0; change < 14; change++) {
            plain_ledger *l = &world.ledger;
            uint64_t *cells[2] = {&l->customers[0][0], &l->half_minutes[0][0]};
            uint64_t most_customers = events * PLAIN_MOST_CUSTOMERS, most_half_minutes = events * PLAIN_MOST_HALF_MINUTES;
            memset(&world, 0, sizeof world);
            l->sheet = 1;
            l->year = 2099;
            l->events = l->shorts = events;
            for (int level = 0; level < PLAIN_LEVELS; level++) l->totals[level] = PLAIN_MOST_CUSTOMERS;
            for (int cell = 0; cell < cell_count; cell++) {
                cells[0][cell] = most_customers;
                cells[1][cell] = most_half_minutes;
            }
            uint64_t *at = word == 0 ? &l->sheet : word == 1 ? &l->year : word < 5 ? &l->totals[word - 2] : word == 5 ? &l->events : word == 6 ? &l->shorts
                         : word < 7 + cell_count ? &cells[0][word - 7] : &cells[1][word - 7 - cell_count];
            const uint64_t now[14] = {*at, *at + 1, *at - 1, 0, 1, 2, *at + 256, *at + 65536, *at + (UINT64_C(1) << 32), *at + (UINT64_C(1) << 63), UINT64_MAX,
                                      UINT64_C(1) << 63, *at + 2, *at / 2};
            *at = now[change];
            both_lend(&world);
            both_take(record, bytes);
            both_book(record, bytes);
            both_index(TEMELYAK_SAIDI, TEMELYAK_NETWORK, TEMELYAK_SET_ALL);
            both_decimal(TEMELYAK_CAIDI, TEMELYAK_NETWORK, TEMELYAK_SET_UNNAMED, 6);
        }
}

/* Each field of the slot of each index: at its bound, beyond it, and set in a free slot. */
static void every_slot_field(void) {
    static uint8_t record[6][MAKE_RECORD];
    size_t bytes[6];
    samples(record, bytes);
    for (int index = 0; index < PLAIN_SLOTS; index++)
        for (int field = 0; field < 13; field++)
            for (int change = 0; change < 20; change++) {
                int is_free = change >= 16;
                lend_for_sample(4);
                world.desk[3].number = index == 3 ? 0 : 9;
                if (index == 3) memset(&world.desk[3], 0, sizeof world.desk[3]);
                plain_slot *slot = &world.desk[index];
                plain_slot full = {.number = 65535, .type = 16, .voltage = 7, .cause = 39, .steps = 64, .t0 = 0, .last = PLAIN_LAST_TIME};
                for (int level = 0; level < PLAIN_LEVELS; level++) {
                    full.customers[level] = PLAIN_MOST_CUSTOMERS;
                    full.half_minutes[level] = PLAIN_MOST_HALF_MINUTES;
                }
                if (!is_free) *slot = full;
                uint64_t was = (uint64_t[]){slot->number, slot->type, slot->voltage, slot->cause, slot->steps, slot->t0, slot->last}[field < 7 ? field : 0];
                if (field >= 7) was = field < 10 ? slot->customers[field - 7] : slot->half_minutes[field - 10];
                uint64_t now = (uint64_t[]){was, was + 1, was - 1, 0, 1, 2, 8, 9, was + 256, was / 2, 527039, 527040, was + (UINT64_C(1) << 32),
                                            was + (UINT64_C(1) << 63), UINT64_MAX, was + 2, 1, 128, UINT64_C(1) << 40, 11}[change];
                switch (field) {
                case 0: slot->number = (uint16_t)now; break;
                case 1: slot->type = (uint8_t)now; break;
                case 2: slot->voltage = (uint8_t)now; break;
                case 3: slot->cause = (uint8_t)now; break;
                case 4: slot->steps = (uint8_t)now; break;
                case 5: slot->t0 = (uint32_t)now; break;
                case 6: slot->last = (uint32_t)now; break;
                default: *(field < 10 ? &slot->customers[field - 7] : &slot->half_minutes[field - 10]) = now; break;
                }
                both_lend(&world);
                at_both_entries(record[3], bytes[3]);
                at_both_entries(record[4], bytes[4]);
            }
}

/* Every code of index, level and set, valid or not, and 0 to 7 digits. */
static void every_figure(void) {
    for (uint32_t index = 0; index < 6; index++)
        for (uint32_t level = 0; level < 7; level++)
            for (uint32_t set = 0; set < 5; set++) {
                both_index(index, level, set);
                for (uint32_t digits = 0; digits < 8; digits++) both_decimal(index, level, set, digits);
            }
}

static void every_figure_of_worlds(unsigned worlds) {
    for (unsigned k = 0; k < worlds; k++) {
        memset(&world, 0, sizeof world);
        if (k > 0) make_sound_ledger(&world.ledger);
        if (k % 10 == 9) make_nearly_sound_ledger(&world.ledger);
        both_lend(&world);
        every_figure();
    }
}

/* Every wrong header and length at every call. */
static void every_misuse(void) {
    static uint8_t record[6][MAKE_RECORD];
    size_t bytes[6];
    samples(record, bytes);
    for (int what = 0; what < CALLS; what++)
        for (unsigned k = 0; k < 400; k++) {
            both_one one = both_right(what);
            lend_for_sample(1);
            one.bytes = record[what == CALL_SERVE ? 4 : 1];
            one.size = bytes[what == CALL_SERVE ? 4 : 1];
            if (k > 0) misuse(&one);
            if (one_in(4)) misuse(&one);
            if (one_in(4)) one.level = 5;
            if (one_in(8)) one.digits = 7;
            both_call(&one);
        }
}

/* In which order: the code, the header, the output, and only then what is lent. A ledger that is written and not read is an output. */
static void misuse_in_order(void) {
    for (int what = 0; what < CALLS; what++) {
        both_one one = both_right(what);
        lend_for_sample(1);
        one.words = 48;
        both_expect("a ledger of 48 words", both_call(&one), what == CALL_EMPTY ? 251 : 1);
        one.out_words = 3;
        both_expect("and an output of 3", both_call(&one), what == CALL_TAKE || what == CALL_SERVE ? 1 : 251);
        one.header++;
        both_expect("and another header", both_call(&one), 254);
        one.set = 3;
        both_expect("and a set that is none", both_call(&one), what == CALL_INDEX || what == CALL_DECIMAL ? 255 : 254);
    }
}

/* ---- just in and just out */

static void lend_with_sheet(unsigned year, uint64_t nn, uint64_t vn, uint64_t vvn) {
    memset(&world, 0, sizeof world);
    world.ledger.sheet = 1;
    world.ledger.year = year;
    world.ledger.totals[0] = nn;
    world.ledger.totals[1] = vn;
    world.ledger.totals[2] = vvn;
    both_lend(&world);
}

/* The event as a simple record, as a stepped one and as an opening, each with the world as it was lent. */
static void every_entry(const make_event *event) {
    static uint8_t record[MAKE_RECORD];
    both_take(record, make_simple(record, event));
    both_lend(&world);
    both_take(record, make_stepped(record, event));
    both_lend(&world);
    both_serve(record, make_open(record, event));
    both_lend(&world);
}

static void years_and_totals(void) {
    static uint8_t record[MAKE_RECORD];
    static const uint32_t totals[] = {0, 1, 9999999, 10000000, 10000001, UINT32_MAX};
    for (unsigned year = 1998; year < 2103; year++)
        for (unsigned k = 0; k < 6 * 3; k++) {
            const uint32_t n[3] = {k % 3 == 0 ? totals[k / 3] : 5, k % 3 == 1 ? totals[k / 3] : 5, k % 3 == 2 ? totals[k / 3] : 5};
            memset(&world, 0, sizeof world);
            both_lend(&world);
            both_take(record, make_sheet(record, year, n[0], n[1], n[2]));
            both_take(record, make_sheet(record, year, n[0], n[1], n[2]));
        }
    for (unsigned year = 2000; year < 2100; year++)
        for (unsigned k = 0; k < 8; k++) {
            uint32_t t0 = (const uint32_t[]){525598, 525599, 525600, 525601, 527038, 527039, 527040, 527041}[k];
            make_event event = {.number = 3, .type = 11, .voltage = 1, .t = {t0, t0, t0, t0 + 9, t0 + 9}, .steps = 1, .time = {t0 + 9}};
            lend_with_sheet(year, 10, 10, 10);
            every_entry(&event);
        }
}

/* A time about the one that it must not be before, about the last one allowed, and about T0 = 5000. */
static uint32_t about(uint32_t before, unsigned change) {
    return (const uint32_t[]){before - 1, before, before + 1, 599999, 600000,     600001,     UINT32_MAX,
                              0,          4999,   5000,       5001,   before + 2, before + 3, before + 4}[change];
}

/* Each time about the one before it and about 600,000; events of 0 to 6 minutes; fault and planned. */
static void event_times(void) {
    for (unsigned k = 1; k < 5; k++)
        for (unsigned change = 0; change < 14; change++)
            for (unsigned planned = 0; planned < 2; planned++) {
                make_event event = {.number = 3, .type = planned ? 2 : 13, .voltage = 1, .t = {5000, planned ? 5000 : 5100, 5200, 5300, 5400},
                                    .n = {{7, 0, 0}, {9, 0, 0}}, .steps = 4, .time = {5100, 5200, 5300, 5400},
                                    .count = {{1, 0, 0}, {9, 0, 0}, {3, 0, 0}, {10, 0, 0}}};
                uint32_t before = k == 4 ? event.t[0] : event.t[k - 1], step_before = k == 1 ? event.t[0] : event.time[k - 2];
                event.t[k] = about(before, change);
                event.time[k - 1] = about(step_before, change);
                if (change % 2) {
                    for (unsigned later = k + 1; later < 4; later++)
                        if (event.t[later] < event.t[k]) event.t[later] = event.t[k];
                    for (unsigned later = k; later < 4; later++)
                        if (event.time[later] < event.time[k - 1]) event.time[later] = event.time[k - 1];
                }
                lend_with_sheet(2009, 10, 10, 10);
                every_entry(&event);
            }
    for (uint32_t minutes = 0; minutes < 7; minutes++)
        for (uint32_t first = 0; first <= minutes; first++) {
            make_event event = {.number = 3, .type = 12, .voltage = 7, .t = {99, 99 + first, 99 + first, 99 + minutes, 600000}, .n = {{7, 8, 9}, {9, 8, 7}},
                                .steps = 2, .time = {99 + first, 99 + minutes}, .count = {{5, 10, 3}, {6, 2, 4}}};
            lend_with_sheet(2009, 10, 10, 10);
            every_entry(&event);
        }
}

/* Counts about 0 and about the level's customers, on each level, for each voltage: n1, n2, a step of a record and of the desk. */
static void counts(void) {
    static uint8_t message[MAKE_RECORD];
    for (unsigned voltage = 1; voltage < 8; voltage++)
        for (unsigned level = 0; level < PLAIN_LEVELS; level++)
            for (unsigned change = 0; change < 6; change++)
                for (unsigned place = 0; place < 4; place++) {
                    uint32_t n = (const uint32_t[]){0, 1, 29, 30, 31, UINT32_MAX}[change];
                    make_event event = {.number = 3, .type = 12, .voltage = voltage, .t = {99, 120, 140, 160, 600000}, .steps = 2, .time = {110, 120}};
                    if (place < 3) event.n[0][level] = event.count[0][level] = n;
                    if (place > 0) event.n[1][level] = event.count[1][level] = place < 3 ? n : 1;
                    if (place == 2) event.n[0][(level + 1) % 3] = 31;
                    lend_with_sheet(2009, 30, 30, 30);
                    every_entry(&event);
                    both_serve(message, make_open(message, &event));
                    both_serve(message, make_step(message, 3, 1, 110, event.count[0]));
                    both_serve(message, make_step(message, 3, 2, 120, event.count[1]));
                    both_serve(message, make_step(message, 3, 1, 120, event.count[1]));
                    both_serve(message, make_close(message, 3, 2));
                    both_serve(message, make_close(message, 3, 1));
                }
}

/* Every number of steps taken with every ordinal and every count of a close. */
static void ordinals(void) {
    static uint8_t message[MAKE_RECORD];
    static const uint32_t nobody[PLAIN_LEVELS];
    for (unsigned taken = 0; taken < 66; taken++)
        for (unsigned said = 0; said < 256; said += said < 70 ? 1 : 37) {
            lend_with_sheet(2009, 30, 30, 30);
            plain_slot slot = {.number = 4, .type = 11, .voltage = 1, .steps = (uint8_t)taken, .t0 = 10, .last = taken ? 20 : 10};
            world.desk[9] = slot;
            both_lend(&world);
            both_serve(message, make_step(message, 4, said, 30, nobody));
            both_lend(&world);
            both_serve(message, make_close(message, 4, said));
        }
}

/* 65,533 to 65,535 events, and 30 to 32 open outages: a number that is free, marked, open, or both. */
static void full(void) {
    static uint8_t record[MAKE_RECORD];
    make_event event = {.number = 3, .type = 11, .voltage = 1, .t = {9, 9, 19, 19, 19}, .steps = 1, .time = {19}};
    for (unsigned marked = 0; marked < 2; marked++)
        for (unsigned many = 0; many < 4; many++)
            for (unsigned k = 0; k < 3; k++) {
                lend_with_sheet(2009, 30, 30, 30);
                world.ledger.events = 65533 + k;
                for (unsigned i = 0; i < 29 + many; i++) {
                    plain_slot slot = {.number = (uint16_t)(1000 - i), .type = 11, .voltage = 1, .steps = 1, .t0 = 10, .last = 14};
                    world.desk[(7 * i) % 32] = slot;
                }
                if (marked) world.map[0] = 8, world.map[125] = 1;
                both_lend(&world);
                every_entry(&event);
                both_serve(record, make_close(record, 1000, 1));
                both_serve(record, make_close(record, 999, 1));
                both_serve(record, make_close(record, 998, 1));
                event.number = 1000;
                every_entry(&event);
                event.number = 3;
            }
}

/* ---- books */

/* The book cut into records and each taken by itself must come to the same ledger and map. */
static void one_by_one(const make_world *start, const uint8_t *book, size_t bytes) {
    make_world whole = both;
    uint64_t refused = 0, outcome[2] = {both_out[0], both_out[1]};
    size_t at = 0;
    both_lend(start);
    while (bytes - at >= 4) {
        size_t length = book[at] + 256u * book[at + 1];
        if (length < 4 || length > bytes - at) break;
        if (both_take(book + at, length)) refused++;
        at += length;
    }
    both_expect("one by one: broken", at < bytes, outcome[1]);
    both_expect("one by one: refused", refused + (at < bytes), outcome[0]);
    both_expect("one by one: the ledgers are the same", memcmp(&both.ledger, &whole.ledger, sizeof whole.ledger) != 0, 0);
    both_expect("one by one: the maps are the same", memcmp(both.map, whole.map, sizeof whole.map) != 0, 0);
}

static void books(unsigned count) {
    static uint8_t book[BOOK_ROOM];
    static make_world start;
    for (unsigned k = 0; k < count; k++) {
        size_t bytes = make_book(book, BOOK_ROOM, from_to(0, 120), (unsigned)one_of(0, 2, 10, 40));
        if (bytes && one_in(3)) bytes = below(bytes + 1);
        if (bytes && one_in(4)) book[below(bytes)] ^= (uint8_t)(1u << below(8));
        if (one_in(4)) {
            book[bytes] = (uint8_t)chance();
            bytes += from_to(0, 5);
        }
        memset(&world, 0, sizeof world);
        if (one_in(4)) {
            make_sound_ledger(&world.ledger);
            make_map(world.map);
        }
        if (one_in(12)) make_nearly_sound_ledger(&world.ledger);
        start = world;
        both_lend(&world);
        both_one one = both_right(CALL_BOOK);
        one.bytes = book;
        one.size = bytes;
        if (one_in(20)) misuse(&one);
        if (both_call(&one) == 0 && one_in(4)) one_by_one(&start, book, bytes);
    }
    for (unsigned k = 0; k < 3; k++) {                       /* long ones */
        size_t bytes = make_book(book, BOOK_ROOM, 60000, k == 0 ? 0 : 20);
        memset(&world, 0, sizeof world);
        both_lend(&world);
        both_expect("a long book", both_book(book, bytes), 0);
    }
}

/* ---- the desk against complete records */

/* An outage that is to be opened, stepped and closed. */
struct outage {
    make_event event;
    unsigned done;                /* 0: to be opened; 1 + steps taken; steps + 2: closed */
};

static void late_step(unsigned number) {
    static const uint32_t nobody[PLAIN_LEVELS];
    uint8_t message[MAKE_RECORD];
    both_expect("a step after its close", both_serve(message, make_step(message, number, from_to(1, 64), below(600001), nobody)), 8);
}

/* A message that is refused and must change nothing. */
static void refused_in_between(void) {
    static make_world before;
    uint8_t message[MAKE_RECORD];
    size_t bytes;
    do {
        before = both;
        bytes = make_message(&before, PLAIN_SLOTS, message);
        if (one_in(3)) bytes = make_damage(message, bytes);
    } while (plain_serve(&before.ledger, before.map, sizeof before.map, before.desk, PLAIN_SLOTS, message, bytes) == 0);
    both_serve(message, bytes);
}

static void advance(struct outage *outage, uint8_t *message) {
    const make_event *event = &outage->event;
    if (outage->done == 0) {
        both_expect("an opening", both_serve(message, make_open(message, event)), 0);
    } else if (outage->done <= event->steps) {
        unsigned k = outage->done - 1;
        both_expect("a step", both_serve(message, make_step(message, event->number, k + 1, event->time[k], event->count[k])), 0);
    } else {
        both_expect("a close", both_serve(message, make_close(message, event->number, event->steps)), 0);
        late_step(event->number);
    }
    outage->done++;
}

static void day(void) {
    static struct outage outages[4 * PLAIN_SLOTS];
    static make_world start, by_desk;
    static unsigned closed[4 * PLAIN_SLOTS];
    static uint8_t message[MAKE_RECORD];
    unsigned count = from_to(1, one_in(3) ? 4 * PLAIN_SLOTS : PLAIN_SLOTS), begun = 0, finished = 0, many = from_to(1, PLAIN_SLOTS);
    memset(&world, 0, sizeof world);
    do make_sound_ledger(&world.ledger);
    while (!world.ledger.sheet || world.ledger.events > PLAIN_EVENTS - 4 * PLAIN_SLOTS);
    if (one_in(2)) memset(&world.ledger.events, 0, sizeof world.ledger - offsetof(plain_ledger, events));
    do make_map(world.map);
    while (world.map[17] == 255 && world.map[4711] == 255);
    start = world;
    for (unsigned k = 0; k < count; k++) {                   /* numbers that are not marked yet, each once */
        do make_valid_event(&world, PLAIN_STEPPED, &outages[k].event);
        while (world.map[outages[k].event.number / 8] >> outages[k].event.number % 8 & 1);
        world.map[outages[k].event.number / 8] |= (uint8_t)(1u << outages[k].event.number % 8);
        outages[k].done = 0;
    }
    both_lend(&start);
    while (finished < count) {
        unsigned k = below(count);
        if (one_in(8)) refused_in_between();
        if (outages[k].done == outages[k].event.steps + 2 || (outages[k].done == 0 && begun - finished >= many)) continue;
        begun += outages[k].done == 0;
        advance(&outages[k], message);
        if (outages[k].done == outages[k].event.steps + 2) closed[finished++] = k;
    }
    by_desk = both;
    for (int i = 0; i < PLAIN_SLOTS; i++) both_expect("a desk with nothing open", plain_slot_sound(&by_desk.desk[i]) && by_desk.desk[i].number == 0, 1);
    both_lend(&start);
    for (unsigned k = 0; k < count; k++) both_expect("a complete record", both_take(message, make_stepped(message, &outages[closed[k]].event)), 0);
    both_expect("complete records: the ledgers are the same", memcmp(&both.ledger, &by_desk.ledger, sizeof both.ledger) != 0, 0);
    both_expect("complete records: the maps are the same", memcmp(both.map, by_desk.map, sizeof both.map) != 0, 0);
}

/* ---- all of it */

static double seconds(void) { return (double)clock() / CLOCKS_PER_SEC; }

static void say(const char *what) {
    static uint64_t last[CALLS];
    static double began;
    printf("%-34s %7.2f s", what, seconds() - began);
    static const char *const names[CALLS] = {"empty", "records", "books", "messages", "indices", "decimals"};
    for (int k = 0; k < CALLS; k++) {
        if (both_calls[k] != last[k]) printf("  %" PRIu64 " %s", both_calls[k] - last[k], names[k]);
        last[k] = both_calls[k];
    }
    printf("\n");
    fflush(stdout);
    began = seconds();
}

static int table(void) {
    int missing = 0;
    printf("answer  times\n");
    for (size_t k = 0; k < sizeof every_answer / sizeof *every_answer; k++) {
        uint64_t answer = every_answer[k];
        printf("%6" PRIu64 "  %" PRIu64 "%s\n", answer, both_answers[answer], both_answers[answer] ? "" : "  NEVER");
        missing += both_answers[answer] == 0;
    }
    return missing;
}

int main(int argc, char **argv) {
    uint64_t seed = argc > 1 && strcmp(argv[1], "case") ? strtoull(argv[1], NULL, 10) : DEFAULT_SEED;
    uint64_t times = argc > 2 && strcmp(argv[1], "case") ? strtoull(argv[2], NULL, 10) : 1;
    both_begin(argv[0], seed);
    if (argc > 2 && !strcmp(argv[1], "case")) return both_case(argv[2]);
    printf("seed %" PRIu64 "\n", seed);
    every_byte();
    say("every byte of every kind");
    every_kind_and_length();
    say("every kind and length");
    every_number();
    say("every number");
    for (unsigned k = 0; k < 4; k++) every_ledger_word((const uint64_t[]){0, 1, 65535, 40000}[k]);
    say("every word of a ledger");
    every_slot_field();
    say("every field of a slot");
    every_figure_of_worlds(150);
    say("every index, level, set, digits");
    every_misuse();
    misuse_in_order();
    say("wrong headers and lengths");
    years_and_totals();
    event_times();
    counts();
    ordinals();
    full();
    say("just in and just out");
    books(BOOKS * (unsigned)times);
    say("books");
    for (unsigned k = 0; k < DAYS * times; k++) day();
    say("the desk against complete records");
    nearly_sound(NEARLY_SOUND * times);
    say("nearly sound by chance");
    record_lives(both_calls[CALL_TAKE] + RECORDS * times);
    say("records by chance");
    message_lives(both_calls[CALL_SERVE] + MESSAGES * times);
    say("desk messages by chance");
    int missing = table();
    printf("%" PRIu64 " records, %" PRIu64 " desk messages, %" PRIu64 " books, %" PRIu64 " indices, %" PRIu64 " decimals: the same on both sides\n",
           both_calls[CALL_TAKE], both_calls[CALL_SERVE], both_calls[CALL_BOOK], both_calls[CALL_INDEX], both_calls[CALL_DECIMAL]);
    if (missing) printf("FAILED: %d answers never came\n", missing);
    return missing != 0;
}
