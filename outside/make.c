/* Makers of what is lent: see make.h. */
#include "make.h"

#include <string.h>

#include "chance.h"

static const uint8_t types[] = {11, 12, 13, 14, 15, 16, 2};
static const uint8_t causes[] = {0, 1, 2, 3, 4, 9, 11, 12, 13, 14, 19, 21, 22, 23, 24, 25, 26, 29, 31, 32, 33, 34, 39};

/* ---- bytes */

void make_two(uint8_t *at, unsigned number) {
    at[0] = (uint8_t)number;
    at[1] = (uint8_t)(number >> 8);
}

void make_four(uint8_t *at, uint32_t number) {
    make_two(at, number & 65535);
    make_two(at + 2, number >> 16);
}

static uint8_t *put_counts(uint8_t *at, const uint32_t counts[PLAIN_LEVELS]) {
    for (int level = 0; level < PLAIN_LEVELS; level++, at += 4) make_four(at, counts[level]);
    return at;
}

static void put_frame(uint8_t *record, unsigned length, unsigned kind) {
    make_two(record, length);
    make_two(record + 2, kind);
}

static void put_head(uint8_t *record, const make_event *event) {
    make_two(record + 4, event->number);
    record[6] = (uint8_t)event->type;
    record[7] = (uint8_t)event->voltage;
    record[8] = (uint8_t)event->cause;
    make_four(record + 9, event->t[0]);
}

size_t make_sheet(uint8_t *record, unsigned year, uint32_t nn, uint32_t vn, uint32_t vvn) {
    const uint32_t totals[PLAIN_LEVELS] = {nn, vn, vvn};
    put_frame(record, PLAIN_SHEET_BYTES, PLAIN_SHEET);
    make_two(record + 4, year);
    put_counts(record + 6, totals);
    return PLAIN_SHEET_BYTES;
}

size_t make_simple(uint8_t *record, const make_event *event) {
    put_frame(record, PLAIN_SIMPLE_BYTES, PLAIN_SIMPLE);
    put_head(record, event);
    for (int k = 1; k < 5; k++) make_four(record + 9 + 4 * k, event->t[k]);
    put_counts(put_counts(record + 29, event->n[0]), event->n[1]);
    return PLAIN_SIMPLE_BYTES;
}

size_t make_stepped(uint8_t *record, const make_event *event) {
    unsigned length = PLAIN_STEPPED_BYTES + PLAIN_ONE_STEP_BYTES * event->steps;
    uint8_t *at = record + PLAIN_STEPPED_BYTES;
    put_frame(record, length, PLAIN_STEPPED);
    put_head(record, event);
    record[13] = (uint8_t)event->steps;
    for (unsigned k = 0; k < event->steps; k++) {
        make_four(at, event->time[k]);
        at = put_counts(at + 4, event->count[k]);
    }
    return length;
}

size_t make_open(uint8_t *message, const make_event *event) {
    put_frame(message, PLAIN_OPEN_BYTES, PLAIN_OPEN);
    put_head(message, event);
    return PLAIN_OPEN_BYTES;
}

size_t make_step(uint8_t *message, unsigned number, unsigned ordinal, uint32_t time, const uint32_t counts[PLAIN_LEVELS]) {
    put_frame(message, PLAIN_STEP_BYTES, PLAIN_STEP);
    make_two(message + 4, number);
    message[6] = (uint8_t)ordinal;
    make_four(message + 7, time);
    put_counts(message + 11, counts);
    return PLAIN_STEP_BYTES;
}

size_t make_close(uint8_t *message, unsigned number, unsigned steps) {
    put_frame(message, PLAIN_CLOSE_BYTES, PLAIN_CLOSE);
    make_two(message + 4, number);
    message[6] = (uint8_t)steps;
    return PLAIN_CLOSE_BYTES;
}

/* ---- fields */

static int marked(const uint8_t *map, unsigned number) { return map[number / 8] >> number % 8 & 1; }

static unsigned number_with(const uint8_t *map, int wanted) {
    unsigned number = 1;
    for (int attempt = 0; attempt < 12; attempt++) {
        number = (unsigned)one_of(from_to(1, 65535), from_to(1, 65535), from_to(1, 64), 1, 65535, 65528, 255, 256);
        if (marked(map, number) == wanted) break;
    }
    return number;
}

/* A count from 0 to the level's customers, often one of the ends. */
static uint32_t count_within(uint64_t total) {
    uint32_t most = total < PLAIN_MOST_CUSTOMERS ? (uint32_t)total : PLAIN_MOST_CUSTOMERS;
    switch (below(6)) {
    case 0: return 0;
    case 1: return most;
    case 2: return most > 0;
    default: return from_to(0, most);
    }
}

static void counts_within(const plain_ledger *ledger, int top, uint32_t counts[PLAIN_LEVELS]) {
    for (int level = 0; level < PLAIN_LEVELS; level++) counts[level] = level <= top ? count_within(ledger->totals[level]) : 0;
}

/* A time from `from` on, often just long enough or just too short to count, or the last one allowed. */
static uint32_t end_from(uint32_t from) {
    uint32_t end = from + (uint32_t)one_of(0, 2, 3, 3, 4, 4, 5, below(60), below(3000), below(60000), PLAIN_LAST_TIME);
    return end < PLAIN_LAST_TIME ? end : PLAIN_LAST_TIME;
}

static void codes(const make_world *world, make_event *event) {
    event->number = number_with(world->map, 0);
    event->type = types[below(sizeof types)];
    event->voltage = from_to(1, 7);
    event->cause = causes[below(sizeof causes)];
    uint32_t minutes = plain_minutes((unsigned)world->ledger.year);
    event->t[0] = (uint32_t)one_of(0, minutes - 1, minutes - 1 - below(5), below(minutes), below(minutes), below(minutes));
}

static void simple_fields(const make_world *world, make_event *event, int top) {
    uint32_t *t = event->t;
    t[3] = end_from(t[0]);
    t[1] = event->type == 2 ? t[0] : (uint32_t)one_of(t[0], t[3], from_to(t[0], t[3]));
    t[2] = (uint32_t)one_of(t[1], t[3], from_to(t[1], t[3]));
    t[4] = (uint32_t)one_of(t[0], t[3], PLAIN_LAST_TIME, from_to(t[0], PLAIN_LAST_TIME));
    counts_within(&world->ledger, top, event->n[0]);
    counts_within(&world->ledger, top, event->n[1]);
    for (int level = 0; level < PLAIN_LEVELS; level++)
        if (event->n[0][level] == 0) event->n[1][level] = 0;
}

static void stepped_fields(const make_world *world, make_event *event, int top) {
    event->steps = (unsigned)one_of(1, 1, 2, 2, 3, 4, from_to(1, 8), from_to(1, 64), 63, 64);
    uint32_t end = end_from(event->t[0]), time = event->t[0];
    for (unsigned k = 0; k < event->steps; k++) {
        uint32_t left = end - time;
        time = k + 1 == event->steps ? end : time + (uint32_t)one_of(0, below((uint64_t)left + 1), left / (event->steps - k));
        event->time[k] = time;
        counts_within(&world->ledger, top, event->count[k]);
    }
}

void make_valid_event(const make_world *world, unsigned kind, make_event *event) {
    codes(world, event);
    int top = plain_level(event->voltage);
    if (kind == PLAIN_SIMPLE)
        simple_fields(world, event, top);
    else
        stepped_fields(world, event, top);
}

/* ---- just outside a rule */

static void wrong_code(make_event *event) {
    switch (below(4)) {
    case 0: event->number = 0; break;
    case 1: event->type = (unsigned)one_of(0, 1, 3, 9, 10, 17, 18, 27, 112, 116, 130, 255, from_to(17, 255)); break;
    case 2: event->voltage = (unsigned)one_of(0, 8, 9, 129, 255, from_to(8, 255)); break;
    case 3: event->cause = (unsigned)one_of(5, 8, 10, 15, 18, 20, 27, 28, 30, 35, 38, 40, 41, 64, 65, 75, 103, 128, 129, 255); break;
    }
}

/* All times moved behind the year's end, in their order. */
static void start_after_the_year(const make_world *world, make_event *event) {
    uint32_t first = plain_minutes((unsigned)world->ledger.year) + (uint32_t)one_of(0, 0, 0, 1, 1440, 74399);
    event->t[0] = first;
    for (int k = 1; k < 5; k++)
        if (event->t[k] < first) event->t[k] = first;
    for (unsigned k = 0; k < event->steps; k++)
        if (event->time[k] < first) event->time[k] = first;
}

static void wrong_time(const make_world *world, unsigned kind, make_event *event) {
    uint32_t late = (uint32_t)one_of(PLAIN_LAST_TIME + 1, PLAIN_LAST_TIME + 1, UINT32_C(0x80000000), UINT32_MAX);
    unsigned k = below(4), last = event->steps - 1;
    switch (below(5)) {
    case 0: start_after_the_year(world, event); break;
    case 1:
        if (kind == PLAIN_SIMPLE)
            event->t[one_of(3, 3, 4, 1, 2)] = late;
        else
            event->time[one_of(last, last, below(last + 1))] = late;
        break;
    case 2:                                          /* one minute before the time that it must not be before */
        if (kind == PLAIN_SIMPLE) {
            event->t[k + 1] = event->t[k == 3 ? 0 : k] - 1;
        } else {
            k = below(event->steps);
            event->time[k] = (k ? event->time[k - 1] : event->t[0]) - 1;
        }
        break;
    case 3:                                          /* planned, and not interrupted at once */
        event->type = 2;
        event->t[1] = event->t[0] + (uint32_t)one_of(1, 1, 2, 60);
        for (k = 2; k < 5; k++)
            if (event->t[k] < event->t[k - 1]) event->t[k] = event->t[k - 1];
        break;
    case 4: event->t[0] = (uint32_t)one_of(PLAIN_LAST_TIME, PLAIN_LAST_TIME + 1, UINT32_MAX, 525600, 527040, 527039); break;
    }
}

static uint32_t *some_count(unsigned kind, make_event *event, int level) {
    return kind == PLAIN_SIMPLE ? &event->n[below(2)][level] : &event->count[below(event->steps)][level];
}

static void wrong_count(const make_world *world, unsigned kind, make_event *event) {
    int level = (int)below(PLAIN_LEVELS);
    uint32_t total = (uint32_t)world->ledger.totals[level];
    switch (below(3)) {
    case 0: *some_count(kind, event, level) = (uint32_t)one_of(total + 1, total + 1, PLAIN_MOST_CUSTOMERS + 1, UINT32_C(0x80000000), UINT32_MAX); break;
    case 1:                                          /* on a level higher than the event's */
        event->voltage = from_to(1, 6);
        level = from_to((uint32_t)plain_level(event->voltage) + 1, PLAIN_VVN);
        *some_count(kind, event, level) = (uint32_t)one_of(1, world->ledger.totals[level], world->ledger.totals[level]);
        break;
    case 2:                                          /* nobody first, then somebody */
        event->n[0][level] = 0;
        event->n[1][level] = (uint32_t)one_of(1, total);
        break;
    }
}

void make_event_wrong(const make_world *world, unsigned kind, make_event *event) {
    switch (below(8)) {
    case 0: case 1: wrong_code(event); break;
    case 2: case 3: case 4: wrong_time(world, kind, event); break;
    case 5: case 6: wrong_count(world, kind, event); break;
    case 7: event->number = number_with(world->map, 1); break;
    }
}

/* ---- damage */

static size_t damage_frame(uint8_t *record, size_t bytes) {
    size_t now = bytes;
    switch (below(8)) {
    case 0: make_two(record, (unsigned)one_of(bytes - 1, bytes + 1, bytes + 256, 0, 3, 4, 65535, below(65536))); break;
    case 1: now = below(bytes + 1); break;           /* a cut */
    case 2: now = bytes + from_to(1, 20); break;     /* more bytes than stated */
    case 3: now = from_to(4, (uint32_t)bytes); break;
    case 4: now = bytes + from_to(1, 20); break;
    case 5: now = bytes + (size_t)one_of(16, 16, 32); break;
    case 6: now = bytes > 16 ? bytes - 16 : bytes - 1; break;
    case 7: now = below(4); break;
    }
    for (size_t k = bytes; k < now; k++) record[k] = (uint8_t)one_of(0, chance());
    return now;
}

size_t make_damage(uint8_t *record, size_t bytes) {
    size_t now = bytes;
    if (bytes < 4) return bytes;
    switch (below(8)) {
    case 0: case 1:
        for (unsigned flips = from_to(1, 4); flips > 0; flips--) record[below(bytes)] ^= (uint8_t)(1u << below(8));
        break;
    case 2: record[below(bytes)] = (uint8_t)chance(); break;
    case 3: return damage_frame(record, bytes);
    case 4:                                          /* and the length restated, so that the frame is right */
        now = damage_frame(record, bytes);
        if (now >= 4) make_two(record, (unsigned)now);
        break;
    case 5: make_two(record + 2, (unsigned)one_of(0, 1, 2, 3, 4, 15, 16, 17, 18, 19, 256 + 1, 256 + 2, 256 + 16, 65535, below(65536))); break;
    case 6:
        if (bytes > 13) record[13] = (uint8_t)one_of(0, record[13] + 1, record[13] - 1, 64, 65, 255);
        break;
    case 7:
        for (size_t k = one_of(0, 4); k < bytes; k++) record[k] = (uint8_t)chance();
        break;
    }
    return now;
}

/* ---- records of a book */

static size_t some_sheet(uint8_t *record) {
    uint32_t most = PLAIN_MOST_CUSTOMERS;
    unsigned year = (unsigned)one_of(2000, 2004, 2008, 2009, 2099, 2096, from_to(2000, 2099));
    uint32_t totals[PLAIN_LEVELS];
    for (int level = 0; level < PLAIN_LEVELS; level++) totals[level] = (uint32_t)one_of(0, 1, most, most - 1, below(2000), below(most), 450000);
    if (one_in(3)) {
        if (one_in(2))
            year = (unsigned)one_of(1999, 2100, 0, 2000 + 256, 65535, 99);
        else
            totals[below(PLAIN_LEVELS)] = (uint32_t)one_of(most + 1, most + 1, UINT32_MAX, UINT32_C(0x80000000));
    }
    return make_sheet(record, year, totals[0], totals[1], totals[2]);
}

/* A stepped event of 0 or 65 steps, whose length fits them. */
static size_t steps_out_of_range(const make_world *world, uint8_t *record) {
    make_event event;
    make_valid_event(world, PLAIN_STEPPED, &event);
    if (one_in(2)) {
        event.steps = 0;
    } else {
        for (unsigned k = event.steps; k <= PLAIN_STEPS; k++) {
            event.time[k] = event.time[k - 1];
            memcpy(event.count[k], event.count[0], sizeof event.count[k]);
        }
        event.steps = PLAIN_STEPS + 1;
    }
    return make_stepped(record, &event);
}

size_t make_record(const make_world *world, uint8_t *record) {
    uint32_t sort = below(100);
    if (sort < 4 || (!world->ledger.sheet && sort < 60)) return some_sheet(record);
    if (sort < 6) return steps_out_of_range(world, record);
    unsigned kind = one_in(2) ? PLAIN_SIMPLE : PLAIN_STEPPED;
    make_event event = {0};
    make_valid_event(world, kind, &event);
    if (sort < 50)
        for (unsigned wrong = (unsigned)one_of(1, 1, 1, 2, 3); wrong > 0; wrong--) make_event_wrong(world, kind, &event);
    size_t bytes = kind == PLAIN_SIMPLE ? make_simple(record, &event) : make_stepped(record, &event);
    if (one_in(6)) bytes = make_damage(record, bytes);
    return bytes;
}

size_t make_book(uint8_t *book, size_t room, unsigned records, unsigned wrong) {
    static make_world world;
    static uint8_t record[MAKE_RECORD];
    size_t size = 0;
    memset(&world, 0, sizeof world);
    for (unsigned k = 0; k < records; k++) {
        size_t bytes;
        if (k == 0) {
            uint32_t most = (uint32_t)one_of(50, 100000, PLAIN_MOST_CUSTOMERS);
            bytes = make_sheet(record, from_to(2000, 2099), from_to(0, most), (uint32_t)one_of(0, below(most)), (uint32_t)one_of(0, below(most)));
        } else {
            make_event event;
            unsigned kind = one_in(2) ? PLAIN_SIMPLE : PLAIN_STEPPED;
            make_valid_event(&world, kind, &event);
            bytes = kind == PLAIN_SIMPLE ? make_simple(record, &event) : make_stepped(record, &event);
        }
        if (wrong && one_in(wrong)) bytes = make_record(&world, record);
        if (bytes > room - size) break;
        plain_take(&world.ledger, world.map, sizeof world.map, record, bytes);
        memcpy(book + size, record, bytes);
        size += bytes;
    }
    return size;
}

/* ---- desk messages */

static const plain_slot *some_open_slot(const make_world *world, unsigned favoured) {
    if (favoured < PLAIN_SLOTS && world->desk[favoured].number) return &world->desk[favoured];
    for (unsigned attempt = 0, i = below(PLAIN_SLOTS); attempt < PLAIN_SLOTS; attempt++, i = (i + 1) % PLAIN_SLOTS)
        if (world->desk[i].number) return &world->desk[i];
    return NULL;
}

static size_t open_message(const make_world *world, const plain_slot *slot, int wrong, uint8_t *message) {
    make_event event = {0};
    make_valid_event(world, PLAIN_STEPPED, &event);
    if (wrong)
        switch (below(4)) {
        case 0: wrong_code(&event); break;
        case 1: event.t[0] = plain_minutes((unsigned)world->ledger.year) + (uint32_t)one_of(0, 0, 1, 1440, PLAIN_LAST_TIME); break;
        case 2: event.number = number_with(world->map, 1); break;
        case 3:
            if (slot) event.number = slot->number;
            break;
        }
    return make_open(message, &event);
}

static size_t step_message(const make_world *world, const plain_slot *slot, int wrong, uint8_t *message) {
    uint32_t counts[PLAIN_LEVELS], time = end_from(slot->last);
    unsigned number = slot->number, ordinal = slot->steps + 1u;
    int top = plain_level(slot->voltage), level = (int)below(PLAIN_LEVELS);
    counts_within(&world->ledger, top, counts);
    if (wrong)
        switch (below(6)) {
        case 0: number = (unsigned)one_of(0, 0, number ^ 1, number ^ 256, from_to(1, 65535)); break;
        case 1: ordinal = (unsigned)one_of(ordinal - 1, ordinal + 1, 0, 64, 65, 255); break;
        case 2: time = (uint32_t)one_of(slot->last - 1, PLAIN_LAST_TIME + 1, UINT32_MAX, 0); break;
        case 3: counts[level] = (uint32_t)one_of(world->ledger.totals[level] + 1, world->ledger.totals[level] + 1, UINT32_MAX); break;
        case 4:
            if (top < PLAIN_VVN) counts[top + 1] = (uint32_t)one_of(1, world->ledger.totals[top + 1]);
            break;
        case 5:
            time = slot->last - 1;
            counts[level] = (uint32_t)world->ledger.totals[level] + 1;
            break;
        }
    return make_step(message, number, ordinal, time, counts);
}

static size_t close_message(const plain_slot *slot, int wrong, uint8_t *message) {
    unsigned number = slot->number, steps = slot->steps;
    if (wrong) {
        if (one_in(3))
            number = (unsigned)one_of(0, 0, number ^ 1, from_to(1, 65535));
        else
            steps = (unsigned)one_of(steps - 1, steps + 1, 0, 65, 255);
    }
    return make_close(message, number, steps);
}

size_t make_message(const make_world *world, unsigned favoured, uint8_t *message) {
    const plain_slot *slot = some_open_slot(world, favoured);
    static const plain_slot nobody = {.number = 77, .voltage = 7};
    uint32_t sort = below(100);
    int wrong = one_in(3);
    size_t bytes;
    if (sort < 35)
        bytes = open_message(world, slot, wrong, message);
    else if (sort < 80)
        bytes = step_message(world, slot ? slot : &nobody, wrong, message);
    else
        bytes = close_message(slot ? slot : &nobody, wrong, message);
    if (one_in(8)) bytes = make_damage(message, bytes);
    return bytes;
}

/* ---- ledgers */

/* Up to a bound, often 0 or the bound itself. */
static uint64_t up_to(uint64_t bound) {
    uint64_t some = chance() % (bound + 1);
    return one_of(0, bound, bound, bound - (bound > 0), some, some);
}

void make_sound_ledger(plain_ledger *ledger) {
    memset(ledger, 0, sizeof *ledger);
    if (one_in(12)) return;
    ledger->sheet = 1;
    ledger->year = one_of(2000, 2008, 2009, 2099, from_to(2000, 2099), from_to(2000, 2099));
    for (int level = 0; level < PLAIN_LEVELS; level++)
        ledger->totals[level] = one_of(0, 1, PLAIN_MOST_CUSTOMERS, PLAIN_MOST_CUSTOMERS - 1, below(3000), below(PLAIN_MOST_CUSTOMERS), 450000);
    ledger->events = one_of(0, 0, 1, 65534, 65535, 65533, below(65536), below(65536), below(100));
    ledger->shorts = up_to(ledger->events);
    int small = one_in(2);
    for (int row = 0; row < PLAIN_TYPES; row++)
        for (int level = 0; level < PLAIN_LEVELS; level++) {
            uint64_t customers = ledger->events * PLAIN_MOST_CUSTOMERS, half_minutes = ledger->events * PLAIN_MOST_HALF_MINUTES;
            ledger->customers[row][level] = small && customers > 5000 ? below(5000) : up_to(customers);
            ledger->half_minutes[row][level] = small && half_minutes > 90000 ? below(90000) : up_to(half_minutes);
        }
}

/* A number above a bound: just above it, or equal to one below it in its low bits. */
static uint64_t above(uint64_t bound) {
    return one_of(bound + 1, bound + 1, bound + 1, bound + 2, UINT64_MAX, UINT64_C(1) << 63, (UINT64_C(1) << 63) + bound, (UINT64_C(1) << 32) + bound,
                  bound < 65536 ? 65536 + bound : UINT64_MAX - 1, bound < UINT32_MAX ? (UINT64_C(1) << 32) + below(bound + 1) : UINT64_MAX);
}

void make_nearly_sound_ledger(plain_ledger *ledger) {
    uint32_t row = below(PLAIN_TYPES), level = below(PLAIN_LEVELS);
    make_sound_ledger(ledger);
    if (!ledger->sheet || one_in(5)) {               /* no sheet, and one word that is not zero */
        memset(ledger, 0, sizeof *ledger);
        uint64_t *words[] = {&ledger->year, &ledger->totals[level], &ledger->events, &ledger->shorts, &ledger->customers[row][level],
                             &ledger->half_minutes[row][level]};
        *words[below(6)] = one_of(1, 2009, chance(), UINT64_C(1) << below(64));
        return;
    }
    switch (below(7)) {
    case 0: ledger->sheet = one_of(2, 2, 3, 256, 257, UINT64_C(1) << 32, (UINT64_C(1) << 32) + 1, UINT64_MAX, 0); break;
    case 1: ledger->year = one_of(1999, 2100, 0, 65536 + 2009, (UINT64_C(1) << 32) + 2009, UINT64_MAX, 2009 - 2000); break;
    case 2: ledger->totals[level] = above(PLAIN_MOST_CUSTOMERS); break;
    case 3: ledger->events = above(PLAIN_EVENTS); break;
    case 4: ledger->shorts = above(ledger->events); break;
    case 5: ledger->customers[row][level] = above(ledger->events * PLAIN_MOST_CUSTOMERS); break;
    case 6: ledger->half_minutes[row][level] = above(ledger->events * PLAIN_MOST_HALF_MINUTES); break;
    }
}

void make_any_ledger(plain_ledger *ledger) {
    uint64_t *words = (uint64_t *)ledger;
    unsigned bits = (unsigned)one_of(64, 64, 16, 1);
    for (size_t k = 0; k < sizeof *ledger / sizeof *words; k++) words[k] = chance() >> (64 - bits);
    if (one_in(2)) ledger->sheet = below(2);
}

/* ---- maps */

void make_map(uint8_t map[PLAIN_MAP_BYTES]) {
    uint32_t sort = below(8);
    memset(map, sort == 0 ? 255 : 0, PLAIN_MAP_BYTES);
    if (sort < 4) return;
    for (unsigned k = 0; k < PLAIN_MAP_BYTES; k += 8) {
        uint64_t bits = chance();
        if (sort < 7) bits &= chance() & chance();
        memcpy(map + k, &bits, 8);
    }
}

/* ---- desks */

void make_sound_slot(plain_slot *slot) {
    memset(slot, 0, sizeof *slot);
    slot->number = (uint16_t)from_to(1, 65535);
    slot->type = types[below(sizeof types)];
    slot->voltage = (uint8_t)from_to(1, 7);
    slot->cause = causes[below(sizeof causes)];
    slot->t0 = slot->last = (uint32_t)one_of(0, below(PLAIN_LONGEST_YEAR), below(PLAIN_LONGEST_YEAR), PLAIN_LONGEST_YEAR - 1, 525599, 525600);
    slot->steps = (uint8_t)one_of(0, 1, 2, 62, 63, 64, below(65));
    if (slot->steps == 0) return;
    slot->last = end_from(slot->t0);
    for (int level = 0; level <= plain_level(slot->voltage); level++) {
        slot->customers[level] = count_within(PLAIN_MOST_CUSTOMERS);
        if (one_in(2)) slot->customers[level] = below(500);
        slot->half_minutes[level] = up_to(2 * slot->customers[level] * (slot->last - slot->t0));
    }
}

static int number_there(const plain_slot *desk, const plain_slot *but) {
    for (int i = 0; i < PLAIN_SLOTS; i++)
        if (&desk[i] != but && desk[i].number == but->number) return 1;
    return 0;
}

void make_sound_desk(plain_slot desk[PLAIN_SLOTS]) {
    uint32_t sort = below(5), open_in = sort == 0 ? 1 : sort == 1 ? 30 : 2;
    memset(desk, 0, PLAIN_SLOTS * sizeof *desk);
    for (int i = 0; i < PLAIN_SLOTS; i++) {
        if (!one_in(open_in) || sort == 4) continue;
        do make_sound_slot(&desk[i]);
        while (number_there(desk, &desk[i]));
    }
}

/* An open slot with one field just outside what makes it sound. */
static void spoil_slot(plain_slot *slot) {
    int top = plain_level(slot->voltage), level = (int)below(PLAIN_LEVELS);
    switch (below(12)) {
    case 0: slot->number = 0; break;
    case 1: slot->type = (uint8_t)one_of(0, 1, 3, 10, 17, 255); break;
    case 2: slot->voltage = (uint8_t)one_of(0, 8, 255); break;
    case 3: slot->cause = (uint8_t)one_of(5, 8, 10, 15, 20, 30, 35, 40, 64, 75, 255); break;
    case 4:
        slot->t0 = (uint32_t)one_of(PLAIN_LONGEST_YEAR, PLAIN_LONGEST_YEAR + 1, UINT32_MAX);
        slot->last = slot->t0;
        break;
    case 5: slot->last = slot->t0 - 1; break;
    case 6: slot->last = (uint32_t)one_of(PLAIN_LAST_TIME + 1, UINT32_MAX); break;
    case 7: slot->steps = (uint8_t)one_of(65, 66, 128, 255); break;
    case 8: slot->customers[level] = above(PLAIN_MOST_CUSTOMERS); break;
    case 9:
        if (top < PLAIN_VVN) slot->customers[top + 1] = one_of(1, 10, UINT64_C(1) << 32);
        break;
    case 10: slot->half_minutes[level] = above(2 * slot->customers[level] * (slot->last - slot->t0)); break;
    case 11:                                         /* no step taken, and something that only a step leaves */
        slot->steps = 0;
        if (one_in(3)) break;
        memset(slot->customers, 0, sizeof slot->customers);
        memset(slot->half_minutes, 0, sizeof slot->half_minutes);
        slot->last = slot->t0 + below(2);
        if (slot->last == slot->t0) slot->customers[0] = one_of(1, PLAIN_MOST_CUSTOMERS);
        break;
    }
}

/* A free slot with one field that is not 0. */
static void spoil_free_slot(plain_slot *slot) {
    memset(slot, 0, sizeof *slot);
    switch (below(8)) {
    case 0: slot->type = (uint8_t)one_of(11, 1, 128); break;
    case 1: slot->voltage = (uint8_t)one_of(1, 7, 128); break;
    case 2: slot->cause = (uint8_t)one_of(1, 39, 128); break;
    case 3: slot->t0 = slot->last = 1; break;
    case 4: slot->last = (uint32_t)one_of(1, UINT32_C(1) << 31); break;
    case 5: slot->steps = (uint8_t)one_of(1, 64); break;
    case 6: slot->customers[below(PLAIN_LEVELS)] = UINT64_C(1) << below(64); break;
    case 7: slot->half_minutes[below(PLAIN_LEVELS)] = UINT64_C(1) << below(64); break;
    }
}

void make_nearly_sound_desk(plain_slot desk[PLAIN_SLOTS]) {
    make_sound_desk(desk);
    uint32_t i = (uint32_t)one_of(0, 31, below(PLAIN_SLOTS)), j = (i + from_to(1, PLAIN_SLOTS - 1)) % PLAIN_SLOTS;
    switch (below(4)) {
    case 0:                                          /* a number open twice */
        make_sound_slot(&desk[i]);
        make_sound_slot(&desk[j]);
        desk[j].number = desk[i].number;
        break;
    case 1: spoil_free_slot(&desk[i]); break;
    default:
        do make_sound_slot(&desk[i]);
        while (number_there(desk, &desk[i]));
        spoil_slot(&desk[i]);
        break;
    }
}

void make_any_desk(plain_slot desk[PLAIN_SLOTS]) {
    memset(desk, 0, PLAIN_SLOTS * sizeof *desk);
    for (int i = 0; i < PLAIN_SLOTS; i++) {
        if (one_in(3)) continue;
        desk[i].number = (uint16_t)chance();
        desk[i].type = (uint8_t)chance();
        desk[i].voltage = (uint8_t)chance();
        desk[i].cause = (uint8_t)chance();
        desk[i].steps = (uint8_t)chance();
        desk[i].t0 = (uint32_t)chance();
        desk[i].last = (uint32_t)chance();
        for (int level = 0; level < PLAIN_LEVELS; level++) {
            desk[i].customers[level] = chance() >> one_of(0, 40);
            desk[i].half_minutes[level] = chance() >> one_of(0, 20);
        }
    }
}
