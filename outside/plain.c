/* The rules of document 01 in ordinary C: see plain.h. */
#include "plain.h"

#include <inttypes.h>
#include <stdio.h>
#include <string.h>

/* ---- numbers on the wire: unsigned, little-endian */

static inline uint32_t two(const uint8_t *at) { return (uint32_t)at[0] | (uint32_t)at[1] << 8; }

static inline uint32_t four(const uint8_t *at) { return two(at) | two(at + 2) << 16; }

static inline void three_counts(const uint8_t *at, uint32_t counts[PLAIN_LEVELS]) {
    for (int level = 0; level < PLAIN_LEVELS; level++) counts[level] = four(at + 4 * level);
}

/* ---- codes */

static inline int row_of(unsigned type) { return type >= 11 && type <= 16 ? (int)type - 11 : type == 2 ? 6 : -1; }

static inline int level_of(unsigned voltage) {
    static const int8_t levels[] = {-1, PLAIN_NN, PLAIN_VN, PLAIN_VN, PLAIN_VN, PLAIN_VN, PLAIN_VN, PLAIN_VVN};
    return voltage < sizeof levels ? levels[voltage] : -1;
}

#define BIT(code) (UINT64_C(1) << (code))

static inline int cause_listed(unsigned cause) {
    static const uint64_t listed = BIT(0) | BIT(1) | BIT(2) | BIT(3) | BIT(4) | BIT(9) | BIT(11) | BIT(12) | BIT(13) | BIT(14) | BIT(19) | BIT(21) | BIT(22)
                                 | BIT(23) | BIT(24) | BIT(25) | BIT(26) | BIT(29) | BIT(31) | BIT(32) | BIT(33) | BIT(34) | BIT(39);
    return cause < 64 && (listed >> cause & 1);
}

int plain_row(unsigned type) { return row_of(type); }

int plain_level(unsigned voltage) { return level_of(voltage); }

int plain_cause_listed(unsigned cause) { return cause_listed(cause); }

static inline uint32_t minutes_of(uint64_t year) { return year % 4 == 0 ? PLAIN_LONGEST_YEAR : 525600; }

uint32_t plain_minutes(unsigned year) { return minutes_of(year); }

/* ---- soundness */

static int all_zero(const plain_ledger *ledger) {
    uint64_t any = ledger->sheet | ledger->year | ledger->events | ledger->shorts;
    for (int level = 0; level < PLAIN_LEVELS; level++) any |= ledger->totals[level];
    for (int row = 0; row < PLAIN_TYPES; row++)
        for (int level = 0; level < PLAIN_LEVELS; level++) any |= ledger->customers[row][level] | ledger->half_minutes[row][level];
    return any == 0;
}

/* No bound reaches the highest bit, so a number is above its bound just where that bit is set in it or in the difference. */
static inline uint64_t over(uint64_t number, uint64_t bound) { return number | (bound - number); }

int plain_ledger_sound(const plain_ledger *ledger) {
    if (ledger->sheet == 0) return all_zero(ledger);
    if (ledger->sheet != 1 || ledger->year < PLAIN_FIRST_YEAR || ledger->year > PLAIN_LAST_YEAR) return 0;
    if (ledger->events > PLAIN_EVENTS || ledger->shorts > ledger->events) return 0;
    uint64_t customers = ledger->events * PLAIN_MOST_CUSTOMERS, half_minutes = ledger->events * PLAIN_MOST_HALF_MINUTES, high = 0;
    for (int level = 0; level < PLAIN_LEVELS; level++) high |= over(ledger->totals[level], PLAIN_MOST_CUSTOMERS);
    for (int row = 0; row < PLAIN_TYPES; row++)
        for (int level = 0; level < PLAIN_LEVELS; level++)
            high |= over(ledger->customers[row][level], customers) | over(ledger->half_minutes[row][level], half_minutes);
    return high >> 63 == 0;
}

static inline int slot_free(const plain_slot *slot) {
    uint64_t any = slot->number | slot->type | slot->voltage | slot->cause | slot->steps | slot->t0 | slot->last;
    for (int level = 0; level < PLAIN_LEVELS; level++) any |= slot->customers[level] | slot->half_minutes[level];
    return any == 0;
}

/* Every test is made, whatever the others say: a desk's slots differ, and a processor guesses branches on them wrong. */
static inline int open_slot_sound(const plain_slot *slot) {
    int top = level_of(slot->voltage);
    uint32_t minutes = slot->last - slot->t0;
    unsigned bad = (slot->number == 0) | (row_of(slot->type) < 0) | (top < 0) | !cause_listed(slot->cause);
    bad |= (slot->t0 >= PLAIN_LONGEST_YEAR) | (slot->last < slot->t0) | (slot->last > PLAIN_LAST_TIME);
    bad |= (slot->steps > PLAIN_STEPS) | ((slot->steps == 0) & (minutes != 0));
    for (int level = 0; level < PLAIN_LEVELS; level++) {
        uint64_t largest = slot->customers[level], most = PLAIN_MOST_CUSTOMERS * (uint64_t)((level <= top) & (slot->steps != 0));
        bad |= (largest > most) | (slot->half_minutes[level] > 2 * largest * minutes);
    }
    return !bad;
}

int plain_slot_sound(const plain_slot *slot) { return slot->number == 0 ? slot_free(slot) : open_slot_sound(slot); }

/* Open numbers differ: a number is compared with those before it only where one of them is equal modulo 64. */
int plain_desk_sound(const plain_slot *desk, size_t slots) {
    if (slots != PLAIN_SLOTS) return 0;
    uint64_t seen = 0;
    for (int i = 0; i < PLAIN_SLOTS; i++) {
        if (desk[i].number == 0) {
            if (!slot_free(&desk[i])) return 0;
            continue;
        }
        if (!open_slot_sound(&desk[i])) return 0;
        if (seen & BIT(desk[i].number % 64))
            for (int j = 0; j < i; j++)
                if (desk[j].number == desk[i].number) return 0;
        seen |= BIT(desk[i].number % 64);
    }
    return 1;
}

/* ---- the map of used numbers */

static inline int is_marked(const uint8_t *map, unsigned number) { return map[number / 8] >> number % 8 & 1; }

static inline void mark(uint8_t *map, unsigned number) { map[number / 8] = (uint8_t)(map[number / 8] | 1u << number % 8); }

/* ---- what an event adds */

struct event {
    unsigned number, type;
    int row, level;
    uint32_t t0, end;                                /* end is T3, or the last step's time */
    uint64_t customers[PLAIN_LEVELS], half_minutes[PLAIN_LEVELS];
};

static inline void add(plain_ledger *ledger, const struct event *event) {
    ledger->events++;
    if (event->end - event->t0 <= PLAIN_SHORT) {
        ledger->shorts++;
        return;
    }
    for (int level = 0; level < PLAIN_LEVELS; level++) {
        ledger->customers[event->row][level] += event->customers[level];
        ledger->half_minutes[event->row][level] += event->half_minutes[level];
    }
}

/* Number, type, voltage, cause and T0, which stand in the same place of an event and of an opening. */
static inline unsigned read_head(const plain_ledger *ledger, const uint8_t *record, struct event *event) {
    event->number = two(record + 4);
    event->type = record[6];
    event->row = row_of(event->type);
    event->level = level_of(record[7]);
    event->t0 = four(record + 9);
    if (event->number == 0 || event->row < 0 || event->level < 0 || !cause_listed(record[8])) return 7;
    if (event->t0 >= minutes_of(ledger->year)) return 10;
    return 0;
}

static inline unsigned read_simple(const plain_ledger *ledger, const uint8_t *record, struct event *event) {
    uint32_t t0 = event->t0, t1 = four(record + 13), t2 = four(record + 17), t3 = four(record + 21), t4 = four(record + 25);
    if (t1 < t0 || t2 < t1 || t3 < t2 || t3 > PLAIN_LAST_TIME || t4 < t0 || t4 > PLAIN_LAST_TIME) return 10;
    if (event->type == 2 && t1 != t0) return 10;
    uint32_t n1[PLAIN_LEVELS], n2[PLAIN_LEVELS];
    three_counts(record + 29, n1);
    three_counts(record + 41, n2);
    for (int level = 0; level < PLAIN_LEVELS; level++)
        if (n1[level] > ledger->totals[level] || n2[level] > ledger->totals[level]) return 11;
    for (int level = event->level + 1; level < PLAIN_LEVELS; level++)
        if ((n1[level] | n2[level]) != 0) return 12;
    for (int level = 0; level < PLAIN_LEVELS; level++)
        if (n1[level] == 0 && n2[level] != 0) return 13;
    for (int level = 0; level < PLAIN_LEVELS; level++) {
        uint64_t first = n1[level], second = n2[level];
        event->customers[level] = first;
        event->half_minutes[level] = 2 * first * (t1 - t0) + (first + second) * (t2 - t1) + 2 * second * (t3 - t2);
    }
    event->end = t3;
    return 0;
}

/* One step: its counts hold from the time before it to its own. The event's end is the last step's time so far. */
static inline void add_step(struct event *event, uint32_t time, const uint32_t counts[PLAIN_LEVELS]) {
    uint64_t half_minutes = 2 * (uint64_t)(time - event->end);
    for (int level = 0; level < PLAIN_LEVELS; level++) {
        if (counts[level] > event->customers[level]) event->customers[level] = counts[level];
        event->half_minutes[level] += counts[level] * half_minutes;
    }
    event->end = time;
}

/* Some step's count is above its level's customers, or above 0, just where the largest is. */
static inline unsigned read_steps(const plain_ledger *ledger, const uint8_t *record, unsigned steps, struct event *event) {
    const uint8_t *step = record + PLAIN_STEPPED_BYTES;
    event->end = event->t0;
    for (int level = 0; level < PLAIN_LEVELS; level++) event->customers[level] = event->half_minutes[level] = 0;
    for (unsigned k = 0; k < steps; k++, step += PLAIN_ONE_STEP_BYTES) {
        uint32_t time = four(step), counts[PLAIN_LEVELS];
        if (time < event->end || time > PLAIN_LAST_TIME) return 10;
        three_counts(step + 4, counts);
        add_step(event, time, counts);
    }
    for (int level = 0; level < PLAIN_LEVELS; level++)
        if (event->customers[level] > ledger->totals[level]) return 11;
    for (int level = event->level + 1; level < PLAIN_LEVELS; level++)
        if (event->customers[level] != 0) return 12;
    return 0;
}

/* ---- the book entry */

static unsigned take_sheet(plain_ledger *ledger, const uint8_t *record, size_t bytes) {
    if (bytes != PLAIN_SHEET_BYTES) return 4;
    if (ledger->sheet) return 5;
    uint32_t year = two(record + 4), totals[PLAIN_LEVELS];
    three_counts(record + 6, totals);
    if (year < PLAIN_FIRST_YEAR || year > PLAIN_LAST_YEAR) return 6;
    for (int level = 0; level < PLAIN_LEVELS; level++)
        if (totals[level] > PLAIN_MOST_CUSTOMERS) return 6;
    ledger->sheet = 1;
    ledger->year = year;
    for (int level = 0; level < PLAIN_LEVELS; level++) ledger->totals[level] = totals[level];
    return 0;
}

static inline unsigned take_event(plain_ledger *ledger, uint8_t *map, const uint8_t *record, size_t bytes, unsigned kind) {
    unsigned steps = 0, answer;
    if (kind == PLAIN_SIMPLE) {
        if (bytes != PLAIN_SIMPLE_BYTES) return 4;
    } else {
        if (bytes < PLAIN_STEPPED_BYTES) return 4;
        steps = record[13];
        if (steps < 1 || steps > PLAIN_STEPS || bytes != PLAIN_STEPPED_BYTES + PLAIN_ONE_STEP_BYTES * steps) return 4;
    }
    if (!ledger->sheet) return 5;
    struct event event;
    answer = read_head(ledger, record, &event);
    if (answer) return answer;
    answer = kind == PLAIN_SIMPLE ? read_simple(ledger, record, &event) : read_steps(ledger, record, steps, &event);
    if (answer) return answer;
    if (is_marked(map, event.number)) return 14;
    if (ledger->events >= PLAIN_EVENTS) return 15;
    mark(map, event.number);
    add(ledger, &event);
    return 0;
}

static inline unsigned take_record(plain_ledger *ledger, uint8_t *map, const uint8_t *record, size_t bytes) {
    if (bytes < 4 || two(record) != bytes) return 2;
    unsigned kind = two(record + 2);
    if (kind == PLAIN_SIMPLE || kind == PLAIN_STEPPED) return take_event(ledger, map, record, bytes, kind);
    return kind == PLAIN_SHEET ? take_sheet(ledger, record, bytes) : 3;
}

unsigned plain_take(plain_ledger *ledger, uint8_t *map, size_t map_bytes, const uint8_t *record, size_t bytes) {
    if (map_bytes != PLAIN_MAP_BYTES || !plain_ledger_sound(ledger)) return 1;
    return take_record(ledger, map, record, bytes);
}

unsigned plain_take_book(plain_ledger *ledger, uint8_t *map, size_t map_bytes, const uint8_t *book, size_t bytes, plain_read *read) {
    if (map_bytes != PLAIN_MAP_BYTES || !plain_ledger_sound(ledger)) return 1;
    uint64_t refused = 0, broken = 0;
    for (size_t at = 0; at < bytes;) {
        size_t left = bytes - at, length = left < 4 ? 0 : two(book + at);
        if (length < 4 || length > left) {
            refused++;
            broken = 1;
            break;
        }
        if (take_record(ledger, map, book + at, length)) refused++;
        at += length;
    }
    read->refused = refused;
    read->broken = broken;
    return 0;
}

/* ---- the desk entry */

static plain_slot *find(plain_slot *desk, unsigned number) {
    for (int i = 0; i < PLAIN_SLOTS; i++)
        if (desk[i].number == number) return &desk[i];
    return NULL;
}

static unsigned serve_open(const plain_ledger *ledger, uint8_t *map, plain_slot *desk, const uint8_t *message) {
    struct event event;
    unsigned answer = read_head(ledger, message, &event);
    if (answer) return answer;
    if (is_marked(map, event.number) || find(desk, event.number)) return 14;
    plain_slot *slot = find(desk, 0);
    if (!slot) return 16;
    slot->number = (uint16_t)event.number;
    slot->type = message[6];
    slot->voltage = message[7];
    slot->cause = message[8];
    slot->t0 = slot->last = event.t0;
    mark(map, event.number);
    return 0;
}

static unsigned serve_step(const plain_ledger *ledger, plain_slot *slot, const uint8_t *message) {
    unsigned ordinal = message[6];
    uint32_t time = four(message + 7), counts[PLAIN_LEVELS];
    if (ordinal != slot->steps + 1u || ordinal > PLAIN_STEPS) return 9;
    if (time < slot->last || time > PLAIN_LAST_TIME) return 10;
    three_counts(message + 11, counts);
    for (int level = 0; level < PLAIN_LEVELS; level++)
        if (counts[level] > ledger->totals[level]) return 11;
    for (int level = level_of(slot->voltage) + 1; level < PLAIN_LEVELS; level++)
        if (counts[level] != 0) return 12;
    uint64_t half_minutes = 2 * (uint64_t)(time - slot->last);
    for (int level = 0; level < PLAIN_LEVELS; level++) {
        if (counts[level] > slot->customers[level]) slot->customers[level] = counts[level];
        slot->half_minutes[level] += counts[level] * half_minutes;
    }
    slot->last = time;
    slot->steps++;
    return 0;
}

static unsigned serve_close(plain_ledger *ledger, plain_slot *slot, const uint8_t *message) {
    if (message[6] == 0 || message[6] != slot->steps) return 9;
    if (ledger->events >= PLAIN_EVENTS) return 15;
    struct event event;
    event.row = row_of(slot->type);
    event.t0 = slot->t0;
    event.end = slot->last;
    memcpy(event.customers, slot->customers, sizeof event.customers);
    memcpy(event.half_minutes, slot->half_minutes, sizeof event.half_minutes);
    add(ledger, &event);
    memset(slot, 0, sizeof *slot);
    return 0;
}

unsigned plain_serve(plain_ledger *ledger, uint8_t *map, size_t map_bytes, plain_slot *desk, size_t slots, const uint8_t *message, size_t bytes) {
    if (map_bytes != PLAIN_MAP_BYTES || !plain_ledger_sound(ledger) || !plain_desk_sound(desk, slots)) return 1;
    if (bytes < 4 || two(message) != bytes) return 2;
    unsigned kind = two(message + 2);
    if (kind != PLAIN_OPEN && kind != PLAIN_STEP && kind != PLAIN_CLOSE) return 3;
    if (bytes != (kind == PLAIN_OPEN ? PLAIN_OPEN_BYTES : kind == PLAIN_STEP ? PLAIN_STEP_BYTES : PLAIN_CLOSE_BYTES)) return 4;
    if (!ledger->sheet) return 5;
    if (kind == PLAIN_OPEN) return serve_open(ledger, map, desk, message);
    unsigned number = two(message + 4);
    if (number == 0) return 7;
    plain_slot *slot = find(desk, number);
    if (!slot) return 8;
    return kind == PLAIN_STEP ? serve_step(ledger, slot, message) : serve_close(ledger, slot, message);
}

/* ---- figures */

static uint64_t common_divisor(uint64_t a, uint64_t b) {
    while (b != 0) {
        uint64_t rest = a % b;
        a = b;
        b = rest;
    }
    return a;
}

/* An index as its formula has it, not in lowest terms yet. The largest sum is 21 x 65,535 x 12,000,000,000,000, which fits. */
static plain_fraction formula(const plain_ledger *ledger, int index, int level, int set) {
    int from = level == PLAIN_NETWORK ? PLAIN_NN : level, to = level == PLAIN_NETWORK ? PLAIN_VVN : level;
    uint64_t total = 0, customers = 0, half_minutes = 0;
    for (int h = from; h <= to; h++) {
        total += ledger->totals[h];
        for (int row = 0; row < PLAIN_TYPES; row++) {
            if (set == PLAIN_STD && row != row_of(11) && row != row_of(12) && row != row_of(2)) continue;
            customers += ledger->customers[row][h];
            half_minutes += ledger->half_minutes[row][h];
        }
    }
    plain_fraction fraction;
    fraction.top = index == PLAIN_SAIFI ? customers : half_minutes;
    fraction.bottom = index == PLAIN_SAIFI ? total : index == PLAIN_SAIDI ? 2 * total : 2 * customers;
    return fraction;
}

unsigned plain_index(const plain_ledger *ledger, int index, int level, int set, plain_fraction *fraction) {
    if (!plain_ledger_sound(ledger)) return 1;
    if (!ledger->sheet) return 5;
    plain_fraction whole = formula(ledger, index, level, set);
    if (whole.bottom == 0) return 17;
    uint64_t divisor = common_divisor(whole.top, whole.bottom);
    fraction->top = whole.top / divisor;
    fraction->bottom = whole.bottom / divisor;
    return 0;
}

__extension__ typedef unsigned __int128 wide;

/* The nearest with so many digits, a tie upward: the floor of the fraction and a half of its last digit. */
unsigned plain_round(plain_fraction fraction, unsigned digits, plain_decimal *decimal) {
    if (fraction.bottom == 0) return 17;
    if (digits > PLAIN_DIGITS) return 18;
    uint64_t unit = 1;
    for (unsigned k = 0; k < digits; k++) unit *= 10;
    wide twice = (wide)fraction.top * unit * 2 + fraction.bottom;
    wide rounded = twice / ((wide)fraction.bottom * 2);
    decimal->whole = (uint64_t)(rounded / unit);
    decimal->digits = (uint64_t)(rounded % unit);
    return 0;
}

unsigned plain_index_decimal(const plain_ledger *ledger, int index, int level, int set, unsigned digits, plain_decimal *decimal) {
    plain_fraction fraction;
    unsigned answer = plain_index(ledger, index, level, set, &fraction);
    return answer ? answer : plain_round(fraction, digits, decimal);
}

/* ---- the year report */

static size_t figure(const plain_ledger *ledger, int index, int level, int set, char *text) {
    plain_decimal decimal;                           /* of a sound ledger with a sheet: 17 is the only refusal left */
    if (plain_index_decimal(ledger, index, level, set, 2, &decimal) != 0) return (size_t)sprintf(text, " -");
    return (size_t)sprintf(text, " %" PRIu64 ".%02" PRIu64, decimal.whole, decimal.digits);
}

size_t plain_report(const plain_ledger *ledger, uint64_t refused, char text[PLAIN_TEXT]) {
    static const char *const levels[] = {"NN", "VN", "VVN", "SYS"}, *const sets[] = {"all", "std"};
    size_t size = 0;
    if (!plain_ledger_sound(ledger)) return 0;
    size += (size_t)sprintf(text, "year ");
    size += (size_t)(ledger->sheet ? sprintf(text + size, "%" PRIu64, ledger->year) : sprintf(text + size, "-"));
    size += (size_t)sprintf(text + size, " events %" PRIu64 " short %" PRIu64 " refused %" PRIu64 "\n", ledger->events, ledger->shorts, refused);
    if (!ledger->sheet) return size;
    for (int set = 0; set < PLAIN_SETS; set++)
        for (int level = 0; level <= PLAIN_NETWORK; level++) {
            size += (size_t)sprintf(text + size, "%s %s", levels[level], sets[set]);
            for (int index = 0; index < PLAIN_INDICES; index++) size += figure(ledger, index, level, set, text + size);
            size += (size_t)sprintf(text + size, "\n");
        }
    return size;
}
