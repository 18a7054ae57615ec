/* A day at the outage desk, from C: a year sheet, three outages that are opened, stepped and closed, and the year's indices.
 *
 *   cc -I include examples/desk.c target/staticlib/libtemelyak.a -o desk && ./desk
 *
 * examples/desk.stdout has what it prints.
 */
#include <inttypes.h>
#include <stdio.h>

#include "temelyak.h"

/* What the library is lent: the ledger, the map of used event numbers and the desk. Zeros are a good start for all three. */
static temelyak_ledger ledger;
static uint8_t map[TEMELYAK_MAP_BYTES];
static temelyak_slot desk[TEMELYAK_SLOTS];

/* ---- messages: little-endian, beginning with their length and kind */

static uint8_t message[64];
static size_t size;

static void put(uint32_t number, int bytes)
{
    for (; bytes > 0; bytes--) {
        message[size++] = (uint8_t)number;
        number >>= 8;
    }
}

static void begin(unsigned length, unsigned kind)
{
    size = 0;
    put(length, 2);
    put(kind, 2);
}

/* ---- calls */

static uint32_t year_sheet(unsigned year, uint32_t nn, uint32_t vn, uint32_t vvn)
{
    begin(18, 1);
    put(year, 2);
    put(nn, 4);
    put(vn, 4);
    put(vvn, 4);
    return temelyak_take(TEMELYAK_HEADER, temelyak_words(&ledger), TEMELYAK_LEDGER_WORDS, map, sizeof map, message, size);
}

static uint32_t serve(void)
{
    return temelyak_serve(TEMELYAK_HEADER, temelyak_words(&ledger), TEMELYAK_LEDGER_WORDS, map, sizeof map, desk, TEMELYAK_SLOTS, message, size);
}

static uint32_t open_outage(unsigned number, unsigned type, unsigned voltage, unsigned cause, uint32_t t0)
{
    begin(13, 16);
    put(number, 2);
    put(type, 1);
    put(voltage, 1);
    put(cause, 1);
    put(t0, 4);
    return serve();
}

/* The counts held from the time before up to this one. */
static uint32_t step(unsigned number, unsigned ordinal, uint32_t time, uint32_t nn, uint32_t vn, uint32_t vvn)
{
    begin(23, 17);
    put(number, 2);
    put(ordinal, 1);
    put(time, 4);
    put(nn, 4);
    put(vn, 4);
    put(vvn, 4);
    return serve();
}

static uint32_t close_outage(unsigned number, unsigned steps)
{
    begin(7, 18);
    put(number, 2);
    put(steps, 1);
    return serve();
}

/* ---- figures */

static void print_index(const char *name, uint32_t index, uint32_t level, uint32_t set)
{
    temelyak_fraction exact;
    temelyak_decimal_parts rounded;
    uint64_t *words = temelyak_words(&ledger);

    if (temelyak_index(TEMELYAK_HEADER, words, TEMELYAK_LEDGER_WORDS, index, level, set, temelyak_words(&exact), 2) != TEMELYAK_ACCEPTED
        || temelyak_decimal(TEMELYAK_HEADER, words, TEMELYAK_LEDGER_WORDS, index, level, set, 2, temelyak_words(&rounded), 2) != TEMELYAK_ACCEPTED) {
        printf("  %s -", name);
        return;
    }
    printf("  %s %" PRIu64 "/%" PRIu64 " = %" PRIu64 ".%02" PRIu64, name, exact.top, exact.bottom, rounded.whole, rounded.digits);
}

static void print_level(const char *name, uint32_t level, uint32_t set)
{
    printf("%s", name);
    print_index("SAIFI", TEMELYAK_SAIFI, level, set);
    print_index("SAIDI", TEMELYAK_SAIDI, level, set);
    print_index("CAIDI", TEMELYAK_CAIDI, level, set);
    printf("\n");
}

static void say(const char *what, uint32_t answer)
{
    if (answer == TEMELYAK_ACCEPTED)
        printf("%s: accepted\n", what);
    else
        printf("%s: refused, %" PRIu32 "\n", what, answer);
}

int main(void)
{
    say("year sheet 2009", year_sheet(2009, 1000, 10, 1));

    /* outage 101: a fault (type 11) on VN (voltage 5) at minute 600; outage 102: planned (type 2) on NN (voltage 1) at minute 620; outage 103: no supply
     * from the transmission network (type 13, which the compliance figures leave out) on VVN (voltage 7) at minute 700 */
    say("open 101", open_outage(101, 11, 5, 24, 600));
    say("open 102", open_outage(102, 2, 1, 0, 620));
    say("step 1 of 101", step(101, 1, 630, 800, 8, 0));
    say("step 1 of 102", step(102, 1, 740, 50, 0, 0));
    say("step 2 of 101", step(101, 2, 660, 200, 0, 0));
    say("close 101", close_outage(101, 2));
    say("step 3 of 101, late", step(101, 3, 665, 10, 0, 0));
    say("close 102", close_outage(102, 1));
    say("open 103", open_outage(103, 13, 7, 0, 700));
    say("step 1 of 103", step(103, 1, 705, 1000, 10, 1));
    say("close 103", close_outage(103, 1));

    printf("events %" PRIu64 ", short %" PRIu64 "\n", ledger.events, ledger.short_events);
    print_level("NN, all", TEMELYAK_NN, TEMELYAK_SET_ALL);
    print_level("VN, all", TEMELYAK_VN, TEMELYAK_SET_ALL);
    print_level("VVN, all", TEMELYAK_VVN, TEMELYAK_SET_ALL);
    print_level("network, all", TEMELYAK_NETWORK, TEMELYAK_SET_ALL);
    print_level("NN, std", TEMELYAK_NN, TEMELYAK_SET_STD);
    print_level("VN, std", TEMELYAK_VN, TEMELYAK_SET_STD);
    print_level("VVN, std", TEMELYAK_VVN, TEMELYAK_SET_STD);
    print_level("network, std", TEMELYAK_NETWORK, TEMELYAK_SET_STD);
    /* a request that names no set means std */
    print_level("network, no set named", TEMELYAK_NETWORK, TEMELYAK_SET_UNNAMED);
    return 0;
}
