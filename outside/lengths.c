/* A desk that is not told as 32 slots is refused with 1 before a slot is looked at, whatever its memory: none of it may be read here, or all but the 32 slots
   that end where the readable memory ends. A slot that is read or written all the same ends the program with a fault. */
#define _DEFAULT_SOURCE
#include <inttypes.h>
#include <stdio.h>
#include <stdlib.h>
#include <string.h>
#include <sys/mman.h>
#include <unistd.h>

#include "temelyak.h"

static temelyak_ledger ledger, ledger_before;
static uint8_t map[TEMELYAK_MAP_BYTES], map_before[TEMELYAK_MAP_BYTES];
static const uint8_t sheet[18] = {18, 0, 1, 0, 217, 7, 232, 3, 0, 0, 10, 0, 0, 0, 1, 0, 0, 0};
/* open 5, step 1 of 5, close of 5 */
static const uint8_t opening[13] = {13, 0, 16, 0, 5, 0, 11, 1, 0, 100, 0, 0, 0};
static const uint8_t step[23] = {23, 0, 17, 0, 5, 0, 1, 130, 0, 0, 0, 50, 0, 0, 0};
static const uint8_t closing[7] = {7, 0, 18, 0, 5, 0, 1};
static unsigned calls;

static void fail(const char *what, uint64_t is) {
    printf("lengths: %s: %" PRIu64 "\n", what, is);
    exit(1);
}

static uint32_t serve(temelyak_slot *desk, size_t slots, const uint8_t *message, size_t bytes) {
    calls++;
    return temelyak_serve(TEMELYAK_HEADER, temelyak_words(&ledger), TEMELYAK_LEDGER_WORDS, map, sizeof map, desk, slots, message, bytes);
}

static void refused(temelyak_slot *desk, size_t slots, const uint8_t *message, size_t bytes) {
    memcpy(&ledger_before, &ledger, sizeof ledger);
    memcpy(map_before, map, sizeof map);
    if (serve(desk, slots, message, bytes) != TEMELYAK_REFUSED_UNSOUND) fail("not refused with 1, slots told", slots);
    if (memcmp(&ledger_before, &ledger, sizeof ledger) != 0) fail("the ledger was changed, slots told", slots);
    if (memcmp(map_before, map, sizeof map) != 0) fail("the map was changed, slots told", slots);
}

static void served(temelyak_slot *desk, const uint8_t *message, size_t bytes) {
    uint32_t answer = serve(desk, TEMELYAK_SLOTS, message, bytes);
    if (answer != 0) fail("32 slots are refused, with", answer);
}

/* Every length but 32, of memory that may not be read there. */
static void lengths(temelyak_slot *desk) {
    static const size_t told[] = {0, 1, 31, 33, 64, 10000000, SIZE_MAX / TEMELYAK_SLOT_BYTES};
    for (size_t i = 0; i < sizeof told / sizeof *told; i++) {
        refused(desk, told[i], opening, sizeof opening);
        refused(desk, told[i], step, sizeof step);
        refused(desk, told[i], closing, sizeof closing);
        refused(desk, told[i], opening, 0);
    }
}

int main(void) {
    size_t page = (size_t)sysconf(_SC_PAGESIZE);
    uint8_t *memory = (uint8_t *)mmap(NULL, 2 * page, PROT_READ | PROT_WRITE, MAP_PRIVATE | MAP_ANONYMOUS, -1, 0);
    temelyak_slot *last, *none;
    if (memory == MAP_FAILED || mprotect(memory + page, page, PROT_NONE) != 0) fail("no memory that may not be read", page);
    last = (temelyak_slot *)(void *)(memory + page - TEMELYAK_SLOTS * sizeof(temelyak_slot));
    none = (temelyak_slot *)(void *)(memory + page);
    if (temelyak_empty(TEMELYAK_HEADER, temelyak_words(&ledger), TEMELYAK_LEDGER_WORDS) != 0) fail("an empty ledger", 0);
    if (temelyak_take(TEMELYAK_HEADER, temelyak_words(&ledger), TEMELYAK_LEDGER_WORDS, map, sizeof map, sheet, sizeof sheet) != 0) fail("a sheet", 0);
    lengths(none);
    lengths(last);
    /* the same messages at 32 slots, with the other lengths in between */
    served(last, opening, sizeof opening);
    lengths(last);
    served(last, step, sizeof step);
    lengths(last);
    served(last, closing, sizeof closing);
    lengths(last);
    printf("desks told as 0, 1, 31, 33, 64, 10,000,000 and SIZE_MAX / 72 slots are refused with no slot looked at, in %u calls\n", calls);
    return 0;
}
