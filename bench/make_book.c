/* make_book simple|stepped EVENTS: a book of so many simple events, or of stepped ones of 56 to 64 steps, on standard output. The same each time. */
#include <stdint.h>
#include <stdio.h>
#include <stdlib.h>
#include <string.h>

static uint64_t seed = 20091117;

static uint32_t below(uint32_t n) {
  seed = seed * 6364136223846793005ull + 1442695040888963407ull;
  return (uint32_t)((seed >> 33) % n);
}

static uint8_t record[1100];
static size_t size;

static void put(uint32_t x, int bytes) {
  for (int i = 0; i < bytes; i++) record[size++] = (uint8_t)(x >> (8 * i));
}

static void counts(int level, uint32_t nn, uint32_t vn, uint32_t vvn) {
  put(nn, 4);
  put(level >= 1 ? vn : 0, 4);
  put(level >= 2 ? vvn : 0, 4);
}

static int head(uint32_t length, int kind, uint32_t number, uint32_t t0) {
  static const uint8_t types[] = {11, 12, 13, 14, 15, 16, 2};
  static const uint8_t causes[6] = {0, 1, 12, 24, 33, 39};
  int voltage = 1 + below(7);
  size = 0;
  put(length, 2);
  put(kind, 2);
  put(number, 2);
  put(types[below(sizeof types)], 1);
  put(voltage, 1);
  put(causes[below(6)], 1);
  put(t0, 4);
  return voltage == 1 ? 0 : voltage == 7 ? 2 : 1;
}

int main(int argc, char **argv) {
  if (argc != 3) return 2;
  int stepped = strcmp(argv[1], "stepped") == 0;
  uint32_t events = (uint32_t)atoi(argv[2]);
  put(18, 2);
  put(1, 2);
  put(2009, 2);
  counts(2, 450000, 1000, 20);
  fwrite(record, 1, size, stdout);
  for (uint32_t number = 1; number <= events; number++) {
    uint32_t t = below(500000);
    if (stepped) {
      uint32_t steps = 56 + below(9);
      int level = head(14 + 16 * steps, 3, number, t);
      put(steps, 1);
      for (uint32_t k = 0; k < steps; k++) {
        t += below(30);
        put(t, 4);
        counts(level, below(450001), below(1001), below(21));
      }
    } else {
      int level = head(53, 2, number, t);
      uint32_t t1 = t + (record[6] == 2 ? 0 : below(30)), t2 = t1 + below(120), t3 = t2 + below(240);
      put(t1, 4);
      put(t2, 4);
      put(t3, 4);
      put(t3, 4);
      counts(level, 1 + below(5000), 1 + below(100), 1 + below(20));
      counts(level, below(5000), below(100), below(20));
    }
    fwrite(record, 1, size, stdout);
  }
  return 0;
}
