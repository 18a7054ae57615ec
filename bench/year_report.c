/* The year report of document 01 in plain C, written from the document alone: the measure that the proved program is held to.
   One book on standard input, the report on standard output. */
#include <stdint.h>
#include <stdio.h>
#include <string.h>
#include <unistd.h>

typedef struct {
  int there;
  unsigned year;
  uint32_t total[3];
  unsigned events, shorts;
  uint64_t customers[7][3], halves[7][3];
} ledger;

static unsigned u16(const uint8_t *p) { return p[0] | p[1] << 8; }

static uint32_t u32(const uint8_t *p) { return p[0] | p[1] << 8 | p[2] << 16 | (uint32_t)p[3] << 24; }

static int row_of(int type) {
  switch (type) {
  case 11: return 0;
  case 12: return 1;
  case 13: return 2;
  case 14: return 3;
  case 15: return 4;
  case 16: return 5;
  case 2: return 6;
  }
  return -1;
}

static int is_cause(int cause) {
  switch (cause) {
  case 0: case 1: case 2: case 3: case 4: case 9: case 11: case 12: case 13: case 14: case 19: case 21: case 22:
  case 23: case 24: case 25: case 26: case 29: case 31: case 32: case 33: case 34: case 39:
    return 1;
  }
  return 0;
}

static int level_of(int voltage) { return voltage == 1 ? 0 : voltage >= 2 && voltage <= 6 ? 1 : voltage == 7 ? 2 : -1; }

static int take_sheet(ledger *l, const uint8_t *r, size_t n) {
  if (n != 18) return 4;
  if (l->there) return 5;
  unsigned year = u16(r + 4);
  if (year < 2000 || year > 2099) return 6;
  for (int h = 0; h < 3; h++)
    if (u32(r + 6 + 4 * h) > 10000000) return 6;
  l->there = 1;
  l->year = year;
  for (int h = 0; h < 3; h++) l->total[h] = u32(r + 6 + 4 * h);
  return 0;
}

/* The answer number; 0 for an accepted record. */
static int take(ledger *l, uint8_t *map, const uint8_t *r, size_t n) {
  if (n < 4 || u16(r) != n) return 2;
  unsigned kind = u16(r + 2), steps = 0;
  if (kind < 1 || kind > 3) return 3;
  if (kind == 1) return take_sheet(l, r, n);
  if (kind == 2) {
    if (n != 53) return 4;
  } else {
    if (n < 14) return 4;
    steps = r[13];
    if (steps < 1 || steps > 64 || n != 14 + 16 * steps) return 4;
  }
  if (!l->there) return 5;
  unsigned number = u16(r + 4);
  int row = row_of(r[6]), level = level_of(r[7]);
  if (number == 0 || row < 0 || level < 0 || !is_cause(r[8])) return 7;
  uint32_t t0 = u32(r + 9), end;
  if (t0 >= (l->year % 4 == 0 ? 527040u : 525600u)) return 10;
  uint64_t customers[3] = {0, 0, 0}, halves[3] = {0, 0, 0};
  if (kind == 2) {
    uint32_t t1 = u32(r + 13), t2 = u32(r + 17), t3 = u32(r + 21), t4 = u32(r + 25), a[3], b[3];
    if (t1 < t0 || t2 < t1 || t3 < t2 || t3 > 600000 || t4 < t0 || t4 > 600000 || (r[6] == 2 && t1 != t0)) return 10;
    for (int h = 0; h < 3; h++) {
      a[h] = u32(r + 29 + 4 * h);
      b[h] = u32(r + 41 + 4 * h);
    }
    for (int h = 0; h < 3; h++)
      if (a[h] > l->total[h] || b[h] > l->total[h]) return 11;
    for (int h = level + 1; h < 3; h++)
      if (a[h] || b[h]) return 12;
    for (int h = 0; h < 3; h++)
      if (!a[h] && b[h]) return 13;
    for (int h = 0; h < 3; h++) {
      customers[h] = a[h];
      halves[h] = 2ull * a[h] * (t1 - t0) + ((uint64_t)a[h] + b[h]) * (t2 - t1) + 2ull * b[h] * (t3 - t2);
    }
    end = t3;
  } else {
    uint32_t last = t0;
    int over = 0, high = 0;
    const uint8_t *p = r + 14;
    for (unsigned k = 0; k < steps; k++, p += 16) {
      uint32_t t = u32(p);
      if (t < last || t > 600000) return 10;
      for (int h = 0; h < 3; h++) {
        uint32_t x = u32(p + 4 + 4 * h);
        if (x > l->total[h]) over = 1;
        if (h > level && x) high = 1;
        if (x > customers[h]) customers[h] = x;
        halves[h] += 2ull * x * (t - last);
      }
      last = t;
    }
    if (over) return 11;
    if (high) return 12;
    end = last;
  }
  if (map[number / 8] >> (number % 8) & 1) return 14;
  if (l->events >= 65535) return 15;
  map[number / 8] |= 1 << (number % 8);
  l->events++;
  if (end - t0 <= 3) {
    l->shorts++;
  } else {
    for (int h = 0; h < 3; h++) {
      l->customers[row][h] += customers[h];
      l->halves[row][h] += halves[h];
    }
  }
  return 0;
}

static void figure(uint64_t top, uint64_t bottom) {
  if (bottom == 0) {
    printf(" -");
    return;
  }
  unsigned __int128 hundredths = ((unsigned __int128)top * 200 + bottom) / ((unsigned __int128)bottom * 2);
  printf(" %llu.%02u", (unsigned long long)(hundredths / 100), (unsigned)(hundredths % 100));
}

static void line(const ledger *l, const char *name, int from, int to, int std) {
  uint64_t customers = 0, halves = 0, n = 0;
  for (int h = from; h < to; h++) {
    n += l->total[h];
    for (int row = 0; row < 7; row++) {
      if (std && row >= 2 && row <= 5) continue;
      customers += l->customers[row][h];
      halves += l->halves[row][h];
    }
  }
  printf("%s %s", name, std ? "std" : "all");
  figure(customers, n);
  figure(halves, 2 * n);
  figure(halves, 2 * customers);
  printf("\n");
}

int main(void) {
  static uint8_t buffer[131072], map[8192];
  static ledger l;
  unsigned long long refused = 0;
  size_t held = 0;
  for (;;) {
    ssize_t got = read(0, buffer + held, sizeof buffer - held);
    if (got < 0) {
      fprintf(stderr, "cannot read standard input\n");
      return 1;
    }
    if (got == 0) break;
    size_t filled = held + got, at = 0;
    int dead = 0;
    while (filled - at >= 4) {
      size_t size = u16(buffer + at);
      if (size < 4) {
        dead = 1;
        break;
      }
      if (size > filled - at) break;
      if (take(&l, map, buffer + at, size)) refused++;
      at += size;
    }
    held = filled - at;
    memmove(buffer, buffer + at, held);
    if (dead) break;
  }
  if (held) refused++;
  if (l.there)
    printf("year %u", l.year);
  else
    printf("year -");
  printf(" events %u short %u refused %llu\n", l.events, l.shorts, refused);
  if (!l.there) return 0;
  for (int std = 0; std < 2; std++) {
    line(&l, "NN", 0, 1, std);
    line(&l, "VN", 1, 2, std);
    line(&l, "VVN", 2, 3, std);
    line(&l, "SYS", 0, 3, std);
  }
  return 0;
}
