/* book_text read <BOOK >TEXT, book_text write TEXT >BOOK: a book as text in plain C, written from docs/TEXT.md alone: the measure that book_read and
   book_write are held to. Of any length in constant memory; a text is read twice, and nothing is written of a wrong one, of which it tells what was expected
   and not what stands there. */
#include <fcntl.h>
#include <stdint.h>
#include <stdio.h>
#include <string.h>
#include <unistd.h>

#include "plain.h"

enum { ROOM = 65536, HEX_LINE = 32 };

static uint32_t u16(const uint8_t *p) { return (uint32_t)p[0] | (uint32_t)p[1] << 8; }

static uint32_t u32(const uint8_t *p) { return u16(p) | u16(p + 2) << 16; }

static int is_leap(unsigned year) { return year % 4 == 0; }

/* Days before each month. */
static const uint16_t before[2][13] = {{0, 31, 59, 90, 120, 151, 181, 212, 243, 273, 304, 334, 365},
                                       {0, 31, 60, 91, 121, 152, 182, 213, 244, 274, 305, 335, 366}};

/* The year that a sheet's record gives to the times after it, or 0. */
static unsigned year_of(const uint8_t *record) {
  unsigned year = u16(record + 4);
  if (year < 2000 || year > 2099) return 0;
  for (int h = 0; h < 3; h++)
    if (u32(record + 6 + 4 * h) > 10000000) return 0;
  return year;
}

/* ---- output */

static uint8_t out[ROOM];
static size_t filled;

static int flush(void) {
  for (size_t done = 0; done < filled;) {
    ssize_t n = write(1, out + done, filled - done);
    if (n <= 0) return 0;
    done += (size_t)n;
  }
  filled = 0;
  return 1;
}

static void have_room(size_t bytes) {
  if (ROOM - filled < bytes) flush();
}

static void put(const void *bytes, size_t size) {
  have_room(size);
  memcpy(out + filled, bytes, size);
  filled += size;
}

#define PUT(words) put(words, sizeof words - 1)

/* A gap and a number: room is there. */
static void put_number(uint32_t n) {
  uint8_t digits[10], *first = digits + 10;
  do *--first = (uint8_t)('0' + n % 10);
  while (n /= 10);
  memcpy(out + filled, first, (size_t)(digits + 10 - first));
  filled += (size_t)(digits + 10 - first);
}

static void put_gap(int bar) {
  out[filled++] = ' ';
  if (!bar) return;
  out[filled++] = '|';
  out[filled++] = ' ';
}

static void put_two(unsigned n, unsigned end) {
  out[filled++] = (uint8_t)('0' + n / 10);
  out[filled++] = (uint8_t)('0' + n % 10);
  if (end) out[filled++] = (uint8_t)end;
}

static void put_time(unsigned year, uint32_t t) {
  if (!year || t >= 1440u * before[is_leap(year)][12]) {
    put_number(t);
    return;
  }
  const uint16_t *days = before[is_leap(year)];
  unsigned day = t / 1440, month = day / 32;
  while (days[month + 1] <= day) month++;
  put_two(month + 1, '-');
  put_two(day - days[month] + 1, ' ');
  put_two(t / 60 % 24, ':');
  put_two(t % 60, 0);
}

/* ---- the text of a book */

static const char *const answers[17] = {
    [0] = "# accepted\n",
    [2] = "# refused, 2: the length in front of these bytes is wrong or they break off, and nothing after it can be read\n",
    [3] = "# refused, 3: a book takes year sheets, simple events and stepped events, and this is none of them\n",
    [4] = "# refused, 4: the length is wrong for this kind of record, or it does not have 1 to 64 steps\n",
    [5] = "# refused, 5: an event needs a year sheet before it, and a book takes one sheet only\n",
    [6] = "# refused, 6: the year is not 2000 to 2099, or a level has more than 10,000,000 customers\n",
    [7] = "# refused, 7: the number is 0, or the type, the voltage or the cause is not one of the annex's\n",
    [10] = "# refused, 10: the times are out of order, or past the year's end or minute 600,000, or a planned outage has T1 after T0\n",
    [11] = "# refused, 11: more customers are off on a level than the year sheet has there\n",
    [12] = "# refused, 12: customers are off on a level above the one of the event's voltage\n",
    [13] = "# refused, 13: on some level n1 is 0 and n2 is not\n",
    [14] = "# refused, 14: an event with this number is in the book already\n",
    [16] = "# accepted as short: 3 minutes or less, added to no total\n",
};

static void put_hex(const uint8_t *bytes, size_t size) {
  static const char digits[] = "0123456789abcdef";
  while (size) {
    size_t some = size < HEX_LINE ? size : HEX_LINE;
    have_room(4096);
    PUT("hex");
    for (size_t k = 0; k < some; k++) {
      out[filled++] = ' ';
      out[filled++] = (uint8_t)digits[bytes[k] / 16];
      out[filled++] = (uint8_t)digits[bytes[k] % 16];
    }
    out[filled++] = '\n';
    bytes += some;
    size -= some;
  }
}

static void put_counts(const uint8_t *p, int bar) {
  for (int h = 0; h < 3; h++) {
    put_gap(bar && h == 0);
    put_number(u32(p + 4 * h));
  }
}

static void put_head(const uint8_t *r) {
  put_gap(0);
  put_number(u16(r + 4));
  for (int k = 6; k < 9; k++) {
    put_gap(0);
    put_number(r[k]);
  }
}

static void put_record(const uint8_t *r, size_t n, unsigned year) {
  unsigned kind = u16(r + 2);
  have_room(4096);
  if (kind == 1 && n == 18) {
    PUT("sheet ");
    put_number(u16(r + 4));
    put_counts(r + 6, 1);
  } else if (kind == 2 && n == 53) {
    PUT("simple");
    put_head(r);
    for (int k = 0; k < 5; k++) {
      put_gap(k == 0);
      put_time(year, u32(r + 9 + 4 * k));
    }
    put_counts(r + 29, 1);
    put_counts(r + 41, 1);
  } else if (kind == 3 && n >= 30 && r[13] <= 64 && n == 14u + 16u * r[13]) {
    PUT("stepped");
    put_head(r);
    put_gap(1);
    put_time(year, u32(r + 9));
    for (const uint8_t *step = r + 14; step < r + n; step += 16) {
      put_gap(1);
      put_time(year, u32(step));
      put_counts(step + 4, 0);
    }
  } else {
    put_hex(r, n);
    return;
  }
  out[filled++] = '\n';
}

static uint8_t buffer[ROOM];

static int put_rest(size_t held) {
  ssize_t got = 1;
  put(answers[2], strlen(answers[2]));
  while (got > 0) {
    size_t whole = held - held % HEX_LINE;
    put_hex(buffer, whole);
    memmove(buffer, buffer + whole, held - whole);
    held -= whole;
    got = read(0, buffer + held, ROOM - held);
    if (got > 0) held += (size_t)got;
  }
  put_hex(buffer, held);
  return got == 0;
}

static int read_book(void) {
  static uint8_t map[PLAIN_MAP_BYTES];
  plain_ledger ledger = {0};
  unsigned year = 0;
  size_t held = 0;
  ssize_t got;
  PUT("# sheet: year | customers on NN VN VVN\n");
  PUT("# simple: number type voltage cause | T0 T1 T2 T3 T4 | n1 on NN VN VVN | n2 on NN VN VVN\n");
  PUT("# stepped: number type voltage cause | T0 | for each step its time, and who was off until then on NN VN VVN\n");
  while ((got = read(0, buffer + held, ROOM - held)) > 0) {
    size_t place = 0, n;
    held += (size_t)got;
    while (held - place >= 4 && (n = u16(buffer + place)) >= 4 && n <= held - place) {
      const uint8_t *r = buffer + place;
      uint64_t shorts = ledger.shorts;
      unsigned answer = plain_take(&ledger, map, sizeof map, r, n);
      if (ledger.shorts > shorts) answer = 16;
      put(answers[answer], strlen(answers[answer]));
      put_record(r, n, year);
      if (!year && n == 18 && u16(r + 2) == 1) year = year_of(r);
      place += n;
    }
    memmove(buffer, buffer + place, held - place);
    held -= place;
    if (held >= 2 && u16(buffer) < 4) break;
  }
  if (held && !put_rest(held)) return 0;
  return got >= 0 && flush();
}

/* ---- the book of a text */

static const char *wrong;                             /* what is expected or stands there, and where */
static const uint8_t *wrong_at;
static unsigned last_kind;                            /* of the line last taken */

static int expect(const uint8_t *at, const char *what) {
  wrong = what;
  wrong_at = at;
  return 0;
}

/* 1 for gaps, 2 for digits, 4 for what ends a line, 8 for what makes it one of cells. A line lies before its newline, so that no place needs to be held
   against the line's end. */
static const uint8_t sorts[256] = {[' '] = 1, ['\t'] = 9, [','] = 9, [';'] = 9, ['|'] = 1, ['\r'] = 1, ['0'] = 2, ['1'] = 2, ['2'] = 2,
                                   ['3'] = 2, ['4'] = 2,  ['5'] = 2, ['6'] = 2, ['7'] = 2, ['8'] = 2,  ['9'] = 2, ['#'] = 4, ['\n'] = 4};

static const uint8_t *number(const uint8_t *p, uint32_t most, const char *no, uint32_t *value) {
  uint64_t n = 0;
  const uint8_t *first = p;
  if (sorts[*p] != 2) return expect(p, no), NULL;
  for (; sorts[*p] == 2; p++)
    if (n <= most) n = 10 * n + (*p - '0');
  if (n > most) return expect(first, most == 255 ? "expected a number of at most 255" : most == 65535 ? "expected a number of at most 65535" : "expected a number of at most 4294967295"), NULL;
  *value = (uint32_t)n;
  return p;
}

static unsigned two(const uint8_t *p) { return 10u * (p[0] - '0') + (p[1] - '0'); }

static const uint8_t *time_at(const uint8_t *p, unsigned year, uint32_t *value) {
  static const char no[] = "expected a time: minutes from 1 January 00:00, or MM-DD hh:mm", form[] = "dd-dd dd:dd";
  if (p[0] == '\n' || p[1] == '\n' || p[2] != '-') return number(p, UINT32_MAX, no, value);
  for (int k = 0; k < 11; k++)
    if (form[k] == 'd' ? sorts[p[k]] != 2 : p[k] != form[k]) return expect(p, no), NULL;
  unsigned month = two(p), day = two(p + 3), hour = two(p + 6), minute = two(p + 9);
  if (!year)
    return expect(p, "expected a sheet that is in range on a line before a time as MM-DD hh:mm; minutes can be written without one"), NULL;
  const uint16_t *days = before[is_leap(year)];
  if (month < 1 || month > 12 || day < 1 || day > (unsigned)(days[month] - days[month - 1]) || hour > 23 || minute > 59)
    return expect(p, "expected a day of the sheet's year, and a time from 00:00 to 23:59"), NULL;
  *value = 1440 * (days[month - 1] + day - 1) + 60 * hour + minute;
  return p + 11;
}

static int hex_digit(unsigned b) {
  if (sorts[b] == 2) return (int)b - '0';
  b |= 32;
  return b >= 'a' && b <= 'f' ? (int)b - 'a' + 10 : -1;
}

static const uint8_t *hex(const uint8_t *p, uint32_t *value) {
  int high = hex_digit(p[0]), low = high < 0 ? -1 : hex_digit(p[1]);
  if (low < 0) return expect(p, "expected two hexadecimal digits"), NULL;
  *value = (uint32_t)(16 * high + low);
  return p + 2;
}

struct sort {
  const char *word;
  uint8_t size, kind, head;                           /* of the word; of the record; the bytes before the first item */
  const char *once, *again;
  unsigned onces, agains, most;
};

static const struct sort lines[] = {
    {"sheet", 5, 1, 4, "2444", "", 4, 0, 0},
    {"simple", 6, 2, 4, "2111ttttt444444", "", 15, 0, 0},
    {"stepped", 7, 3, 4, "2111t", "t444", 5, 4, 64},
    {"hex", 3, 0, 0, "", "h", 0, 1, HEX_LINE},
};

static int is_end(unsigned b) { return sorts[b] & 5; }

static unsigned separator_of(const uint8_t *p) {
  while (!(sorts[*p] & 12)) p++;
  return sorts[*p] & 8 ? *p : 0;
}

/* Past a gap: in a line of cells it has no other separator, and before an item exactly one. */
static const uint8_t *past_gap(const uint8_t *p, unsigned separator, int before_item) {
  const uint8_t *second = NULL;
  unsigned count = 0;
  for (; sorts[*p] & 1; p++) {
    if (!(sorts[*p] & 8)) continue;
    if (*p != separator) return expect(p, "expected the line's separator: one of comma, semicolon and tab parts all its cells"), NULL;
    if (++count == 2) second = p;
  }
  if (!separator || !before_item || count == 1 || sorts[*p] == 4) return p;
  if (count) return expect(second, "an empty cell; write 0"), NULL;
  return expect(p, "expected the line's separator: in a line of cells a space or a bar alone parts nothing; write 1000, not 1 000"), NULL;
}

/* A line before its newline: how many bytes its record has, 0 for none, -1 where it is wrong. */
static int take_line(const uint8_t *p, unsigned year, uint8_t *record) {
  const struct sort *s = lines;
  unsigned items = 0, round = 0, separator = 0;
  const uint8_t *word = p;
  while (sorts[*word] & 1) word++;
  if (sorts[*word] == 4) return 0;
  separator = separator_of(p);
  if (!(p = past_gap(p, separator, 0))) return -1;
  while (s < lines + 4 && (strncmp((const char *)p, s->word, s->size) || !is_end(p[s->size]))) s++;
  if (s == lines + 4) return expect(p, "expected sheet, simple, stepped or hex at the line's beginning"), -1;
  p += s->size;
  uint8_t *to = record + s->head;
  for (;; items++) {
    uint32_t value = 0;
    int full = items >= s->onces + s->agains * s->most;
    if (!(p = past_gap(p, separator, !full))) return -1;
    if (sorts[*p] == 4) break;
    if (full)
      return expect(p, "expected the line's end: a sheet has 4 numbers, a simple event 15, a stepped event at most 64 steps, hex at most 32 bytes"), -1;
    char item = items < s->onces ? s->once[items] : s->again[round];
    if (items >= s->onces) round = round + 1 == s->agains ? 0 : round + 1;
    if (s->kind == 3 && items == 5) *to++ = 0;
    switch (item) {
    case 't': p = time_at(p, year, &value); break;
    case 'h': p = hex(p, &value); break;
    case '1': p = number(p, 255, "expected a whole number in decimal digits", &value); break;
    case '2': p = number(p, 65535, "expected a whole number in decimal digits", &value); break;
    default: p = number(p, UINT32_MAX, "expected a whole number in decimal digits", &value);
    }
    if (!p) return -1;
    if (!is_end(*p)) return expect(p, "expected a space, a tab, a comma, a semicolon or a bar"), -1;
    *to++ = (uint8_t)value;
    if (item == '1' || item == 'h') continue;
    *to++ = (uint8_t)(value >> 8);
    if (item == '2') continue;
    *to++ = (uint8_t)(value >> 16);
    *to++ = (uint8_t)(value >> 24);
  }
  if (items < s->onces + (s->most ? 1 : 0) || round)
    return expect(p, "expected more numbers: a sheet has 4, a simple event 15, a stepped event 5 and then 4 for each step, hex at least one byte"), -1;
  size_t n = (size_t)(to - record);
  last_kind = s->kind;
  if (s->kind) {
    record[0] = (uint8_t)n;
    record[1] = (uint8_t)(n >> 8);
    record[2] = s->kind;
    record[3] = 0;
  }
  if (s->kind == 3) record[13] = (uint8_t)((items - 5) / 4);
  return (int)n;
}

static uint8_t text[ROOM + 1];

/* The whole lines of a text in the buffer, the last of which is followed by a newline; answers where they end, or -1. */
static long take_lines(const char *name, size_t size, unsigned *year, size_t *line, int writing) {
  size_t place = 0;
  for (const uint8_t *end; (end = memchr(text + place, '\n', size - place)); place = (size_t)(end - text) + 1) {
    have_room(2048);
    int n = take_line(text + place, *year, out + filled);
    ++*line;
    if (n < 0) {
      fprintf(stderr, "%s:%zu:%zu: %s\n", name, *line, (size_t)(wrong_at - text - place) + 1, wrong);
      return -1;
    }
    if (!*year && n && last_kind == 1) *year = year_of(out + filled);
    if (writing) filled += (size_t)n;
  }
  return (long)place;
}

static int read_text(const char *name, int writing) {
  int file = open(name, O_RDONLY);
  unsigned year = 0;
  size_t held = 0, line = 0;
  ssize_t got = -1;
  if (file < 0) return fprintf(stderr, "%s cannot be opened\n", name), 0;
  while (held < ROOM && (got = read(file, text + held, ROOM - held)) > 0) {
    held += (size_t)got;
    long place = take_lines(name, held, &year, &line, writing);
    if (place < 0) return close(file), 0;
    memmove(text, text + place, held - (size_t)place);
    held -= (size_t)place;
  }
  close(file);
  if (held == ROOM) return fprintf(stderr, "%s:%zu:65536: expected a line of at most 65535 bytes\n", name, line + 1), 0;
  if (got < 0) return fprintf(stderr, "%s cannot be read\n", name), 0;
  text[held] = '\n';
  return !held || take_lines(name, held + 1, &year, &line, writing) >= 0;
}

int main(int argc, char **argv) {
  if (argc == 2 && strcmp(argv[1], "read") == 0) return !read_book();
  if (argc == 3 && strcmp(argv[1], "write") == 0) return !(read_text(argv[2], 0) && read_text(argv[2], 1) && flush());
  return 2;
}
