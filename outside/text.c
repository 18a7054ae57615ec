/* A book as text in ordinary C: see text.h. */
#include "text.h"

#include <inttypes.h>
#include <stdio.h>
#include <stdlib.h>
#include <string.h>

#include "chance.h"
#include "plain.h"

/* ---- bytes as they grow */

void text_have_room(text_bytes *bytes, size_t more) {
    if (bytes->at && more <= bytes->room - bytes->size) return;
    bytes->room = 2 * (bytes->size + more) + 64;
    bytes->at = realloc(bytes->at, bytes->room);
    if (!bytes->at) abort();
}

void text_replace(text_bytes *bytes, size_t place, size_t gone, const void *with, size_t size) {
    text_have_room(bytes, size);
    memmove(bytes->at + place + size, bytes->at + place + gone, bytes->size - place - gone);
    if (size) memcpy(bytes->at + place, with, size);
    bytes->size = bytes->size - gone + size;
}

void text_add_byte(text_bytes *bytes, unsigned byte) {
    text_have_room(bytes, 1);
    bytes->at[bytes->size++] = (uint8_t)byte;
}

void text_add(text_bytes *bytes, const void *more, size_t size) { text_replace(bytes, bytes->size, 0, more, size); }

void text_add_words(text_bytes *bytes, const char *words) { text_add(bytes, words, strlen(words)); }

static void add_number(text_bytes *bytes, uint64_t number) {
    char digits[32];
    snprintf(digits, sizeof digits, "%" PRIu64, number);
    text_add_words(bytes, digits);
}

void text_add_times(text_bytes *bytes, unsigned byte, size_t times) {
    for (; times > 0; times--) text_add_byte(bytes, byte);
}

int text_is_same(const text_bytes *one, const text_bytes *other) {
    return one->size == other->size && (one->size == 0 || memcmp(one->at, other->at, one->size) == 0);
}

/* ---- what both directions know */

static uint32_t two(const uint8_t *at) { return (uint32_t)at[0] | (uint32_t)at[1] << 8; }

static uint32_t four(const uint8_t *at) { return two(at) | two(at + 2) << 16; }

static unsigned days_of(unsigned month, unsigned year) {
    static const uint8_t days[] = {31, 28, 31, 30, 31, 30, 31, 31, 30, 31, 30, 31};
    return month == 2 && year % 4 == 0 ? 29 : days[month - 1];
}

/* The year that a sheet's fields give to the times after it, or 0. */
static unsigned year_of(const uint8_t *fields) {
    uint32_t year = two(fields);
    if (year < 2000 || year > 2099) return 0;
    for (int level = 0; level < PLAIN_LEVELS; level++)
        if (four(fields + 2 + 4 * level) > 10000000) return 0;
    return year;
}

/* The three that make a line one of cells. */
int text_is_separator(unsigned byte) { return byte == '\t' || byte == ',' || byte == ';'; }

int text_is_gap(unsigned byte) { return byte == ' ' || byte == '|' || byte == '\r' || text_is_separator(byte); }

/* ---- the text of a book */

const char *const text_answers[TEXT_ANSWERS] = {
    [TEXT_ACCEPTED] = "# accepted\n",
    [TEXT_BROKEN] = "# refused, 2: the length in front of these bytes is wrong or they break off, and nothing after it can be read\n",
    [3] = "# refused, 3: a book takes year sheets, simple events and stepped events, and this is none of them\n",
    [4] = "# refused, 4: the length is wrong for this kind of record, or it does not have 1 to 64 steps\n",
    [5] = "# refused, 5: an event needs a year sheet before it, and a book takes one sheet only\n",
    [6] = "# refused, 6: the year is not 2000 to 2099, or a level has more than 10,000,000 customers\n",
    [7] = "# refused, 7: the number is 0, or the type, the voltage or the cause is not one of the annex's\n",
    [10] = "# refused, 10: the times are out of order, or past the year's end or minute 600,000, or a planned outage has T1 after T0\n",
    [11] = "# refused, 11: more customers are off on a level than the year sheet has there\n",
    [12] = "# refused, 12: customers are off on a level above the one of the event's voltage\n",
    [13] = "# refused, 13: on some level n1 is 0 and n2 is not\n",
    [14] = "# refused, 14: an event with this number is in the book already\n",
    [TEXT_SHORT] = "# accepted as short: 3 minutes or less, added to no total\n",
};

static void put_answer(text_page *page, unsigned answer) {
    if (page->way != TEXT_PRINTED) return;
    text_add_words(&page->text, text_answers[answer]);
    page->answers[answer]++;
}

/* Some of these bytes, or none of them. */
static void put_some(text_page *page, const char *bytes) {
    for (unsigned left = (unsigned)one_of(0, 0, 0, 0, 1, below(6)); left > 0; left--) text_add_byte(&page->text, (uint8_t)bytes[below(strlen(bytes))]);
}

/* A gap of a free line that no item follows, or that stands before its word: in a line of cells it has as many of the separator as chance likes. */
static void put_loose_gap(text_page *page) {
    char bytes[] = {' ', '|', '\r', (char)page->separator, 0};
    put_some(page, bytes);
}

static void put_gap(text_page *page, const char *printed) {
    if (page->way != TEXT_FREE) {
        text_add_words(&page->text, printed);
        return;
    }
    put_some(page, " |\r");
    text_add_byte(&page->text, page->separator ? page->separator : (unsigned)one_of(' ', ' ', '|', '\r'));
    put_some(page, " |\r");
}

static void put_some_comment(text_page *page) {
    text_add_byte(&page->text, '#');
    for (unsigned left = one_in(500) ? below(50000) : below(20); left > 0; left--) {
        unsigned byte = (unsigned)one_of(' ', '#', '\r', 0, 128, 255, below(256), below(256), from_to(32, 126));
        if (byte != '\n') text_add_byte(&page->text, byte);
    }
}

static void put_end(text_page *page) {
    if (page->way == TEXT_FREE) {
        put_loose_gap(page);
        if (one_in(6)) put_some_comment(page);
        if (one_in(4)) text_add_byte(&page->text, '\r');
    }
    text_add_byte(&page->text, '\n');
}

/* A line that says nothing, with separators of any sort. */
static void put_silence(text_page *page) {
    put_some(page, " |\r\t,;");
    page->separator = 0;
    put_end(page);
}

/* The line's word; before it, where the text is free, lines that say nothing. */
static void put_word(text_page *page, const char *word) {
    if (page->way == TEXT_FREE) {
        while (one_in(8)) put_silence(page);
        page->separator = (unsigned)one_of(0, 0, 0, ',', ';', '\t');
        put_loose_gap(page);
    }
    text_add_words(&page->text, word);
}

static void put_number(text_page *page, uint32_t number) {
    if (page->way == TEXT_FREE && one_in(12)) text_add_times(&page->text, '0', one_of(1, 2, 9, 25));
    add_number(&page->text, number);
}

static void put_numbers(text_page *page, const char *printed_gap, const uint8_t *at, int count) {
    for (int k = 0; k < count; k++) {
        put_gap(page, k ? " " : printed_gap);
        put_number(page, four(at + 4 * k));
    }
}

static void put_time(text_page *page, const char *printed_gap, uint32_t minutes) {
    char words[64];
    unsigned month = 1, day = minutes / 1440;
    put_gap(page, printed_gap);
    if (!page->year || minutes >= plain_minutes(page->year) || (page->way == TEXT_FREE && one_in(2))) {
        put_number(page, minutes);
        return;
    }
    while (day >= days_of(month, page->year)) day -= days_of(month++, page->year);
    snprintf(words, sizeof words, "%02u-%02u %02u:%02u", month, day + 1, minutes / 60 % 24, minutes % 60);
    text_add_words(&page->text, words);
}

static void put_sheet(text_page *page, const uint8_t *record) {
    put_word(page, "sheet");
    put_gap(page, " ");
    put_number(page, two(record + 4));
    put_numbers(page, " | ", record + 6, PLAIN_LEVELS);
    put_end(page);
    if (!page->year) page->year = year_of(record + 4);
}

/* Number, type, voltage and cause. */
static void put_head(text_page *page, const uint8_t *record) {
    put_gap(page, " ");
    put_number(page, two(record + 4));
    for (int k = 6; k < 9; k++) {
        put_gap(page, " ");
        put_number(page, record[k]);
    }
}

static void put_simple(text_page *page, const uint8_t *record) {
    put_word(page, "simple");
    put_head(page, record);
    for (int k = 0; k < 5; k++) put_time(page, k ? " " : " | ", four(record + 9 + 4 * k));
    put_numbers(page, " | ", record + 29, PLAIN_LEVELS);
    put_numbers(page, " | ", record + 41, PLAIN_LEVELS);
    put_end(page);
}

static void put_stepped(text_page *page, const uint8_t *record) {
    put_word(page, "stepped");
    put_head(page, record);
    put_time(page, " | ", four(record + 9));
    for (const uint8_t *step = record + 14; step < record + two(record); step += 16) {
        put_time(page, " | ", four(step));
        put_numbers(page, " ", step + 4, PLAIN_LEVELS);
    }
    put_end(page);
}

static void put_hex(text_page *page, const uint8_t *at, size_t bytes) {
    for (size_t k = 0, piece; k < bytes; k += piece) {
        piece = page->way == TEXT_FREE ? from_to(1, TEXT_HEX_LINE) : TEXT_HEX_LINE;
        if (piece > bytes - k) piece = bytes - k;
        put_word(page, "hex");
        for (size_t i = 0; i < piece; i++) {
            const char *digits = page->way == TEXT_FREE && one_in(2) ? "0123456789ABCDEF" : "0123456789abcdef";
            put_gap(page, " ");
            text_add_byte(&page->text, (uint8_t)digits[at[k + i] / 16]);
            text_add_byte(&page->text, (uint8_t)digits[at[k + i] % 16]);
        }
        put_end(page);
    }
}

static void put_record(text_page *page, const uint8_t *record, size_t length) {
    unsigned kind = two(record + 2);
    if (page->way == TEXT_FREE && one_in(8))
        put_hex(page, record, length);
    else if (kind == 1 && length == 18)
        put_sheet(page, record);
    else if (kind == 2 && length == 53)
        put_simple(page, record);
    else if (kind == 3 && length >= 30 && record[13] <= 64 && length == 14u + 16u * record[13])
        put_stepped(page, record);
    else
        put_hex(page, record, length);
}

size_t text_length_at(const text_bytes *book, size_t place) {
    size_t left = book->size - place, length = left < 4 ? 0 : two(book->at + place);
    return length < 4 || length > left ? 0 : length;
}

static unsigned answer_to(plain_ledger *ledger, uint8_t map[PLAIN_MAP_BYTES], const uint8_t *record, size_t length) {
    uint64_t shorts = ledger->shorts;
    unsigned answer = plain_take(ledger, map, PLAIN_MAP_BYTES, record, length);
    return ledger->shorts > shorts ? TEXT_SHORT : answer;
}

/* Each record's answer and line; from a broken length on, one answer and all bytes. */
static void put_records(text_page *page, const text_bytes *book) {
    static uint8_t map[PLAIN_MAP_BYTES];
    plain_ledger ledger = {0};
    memset(map, 0, sizeof map);
    for (size_t place = 0, length; place < book->size; place += length) {
        const uint8_t *record = book->at + place;
        length = text_length_at(book, place);
        if (!length) {
            put_answer(page, TEXT_BROKEN);
            put_hex(page, record, book->size - place);
            return;
        }
        put_answer(page, answer_to(&ledger, map, record, length));
        put_record(page, record, length);
    }
}

void text_put_book(text_page *page, int way, const text_bytes *book) {
    page->text.size = page->year = 0;
    page->way = way;
    if (way == TEXT_PRINTED)
        text_add_words(&page->text,
                       "# sheet: year | customers on NN VN VVN\n"
                       "# simple: number type voltage cause | T0 T1 T2 T3 T4 | n1 on NN VN VVN | n2 on NN VN VVN\n"
                       "# stepped: number type voltage cause | T0 | for each step its time, and who was off until then on NN VN VVN\n");
    put_records(page, book);
    if (way != TEXT_FREE) return;
    while (one_in(4)) put_silence(page);
    if (page->text.size && one_in(3)) page->text.size--;             /* the last line without its newline */
}

/* ---- the book of a text */

const char *const text_messages[TEXT_MESSAGES] = {
    [TEXT_WORD] = "expected sheet, simple, stepped or hex at the line's beginning",
    [TEXT_WHOLE_NUMBER] = "expected a whole number in decimal digits",
    [TEXT_MOST_255] = "expected a number of at most 255",
    [TEXT_MOST_65535] = "expected a number of at most 65535",
    [TEXT_MOST_4294967295] = "expected a number of at most 4294967295",
    [TEXT_TIME] = "expected a time: minutes from 1 January 00:00, or MM-DD hh:mm",
    [TEXT_SHEET] = "expected a sheet that is in range on a line before a time as MM-DD hh:mm; minutes can be written without one",
    [TEXT_DAY] = "expected a day of the sheet's year, and a time from 00:00 to 23:59",
    [TEXT_TWO_DIGITS] = "expected two hexadecimal digits",
    [TEXT_GAP] = "expected a space, a tab, a comma, a semicolon or a bar",
    [TEXT_LINE_END] = "expected the line's end: a sheet has 4 numbers, a simple event 15, a stepped event at most 64 steps, hex at most 32 bytes",
    [TEXT_MORE] = "expected more numbers: a sheet has 4, a simple event 15, a stepped event 5 and then 4 for each step, hex at least one byte",
    [TEXT_SHORTER_LINE] = "expected a line of at most 65535 bytes",
    [TEXT_OTHER_SEPARATOR] = "expected the line's separator: one of comma, semicolon and tab parts all its cells",
    [TEXT_SEPARATOR] = "expected the line's separator: in a line of cells a space or a bar alone parts nothing; write 1000, not 1 000",
    [TEXT_EMPTY_CELL] = "an empty cell; write 0",
    [TEXT_MARK] = "a byte-order mark: save the text without one, in a spreadsheet as CSV and not as CSV UTF-8",
    [TEXT_QUOTED] = "a quotation mark: write words and numbers without any",
    [TEXT_CAPITALS] = "a word in capital letters: write sheet, simple, stepped or hex in small ones",
    [TEXT_HEADER] = "a header row: write # before it, and it is a comment",
    [TEXT_OTHER_TIME] = "a time of another form: write MM-DD hh:mm, as 03-14 01:24, or minutes from 1 January 00:00",
};

struct line {
    const uint8_t *at;
    size_t size, place;           /* the place is where the next item is looked for */
    unsigned year;                /* of the sheets on lines before it, or 0 */
    unsigned separator;           /* of a line of cells, or 0 */
    int wrong;                    /* what is expected, and at which place */
    size_t wrong_place;
};

/* The sorts of line. Items: 1, 2 and 4 are a number of so many bytes, t is a time, h a byte as two hexadecimal digits. */
struct sort {
    const char *word;
    unsigned kind;                /* of the record, 0 where the bytes are all there is */
    const char *once, *again;     /* the items that come once, and those that come one or more times after them */
    unsigned most;                /* how often those may come */
};

static const struct sort sorts[] = {
    {"sheet", 1, "2444", "", 0},
    {"simple", 2, "2111ttttt444444", "", 0},
    {"stepped", 3, "2111t", "t444", 64},
    {"hex", 0, "", "h", TEXT_HEX_LINE},
};

static int expect(struct line *line, size_t place, int what) {
    line->wrong = what;
    line->wrong_place = place;
    return 0;
}

static int is_line_end(const struct line *line, size_t place) { return place == line->size || line->at[place] == '#'; }

static int is_item_end(const struct line *line, size_t place) { return is_line_end(line, place) || text_is_gap(line->at[place]); }

static int is_digit(const struct line *line, size_t place) { return place < line->size && line->at[place] >= '0' && line->at[place] <= '9'; }

/* Goes over gaps, and answers whether something stands behind them. */
static int find_item(struct line *line) {
    while (!is_line_end(line, line->place) && text_is_gap(line->at[line->place])) line->place++;
    return !is_line_end(line, line->place);
}

/* The first comma, semicolon or tab before the comment, or 0. */
static unsigned separator_of(const struct line *line) {
    for (size_t k = 0; !is_line_end(line, k); k++)
        if (text_is_separator(line->at[k])) return line->at[k];
    return 0;
}

/* The gap from a place to where the line stands: in a line of cells no other separator, and before an item exactly one. */
static int read_gap(struct line *line, size_t from, int before_item) {
    size_t count = 0, second = 0;
    if (!line->separator) return 1;
    for (size_t k = from; k < line->place; k++) {
        if (!text_is_separator(line->at[k])) continue;
        if (line->at[k] != line->separator) return expect(line, k, TEXT_OTHER_SEPARATOR);
        if (++count == 2) second = k;
    }
    if (!before_item || count == 1) return 1;
    return count ? expect(line, second, TEXT_EMPTY_CELL) : expect(line, line->place, TEXT_SEPARATOR);
}

/* A letter of ASCII, or a byte of another alphabet's. */
static int is_letter(unsigned byte) { return (byte >= 'A' && byte <= 'Z') || (byte >= 'a' && byte <= 'z') || byte > 127; }

static unsigned small(unsigned byte) { return byte >= 'A' && byte <= 'Z' ? byte + 'a' - 'A' : byte; }

/* Whether a word stands at the line's place, in the small letters that it has or in any. */
static int is_word(const struct line *line, const char *word, int any_letters) {
    size_t size = strlen(word);
    const uint8_t *at = line->at + line->place;
    if (size > line->size - line->place || !is_item_end(line, line->place + size)) return 0;
    for (size_t k = 0; k < size; k++)
        if ((any_letters ? small(at[k]) : at[k]) != (uint8_t)word[k]) return 0;
    return 1;
}

/* Whether an item behind the first begins with a letter too, as those of a header row do. */
static int has_letters(const struct line *line) {
    for (size_t k = line->place + 1; !is_line_end(line, k); k++)
        if (text_is_gap(line->at[k - 1]) && is_letter(line->at[k])) return 1;
    return 0;
}

/* What stands where a word was expected, if it has a name. */
static int name_word(const struct line *line) {
    const uint8_t *at = line->at + line->place;
    if (line->size - line->place >= 3 && !memcmp(at, "\xef\xbb\xbf", 3)) return TEXT_MARK;
    if (*at == '"') return TEXT_QUOTED;
    for (size_t k = 0; k < sizeof sorts / sizeof *sorts; k++)
        if (is_word(line, sorts[k].word, 1)) return TEXT_CAPITALS;
    return is_letter(*at) && has_letters(line) ? TEXT_HEADER : TEXT_WORD;
}

/* And where an item was expected. */
static int name_item(const struct line *line, int otherwise) {
    if (line->at[line->place] == '"') return TEXT_QUOTED;
    return otherwise == TEXT_TIME && is_digit(line, line->place) ? TEXT_OTHER_TIME : otherwise;
}

/* And behind an item: a time may go on in another form. */
static int name_gap(const struct line *line, char item) {
    return item == 't' && memchr("-./:", line->at[line->place], 4) && is_digit(line, line->place + 1) ? TEXT_OTHER_TIME : TEXT_GAP;
}

static const struct sort *read_word(struct line *line) {
    for (size_t k = 0; k < sizeof sorts / sizeof *sorts; k++) {
        if (!is_word(line, sorts[k].word, 0)) continue;
        line->place += strlen(sorts[k].word);
        return &sorts[k];
    }
    expect(line, line->place, name_word(line));
    return NULL;
}

static int read_number(struct line *line, uint32_t most, int otherwise, uint32_t *value) {
    size_t first = line->place;
    uint64_t number = 0;
    if (!is_digit(line, first)) return expect(line, first, name_item(line, otherwise));
    for (; is_digit(line, line->place); line->place++)
        if (number <= most) number = 10 * number + (line->at[line->place] - '0');
    if (number > most) return expect(line, first, most == 255 ? TEXT_MOST_255 : most == 65535 ? TEXT_MOST_65535 : TEXT_MOST_4294967295);
    *value = (uint32_t)number;
    return 1;
}

static unsigned two_digits(const uint8_t *at) { return 10u * (at[0] - '0') + (at[1] - '0'); }

static int read_day(struct line *line, uint32_t *value) {
    static const char form[] = "dd-dd dd:dd";
    const uint8_t *at = line->at + line->place;
    for (size_t k = 0; k < TEXT_DAY_WIDTH; k++)
        if (k >= line->size - line->place || (form[k] == 'd' ? !is_digit(line, line->place + k) : at[k] != form[k]))
            return expect(line, line->place, name_item(line, TEXT_TIME));
    unsigned month = two_digits(at), day = two_digits(at + 3), hour = two_digits(at + 6), minute = two_digits(at + 9), days = 0;
    if (!line->year) return expect(line, line->place, TEXT_SHEET);
    if (month < 1 || month > 12 || day < 1 || day > days_of(month, line->year) || hour > 23 || minute > 59) return expect(line, line->place, TEXT_DAY);
    while (--month > 0) days += days_of(month, line->year);
    *value = 1440 * (days + day - 1) + 60 * hour + minute;
    line->place += TEXT_DAY_WIDTH;
    return 1;
}

static int read_time(struct line *line, uint32_t *value) {
    if (line->size - line->place > 2 && line->at[line->place + 2] == '-') return read_day(line, value);
    return read_number(line, UINT32_MAX, TEXT_TIME, value);
}

static int read_hex(struct line *line, uint32_t *value) {
    *value = 0;
    for (size_t k = 0; k < 2; k++) {
        static const char digits[] = "0123456789abcdef0123456789ABCDEF";
        const char *digit = k < line->size - line->place ? memchr(digits, line->at[line->place + k], sizeof digits - 1) : NULL;
        if (!digit) return expect(line, line->place, name_item(line, TEXT_TWO_DIGITS));
        *value = 16 * *value + (uint32_t)(digit - digits) % 16;
    }
    line->place += 2;
    return 1;
}

static int read_item(struct line *line, char item, text_bytes *fields) {
    uint32_t value = 0;
    int bytes = item == '1' || item == 'h' ? 1 : item == '2' ? 2 : 4;
    int right = item == 'h'   ? read_hex(line, &value)
                : item == 't' ? read_time(line, &value)
                              : read_number(line, bytes == 1 ? 255 : bytes == 2 ? 65535 : UINT32_MAX, TEXT_WHOLE_NUMBER, &value);
    if (!right) return 0;
    if (!is_item_end(line, line->place)) return expect(line, line->place, name_gap(line, item));
    for (; bytes > 0; bytes--, value >>= 8) text_add_byte(fields, value & 255);
    return 1;
}

/* The item that comes after so many, or 0 where the line must end. */
static char item_after(const struct sort *sort, size_t items) {
    size_t once = strlen(sort->once), again = strlen(sort->again);
    if (items < once) return sort->once[items];
    return items < once + again * sort->most ? sort->again[(items - once) % again] : 0;
}

/* How often the items that come again have come: 0 where there are too few, or a part of them only. */
static size_t rounds(const struct sort *sort, size_t items) {
    size_t once = strlen(sort->once), again = strlen(sort->again);
    return items < once || (items - once) % again ? 0 : (items - once) / again;
}

static int is_whole(const struct sort *sort, size_t items) { return sort->most ? rounds(sort, items) > 0 : items == strlen(sort->once); }

static void add_record(text_bytes *book, const struct sort *sort, size_t items, const text_bytes *fields) {
    size_t head = sort->kind == 3 ? 9 : fields->size, length = 4 + fields->size + (sort->kind == 3);
    if (sort->kind) {
        text_add_byte(book, length & 255);
        text_add_byte(book, (unsigned)(length >> 8));
        text_add_byte(book, sort->kind);
        text_add_byte(book, 0);
    }
    text_add(book, fields->at, head);
    if (sort->kind == 3) text_add_byte(book, (unsigned)rounds(sort, items));
    text_add(book, fields->at + head, fields->size - head);
}

/* A line's record or bytes go to the book; answers 0 where the line is wrong. */
static int read_line(struct line *line, text_bytes *book) {
    static text_bytes fields;
    size_t items = 0;
    fields.size = 0;
    if (line->size > TEXT_LONGEST) return expect(line, TEXT_LONGEST, TEXT_SHORTER_LINE);
    if (!find_item(line)) return 1;
    line->separator = separator_of(line);
    if (!read_gap(line, 0, 0)) return 0;
    const struct sort *sort = read_word(line);
    if (!sort) return 0;
    for (;; items++) {
        char item = item_after(sort, items);
        size_t from = line->place;
        int goes_on = find_item(line);
        if (!read_gap(line, from, goes_on && item)) return 0;
        if (!goes_on) break;
        if (!item) return expect(line, line->place, TEXT_LINE_END);
        if (!read_item(line, item, &fields)) return 0;
    }
    if (!is_whole(sort, items)) return expect(line, line->place, TEXT_MORE);
    add_record(book, sort, items, &fields);
    if (sort->kind == 1 && !line->year) line->year = year_of(fields.at);
    return 1;
}

static void add_message(text_outcome *outcome, const char *name) {
    text_add_words(&outcome->message, name);
    text_add_byte(&outcome->message, ':');
    add_number(&outcome->message, outcome->line);
    text_add_byte(&outcome->message, ':');
    add_number(&outcome->message, outcome->column);
    text_add_words(&outcome->message, ": ");
    text_add_words(&outcome->message, text_messages[outcome->wrong]);
    text_add_byte(&outcome->message, '\n');
}

void text_read(text_outcome *outcome, const char *name, const text_bytes *text) {
    struct line line = {0};
    outcome->book.size = outcome->message.size = 0;
    outcome->wrong = TEXT_RIGHT;
    outcome->line = outcome->column = 0;
    for (size_t place = 0; place < text->size; place += line.size + 1) {
        const uint8_t *newline = memchr(text->at + place, '\n', text->size - place);
        line.at = text->at + place;
        line.size = newline ? (size_t)(newline - line.at) : text->size - place;
        line.place = 0;
        outcome->line++;
        if (read_line(&line, &outcome->book)) continue;
        outcome->book.size = 0;
        outcome->wrong = line.wrong;
        outcome->column = line.wrong_place + 1;
        add_message(outcome, name);
        return;
    }
}
