/* A book as text in ordinary C, both ways, written from docs/TEXT.md alone and sharing nothing with the proved programs: what those are compared with. */
#ifndef TEXT_H
#define TEXT_H

#include <stddef.h>
#include <stdint.h>

enum { TEXT_LONGEST = 65535, TEXT_HEX_LINE = 32, TEXT_DAY_WIDTH = 11 };         /* bytes of a line, of a hex line's record, of MM-DD hh:mm */

/* ---- bytes as they grow; all zeros are none */
typedef struct text_bytes {
    uint8_t *at;
    size_t size, room;
} text_bytes;

void text_have_room(text_bytes *bytes, size_t more);
void text_add(text_bytes *bytes, const void *more, size_t size);
void text_add_byte(text_bytes *bytes, unsigned byte);
void text_add_words(text_bytes *bytes, const char *words);
void text_add_times(text_bytes *bytes, unsigned byte, size_t times);
/* So many bytes from a place on give way to these. */
void text_replace(text_bytes *bytes, size_t place, size_t gone, const void *with, size_t size);
int text_is_same(const text_bytes *one, const text_bytes *other);

/* ---- the text of a book */

/* As book_read prints it; its lines without the comments; or as chance decides, in any other way that says the same. */
enum { TEXT_PRINTED, TEXT_LINES, TEXT_FREE };

/* The answers that have a comment in a book's text: 0, refusal numbers, and one more for short events. Others come in no book: 15 does not, since 65,535
   events have used up all numbers and 14 goes before. */
enum { TEXT_ACCEPTED = 0, TEXT_BROKEN = 2, TEXT_SHORT = 16, TEXT_ANSWERS };
extern const char *const text_answers[TEXT_ANSWERS];

typedef struct text_page {
    text_bytes text;
    int way;
    unsigned year;                                   /* of the first sheet line that is in range, or 0 */
    unsigned separator;                              /* of the line that is being put, where it is one of cells, or 0 */
    unsigned answers[TEXT_ANSWERS];                  /* how often each came, in all books */
} text_page;

void text_put_book(text_page *page, int way, const text_bytes *book);
/* The length of the record at the place of a book, or 0 where it is broken or there is none. */
size_t text_length_at(const text_bytes *book, size_t place);

/* ---- the book of a text */

/* What may be wrong with a text: what is expected there, or what stands there. */
enum {
    TEXT_RIGHT,
    TEXT_WORD,
    TEXT_WHOLE_NUMBER,
    TEXT_MOST_255,
    TEXT_MOST_65535,
    TEXT_MOST_4294967295,
    TEXT_TIME,
    TEXT_SHEET,
    TEXT_DAY,
    TEXT_TWO_DIGITS,
    TEXT_GAP,
    TEXT_LINE_END,
    TEXT_MORE,
    TEXT_SHORTER_LINE,
    TEXT_OTHER_SEPARATOR,
    TEXT_SEPARATOR,
    TEXT_EMPTY_CELL,
    TEXT_MARK,
    TEXT_QUOTED,
    TEXT_CAPITALS,
    TEXT_HEADER,
    TEXT_OTHER_TIME,
    TEXT_MESSAGES
};
extern const char *const text_messages[TEXT_MESSAGES];

/* The book, or the message; and what is wrong at which line and column. */
typedef struct text_outcome {
    text_bytes book, message;
    int wrong;
    size_t line, column;
} text_outcome;

void text_read(text_outcome *outcome, const char *name, const text_bytes *text);
int text_is_gap(unsigned byte);
int text_is_separator(unsigned byte);

#endif
