/* Equipment failure rates (document 02, K1, over section 5 of document 003) in ordinary C, written from the documents alone and sharing nothing with the proved
   program: what element_sheet is compared with. */
#ifndef ELEMENT_PLAIN_H
#define ELEMENT_PLAIN_H

#include <stddef.h>
#include <stdint.h>

enum {
    ELEMENT_CODES = 62,
    ELEMENT_FILES = 1024,         /* of one sheet, at most */
    ELEMENT_PERIOD = 50,          /* years, at most */
    ELEMENT_OUTAGES = 65535,      /* of one code, at most */
    ELEMENT_LAST_MINUTE = 600000,
    ELEMENT_WORD = 4096,          /* bytes of a word on the command line, at most */
    ELEMENT_TEXT = 1 << 17        /* room enough for every sheet */
};

/* Kinds of the records of a yearly file, and their lengths. */
enum { ELEMENT_SHEET = 1, ELEMENT_OUTAGE = 4, ELEMENT_STOCK = 5 };
enum { ELEMENT_SHEET_BYTES = 18, ELEMENT_OUTAGE_BYTES = 14, ELEMENT_STOCK_BYTES = 11 };
enum { ELEMENT_PIECES, ELEMENT_LINE };

/* A code of 9.8, and its name there. */
typedef struct element_code {
    unsigned code;
    const char *name;
} element_code;

extern const element_code element_codes[ELEMENT_CODES];

typedef struct element_row {
    uint64_t outages, minutes;
    int told;                     /* whether its stock was */
    unsigned unit;                /* pieces, or a line in tenths of a kilometre */
    uint64_t amount;
} element_row;

/* An element table: what yearly files came to over an observation period of so many years. */
typedef struct element_table {
    uint64_t period;
    element_row rows[ELEMENT_CODES];
} element_table;

/* The years that a word says, or 0 where it is no observation period. */
unsigned element_period(const char *word);

void element_begin(element_table *table, unsigned period);

/* Takes a whole yearly file; answers how many records it refused. */
uint64_t element_take_file(element_table *table, const uint8_t *bytes, size_t size);

/* The sheet, with the refused records of each file: the length of the text. */
size_t element_put_sheet(const element_table *table, const uint64_t *refused, size_t files, char text[ELEMENT_TEXT]);

#endif
