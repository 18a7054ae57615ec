/* Equipment failure rates in ordinary C: see element_plain.h. */
#include "element_plain.h"

#include <inttypes.h>
#include <stdio.h>
#include <string.h>

/* 003, 9.8, in its order and its words. */
const element_code element_codes[ELEMENT_CODES] = {
    {1, "stožár"}, {2, "vodič"}, {3, "zemnící lano"}, {4, "výstroj"}, {5, "izolátor"}, {6, "kabel"}, {7, "kabelový soubor"}, {8, "pojistka"},
    {9, "přípojnice"}, {10, "úsečník"}, {11, "vypínač výkonový"}, {12, "odpínač"}, {13, "odpojovač"}, {14, "jiný spínací přístroj"},
    {15, "transformátor VN/NN"}, {16, "transformátor VN/VN"}, {17, "transformátor 110 kV/VN"}, {18, "měřící transformátor"}, {19, "svodič přepětí"},
    {20, "kompenzační tlumivka"}, {21, "zařízení pro kompenzaci jalového proudu"}, {22, "reaktor"}, {23, "řídící systémy"},
    {24, "ochrany pro vedení a kably"}, {25, "ochrany pro transformátory"}, {26, "vysokofrekvenční vazební prvky"},
    {27, "vedení pro pomocná zařízení"}, {28, "stejnosměrný zdroj a rozvod"}, {29, "vlastní spotřeba"}, {30, "výroba a rozvod stlačeného vzduchu"},
    {101, "ruční pohon (klasický odpojovač)"}, {102, "ruční pohon se zhášecí komorou (odpínač)"}, {103, "dálkově ovládaný se zhášecí komorou"},
    {109, "ostatní"}, {181, "transformátor napětí – induktivní"}, {182, "transformátor napětí – kapacitní"}, {183, "transformátor proudu"},
    {184, "transformátor proudu a napětí (kombinovaný)"}, {191, "ventilová bleskojistka"}, {192, "vyfukovací bleskojistka (Torokova trubice)"},
    {193, "ochranné jiskřítě"}, {194, "omezovače přepětí"}, {199, "ostatní"}, {211, "paralelní kondenzátor"}, {212, "sériový kondenzátor"},
    {213, "kompenzační tlumivka"}, {214, "rotační kompenzátor"}, {241, "nadproudová"}, {242, "distanční"}, {243, "směrová nadproudová"},
    {244, "srovnávací s galvanickou vazbou"}, {245, "zemní"}, {246, "relé primární"}, {247, "automatika"}, {249, "ostatní"},
    {251, "plynová (Buchholz)"}, {252, "nadproudová"}, {253, "zkratová nadproudová"}, {254, "rozdílová"}, {255, "zemní (kostrová, nádobová)"},
    {256, "termokopie (tepelný obraz)"}, {259, "ostatní"},
};

unsigned element_period(const char *word) {
    unsigned years = 0;
    size_t digits = strspn(word, "0123456789");
    if (digits == 0 || word[digits] || digits > ELEMENT_WORD) return 0;
    for (; *word && years <= ELEMENT_PERIOD; word++) years = 10 * years + (unsigned)(*word - '0');
    return years <= ELEMENT_PERIOD ? years : 0;
}

void element_begin(element_table *table, unsigned period) {
    memset(table, 0, sizeof *table);
    table->period = period;
}

/* ---- records */

static uint32_t number(const uint8_t *at, unsigned bytes) {
    uint32_t sum = 0;
    while (bytes > 0) sum = sum << 8 | at[--bytes];
    return sum;
}

static element_row *row_of(element_table *table, unsigned code) {
    for (size_t k = 0; k < ELEMENT_CODES; k++)
        if (element_codes[k].code == code) return &table->rows[k];
    return NULL;
}

/* Each answers whether the record is taken. The sheet of a file comes first and once, with a year of 2000 to 2099 and at most 10,000,000 customers on a level. */
static int take_sheet(int *seen, const uint8_t *record) {
    unsigned year = number(record + 4, 2);
    if (*seen || year < 2000 || year > 2099) return 0;
    for (int level = 0; level < 3; level++)
        if (number(record + 6 + 4 * level, 4) > 10000000) return 0;
    return *seen = 1;
}

static int take_outage(element_table *table, const uint8_t *record) {
    element_row *row = row_of(table, number(record + 4, 2));
    uint32_t start = number(record + 6, 4), end = number(record + 10, 4);
    if (!row || end < start || end > ELEMENT_LAST_MINUTE || row->outages == ELEMENT_OUTAGES) return 0;
    row->outages++;
    row->minutes += end - start;
    return 1;
}

static int take_stock(element_table *table, const uint8_t *record) {
    element_row *row = row_of(table, number(record + 4, 2));
    unsigned unit = record[6];
    if (!row || row->told || unit > ELEMENT_LINE) return 0;
    row->told = 1;
    row->unit = unit;
    row->amount = number(record + 7, 4);
    return 1;
}

static int take_record(element_table *table, int *seen, const uint8_t *record, size_t bytes) {
    switch (number(record + 2, 2)) {
    case ELEMENT_SHEET: return bytes == ELEMENT_SHEET_BYTES && take_sheet(seen, record);
    case ELEMENT_OUTAGE: return bytes == ELEMENT_OUTAGE_BYTES && *seen && take_outage(table, record);
    case ELEMENT_STOCK: return bytes == ELEMENT_STOCK_BYTES && *seen && take_stock(table, record);
    default: return 0;
    }
}

/* A broken length is one refusal, and nothing behind it is read. */
uint64_t element_take_file(element_table *table, const uint8_t *bytes, size_t size) {
    uint64_t refused = 0;
    int seen = 0;
    for (size_t at = 0, length; at < size; at += length) {
        length = size - at < 4 ? 0 : number(bytes + at, 2);
        if (length < 4 || length > size - at) return refused + 1;
        refused += !take_record(table, &seen, bytes + at, length);
    }
    return refused;
}

/* ---- the sheet */

static uint64_t common_divisor(uint64_t a, uint64_t b) {
    while (b > 0) {
        uint64_t rest = a % b;
        a = b;
        b = rest;
    }
    return a;
}

/* A tab, the fraction in lowest terms, a tab, and six digits after the point, rounded to the nearest, a tie upward; - for both where the divisor is 0. */
static char *put_figure(char *at, uint64_t top, uint64_t bottom) {
    if (bottom == 0) return at + sprintf(at, "\t-\t-");
    uint64_t common = common_divisor(top, bottom), millionths = (2 * top * 1000000 + bottom) / (2 * bottom);
    at += sprintf(at, "\t%" PRIu64 "/%" PRIu64, top / common, bottom / common);
    return at + sprintf(at, "\t%" PRIu64 ".%06" PRIu64, millionths / 1000000, millionths % 1000000);
}

static char *put_row(char *at, const element_table *table, size_t k) {
    const element_row *row = &table->rows[k];
    const char *per = !row->told ? "-" : row->unit == ELEMENT_LINE ? "100 km" : "piece";
    uint64_t weight = row->unit == ELEMENT_LINE ? 1000 : 1;
    at += sprintf(at, "%u\t%s\t%" PRIu64 "\t%s", element_codes[k].code, element_codes[k].name, row->outages, per);
    at = put_figure(at, weight * row->outages, row->told ? row->amount * table->period : 0);
    at = put_figure(at, row->minutes, 60 * row->outages);
    *at++ = '\n';
    return at;
}

size_t element_put_sheet(const element_table *table, const uint64_t *refused, size_t files, char text[ELEMENT_TEXT]) {
    char *at = text + sprintf(text, "code\telement\toutages\tper\trate\trate, decimal\tmean, h\tmean, decimal\n");
    for (size_t k = 0; k < ELEMENT_CODES; k++) at = put_row(at, table, k);
    at += sprintf(at, "refused");
    for (size_t k = 0; k < files; k++) at += sprintf(at, " %" PRIu64, refused[k]);
    *at++ = '\n';
    *at = 0;
    return (size_t)(at - text);
}
