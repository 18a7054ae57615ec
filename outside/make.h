/* Makers of what is lent: records, desk messages and books, ledgers, maps and desks; valid ones, ones just outside a rule, and damaged ones. */
#ifndef MAKE_H
#define MAKE_H

#include "plain.h"

enum { MAKE_RECORD = 2048 };     /* room for every single record that is made */

/* What a record or message is made for. */
typedef struct make_world {
    plain_ledger ledger;
    uint8_t map[PLAIN_MAP_BYTES];
    plain_slot desk[PLAIN_SLOTS];
} make_world;

/* The fields of an event, and of a desk message about it. */
typedef struct make_event {
    unsigned number, type, voltage, cause;
    uint32_t t[5];                                   /* T0 to T4 */
    uint32_t n[2][PLAIN_LEVELS];                     /* n1 and n2 */
    unsigned steps;
    uint32_t time[PLAIN_STEPS + 1];
    uint32_t count[PLAIN_STEPS + 1][PLAIN_LEVELS];
} make_event;

/* ---- bytes; each answers the length */
size_t make_sheet(uint8_t *record, unsigned year, uint32_t nn, uint32_t vn, uint32_t vvn);
size_t make_simple(uint8_t *record, const make_event *event);
size_t make_stepped(uint8_t *record, const make_event *event);
size_t make_open(uint8_t *message, const make_event *event);
size_t make_step(uint8_t *message, unsigned number, unsigned ordinal, uint32_t time, const uint32_t counts[PLAIN_LEVELS]);
size_t make_close(uint8_t *message, unsigned number, unsigned steps);
void make_two(uint8_t *at, unsigned number);
void make_four(uint8_t *at, uint32_t number);

/* ---- chance decides */

/* An event that this world takes as a record of the kind, as far as its ledger and map leave one. */
void make_valid_event(const make_world *world, unsigned kind, make_event *event);
/* One field of it just outside a rule. */
void make_event_wrong(const make_world *world, unsigned kind, make_event *event);
/* A record for the book entry, of every sort. */
size_t make_record(const make_world *world, uint8_t *record);
/* A message for the desk entry, of every sort; about the slot of this index where that is open. */
size_t make_message(const make_world *world, unsigned favoured, uint8_t *message);
/* Flips, cuts and other damage to the bytes of a record; answers the new length. */
size_t make_damage(uint8_t *record, size_t bytes);
/* A book of at most so many bytes; one record in `wrong` is not a valid one (0: all are valid). */
size_t make_book(uint8_t *book, size_t room, unsigned records, unsigned wrong);

void make_sound_ledger(plain_ledger *ledger);
void make_nearly_sound_ledger(plain_ledger *ledger);
void make_any_ledger(plain_ledger *ledger);
void make_map(uint8_t map[PLAIN_MAP_BYTES]);
void make_sound_slot(plain_slot *slot);
void make_sound_desk(plain_slot desk[PLAIN_SLOTS]);
void make_nearly_sound_desk(plain_slot desk[PLAIN_SLOTS]);
void make_any_desk(plain_slot desk[PLAIN_SLOTS]);

#endif
