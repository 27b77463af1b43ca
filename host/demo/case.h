/* The case from the field: two customers' guests on one thread, and an audit on another; and a
 * third customer's guest with its ledger, its charging, its tariff and its meter, which come as an image of
 * their own. */
#ifndef CASE_H
#define CASE_H

#include "plex.h"

/* The blocks. North's charging and the tariffs are a family with one lock. It is lock 9, so block 9, East's meter, has
 * lock 1, which the family leaves. Each of the others has the lock of its own number. */
enum {
    NORTH_GUEST,
    NORTH_CHARGING,
    TARIFFS,
    SOUTH_GUEST,
    AUDIT,
    EAST_GUEST,
    EAST_LEDGER,
    EAST_CHARGING,
    EAST_TARIFF,
    EAST_METER,
    CASE_BLOCKS
};
enum { FAMILY_LOCK = 9, METER_LOCK = NORTH_CHARGING };

enum { CASE_RECORDS = 13, EAST_RECORDS = 15, LINKED_RECORDS = CASE_RECORDS + EAST_RECORDS };
enum { CASE_EVENTS = 15, EAST_EVENTS = 30, LINKED_EVENTS = CASE_EVENTS + EAST_EVENTS };
enum { METER_EVENTS = 9 }; /* of East's, the last */

/* The words of East's tariff: pulses kept, and units charged. How many pulses it keeps at first, how many
 * it is sent, and how many a unit has. */
enum { KEPT, UNITS };
enum { KEPT_PULSES = 7, SENT_PULSES = 25, UNIT_PULSES = 10 };

/* The words of East's meter: a packed counter, and pulses to be charged. The counter at first, the packed number that
 * is added to it and how many pulses that is, and the counter after it, which has begun again at 0000; and what comes
 * with a digit above 9. */
enum { COUNTER, METERED };
enum {
    FIRST_COUNTER = 0x9950,
    SENT_COUNTER = 0x0075,
    COUNTED_PULSES = 75,
    LAST_COUNTER = 0x0025,
    BAD_COUNTER = 0x00A7
};

struct field_case {
    uint8_t image[CASE_RECORDS * PLEX_RECORD_SIZE], east_image[EAST_RECORDS * PLEX_RECORD_SIZE];
    uint8_t table[PLEX_TABLE_SIZE];
    uint8_t words[PLEX_WORDS_SIZE];
    uint8_t events[LINKED_EVENTS * PLEX_EVENT_SIZE]; /* the case's, then East's with its image linked */
};

void make_case(struct field_case *made);

const char *case_block_name(uint32_t block);

/* What the event is about, or NULL. */
const char *case_event_note(uint32_t index);

#endif
