/* The run by hand in C, for x86-64: whole records in one load, one pass over the
 * seats, one table look-up for an event. The journal is in journal.c. */
#include "engine.h"

#include <string.h>

/* The answer's four bytes as one little-endian number, save that the refusal's
 * byte, 0 in a legal answer, holds the direction. */
typedef uint32_t rule;
#define RULE(direction, state, action, reply) \
    ((rule)(direction) | (rule)(state) << 8 | (rule)(action) << 16 | (rule)(reply) << 24)
#include "rules.h"

#define UNLIKELY(test) __builtin_expect(!!(test), 0)

static inline uint32_t load16(const uint8_t *at)
{
    uint16_t number;
    memcpy(&number, at, sizeof number);
    return number;
}

static inline uint32_t load32(const uint8_t *at)
{
    uint32_t number;
    memcpy(&number, at, sizeof number);
    return number;
}

static inline void store32(uint8_t *at, uint32_t number)
{
    memcpy(at, &number, sizeof number);
}

/* A good seat's role, table and state as six bits, to pick one bit of 64: the
 * participant's states fill the upper half, the split table's the upper part of
 * each half. */
#define SET(state) (1ull << (state))
#define STATES_1_TO_12 (SET(13) - SET(1))
#define STATES_1_TO_15 (SET(16) - SET(1))
#define COORDINATOR_SEATS (STATES_1_TO_12 | STATES_1_TO_15 << 16)
#define SEATS (COORDINATOR_SEATS | (COORDINATOR_SEATS & ~(SET(3) | SET(3) << 16)) << 32)
#define COORDINATORS_IN(states) ((states) | (states) << 16)

/* Which seats an activity of that kind and direction may have. */
static const uint64_t seats_allowed[4][4] = {
    [LOTEND_KIND_ATOMIC] =
        {
            [LOTEND_DIRECTION_NONE] = SEATS & ~COORDINATORS_IN(SET(6) | SET(7) | SET(9)),
            [LOTEND_DIRECTION_CLOSE] = SEATS & ~COORDINATORS_IN(SET(7) | SET(9)),
            [LOTEND_DIRECTION_COMPENSATE] = SEATS & ~COORDINATORS_IN(SET(6)),
        },
    [LOTEND_KIND_MIXED] = {[LOTEND_DIRECTION_NONE] = SEATS},
};

/* A seat's record of role 1 and table 1, the bits that no good record has once
 * that is taken off, and the bits that no good event has. */
#define RECORD_BASE 0x00010100u
#define RECORD_JUNK 0xF0FEFE00u
#define EVENT_JUNK 0xF0FE0000u

/* One multiplication brings role (bit 8), table (bit 16) and state (bits 24 to 27)
 * together as bits 5, 4 and 3 to 0. */
static inline uint32_t seat_bit(uint32_t fields)
{
    uint64_t spread = (uint64_t)(fields >> 8) * (1u << 25 | 1u << 16 | 1u << 4);
    return (uint32_t)(spread >> 20) & 63;
}

/* Refusal 4 or 5 for seats of which one is bad. */
static uint32_t refused_seats(const uint8_t *seats, size_t seat_count, size_t activity_count)
{
    for (size_t i = 0; i < seat_count; i++) {
        uint32_t record = load32(seats + LOTEND_SEAT_BYTES * i);
        uint32_t fields = record - RECORD_BASE;
        if ((record & 0xFF) >= activity_count || fields & RECORD_JUNK ||
            !(SEATS >> seat_bit(fields) & 1))
            return LOTEND_REFUSED_SEAT;
    }
    return LOTEND_REFUSED_SEAT_DIRECTION;
}

static uint32_t check_records(const uint8_t *activities, size_t activity_count,
                              const uint8_t *seats, size_t seat_count)
{
    /* One more, which allows nothing, for activities that there are not. */
    uint64_t allowed[LOTEND_MAX_ACTIVITIES + 1];
    uint32_t bad = 0;
    for (size_t i = 0; i < activity_count; i++) {
        uint32_t activity = load16(activities + LOTEND_ACTIVITY_BYTES * i);
        allowed[i] = seats_allowed[activity & 3][activity >> 8 & 3];
        bad |= (activity & 0xFCFC) | (allowed[i] == 0);
    }
    if (UNLIKELY(bad))
        return LOTEND_REFUSED_ACTIVITY;
    allowed[activity_count] = 0;

    for (size_t i = 0; i < seat_count; i++) {
        uint32_t record = load32(seats + LOTEND_SEAT_BYTES * i);
        uint32_t fields = record - RECORD_BASE;
        size_t activity = record & 0xFF;
        activity = activity < activity_count ? activity : activity_count;
        if (UNLIKELY(fields & RECORD_JUNK) ||
            UNLIKELY(!(allowed[activity] >> seat_bit(fields) & 1)))
            return refused_seats(seats, seat_count, activity_count);
    }
    return LOTEND_REFUSED_NOTHING;
}

static uint32_t check_book(const uint8_t *book, size_t book_len)
{
    if (book_len < LOTEND_HEADER_BYTES)
        return LOTEND_REFUSED_BOOK_SHORT;
    size_t activity_count = load16(book);
    size_t seat_count = load16(book + 2);
    size_t seats_at = LOTEND_HEADER_BYTES + LOTEND_ACTIVITY_BYTES * activity_count;
    if (activity_count > LOTEND_MAX_ACTIVITIES || seat_count > LOTEND_MAX_SEATS ||
        load16(book + 4) != LOTEND_HEADER_BYTES || load16(book + 6) != seats_at ||
        book_len != seats_at + LOTEND_SEAT_BYTES * seat_count)
        return LOTEND_REFUSED_LAYOUT;
    return check_records(book + LOTEND_HEADER_BYTES, activity_count, book + seats_at, seat_count);
}

/* The answer to an event that no rule makes legal. */
static inline uint32_t refused_event(uint32_t event, uint32_t record)
{
    uint32_t message = event >> 24;
    uint32_t sent = event >> 16 & 1;
    uint32_t by_coordinator = message <= LOTEND_MESSAGE_NOT_COMPLETED;
    uint32_t at_coordinator = (record >> 8 & 0xFF) == LOTEND_ROLE_COORDINATOR;
    uint32_t number = LOTEND_REFUSED_WAY + (sent ^ by_coordinator ^ at_coordinator);
    int unknown = (event & EVENT_JUNK) != 0 || message == 0 || message > LOTEND_MESSAGE_COMPENSATED;
    number = unknown ? LOTEND_REFUSED_EVENT : number;
    return number | record >> 24 << 8;
}

/* Sets the direction that a legal Close or Compensate asks; 0 where it clashes. */
static inline int takes_outcome(uint8_t *activity, uint8_t asked)
{
    if (activity[0] != LOTEND_KIND_ATOMIC)
        return 1;
    if (activity[1] == LOTEND_DIRECTION_NONE)
        activity[1] = asked;
    return activity[1] == asked;
}

/* The row's message and way go over the six bits of the seat, as in ROW. */
static inline rule rule_of(uint32_t event, uint32_t record)
{
    const rule *flat = &rules[0][0];
    uint32_t row = (event >> 17 & 0x780) | (event >> 10 & 0x40);
    return event & EVENT_JUNK ? 0 : flat[row | seat_bit(record - RECORD_BASE)];
}

static void work_events(uint8_t *restrict activities, uint8_t *restrict seats,
                        size_t seat_count, const uint8_t *restrict events,
                        size_t events_len, uint8_t *restrict answers)
{
    for (size_t at = 0; at < events_len; at += LOTEND_EVENT_BYTES) {
        uint32_t event = load32(events + at);
        size_t number = event & 0xFFFF;
        if (UNLIKELY(number >= seat_count)) {
            store32(answers + at, LOTEND_REFUSED_NO_SEAT);
            continue;
        }
        uint8_t *seat = seats + LOTEND_SEAT_BYTES * number;
        uint32_t record = load32(seat);
        rule found = rule_of(event, record);
        if (UNLIKELY(found == 0)) {
            store32(answers + at, refused_event(event, record));
            continue;
        }
        uint32_t asked = found & 0xFF;
        if (asked && !takes_outcome(activities + LOTEND_ACTIVITY_BYTES * (record & 0xFF), asked)) {
            store32(answers + at, LOTEND_REFUSED_OUTCOME | record >> 24 << 8);
            continue;
        }
        /* The whole record: a lone byte would hold up the next load of it. */
        store32(seat, (record & 0xFFFFFF) | (found & 0xFF00) << 16);
        store32(answers + at, found & ~0xFFu);
    }
}

uint32_t plain_run(uint8_t *book, size_t book_len, const uint8_t *events,
                   size_t events_len, uint8_t *answers, size_t answers_len)
{
    uint32_t refusal = check_book(book, book_len);
    if (refusal)
        return refusal;
    if (events_len % LOTEND_EVENT_BYTES || events_len / LOTEND_EVENT_BYTES > LOTEND_MAX_EVENTS)
        return LOTEND_REFUSED_EVENT_LIST;
    if (answers_len < events_len)
        return LOTEND_REFUSED_ANSWER_AREA;
    uint8_t *activities = book + LOTEND_HEADER_BYTES;
    work_events(activities, book + load16(book + 6), load16(book + 2), events, events_len, answers);
    return LOTEND_REFUSED_NOTHING;
}
