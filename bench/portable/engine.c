/* The run by hand in portable C99: byte loads, one table look-up for an event. The
 * check of the book is in book.c, the journal in journal.c. */
#include "engine.h"
#include "book.h"

#include <string.h>

/* The legal answer's four bytes, save that the refusal's, which is 0 there, holds
 * the direction. */
typedef struct {
    uint8_t direction, state, action, reply;
} rule;
#define RULE(direction, state, action, reply) {direction, state, action, reply}
#include "../rules.h"

enum { EVENT_SEAT, EVENT_WAY = 2, EVENT_MESSAGE };
enum { ANSWER_REFUSAL, ANSWER_STATE, ANSWER_ACTION, ANSWER_REPLY };

static inline void put_refusal(uint8_t *answer, uint32_t refusal, uint8_t state)
{
    answer[ANSWER_REFUSAL] = (uint8_t)refusal;
    answer[ANSWER_STATE] = state;
    answer[ANSWER_ACTION] = LOTEND_ACTION_NONE;
    answer[ANSWER_REPLY] = 0;
}

/* Sets the direction that a legal Close or Compensate asks; 0 where it clashes. */
static inline int takes_outcome(uint8_t *activity, uint8_t asked)
{
    if (activity[ACTIVITY_KIND] != LOTEND_KIND_ATOMIC)
        return 1;
    if (activity[ACTIVITY_DIRECTION] == LOTEND_DIRECTION_NONE)
        activity[ACTIVITY_DIRECTION] = asked;
    return activity[ACTIVITY_DIRECTION] == asked;
}

/* The refusal of an event that no rule makes legal. No jumps here: which of the
 * three it is follows no pattern. */
static inline uint32_t refusal_of(uint8_t role, uint32_t way, uint32_t message)
{
    uint32_t known = (way <= LOTEND_WAY_SENT) & (message - 1 < LOTEND_MESSAGE_COMPENSATED);
    uint32_t by_coordinator = message <= LOTEND_MESSAGE_NOT_COMPLETED;
    uint32_t moved = (by_coordinator ^ (role == LOTEND_ROLE_PARTICIPANT)) == way;
    return LOTEND_REFUSED_EVENT + known + (known & moved);
}

/* An event that has no row takes row 0, of a message that there is not: all empty. */
static inline const rule *rule_of(const uint8_t *seat, uint32_t way, uint32_t message)
{
    int has_row = (way < RULE_WAYS) & (message < RULE_MESSAGES);
    uint32_t row = has_row ? ROW(seat[SEAT_ROLE], seat[SEAT_TABLE], way, message) : 0;
    return &rules[row][seat[SEAT_STATE]];
}

/* Works one event at a seat that there is. */
static inline void work_event(uint8_t *activities, uint8_t *seat, const uint8_t *event,
                              uint8_t *answer)
{
    uint32_t way = event[EVENT_WAY], message = event[EVENT_MESSAGE];
    const rule *found = rule_of(seat, way, message);
    if (found->state == 0) {
        put_refusal(answer, refusal_of(seat[SEAT_ROLE], way, message), seat[SEAT_STATE]);
        return;
    }
    uint8_t *activity = activities + LOTEND_ACTIVITY_BYTES * seat[SEAT_ACTIVITY];
    if (found->direction && !takes_outcome(activity, found->direction)) {
        put_refusal(answer, LOTEND_REFUSED_OUTCOME, seat[SEAT_STATE]);
        return;
    }
    seat[SEAT_STATE] = found->state;
    memcpy(answer, found, sizeof *found);
    answer[ANSWER_REFUSAL] = LOTEND_REFUSED_NOTHING;
}

static void work_events(uint8_t *restrict activities, uint8_t *restrict seats,
                        size_t seat_count, const uint8_t *restrict events,
                        size_t events_len, uint8_t *restrict answers)
{
    for (size_t at = 0; at < events_len; at += LOTEND_EVENT_BYTES) {
        size_t seat = number_at(events + at + EVENT_SEAT);
        if (seat < seat_count)
            work_event(activities, seats + LOTEND_SEAT_BYTES * seat, events + at, answers + at);
        else
            put_refusal(answers + at, LOTEND_REFUSED_NO_SEAT, 0);
    }
}

uint32_t portable_run(uint8_t *book, size_t book_len, const uint8_t *events,
                      size_t events_len, uint8_t *answers, size_t answers_len)
{
    uint32_t refusal = portable_check_book(book, book_len);
    if (refusal)
        return refusal;
    if (events_len % LOTEND_EVENT_BYTES || events_len / LOTEND_EVENT_BYTES > LOTEND_MAX_EVENTS)
        return LOTEND_REFUSED_EVENT_LIST;
    if (answers_len < events_len)
        return LOTEND_REFUSED_ANSWER_AREA;
    uint8_t *activities = book + LOTEND_HEADER_BYTES;
    work_events(activities, book + number_at(book + 6), number_at(book + 2), events, events_len,
                answers);
    return LOTEND_REFUSED_NOTHING;
}
