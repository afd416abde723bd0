/* The check of a book: a pass over the records for each rule, in the outline's
 * order. A pass has no jump in it and is left at its end: a good book has to be
 * read to the end anyway, and gcc can then take sixteen records at a time. */
#include "book.h"

/* The last state under either table. */
enum { LAST_PLAIN_STATE = LOTEND_STATE_ENDED, LAST_SPLIT_STATE = LOTEND_STATE_ENDED_COMPENSATED };

/* Whether an activity is bad. Of good ones it notes for each which directions its
 * coordinator seats may not need; the two directions are two bits. */
static int has_bad_activity(const uint8_t *activities, size_t count, uint8_t *barred)
{
    uint8_t bad = 0, kinds = 0;
    for (size_t i = 0; i < count; i++) {
        const uint8_t *activity = activities + LOTEND_ACTIVITY_BYTES * i;
        uint8_t kind = activity[ACTIVITY_KIND] - LOTEND_KIND_ATOMIC; /* 0 or 1 */
        uint8_t direction = activity[ACTIVITY_DIRECTION];
        uint8_t last = kind ? LOTEND_DIRECTION_NONE : LOTEND_DIRECTION_COMPENSATE;
        uint8_t others = (LOTEND_DIRECTION_CLOSE | LOTEND_DIRECTION_COMPENSATE) ^ direction;
        barred[i] = kind ? 0 : others;
        kinds |= kind;
        bad |= direction > last;
    }
    return bad | (kinds > 1);
}

static int has_bad_seat(const uint8_t *seats, size_t count, size_t activity_count)
{
    if (activity_count == 0)
        return count != 0;
    uint8_t last_activity = (uint8_t)(activity_count - 1);
    uint8_t bad = 0, roles_and_tables = 0;
    for (size_t i = 0; i < count; i++) {
        const uint8_t *seat = seats + LOTEND_SEAT_BYTES * i;
        uint8_t role = seat[SEAT_ROLE] - LOTEND_ROLE_COORDINATOR; /* 0 or 1 */
        uint8_t table = seat[SEAT_TABLE] - LOTEND_TABLE_PLAIN; /* 0 or 1 */
        uint8_t state = seat[SEAT_STATE];
        uint8_t last_state = table ? LAST_SPLIT_STATE : LAST_PLAIN_STATE;
        roles_and_tables |= role | table;
        bad |= seat[SEAT_ACTIVITY] > last_activity;
        bad |= (uint8_t)(state - 1) >= last_state; /* 0 is past any */
        bad |= role & (state == LOTEND_STATE_CANCELING_COMPLETING);
    }
    return bad | (roles_and_tables > 1);
}

/* The direction that a seat of an atomic activity needs, by role and state. */
static const uint8_t needed[LOTEND_ROLE_PARTICIPANT + 1][LAST_SPLIT_STATE + 1] = {
    [LOTEND_ROLE_COORDINATOR] =
        {
            [LOTEND_STATE_CLOSING] = LOTEND_DIRECTION_CLOSE,
            [LOTEND_STATE_COMPENSATING] = LOTEND_DIRECTION_COMPENSATE,
            [LOTEND_STATE_FAILING_COMPENSATING] = LOTEND_DIRECTION_COMPENSATE,
        },
};

/* Whether one of the seats, all good, needs what its activity bars. */
static int has_seat_against(const uint8_t *seats, size_t count, const uint8_t *barred)
{
    uint8_t against = 0;
    for (size_t i = 0; i < count; i++) {
        const uint8_t *seat = seats + LOTEND_SEAT_BYTES * i;
        against |= barred[seat[SEAT_ACTIVITY]] & needed[seat[SEAT_ROLE]][seat[SEAT_STATE]];
    }
    return against;
}

uint32_t portable_check_book(const uint8_t *book, size_t book_len)
{
    if (book_len < LOTEND_HEADER_BYTES)
        return LOTEND_REFUSED_BOOK_SHORT;
    size_t activity_count = number_at(book);
    size_t seat_count = number_at(book + 2);
    size_t seats_at = LOTEND_HEADER_BYTES + LOTEND_ACTIVITY_BYTES * activity_count;
    if (activity_count > LOTEND_MAX_ACTIVITIES || seat_count > LOTEND_MAX_SEATS ||
        number_at(book + 4) != LOTEND_HEADER_BYTES || number_at(book + 6) != seats_at ||
        book_len != seats_at + LOTEND_SEAT_BYTES * seat_count)
        return LOTEND_REFUSED_LAYOUT;
    const uint8_t *seats = book + seats_at;
    uint8_t barred[LOTEND_MAX_ACTIVITIES];
    if (has_bad_activity(book + LOTEND_HEADER_BYTES, activity_count, barred))
        return LOTEND_REFUSED_ACTIVITY;
    if (has_bad_seat(seats, seat_count, activity_count))
        return LOTEND_REFUSED_SEAT;
    if (has_seat_against(seats, seat_count, barred))
        return LOTEND_REFUSED_SEAT_DIRECTION;
    return LOTEND_REFUSED_NOTHING;
}
