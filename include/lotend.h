/* Sirelnokk's engine: how a wafer lot's business activity ends.
 *
 * Two functions over bytes that the caller lends. For both:
 *
 * - The lent areas must not overlap each other.
 * - No alignment is asked of any of them.
 * - No pointer may be null. With length 0 pass any non-null pointer, for
 *   instance the address of a local.
 * - There is no global state: calls on separate areas may run at the same
 *   time, on any threads.
 * - A refused call changes no byte. Bytes of an area past what is written stay
 *   as they were.
 * - Refusals are tested in the order listed at each function; the first that
 *   applies is the one returned.
 */
#ifndef LOTEND_H
#define LOTEND_H

#include <stddef.h>
#include <stdint.h>

#ifdef __cplusplus
extern "C" {
#endif

/* Messages 1 to 7 go from coordinator to participant, 8 to 14 back. */
enum {
    LOTEND_MESSAGE_CANCEL = 1,
    LOTEND_MESSAGE_COMPLETE = 2,
    LOTEND_MESSAGE_CLOSE = 3,
    LOTEND_MESSAGE_COMPENSATE = 4,
    LOTEND_MESSAGE_FAILED = 5,
    LOTEND_MESSAGE_EXITED = 6,
    LOTEND_MESSAGE_NOT_COMPLETED = 7,
    LOTEND_MESSAGE_EXIT = 8,
    LOTEND_MESSAGE_COMPLETED = 9,
    LOTEND_MESSAGE_FAIL = 10,
    LOTEND_MESSAGE_CANNOT_COMPLETE = 11,
    LOTEND_MESSAGE_CANCELED = 12,
    LOTEND_MESSAGE_CLOSED = 13,
    LOTEND_MESSAGE_COMPENSATED = 14
};

/* Which way a message went, seen from the seat; `got` and `sent` in a journal. */
enum {
    LOTEND_WAY_RECEIVED = 0,
    LOTEND_WAY_SENT = 1
};

/* States of a seat. 12 to 15 are ended. */
enum {
    LOTEND_STATE_ACTIVE = 1,
    LOTEND_STATE_CANCELING = 2, /* at a coordinator Canceling-Active */
    LOTEND_STATE_CANCELING_COMPLETING = 3, /* coordinator only */
    LOTEND_STATE_COMPLETING = 4,
    LOTEND_STATE_COMPLETED = 5,
    LOTEND_STATE_CLOSING = 6,
    LOTEND_STATE_COMPENSATING = 7,
    LOTEND_STATE_FAILING = 8, /* from Active, Canceling or Completing */
    LOTEND_STATE_FAILING_COMPENSATING = 9,
    LOTEND_STATE_NOT_COMPLETING = 10,
    LOTEND_STATE_EXITING = 11,
    LOTEND_STATE_ENDED = 12,
    /* Split table only, at a coordinator: */
    LOTEND_STATE_ENDED_FAILED = 13,
    LOTEND_STATE_ENDED_EXITED = 14,
    LOTEND_STATE_ENDED_NOT_COMPLETED = 15,
    /* Split table only, at a participant: */
    LOTEND_STATE_ENDED_CANCELED = 13,
    LOTEND_STATE_ENDED_CLOSED = 14,
    LOTEND_STATE_ENDED_COMPENSATED = 15
};

enum {
    LOTEND_ROLE_COORDINATOR = 1,
    LOTEND_ROLE_PARTICIPANT = 2
};

enum {
    LOTEND_TABLE_PLAIN = 1,
    LOTEND_TABLE_SPLIT = 2
};

/* An atomic activity has one outcome for all, a mixed one may decide each alone. */
enum {
    LOTEND_KIND_ATOMIC = 1,
    LOTEND_KIND_MIXED = 2
};

enum {
    LOTEND_DIRECTION_NONE = 0,
    LOTEND_DIRECTION_CLOSE = 1,
    LOTEND_DIRECTION_COMPENSATE = 2
};

/* What an answer tells the seat's owner to do. */
enum {
    LOTEND_ACTION_NONE = 0,
    LOTEND_ACTION_IGNORE = 1,
    LOTEND_ACTION_REPLY = 2, /* with the message in the answer's last byte */
    LOTEND_ACTION_FORGET = 3
};

/* Returned by both functions where nothing was refused, and first byte of the
 * answer to a legal event. */
enum {
    LOTEND_REFUSED_NOTHING = 0
};

/* Refusals of a whole run. */
enum {
    LOTEND_REFUSED_BOOK_SHORT = 1, /* book shorter than 8 bytes */
    LOTEND_REFUSED_LAYOUT = 2, /* a count, an offset or the length is wrong */
    LOTEND_REFUSED_ACTIVITY = 3, /* kind or direction out of range, or mixed with a direction */
    LOTEND_REFUSED_SEAT = 4, /* no such activity, or role, table or state not allowed */
    LOTEND_REFUSED_SEAT_DIRECTION = 5, /* a seat against its activity's direction */
    LOTEND_REFUSED_EVENT_LIST = 6, /* not a multiple of 4 bytes, or over 4,096 events */
    LOTEND_REFUSED_ANSWER_AREA = 7 /* answer area shorter than the event list */
};

/* Refusals of one event, in the first byte of its answer. */
enum {
    LOTEND_REFUSED_NO_SEAT = 11, /* no seat of that number */
    LOTEND_REFUSED_EVENT = 12, /* way not 0 or 1, or message not 1 to 14 */
    LOTEND_REFUSED_WAY = 13, /* a message this role doesn't move that way */
    LOTEND_REFUSED_INVALID_STATE = 14,
    LOTEND_REFUSED_OUTCOME = 15 /* outcome against the activity's direction */
};

/* Refusals of a journal. 26 is tested first, then 21 to 25 line by line. */
enum {
    LOTEND_REFUSED_LINE_LONG = 21, /* no newline in the line's first 26 bytes */
    LOTEND_REFUSED_LINE_SEAT = 22, /* no seat number, or no space after it */
    LOTEND_REFUSED_LINE_WAY = 23, /* not `got` or `sent`, or no second space */
    LOTEND_REFUSED_LINE_NAME = 24, /* the rest is no message name */
    LOTEND_REFUSED_LINE_ROOM = 25, /* a good line, but no room or past 4,096 events */
    LOTEND_REFUSED_TEXT_LONG = 26 /* text over 65,536 bytes */
};

enum {
    LOTEND_MAX_SEATS = 4096,
    LOTEND_MAX_ACTIVITIES = 256,
    LOTEND_MAX_EVENTS = 4096,
    LOTEND_MAX_BOOK_BYTES = 16904,
    LOTEND_MAX_TEXT_BYTES = 65536,
    LOTEND_MAX_LINE_BYTES = 26, /* with its newline */
    LOTEND_HEADER_BYTES = 8,
    LOTEND_ACTIVITY_BYTES = 2,
    LOTEND_SEAT_BYTES = 4,
    LOTEND_EVENT_BYTES = 4,
    LOTEND_ANSWER_BYTES = 4
};

/* Runs a list of events over a book.
 *
 * book     `book_len` bytes, read and written. Little-endian: activity count a,
 *          seat count s, offset of activities (8), offset of seats (8 + 2a),
 *          16 bits each; then a activities of two bytes (kind, direction); then
 *          s seats of four (activity, role, table, state). `book_len` is exactly
 *          8 + 2a + 4s. In an atomic activity a coordinator seat in state 6
 *          needs direction 1, one in 7 or 9 direction 2.
 * events   `events_len` bytes, read only. An event is four bytes: seat (16 bits,
 *          little-endian), way, message.
 * answers  `answers_len` bytes, written only. Answer n stands at 4n and is four
 *          bytes: refusal, state after, action, reply.
 *
 * Returns 0 where every event got its answer, else the first of these that
 * applies, each tested over the whole book before the next:
 *   1  the book is shorter than 8 bytes
 *   2  a count, an offset or the book's length is not as above, a > 256 or
 *      s > 4,096
 *   3  an activity's kind or direction is out of range, or a mixed activity has
 *      a direction
 *   4  a seat's activity is a or more, or its role, table or state is not
 *      allowed (3 at a participant; 13 to 15 under the plain table)
 *   5  a seat stands against its activity's direction
 *   6  `events_len` is not a multiple of 4, or there are over 4,096 events
 *   7  `answers_len` is less than `events_len`
 *
 * An event may be refused alone; then the book is unchanged by it and its answer
 * is the number, the seat's state, 0, 0:
 *   11  no such seat (state 0 in the answer)
 *   12  way not 0 or 1, or message not 1 to 14
 *   13  a message that the seat's role doesn't move that way
 *   14  Invalid State
 *   15  Close or Compensate against the direction of an atomic activity
 */
uint32_t lotend_run(uint8_t *book, size_t book_len, const uint8_t *events,
                    size_t events_len, uint8_t *answers, size_t answers_len);

/* What a reading came to. With a refusal `line` counts from 1 (0 for refusal 26)
 * and `count` is 0; with none `line` is 0 and `count` is the number of events. */
typedef struct {
    uint32_t refusal, line, count;
} lotend_reading;

/* Reads a journal into event records.
 *
 * text     `text_len` bytes, read only. A line is a seat in decimal (0 to 65535,
 *          no leading zero except 0 itself), one space, `got` or `sent`, one
 *          space, a message name (`Cancel` to `Compensated`), newline. No text
 *          gives no events.
 * events   the area for the records, written only. `events_len` is its length in
 *          bytes and need not be a multiple of 4; a line takes four bytes.
 *
 * The reading's refusal is 0, or 26 where the text is over 65,536 bytes, else
 * that of the first line with one, the first that applies there:
 *   21  no newline in the line's first 26 bytes
 *   22  the bytes before its first space are no such number, or there is no space
 *   23  the second field is not `got` or `sent`, or there is no second space
 *   24  the rest is no message name
 *   25  a good line with less than 4 bytes left in the area, or past 4,096 events
 */
lotend_reading lotend_read_journal(const uint8_t *text, size_t text_len,
                                   uint8_t *events, size_t events_len);

#ifdef __cplusplus
}
#endif

#endif
