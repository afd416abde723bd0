/* The journal reader by hand in portable C99. A good line is read once; only a
 * refused one is looked at again, to say why. Lengths, digits and letters follow
 * no pattern that a processor could learn, so a good line's fields are told apart
 * by arithmetic and small tables, with no jump that goes now one way, now the
 * other. */
#include "engine.h"

#include <string.h>

enum { MAX_SEAT_DIGITS = 5, WAY_BYTES = 4, MAX_NAME_LETTERS = 14 };

/* `0 got Exit` with its newline. */
enum { SHORTEST_LINE_BYTES = 11 };

typedef struct {
    char spelled[MAX_NAME_LETTERS];
    uint8_t length, message;
} name_slot;

/* Length, first and last letter tell the fourteen names apart. */
#define NAME_PLACE(length, first, last) ((2 * (length) + (first) + (last)) & 31)
#define NAME(spelled, first, last, name) \
    [NAME_PLACE(sizeof spelled - 1, first, last)] = \
        {spelled, sizeof spelled - 1, LOTEND_MESSAGE_##name}

static const name_slot names[32] = {
    NAME("Cancel", 'C', 'l', CANCEL),
    NAME("Complete", 'C', 'e', COMPLETE),
    NAME("Close", 'C', 'e', CLOSE),
    NAME("Compensate", 'C', 'e', COMPENSATE),
    NAME("Failed", 'F', 'd', FAILED),
    NAME("Exited", 'E', 'd', EXITED),
    NAME("NotCompleted", 'N', 'd', NOT_COMPLETED),
    NAME("Exit", 'E', 't', EXIT),
    NAME("Completed", 'C', 'd', COMPLETED),
    NAME("Fail", 'F', 'l', FAIL),
    NAME("CannotComplete", 'C', 'e', CANNOT_COMPLETE),
    NAME("Canceled", 'C', 'd', CANCELED),
    NAME("Closed", 'C', 'd', CLOSED),
    NAME("Compensated", 'C', 'd', COMPENSATED),
};

/* What each digit counts for in a number of so many digits. */
static const uint16_t weights[MAX_SEAT_DIGITS + 1][MAX_SEAT_DIGITS] = {
    {0}, {1}, {10, 1}, {100, 10, 1}, {1000, 100, 10, 1}, {10000, 1000, 100, 10, 1},
};

/* Length of the seat number at `line`, 0 where there is none. Five bytes are looked
 * at, whatever its length. */
static inline size_t read_seat(const uint8_t *line, uint32_t *seat)
{
    uint32_t digits[MAX_SEAT_DIGITS];
    for (size_t i = 0; i < MAX_SEAT_DIGITS; i++)
        digits[i] = line[i] - (uint32_t)'0';
    uint32_t goes_on = 1;
    size_t length = 0;
    for (size_t i = 0; i < MAX_SEAT_DIGITS; i++) {
        goes_on &= digits[i] <= 9;
        length += goes_on;
    }
    uint32_t number = 0;
    for (size_t i = 0; i < MAX_SEAT_DIGITS; i++)
        number += weights[length][i] * digits[i];
    *seat = number;
    return ((digits[0] == 0) & (length > 1)) || number > UINT16_MAX ? 0 : length;
}

/* The message of that name, 0 for none. There is a byte before the name, so that
 * the last one of an empty name may be asked for. */
static inline uint32_t read_name(const uint8_t *name, size_t length)
{
    const name_slot *slot = &names[NAME_PLACE(length, name[0], name[length - 1])];
    return slot->length == length && !memcmp(name, slot->spelled, length) ? slot->message : 0;
}

/* The first four bytes of each; the fifth of `sent ` is a space as well. */
static const char ways[][WAY_BYTES + 1] = {
    [LOTEND_WAY_RECEIVED] = "got ",
    [LOTEND_WAY_SENT] = "sent",
};

/* Length of the good line at `line`, 0 where it isn't one. */
static inline size_t read_line(const uint8_t *line, size_t left, uint8_t *event)
{
    if (left < SHORTEST_LINE_BYTES)
        return 0;
    /* Found first, so that the next line can be begun before this one is read. */
    size_t skipped = SHORTEST_LINE_BYTES - 1;
    const uint8_t *end = memchr(line + skipped, '\n', left - skipped);
    uint32_t seat;
    size_t seat_length = read_seat(line, &seat);
    const uint8_t *word = line + seat_length + 1;
    uint32_t way = word[0] == 's' ? LOTEND_WAY_SENT : LOTEND_WAY_RECEIVED;
    const uint8_t *name = word + WAY_BYTES + (way == LOTEND_WAY_SENT);
    if (!end || seat_length == 0 || word[-1] != ' ' || memcmp(word, ways[way], WAY_BYTES) ||
        name[-1] != ' ')
        return 0;
    uint32_t message = read_name(name, (size_t)(end - name));
    event[0] = (uint8_t)seat;
    event[1] = (uint8_t)(seat >> 8);
    event[2] = (uint8_t)way;
    event[3] = (uint8_t)message;
    return message ? (size_t)(end - line) + 1 : 0;
}

static const uint8_t *find(const uint8_t *from, const uint8_t *to, char byte)
{
    return memchr(from, byte, (size_t)(to - from));
}

/* Why the line at `line` is no good one. */
static uint32_t refused_line(const uint8_t *line, size_t left)
{
    size_t window = left < LOTEND_MAX_LINE_BYTES ? left : LOTEND_MAX_LINE_BYTES;
    const uint8_t *end = find(line, line + window, '\n');
    if (!end)
        return LOTEND_REFUSED_LINE_LONG;
    uint8_t padded[LOTEND_MAX_LINE_BYTES] = {0};
    memcpy(padded, line, (size_t)(end - line));
    uint32_t seat;
    size_t seat_length = read_seat(padded, &seat);
    const uint8_t *space = find(line, end, ' ');
    if (seat_length == 0 || space != line + seat_length)
        return LOTEND_REFUSED_LINE_SEAT;
    const uint8_t *word = space + 1;
    space = find(word, end, ' ');
    if (!space)
        return LOTEND_REFUSED_LINE_WAY;
    size_t length = (size_t)(space - word);
    if (!(length == 3 && !memcmp(word, "got", 3)) && !(length == 4 && !memcmp(word, "sent", 4)))
        return LOTEND_REFUSED_LINE_WAY;
    return LOTEND_REFUSED_LINE_NAME;
}

lotend_reading portable_read_journal(const uint8_t *text, size_t text_len,
                                     uint8_t *events, size_t events_len)
{
    if (text_len > LOTEND_MAX_TEXT_BYTES)
        return (lotend_reading){LOTEND_REFUSED_TEXT_LONG, 0, 0};
    size_t room = events_len / LOTEND_EVENT_BYTES;
    room = room < LOTEND_MAX_EVENTS ? room : LOTEND_MAX_EVENTS;
    /* One more, for the good line that there is no room for. */
    uint8_t records[LOTEND_MAX_EVENTS + 1][LOTEND_EVENT_BYTES];
    size_t count = 0;
    for (size_t at = 0; at < text_len;) {
        size_t length = read_line(text + at, text_len - at, records[count]);
        uint32_t refusal = count == room ? LOTEND_REFUSED_LINE_ROOM : LOTEND_REFUSED_NOTHING;
        if (length == 0)
            refusal = refused_line(text + at, text_len - at);
        if (refusal)
            return (lotend_reading){refusal, (uint32_t)count + 1, 0};
        count++;
        at += length;
    }
    memcpy(events, records, LOTEND_EVENT_BYTES * count);
    return (lotend_reading){LOTEND_REFUSED_NOTHING, 0, (uint32_t)count};
}
