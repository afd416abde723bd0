/* The journal reader by hand in C, for x86-64 with its SSE2: a good line is read
 * with no loop over its bytes; only a refused one is looked at again, to say why. */
#include "engine.h"

#include <emmintrin.h>
#include <string.h>

#define LIKELY(test) __builtin_expect(!!(test), 1)
#define UNLIKELY(test) __builtin_expect(!!(test), 0)

/* What `read_line` may look at from the start of a line, whatever its length. */
enum { LINE_REACH = 32 };

/* A name with its newline, and the bits of its bytes. */
typedef struct {
    char line_end[16];
    uint32_t bytes;
    uint32_t message;
} name_slot;

/* Length and first two letters tell the fourteen names apart. */
#define NAME_PLACE(length, first, second) (((length) + (first) + (second)) & 31)
#define NAME(spelled, first, second, name) \
    [NAME_PLACE(sizeof spelled - 1, first, second)] = \
        {spelled "\n", (1u << sizeof spelled) - 1, LOTEND_MESSAGE_##name}

static const name_slot names[32] = {
    NAME("Cancel", 'C', 'a', CANCEL),
    NAME("Complete", 'C', 'o', COMPLETE),
    NAME("Close", 'C', 'l', CLOSE),
    NAME("Compensate", 'C', 'o', COMPENSATE),
    NAME("Failed", 'F', 'a', FAILED),
    NAME("Exited", 'E', 'x', EXITED),
    NAME("NotCompleted", 'N', 'o', NOT_COMPLETED),
    NAME("Exit", 'E', 'x', EXIT),
    NAME("Completed", 'C', 'o', COMPLETED),
    NAME("Fail", 'F', 'a', FAIL),
    NAME("CannotComplete", 'C', 'a', CANNOT_COMPLETE),
    NAME("Canceled", 'C', 'a', CANCELED),
    NAME("Closed", 'C', 'l', CLOSED),
    NAME("Compensated", 'C', 'o', COMPENSATED),
};

static inline uint32_t load32(const uint8_t *at)
{
    uint32_t number;
    memcpy(&number, at, sizeof number);
    return number;
}

static inline uint64_t load64(const uint8_t *at)
{
    uint64_t number;
    memcpy(&number, at, sizeof number);
    return number;
}

/* The number of up to eight digits, given as their values, the first lowest. */
static inline uint64_t number_of(uint64_t digits)
{
    digits = digits * 2561 >> 8 & 0x00FF00FF00FF00FF;
    digits = digits * 6553601 >> 16 & 0x0000FFFF0000FFFF;
    return digits * 42949672960001 >> 32;
}

/* Length of the seat number at `line`, 0 where there is none. */
static inline size_t read_seat(const uint8_t *line, uint32_t *seat)
{
    uint64_t values = load64(line) ^ 0x3030303030303030;
    uint64_t no_digit = ((values + 0x7676767676767676) | values) & 0x8080808080808080;
    if (UNLIKELY(no_digit == 0))
        return 0;
    size_t length = (size_t)__builtin_ctzll(no_digit) >> 3;
    /* No jumps here: lengths and first digits follow no pattern. */
    if (UNLIKELY((length - 1 > 4) | ((length > 1) & (line[0] == '0'))))
        return 0;
    uint64_t number = number_of(values << (64 - 8 * length));
    *seat = (uint32_t)number;
    return LIKELY(number <= UINT16_MAX) ? length : 0;
}

/* The message named at `name`, whose newline is `length` bytes on; 0 for none. */
static inline uint32_t read_name(const uint8_t *name, size_t length)
{
    const name_slot *slot = &names[NAME_PLACE(length, name[0], name[1])];
    __m128i bytes = _mm_loadu_si128((const __m128i *)name);
    __m128i spelled = _mm_loadu_si128((const __m128i *)slot->line_end);
    uint32_t equal = (uint32_t)_mm_movemask_epi8(_mm_cmpeq_epi8(bytes, spelled));
    return LIKELY((slot->bytes & ~equal) == 0) ? slot->message : 0;
}

/* Where the first newline of 32 bytes stands; 32 for nowhere. Found first, so that
 * the next line can be begun before this one is read. */
static inline size_t find_newline(const uint8_t *line)
{
    const __m128i newline = _mm_set1_epi8('\n');
    __m128i first = _mm_loadu_si128((const __m128i *)line);
    __m128i second = _mm_loadu_si128((const __m128i *)(line + 16));
    uint64_t places = (uint64_t)_mm_movemask_epi8(_mm_cmpeq_epi8(second, newline)) << 16 |
                      (uint64_t)_mm_movemask_epi8(_mm_cmpeq_epi8(first, newline)) | 1ull << 32;
    return (size_t)__builtin_ctzll(places);
}

/* Length of the good line at `line`, 0 where it isn't one. */
static inline size_t read_line(const uint8_t *line, uint32_t *event)
{
    uint32_t seat;
    size_t end = find_newline(line);
    size_t seat_length = read_seat(line, &seat);
    const uint8_t *word = line + seat_length + 1;
    if (UNLIKELY(seat_length == 0 || line[seat_length] != ' '))
        return 0;
    uint32_t letters = load32(word);
    uint32_t got = letters == 0x20746F67; /* `got ` */
    uint32_t sent = (letters == 0x746E6573) & (word[4] == ' '); /* `sent ` */
    if (UNLIKELY(!(got | sent)))
        return 0;
    const uint8_t *name = word + 4 + sent;
    uint32_t message = read_name(name, end - (size_t)(name - line));
    *event = seat | sent << 16 | message << 24;
    return LIKELY(message) ? end + 1 : 0;
}

static const uint8_t *find(const uint8_t *from, const uint8_t *to, char byte)
{
    return memchr(from, byte, (size_t)(to - from));
}

/* Why the line at `line` is no good one. */
static uint32_t refused_line(const uint8_t *line, size_t left)
{
    size_t window = left < LOTEND_MAX_LINE_BYTES ? left : LOTEND_MAX_LINE_BYTES;
    const uint8_t *end = find(line, line + window, '\n');
    if (!end)
        return LOTEND_REFUSED_LINE_LONG;
    uint8_t padded[LINE_REACH] = {0};
    memcpy(padded, line, (size_t)(end - line));
    uint32_t seat;
    size_t seat_length = read_seat(padded, &seat);
    const uint8_t *space = find(line, end, ' ');
    if (seat_length == 0 || space != line + seat_length)
        return LOTEND_REFUSED_LINE_SEAT;
    const uint8_t *word = space + 1;
    space = find(word, end, ' ');
    if (!space)
        return LOTEND_REFUSED_LINE_WAY;
    size_t length = (size_t)(space - word);
    if (!(length == 3 && !memcmp(word, "got", 3)) && !(length == 4 && !memcmp(word, "sent", 4)))
        return LOTEND_REFUSED_LINE_WAY;
    return LOTEND_REFUSED_LINE_NAME;
}

typedef struct {
    uint32_t room, count, refusal;
    uint32_t records[LOTEND_MAX_EVENTS];
} reader;

/* Reads the lines from `line` on that `reach` allows; where the last one ends. */
static inline const uint8_t *read_lines(reader *to, const uint8_t *line, const uint8_t *reach,
                                        const uint8_t *end)
{
    while (line < reach) {
        uint32_t event;
        size_t length = read_line(line, &event);
        if (UNLIKELY(length == 0)) {
            to->refusal = refused_line(line, (size_t)(end - line));
            return line;
        }
        if (UNLIKELY(to->count == to->room)) {
            to->refusal = LOTEND_REFUSED_LINE_ROOM;
            return line;
        }
        to->records[to->count++] = event;
        line += length;
    }
    return line;
}

/* Reads the last lines from a copy that may be looked at past its end. */
static void read_last_lines(reader *to, const uint8_t *line, const uint8_t *end)
{
    uint8_t last[2 * LINE_REACH] = {0};
    size_t left = (size_t)(end - line);
    memcpy(last, line, left);
    read_lines(to, last, last + left, last + left);
}

lotend_reading plain_read_journal(const uint8_t *text, size_t text_len,
                                  uint8_t *events, size_t events_len)
{
    if (text_len > LOTEND_MAX_TEXT_BYTES)
        return (lotend_reading){LOTEND_REFUSED_TEXT_LONG, 0, 0};
    size_t room = events_len / LOTEND_EVENT_BYTES;
    reader to;
    to.room = room < LOTEND_MAX_EVENTS ? (uint32_t)room : LOTEND_MAX_EVENTS;
    to.count = to.refusal = 0;
    const uint8_t *end = text + text_len;
    const uint8_t *line = text;
    if (text_len >= LINE_REACH)
        line = read_lines(&to, line, end - (LINE_REACH - 1), end);
    if (!to.refusal)
        read_last_lines(&to, line, end);
    if (to.refusal)
        return (lotend_reading){to.refusal, to.count + 1, 0};
    memcpy(events, to.records, LOTEND_EVENT_BYTES * (size_t)to.count);
    return (lotend_reading){0, 0, to.count};
}
