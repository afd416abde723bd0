/* Reads a journal of six lines, runs it over a book of one activity and two seats
 * and prints what each event came to, then the state of each seat. */
#include "lotend.h"

#include <stdio.h>
#include <string.h>

enum { EVENT_ROOM = 16 };

static unsigned number_at(const uint8_t *bytes)
{
    return bytes[0] | (unsigned)bytes[1] << 8;
}

static void print_events(const uint8_t *events, const uint8_t *answers, uint32_t count)
{
    for (uint32_t i = 0; i < count; i++) {
        const uint8_t *event = events + LOTEND_EVENT_BYTES * i;
        const uint8_t *answer = answers + LOTEND_ANSWER_BYTES * i;
        printf("%u %u %u %u %u %u %u %u\n", (unsigned)i + 1, number_at(event), event[2],
               event[3], answer[0], answer[1], answer[2], answer[3]);
    }
}

static void print_seats(const uint8_t *book)
{
    const uint8_t *seats = book + number_at(book + 6);
    for (unsigned n = 0; n < number_at(book + 2); n++)
        printf("seat %u %u\n", n, seats[LOTEND_SEAT_BYTES * n + 3]);
}

int main(void)
{
    uint8_t book[] = {0x01, 0x00, 0x02, 0x00, 0x08, 0x00, 0x0A, 0x00, 0x01,
                      0x00, 0x00, 0x01, 0x02, 0x05, 0x00, 0x01, 0x02, 0x05};
    const char *journal = "0 sent Close\n1 sent Compensate\n1 sent Close\n"
                          "0 got Fail\n1 got Closed\n2 sent Close\n";
    uint8_t events[LOTEND_EVENT_BYTES * EVENT_ROOM] = {0};
    uint8_t answers[LOTEND_ANSWER_BYTES * EVENT_ROOM];

    /* The book is judged first: a run with no events does only that. */
    uint32_t refusal = lotend_run(book, sizeof book, events, 0, answers, 0);
    if (refusal != LOTEND_REFUSED_NOTHING) {
        printf("refused %u\n", (unsigned)refusal);
        return 1;
    }
    lotend_reading reading =
        lotend_read_journal((const uint8_t *)journal, strlen(journal), events, sizeof events);
    if (reading.refusal != LOTEND_REFUSED_NOTHING) {
        printf("refused %u line %u\n", (unsigned)reading.refusal, (unsigned)reading.line);
        return 1;
    }
    /* A good book and no more events than the reader gives: this can't be refused. */
    lotend_run(book, sizeof book, events, (size_t)LOTEND_EVENT_BYTES * reading.count, answers,
               sizeof answers);
    printf("book %u %u\n", number_at(book), number_at(book + 2));
    print_events(events, answers, reading.count);
    print_seats(book);
    return 0;
}
