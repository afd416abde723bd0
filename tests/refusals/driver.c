/* The library behind the examples of docs/REFUSALS.md.
 *
 *   driver program              reads a book and a journal, prints what the program prints
 *   driver run BOOK EVENTS AREA reads so many bytes of book and of events, lends an answer area
 *                               of so many, prints the refusal, the book and the area after */
#include "lotend.h"

#include <stdio.h>
#include <stdlib.h>
#include <string.h>

enum {
    /* The longest book, the longest journal and one byte more. */
    INPUT_BYTES = LOTEND_MAX_BOOK_BYTES + LOTEND_MAX_TEXT_BYTES + 1,
    RECORD_BYTES = LOTEND_EVENT_BYTES * LOTEND_MAX_EVENTS,
    BLANK = 0xA5
};

static uint8_t input[INPUT_BYTES];
static uint8_t area[INPUT_BYTES];

static size_t number_at(const uint8_t *bytes)
{
    return bytes[0] | (size_t)bytes[1] << 8;
}

/* How much of the input is the book: what its header asks for, or all there is. */
static size_t book_length(size_t input_len)
{
    if (input_len < LOTEND_HEADER_BYTES)
        return input_len;
    size_t asked = LOTEND_HEADER_BYTES + LOTEND_ACTIVITY_BYTES * number_at(input) +
                   LOTEND_SEAT_BYTES * number_at(input + 2);
    return asked < input_len ? asked : input_len;
}

static void print_events(const uint8_t *events, const uint8_t *answers, uint32_t count)
{
    for (uint32_t i = 0; i < count; i++) {
        const uint8_t *event = events + LOTEND_EVENT_BYTES * i;
        const uint8_t *answer = answers + LOTEND_ANSWER_BYTES * i;
        printf("%u %u %u %u %u %u %u %u\n", (unsigned)i + 1, (unsigned)number_at(event), event[2],
               event[3], answer[0], answer[1], answer[2], answer[3]);
    }
}

static void print_seats(const uint8_t *book)
{
    const uint8_t *seats = book + number_at(book + 6);
    for (size_t n = 0; n < number_at(book + 2); n++)
        printf("seat %u %u\n", (unsigned)n, seats[LOTEND_SEAT_BYTES * n + 3]);
}

/* The book is judged by a run with no events; then the journal is read, and its events run. */
static void report(size_t input_len)
{
    static uint8_t events[RECORD_BYTES];
    size_t book_len = book_length(input_len);
    uint32_t refusal = lotend_run(input, book_len, events, 0, area, 0);
    if (refusal != LOTEND_REFUSED_NOTHING) {
        printf("refused %u\n", (unsigned)refusal);
        return;
    }
    lotend_reading reading =
        lotend_read_journal(input + book_len, input_len - book_len, events, sizeof events);
    if (reading.refusal != LOTEND_REFUSED_NOTHING) {
        printf("refused %u line %u\n", (unsigned)reading.refusal, (unsigned)reading.line);
        return;
    }
    refusal = lotend_run(input, book_len, events, (size_t)LOTEND_EVENT_BYTES * reading.count, area,
                         RECORD_BYTES);
    if (refusal != LOTEND_REFUSED_NOTHING) {
        printf("run refused %u\n", (unsigned)refusal);
        return;
    }
    printf("book %u %u\n", (unsigned)number_at(input), (unsigned)number_at(input + 2));
    print_events(events, area, reading.count);
    print_seats(input);
}

static void print_hex(const char *name, const uint8_t *bytes, size_t length)
{
    printf("%s ", name);
    for (size_t i = 0; i < length; i++)
        printf("%02x", bytes[i]);
    printf("\n");
}

static int run(size_t book_len, size_t events_len, size_t area_len, size_t input_len)
{
    if (input_len != book_len + events_len || area_len > sizeof area)
        return EXIT_FAILURE;
    memset(area, BLANK, area_len);
    uint32_t refusal = lotend_run(input, book_len, input + book_len, events_len, area, area_len);
    printf("returns %u\n", (unsigned)refusal);
    print_hex("book", input, book_len);
    print_hex("area", area, area_len);
    return EXIT_SUCCESS;
}

int main(int argc, char **argv)
{
    size_t input_len = fread(input, 1, sizeof input, stdin);
    if (argc == 2 && strcmp(argv[1], "program") == 0) {
        report(input_len);
        return EXIT_SUCCESS;
    }
    if (argc == 5 && strcmp(argv[1], "run") == 0)
        return run(strtoul(argv[2], NULL, 10), strtoul(argv[3], NULL, 10),
                   strtoul(argv[4], NULL, 10), input_len);
    fprintf(stderr, "usage: driver program | driver run BOOK EVENTS AREA\n");
    return EXIT_FAILURE;
}
