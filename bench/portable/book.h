/* The book's bytes, and the check that comes before a run. */
#ifndef PORTABLE_BOOK_H
#define PORTABLE_BOOK_H

#include "../../include/lotend.h"

enum { ACTIVITY_KIND, ACTIVITY_DIRECTION };
enum { SEAT_ACTIVITY, SEAT_ROLE, SEAT_TABLE, SEAT_STATE };

static inline size_t number_at(const uint8_t *at)
{
    return at[0] | (size_t)at[1] << 8;
}

/* The first of refusals 1 to 5 that applies, or LOTEND_REFUSED_NOTHING. */
uint32_t portable_check_book(const uint8_t *book, size_t book_len);

#endif
