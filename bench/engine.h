/* The two functions by hand in C for x86-64, with word loads, bit tricks and SSE2. */
#ifndef PLAIN_ENGINE_H
#define PLAIN_ENGINE_H

#include "../include/lotend.h"

uint32_t plain_run(uint8_t *book, size_t book_len, const uint8_t *events,
                   size_t events_len, uint8_t *answers, size_t answers_len);

lotend_reading plain_read_journal(const uint8_t *text, size_t text_len,
                                  uint8_t *events, size_t events_len);

#endif
