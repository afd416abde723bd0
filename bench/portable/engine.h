/* The two functions by hand in portable C: the bytes taken one at a time, as the
 * outline lays them out. */
#ifndef PORTABLE_ENGINE_H
#define PORTABLE_ENGINE_H

#include "../../include/lotend.h"

uint32_t portable_run(uint8_t *book, size_t book_len, const uint8_t *events,
                      size_t events_len, uint8_t *answers, size_t answers_len);

lotend_reading portable_read_journal(const uint8_t *text, size_t text_len,
                                     uint8_t *events, size_t events_len);

#endif
