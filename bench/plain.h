/* The same rules as the proved libraries, in plain C written for speed: what the benchmark compares with. Nothing is proved of it;
   check.c compares its answers with the proved ones. */
#ifndef PLAIN_H
#define PLAIN_H

#include <stddef.h>
#include <stdint.h>

/* As steamfiddle_convert: number * 2^32 + value. */
uint64_t plain_convert(const uint8_t *file, size_t len, uint32_t *plan, size_t room);

/* As steamfiddle_load: 0 taken, or 20. */
uint32_t plain_load(const uint32_t *plan, size_t len);

/* As steamfiddle_replay, with the same records of 32 bytes. */
uint64_t plain_replay(const uint32_t *plan, size_t plan_len, const uint8_t *events, size_t events_len, uint32_t recorded, uint32_t idle,
                      uint32_t stopped, uint32_t halted, uint8_t *out, size_t out_len);

#endif
