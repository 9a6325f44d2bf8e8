/* Files and events, made by rule, the same at every run. */
#ifndef INPUTS_H
#define INPUTS_H

#include <stddef.h>
#include <stdint.h>

enum { FILE_ROOM = 40000, PLAN_ROOM = 1590, EVENT = 32 };

struct text {
    size_t len;
    uint8_t bytes[FILE_ROOM];
};

/* How much a made file holds. Comments fill it up to `bytes`. */
struct sizes {
    int channels, triggers, filters, statements, tokens, actions, marks;
    size_t bytes;
    uint64_t seed;
};

extern const struct sizes typical_file, full_file, no_trigger_plan, typical_plan, full_plan;

/* Paper 01's sample. */
void make_small(struct text *t);

void make_file(struct text *t, const struct sizes *sizes);

/* Events in the order of their times. `wild` ones include refused and odd ones, and the frame that makes a made file's logger halt. */
void make_events(uint8_t *events, size_t count, int wild, uint64_t seed);

/* A number below n; the next one at each call. */
uint32_t draw(uint64_t *seed, uint32_t n);

#endif
