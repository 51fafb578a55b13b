/* wheel.h - a conventional simulator: events on a timing wheel, one lane at a time. */
#ifndef WHEEL_H
#define WHEEL_H
#include "packed.h"

/* Takes a circuit; answers 0, or 1 if it is none for this simulator (an inertial delay above the transport delay). */
int wheel_load(const struct circuit *);

/* Simulates one lane, and adds to `turns` how often each net changes. */
void wheel_lane(const struct task *, const uint64_t *before, const uint64_t *after, unsigned lane, uint32_t *turns);

#endif
