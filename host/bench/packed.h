/* packed.h - packed simulators in C, the bar for the proved one: same file, same method, 64 lanes a word. */
#ifndef PACKED_H
#define PACKED_H
#include <stdint.h>

enum {
    MOST_INPUTS = 32, MOST_GATES = 128, MOST_NETS = MOST_INPUTS + MOST_GATES, MOST_FANINS = 8, MOST_CHANGES = 8,
    MOST_NET_FRAMES = 64, MOST_FRAMES = 2048, MOST_ENTRIES = MOST_FRAMES * MOST_FANINS, MOST_EXPECTATIONS = 1024
};

enum kind { BUF, NOT, AND, NAND, OR, NOR, XOR, XNOR };

struct gate {
    uint8_t kind, fanins;
    uint16_t delay, inertial_delay;
    uint16_t fanin[MOST_FANINS];
};

struct circuit {
    unsigned inputs, gates;
    struct gate gate[MOST_GATES];
};

/* What a call is handed: the circuit file, and when the inputs change. */
struct task {
    const uint8_t *file;
    uint64_t length;
    const uint8_t *counts;
    uint64_t inputs;
    const uint32_t *changes;
    uint64_t change_total;
};

/* The areas of the papers' sizes, 62 kilobytes. */
struct areas {
    uint16_t directory[2 * MOST_NETS];
    uint32_t times[MOST_FRAMES];
    uint16_t inertial[MOST_FRAMES];
    uint16_t fanins[MOST_ENTRIES];
    uint64_t values[MOST_FRAMES];
};

struct verdict {
    int met;
    uint64_t position, frame;
};

struct packed; /* circuit, plan and words: each engine has its own struct for them */

/* A function that answers a number answers 0, or the number of the first question whose answer is no. plan reads the file first,
   run plans first, and mark runs first. */
struct packed_engine {
    const char *name, *flags;
    struct packed *state;
    int (*read)(struct circuit *, const uint8_t *file, uint64_t length);
    int (*plan)(struct packed *, const struct task *);
    void (*evaluate)(struct packed *, const struct task *, const uint64_t *before, const uint64_t *after);
    int (*run)(struct packed *, const struct task *, const uint64_t *before, const uint64_t *after);
    int (*mark)(struct packed *, const struct task *, const uint64_t *before, const uint64_t *after,
                const uint8_t *expectations, uint64_t bytes, struct verdict *);
    void (*show)(const struct packed *, struct areas *, uint32_t totals[3]); /* a run, as the proved calls leave it */
};

/* plain.c for this machine, as it is, and so that it also clears, as a call has to, what it does not use of the areas; packed.c
   for this machine, and for any x86-64. */
extern const struct packed_engine plain, plain_clearing, tuned, tuned_generic;

#endif
