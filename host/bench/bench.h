/* bench.h - the circuit under test, and the proved calls on it. */
#ifndef BENCH_H
#define BENCH_H
#include "../include/mazhorukku.h"
#include "packed.h"
#include "wheel.h"

enum { WORD_SETS = 32, FEW = 12, MANY = 1000, RECORD = 12, LIMIT = 2048, MOST_WORDS = MOST_INPUTS * MOST_CHANGES };

/* What is lent to the calls, and what they answer. The fitted areas are the front of areas that hold any circuit. */
struct subject {
    const char *name;
    struct task task;
    struct circuit circuit;
    unsigned inputs, gates, frames, entries;
    uint8_t file[1 << 16], counts[MOST_INPUTS];
    uint32_t changes[MOST_WORDS];
    uint64_t before[WORD_SETS][MOST_INPUTS], after[WORD_SETS][MOST_WORDS];
    uint8_t expectations[MANY * RECORD];
    struct areas full, fitted;
    uint32_t nets[2], totals[3], turns[MOST_NETS];
    uint64_t verdict[3];
};

extern struct subject subject;

/* In the archive `timing`, for this benchmark alone: evaluation on a plan that mazh_plan has left in the areas. */
void mazh_evaluate(const uint8_t *file, uint64_t file_length, const uint8_t *counts, uint64_t counts_length,
                   const uint32_t *changes, uint64_t changes_length, uint16_t inputs, uint16_t gates, uint16_t frames,
                   const uint16_t *directory, uint64_t directory_length, const uint16_t *inertial, uint64_t inertial_length,
                   const uint16_t *fanins, uint64_t fanins_length, uint64_t *values, uint64_t values_length,
                   const uint64_t *before, uint64_t before_length, const uint64_t *after, uint64_t after_length);

uint64_t drawn(void); /* a random word */

uint32_t proved_read(void);
uint32_t proved_plan(void);
uint32_t proved_size(void);
uint32_t proved_run(unsigned set);
uint32_t proved_fitted(unsigned set);
void proved_evaluate(unsigned set);
uint32_t proved_mark(unsigned records);
void wheel_lanes(unsigned set);

/* Compares all answers on the circuit under test, and ends the program with status 1 where one differs. Leaves a plan in the full
   areas and in each engine, and expectations that the first set of words meets. */
void compare_all(void);

#endif
