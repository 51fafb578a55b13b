/* proved.c - the proved calls, and the wheel, on the circuit under test. */
#include "bench.h"

#define S subject
#define CHANGING S.file, S.task.length, S.counts, S.inputs, S.changes, S.task.change_total
#define FULL_PLAN                                                                                                             \
    S.full.directory, 2 * MOST_NETS, S.full.times, MOST_FRAMES, S.full.inertial, MOST_FRAMES, S.full.fanins, MOST_ENTRIES
#define FITTED_PLAN                                                                                                           \
    S.fitted.directory, 2 * (S.inputs + S.gates), S.fitted.times, S.frames, S.fitted.inertial, S.frames, S.fitted.fanins,      \
        S.entries
#define WORDS_OF(set) S.before[set], S.inputs, S.after[set], S.task.change_total

uint32_t proved_read(void)
{
    return mazh_read(S.file, S.task.length, S.nets);
}

uint32_t proved_plan(void)
{
    return mazh_plan(CHANGING, LIMIT, FULL_PLAN, S.totals);
}

uint32_t proved_size(void)
{
    return mazh_size(CHANGING, LIMIT, S.totals);
}

uint32_t proved_run(unsigned set)
{
    return mazh_run(CHANGING, LIMIT, FULL_PLAN, S.full.values, MOST_FRAMES, WORDS_OF(set), S.totals);
}

uint32_t proved_fitted(unsigned set)
{
    return mazh_run_fitted(CHANGING, LIMIT, FITTED_PLAN, S.fitted.values, S.frames, WORDS_OF(set), S.totals);
}

/* Lent a word a frame and no more, so that it has nothing to clear. */
void proved_evaluate(unsigned set)
{
    mazh_evaluate(CHANGING, S.inputs, S.gates, S.frames, S.full.directory, 2 * MOST_NETS, S.full.inertial, MOST_FRAMES,
                  S.full.fanins, MOST_ENTRIES, S.full.values, S.frames, WORDS_OF(set));
}

uint32_t proved_mark(unsigned records)
{
    return mazh_mark(CHANGING, LIMIT, FULL_PLAN, S.full.values, MOST_FRAMES, WORDS_OF(0), S.expectations, RECORD * records,
                     S.verdict);
}

void wheel_lanes(unsigned set)
{
    for (unsigned lane = 0; lane < 64; lane++) wheel_lane(&S.task, S.before[set], S.after[set], lane, S.turns);
}
