/* compare.c - the answers of the proved calls, of the C engines and of the wheel, compared before anything is timed. */
#include <stdio.h>
#include <stdlib.h>
#include <string.h>
#include "bench.h"

enum { WHEEL_SETS = 4, BURSTS = 24, DAMAGED = 200, RUBBISH = 0xA5 };

#define S subject

static const struct packed_engine *engine; /* that the proved calls are compared with */
static struct areas expected;              /* its latest run */
static uint32_t expected_totals[3];

static void differs(const char *what, uint64_t place)
{
    printf("%s, against %s: %s differs at %llu\n", S.name, engine->name, what, (unsigned long long)place);
    exit(1);
}

#define SAME(what, place, x, y)                                                                                               \
    do {                                                                                                                      \
        if ((x) != (y)) differs(what, place);                                                                                 \
    } while (0)

/* ---- runs -------------------------------------------------------------------------------------------------------------- */

static int engine_run(unsigned set)
{
    int refusal = engine->run(engine->state, &S.task, S.before[set], S.after[set]);
    if (!refusal) engine->show(engine->state, &expected, expected_totals);
    return refusal;
}

static void compare_areas(const struct areas *a)
{
    for (unsigned i = 0; i < 2 * MOST_NETS; i++) SAME("directory", i, expected.directory[i], a->directory[i]);
    for (unsigned i = 0; i < MOST_FRAMES; i++) SAME("times", i, expected.times[i], a->times[i]);
    for (unsigned i = 0; i < MOST_FRAMES; i++) SAME("inertial", i, expected.inertial[i], a->inertial[i]);
    for (unsigned i = 0; i < MOST_ENTRIES; i++) SAME("fan-in", i, expected.fanins[i], a->fanins[i]);
    for (unsigned i = 0; i < MOST_FRAMES; i++) SAME("values", i, expected.values[i], a->values[i]);
}

static void compare_totals(const char *what)
{
    for (unsigned i = 0; i < 3; i++) SAME(what, i, S.totals[i], expected_totals[i]);
    memset(S.totals, RUBBISH, sizeof S.totals);
}

/* One set of words through plan and evaluation, run and fitted run, the full areas full of rubbish. */
static void compare_runs(unsigned set)
{
    SAME("the engine's run", set, engine_run(set), 0);
    memset(&S.full, RUBBISH, sizeof S.full);
    SAME("plan", set, proved_plan(), 0);
    compare_totals("plan's totals");
    proved_evaluate(set);
    memset(S.full.values + S.frames, 0, (MOST_FRAMES - S.frames) * sizeof *S.full.values);
    compare_areas(&S.full);
    memset(&S.fitted, 0, sizeof S.fitted);
    SAME("fitted run", set, proved_fitted(set), 0);
    compare_totals("fitted run's totals");
    compare_areas(&S.fitted);
    memset(&S.full, RUBBISH, sizeof S.full);
    SAME("run", set, proved_run(set), 0);
    compare_totals("run's totals");
    compare_areas(&S.full);
}

/* ---- changes of the nets ----------------------------------------------------------------------------------------------- */

static uint32_t counted(unsigned net)
{
    const unsigned first = S.full.directory[2 * net], frames = S.full.directory[2 * net + 1];
    uint32_t sum = 0, changes[1];
    for (unsigned lane = 0; lane < 64; lane++) {
        SAME("count", net, mazh_count(S.full.times + first, frames, S.full.values + first, frames, lane, changes), 0);
        sum += changes[0];
    }
    return sum;
}

static uint32_t in_words(unsigned net)
{
    const uint64_t *value = expected.values + expected.directory[2 * net];
    uint32_t sum = 0;
    for (unsigned k = 1; k < expected.directory[2 * net + 1]; k++) sum += __builtin_popcountll(value[k] ^ value[k - 1]);
    return sum;
}

/* How often each net changes, summed over the lanes: on the wheel, by Count on the proved run, in the words of the engine's run. */
static void compare_turns(unsigned set)
{
    memset(S.turns, 0, sizeof S.turns);
    wheel_lanes(set);
    for (unsigned n = 0; n < S.inputs + S.gates; n++) {
        SAME("count", n, counted(n), in_words(n));
        SAME("the wheel's count", n, S.turns[n], in_words(n));
    }
}

/* ---- marks ------------------------------------------------------------------------------------------------------------- */

/* All met by the run that stands in the areas: a net, a lane, and from one of its frames on those that keep the level. */
static void draw_expectation(uint8_t *record)
{
    const uint16_t net = (drawn() >> 32) % (S.inputs + S.gates);
    const unsigned first = S.full.directory[2 * net], end = first + S.full.directory[2 * net + 1];
    const unsigned lane = drawn() >> 58;
    unsigned k = first + (drawn() >> 32) % (end - first), last = k;
    const unsigned level = S.full.values[k] >> lane & 1;
    while (last + 1 < end && (S.full.values[last + 1] >> lane & 1) == level) last++;
    memcpy(record, &net, 2);
    record[2] = lane, record[3] = level;
    memcpy(record + 4, &S.full.times[k], 4);
    memcpy(record + 8, &S.full.times[last], 4);
}

static void compare_mark(unsigned records, unsigned met)
{
    struct verdict v;
    memset(&S.full, RUBBISH, sizeof S.full);
    int refusal = engine->mark(engine->state, &S.task, S.before[0], S.after[0], S.expectations, RECORD * records, &v);
    SAME("the engine's mark", records, refusal, 0);
    SAME("mark", records, proved_mark(records), 0);
    SAME("verdict", records, S.verdict[0], met);
    SAME("the engine's verdict", records, (unsigned)v.met, met);
    SAME("the verdict's position", records, S.verdict[1], v.position);
    SAME("the verdict's frame", records, S.verdict[2], v.frame);
}

/* Each list as it is, and with one expectation turned round. */
static void compare_marks(void)
{
    for (unsigned i = 0; i < MANY; i++) draw_expectation(S.expectations + RECORD * i);
    compare_mark(FEW, 1);
    compare_mark(MANY, 1);
    for (unsigned i = 0; i < MANY; i += 37) {
        S.expectations[RECORD * i + 3] ^= 1;
        compare_mark(MANY, 0);
        S.expectations[RECORD * i + 3] ^= 1;
    }
}

/* ---- bursts ------------------------------------------------------------------------------------------------------------ */

static void draw_changes(unsigned most)
{
    unsigned at = 0;
    for (unsigned i = 0; i < S.inputs; i++) {
        unsigned time = 0;
        S.counts[i] = (drawn() >> 32) % (most + 1);
        for (unsigned k = 0; k < S.counts[i]; k++) S.changes[at++] = time += 1 + (drawn() >> 32) % 16;
    }
    S.task.change_total = at;
}

/* Inputs that change more than once, as nothing is timed on: the refusals of both, or all that they answer. */
static void compare_bursts(void)
{
    for (unsigned i = 0; i < BURSTS; i++) {
        draw_changes(i % (MOST_CHANGES + 1));
        uint32_t refusal = proved_run(0);
        SAME("a burst's refusal", i, refusal, (uint32_t)engine_run(0));
        if (refusal) continue;
        S.frames = expected_totals[0], S.entries = expected_totals[1];
        compare_runs(0);
        compare_turns(0);
    }
}

/* One change at 1 for each input: what is timed. */
static void single_changes(void)
{
    memset(S.counts, 1, sizeof S.counts);
    for (unsigned i = 0; i < S.inputs; i++) S.changes[i] = 1;
    S.task.change_total = S.inputs;
    SAME("the engine's run", 0, engine_run(0), 0);
    S.frames = expected_totals[0], S.entries = expected_totals[1];
}

/* Files with one byte changed, and files cut short: what the readers answer. */
static void compare_damaged(void)
{
    for (unsigned i = 0; i < DAMAGED; i++) {
        const uint64_t place = (drawn() >> 32) % S.task.length, length = i % 8 ? S.task.length : place;
        const uint8_t kept = S.file[place];
        struct circuit c;
        S.file[place] = drawn() >> (i % 2 ? 56 : 61);
        SAME("the refusal of a damaged file", i, mazh_read(S.file, length, S.nets), (uint32_t)engine->read(&c, S.file, length));
        S.file[place] = kept;
    }
}

static void compare_one(void)
{
    compare_damaged();
    SAME("read", 0, proved_read(), 0);
    SAME("inputs", 0, S.nets[0], S.inputs);
    SAME("gates", 0, S.nets[1], S.gates);
    compare_bursts();
    single_changes();
    for (unsigned set = WORD_SETS; set-- > 0;) {
        compare_runs(set);
        if (set < WHEEL_SETS) compare_turns(set);
    }
    SAME("size", 0, proved_size(), 0);
    compare_totals("size's totals");
    compare_marks();
}

void compare_all(void)
{
    static const struct packed_engine *const all[] = {&plain, &plain_clearing, &tuned, &tuned_generic};
    for (unsigned i = 0; i < sizeof all / sizeof *all; i++) {
        engine = all[i];
        compare_one();
    }
}
