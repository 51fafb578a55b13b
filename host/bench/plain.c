/* plain.c - a packed simulator in plain C: plan, evaluate, run, mark, straight from the method of frames. Nothing in it was tuned
   on the benchmark's circuits. */
#include "reader.h"

struct packed {
    struct circuit circuit;
    struct areas areas; /* with one difference: a fan-in entry is the place of the frame in the area, not its number in its net */
    uint32_t totals[3]; /* frames, fan-in entries, last time */
    int clearing;       /* whether what is not used of the areas has to end as zeros */
};

/* ---- plan ------------------------------------------------------------------------------------------------------------ */

struct list { /* a net's times */
    const uint32_t *time;
    unsigned first, frames;
};

/* The net's times stand in the area, behind those of the nets before. */
static void add_net(struct packed *s, unsigned net, unsigned frames)
{
    const unsigned first = s->totals[0], last_time = s->areas.times[first + frames - 1];
    s->areas.directory[2 * net] = first;
    s->areas.directory[2 * net + 1] = frames;
    s->totals[0] += frames;
    if (s->totals[2] < last_time) s->totals[2] = last_time;
}

static void plan_inputs(struct packed *s, const struct task *task)
{
    const uint32_t *change = task->changes;
    for (unsigned i = 0; i < s->circuit.inputs; i++) {
        uint32_t *time = s->areas.times + s->totals[0];
        *time++ = 0;
        for (unsigned k = 0; k < task->counts[i]; k++) *time++ = *change++;
        add_net(s, i, task->counts[i] + 1);
    }
    memset(s->areas.inertial, 0, s->totals[0] * sizeof *s->areas.inertial);
}

/* A gate's potential times: 0, and each later time of each fan-in plus the delay. The fan-ins' times rise, so they are merged.
   Answers how many, or 0 if there is no room for all. */
static unsigned gate_times(const struct gate *g, const struct list *fanin, uint32_t *time, unsigned room)
{
    unsigned at[MOST_FANINS], frames = 0;
    for (unsigned e = 0; e < g->fanins; e++) at[e] = 1;
    for (uint32_t next = 0; next != UINT32_MAX;) {
        if (frames == room) return 0;
        const uint32_t now = time[frames++] = next;
        next = UINT32_MAX;
        for (unsigned e = 0; e < g->fanins; e++) {
            while (at[e] < fanin[e].frames && fanin[e].time[at[e]] + g->delay <= now) at[e]++;
            if (at[e] < fanin[e].frames && fanin[e].time[at[e]] + g->delay < next) next = fanin[e].time[at[e]] + g->delay;
        }
    }
    return frames;
}

/* How many later frames begin within reach of a frame. The last of them never moves back, so the search goes on from it. */
static void inertial_indices(const uint32_t *time, unsigned frames, uint32_t reach, uint16_t *inertial)
{
    unsigned last = 0;
    for (unsigned k = 0; k < frames; k++) {
        while (last + 1 < frames && time[last + 1] - time[k] <= reach) last++;
        inertial[k] = last - k;
    }
}

/* Row by row, the frame of each fan-in that decides: the last one that has come through the gate by then. */
static void fanin_indices(const struct gate *g, const struct list *fanin, const uint32_t *time, unsigned frames, uint16_t *entry)
{
    unsigned at[MOST_FANINS] = {0};
    for (unsigned k = 0; k < frames; k++)
        for (unsigned e = 0; e < g->fanins; e++) {
            while (at[e] + 1 < fanin[e].frames && fanin[e].time[at[e] + 1] + g->delay <= time[k]) at[e]++;
            *entry++ = fanin[e].first + at[e];
        }
}

static int plan_gate(struct packed *s, unsigned j)
{
    struct areas *a = &s->areas;
    const struct gate *g = &s->circuit.gate[j];
    const unsigned first = s->totals[0], left = MOST_FRAMES - first;
    struct list fanin[MOST_FANINS];
    for (unsigned e = 0; e < g->fanins; e++) {
        const uint16_t *pair = a->directory + 2 * g->fanin[e];
        fanin[e] = (struct list){.time = a->times + pair[0], .first = pair[0], .frames = pair[1]};
    }
    unsigned frames = gate_times(g, fanin, a->times + first, left < MOST_NET_FRAMES ? left : MOST_NET_FRAMES);
    if (!frames) return 13;
    inertial_indices(a->times + first, frames, g->inertial_delay, a->inertial + first);
    fanin_indices(g, fanin, a->times + first, frames, a->fanins + s->totals[1]);
    s->totals[1] += frames * g->fanins;
    add_net(s, s->circuit.inputs + j, frames);
    return 0;
}

#define CLEAR_BEHIND(area, used) memset((area) + (used), 0, sizeof(area) - (used) * sizeof *(area))

static void clear_plan(const struct packed *s, struct areas *a)
{
    CLEAR_BEHIND(a->directory, 2 * (s->circuit.inputs + s->circuit.gates));
    CLEAR_BEHIND(a->times, s->totals[0]);
    CLEAR_BEHIND(a->inertial, s->totals[0]);
    CLEAR_BEHIND(a->fanins, s->totals[1]);
}

static int plan_task(struct packed *s, const struct task *task)
{
    memset(s->totals, 0, sizeof s->totals);
    plan_inputs(s, task);
    for (unsigned j = 0; j < s->circuit.gates; j++)
        if (plan_gate(s, j)) return 13;
    if (s->clearing) clear_plan(s, &s->areas);
    return 0;
}

static int plan(struct packed *s, const struct task *task)
{
    int refusal = read_task(&s->circuit, task);
    return refusal ? refusal : plan_task(s, task);
}

/* ---- evaluate -------------------------------------------------------------------------------------------------------- */

/* In each frame the words that its row names, joined. Most gates have two fan-ins, so these have a loop of their own. */
#define JOIN(op)                                                                                                              \
    if (fanins == 2)                                                                                                          \
        for (unsigned k = 0; k < frames; k++) out[k] = (value[row[2 * k]] op value[row[2 * k + 1]]) ^ turn;                   \
    else                                                                                                                      \
        for (unsigned k = 0; k < frames; k++, row += fanins) {                                                                \
            uint64_t word = value[row[0]];                                                                                    \
            for (unsigned e = 1; e < fanins; e++) word = word op value[row[e]];                                               \
            out[k] = word ^ turn;                                                                                             \
        }

/* A gate's words before the filter. Odd kinds are complements; one entry, that of BUF and NOT, joins nothing. */
static void raw_words(const struct gate *g, const uint64_t *value, const uint16_t *row, uint64_t *out, unsigned frames)
{
    const uint64_t turn = g->kind & 1 ? ~0ull : 0;
    const unsigned fanins = g->fanins;
    switch (g->kind) {
    case AND: case NAND: JOIN(&) break;
    case OR: case NOR: JOIN(|) break;
    default: JOIN(^)
    }
}

/* A frame's new level counts if it stays for the inertial delay, else the level before goes on. In place: when frame k is decided,
   the frames behind it still have their words before the filter. */
static void filter(uint64_t *word, unsigned frames, const uint16_t *inertial)
{
    for (unsigned k = 1; k < frames; k++) {
        uint64_t unsteady = 0;
        for (unsigned i = 1; i <= inertial[k]; i++) unsteady |= word[k + i] ^ word[k];
        word[k] = (word[k - 1] & unsteady) | (word[k] & ~unsteady);
    }
}

static void evaluate(struct packed *s, const struct task *task, const uint64_t *before, const uint64_t *after)
{
    struct areas *a = &s->areas;
    uint64_t *value = a->values;
    const uint16_t *row = a->fanins;
    for (unsigned i = 0; i < s->circuit.inputs; i++) {
        *value++ = before[i];
        for (unsigned k = 0; k < task->counts[i]; k++) *value++ = *after++;
    }
    for (unsigned j = 0; j < s->circuit.gates; j++) {
        const struct gate *g = &s->circuit.gate[j];
        const uint16_t *pair = a->directory + 2 * (s->circuit.inputs + j);
        raw_words(g, a->values, row, a->values + pair[0], pair[1]);
        if (g->inertial_delay) filter(a->values + pair[0], pair[1], a->inertial + pair[0]);
        row += pair[1] * g->fanins;
    }
}

static int run_task(struct packed *s, const struct task *task, const uint64_t *before, const uint64_t *after)
{
    int refusal = plan_task(s, task);
    if (refusal) return refusal;
    evaluate(s, task, before, after);
    if (s->clearing) CLEAR_BEHIND(s->areas.values, s->totals[0]);
    return 0;
}

static int run(struct packed *s, const struct task *task, const uint64_t *before, const uint64_t *after)
{
    int refusal = read_task(&s->circuit, task);
    return refusal ? refusal : run_task(s, task, before, after);
}

/* ---- mark ------------------------------------------------------------------------------------------------------------ */

/* The first frame in the span that breaks the expectation, or -1. */
static int broken_frame(const struct areas *a, struct expectation x)
{
    const unsigned first = a->directory[2 * x.net], frames = a->directory[2 * x.net + 1];
    const uint32_t *time = a->times + first;
    unsigned k = 0;
    while (k + 1 < frames && time[k + 1] <= x.from) k++;
    for (; k < frames && time[k] <= x.to; k++)
        if ((a->values[first + k] >> x.lane & 1) != x.level) return k;
    return -1;
}

static struct verdict verdict_on(const struct areas *a, const uint8_t *bytes, uint64_t records)
{
    for (uint64_t i = 0; i < records; i++) {
        int frame = broken_frame(a, expectation_at(bytes, i));
        if (frame >= 0) return (struct verdict){0, i, frame};
    }
    return (struct verdict){1, 0, 0};
}

static int mark(struct packed *s, const struct task *task, const uint64_t *before, const uint64_t *after,
                const uint8_t *expectations, uint64_t bytes, struct verdict *v)
{
    const uint64_t records = bytes / sizeof(struct expectation);
    if (bytes % sizeof(struct expectation) || records > MOST_EXPECTATIONS) return 100;
    int refusal = read_task(&s->circuit, task);
    if (!refusal) refusal = check_expectations(expectations, records, s->circuit.inputs + s->circuit.gates);
    if (!refusal) refusal = run_task(s, task, before, after);
    if (!refusal) *v = verdict_on(&s->areas, expectations, records);
    return refusal;
}

/* ---- the engine, and the one that clears ----------------------------------------------------------------------------- */

static void show(const struct packed *s, struct areas *a, uint32_t totals[3])
{
    uint16_t *entry = a->fanins;
    *a = s->areas;
    for (unsigned j = 0; j < s->circuit.gates; j++) {
        const struct gate *g = &s->circuit.gate[j];
        for (unsigned k = 0; k < a->directory[2 * (s->circuit.inputs + j) + 1]; k++)
            for (unsigned e = 0; e < g->fanins; e++) *entry++ -= a->directory[2 * g->fanin[e]];
    }
    memcpy(totals, s->totals, sizeof s->totals);
    if (s->clearing) return; /* then all that is not used has to be zeros already */
    clear_plan(s, a);
    CLEAR_BEHIND(a->values, s->totals[0]);
}

static struct packed state, clearing_state = {.clearing = 1};

const struct packed_engine plain = {"plain C", FLAGS, &state, read_circuit, plan, evaluate, run, mark, show};
const struct packed_engine plain_clearing = {
    "plain C, clearing", FLAGS, &clearing_state, read_circuit, plan, evaluate, run, mark, show};
