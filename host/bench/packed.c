/* packed.c - a packed simulator in C: plan, evaluate, run, mark. It was tuned on the benchmark's circuits.
   Compiled with -DENGINE=name -DNAME="name", so that builds with different flags can stand side by side in one program. */
#include <stddef.h>
#include "reader.h"

#define INLINE static inline __attribute__((always_inline))
#define NEVER UINT32_MAX /* behind the last time of each net, so that a merge needs no test for its end */

enum { SPARE = MOST_FANINS * MOST_NET_FRAMES }; /* room behind the last frame for a gate that turns out to have too many */

/* The frames of all nets are numbered through, in net order. */
struct plan {
    unsigned frames, entries;
    uint32_t last_time;
    uint16_t first[MOST_NETS + 1];                    /* of a net: its first frame; its times begin at first + net */
    uint16_t row[MOST_GATES];                         /* of a gate: its first fan-in entry */
    uint8_t followers[MOST_GATES];                    /* of a gate: its largest inertial index if that is 0 or 1, else above 1 */
    uint32_t time[MOST_FRAMES + MOST_NETS + SPARE];   /* potential times, each net's closed by NEVER */
    uint8_t inertial[MOST_FRAMES];                    /* inertial index of a frame */
    uint16_t source[MOST_ENTRIES + MOST_FANINS * SPARE]; /* the frame that a fan-in entry reads; not for one fan-in */
};

struct packed {
    struct circuit circuit;
    struct plan plan;
    uint64_t value[MOST_FRAMES + 2];
};

/* ---- plan ------------------------------------------------------------------------------------------------------------ */

static void plan_inputs(struct plan *p, const struct circuit *c, const struct task *task)
{
    const uint32_t *changes = task->changes;
    unsigned frame = 0;
    uint32_t *time = p->time, last = 0;
    for (unsigned i = 0; i < c->inputs; i++) {
        unsigned count = task->counts[i];
        p->first[i] = frame;
        *time++ = 0;
        for (unsigned k = 0; k < count; k++) *time++ = *changes++;
        if (time[-1] > last) last = time[-1];
        *time++ = NEVER;
        frame += count + 1;
    }
    memset(p->inertial, 0, frame);
    p->first[c->inputs] = frame;
    p->last_time = last;
}

/* One fan-in: its times, each later by the delay. */
INLINE unsigned shift_times(const struct plan *p, const struct gate *g, uint32_t *restrict time)
{
    const unsigned net = g->fanin[0], frames = p->first[net + 1] - p->first[net];
    const uint32_t *from = p->time + p->first[net] + net;
    time[0] = 0;
    for (unsigned k = 1; k < frames; k++) time[k] = from[k] + g->delay;
    time[frames] = NEVER;
    return frames;
}

/* Two fan-ins: both lists at once, and with them the two fan-in indices. No branch depends on the times, and each list's time
   after the next is fetched ahead, so that no turn waits for a load. */
INLINE unsigned merge_two(const struct plan *p, const struct gate *g, uint32_t *restrict time, uint16_t *restrict source)
{
    const unsigned base_a = p->first[g->fanin[0]], base_b = p->first[g->fanin[1]];
    const uint32_t *a = p->time + base_a + g->fanin[0], *b = p->time + base_b + g->fanin[1], delay = g->delay;
    uint32_t next_a = a[1], next_b = b[1];
    unsigned k = 1;
    size_t i = 0, j = 0;
    time[0] = 0, source[0] = base_a, source[1] = base_b;
    while ((next_a & next_b) != NEVER) {
        uint32_t far_a = a[i + 2], far_b = b[j + 2];
        int step_a = next_a <= next_b, step_b = next_b <= next_a;
        time[k] = (step_a ? next_a : next_b) + delay;
        next_a ^= (next_a ^ far_a) & -step_a;
        next_b ^= (next_b ^ far_b) & -step_b;
        i += step_a, j += step_b;
        source[2 * k] = base_a + i, source[2 * k + 1] = base_b + j;
        k++;
    }
    time[k] = NEVER;
    return k;
}

/* The same for any number of fan-ins; inlined for the usual ones, so that the inner loops unroll. */
INLINE unsigned merge(const struct plan *p, const struct gate *g, unsigned fanins, uint32_t *restrict time,
                      uint16_t *restrict source)
{
    const uint32_t *from[MOST_FANINS];
    uint32_t next[MOST_FANINS];
    unsigned at[MOST_FANINS], k = 1;
    const uint32_t delay = g->delay;
    time[0] = 0;
    for (unsigned e = 0; e < fanins; e++) {
        at[e] = p->first[g->fanin[e]];
        from[e] = p->time + g->fanin[e];
        next[e] = from[e][at[e] + 1];
        *source++ = at[e];
    }
    for (;; k++) {
        uint32_t t = next[0];
        for (unsigned e = 1; e < fanins; e++) t = next[e] < t ? next[e] : t;
        if (t == NEVER) break;
        time[k] = t + delay;
        for (unsigned e = 0; e < fanins; e++) {
            uint32_t far = from[e][at[e] + 2];
            at[e] += next[e] == t;
            next[e] ^= (next[e] ^ far) & -(next[e] == t);
            *source++ = at[e];
        }
    }
    time[k] = NEVER;
    return k;
}

static unsigned gate_times(const struct plan *p, const struct gate *g, uint32_t *time, uint16_t *source)
{
    switch (g->fanins) {
    case 1: return shift_times(p, g, time);
    case 2: return merge_two(p, g, time, source);
    case 3: return merge(p, g, 3, time, source);
    case 4: return merge(p, g, 4, time, source);
    case 5: return merge(p, g, 5, time, source);
    case 6: return merge(p, g, 6, time, source);
    case 7: return merge(p, g, 7, time, source);
    default: return merge(p, g, 8, time, source);
    }
}

/* The inertial indices of a gate's frames; answers 0 or 1 if that is the largest, else something above. Times rise by 1 at least,
   so within a reach of 1 is the next frame or none; else the first two followers are counted without a branch. */
static unsigned inertial_indices(uint32_t *restrict time, unsigned frames, uint32_t reach, uint8_t *restrict inertial)
{
    unsigned most = 0;
    if (reach == 0) return memset(inertial, 0, frames), 0;
    if (reach == 1) {
        for (unsigned k = 0; k < frames; k++) most |= inertial[k] = time[k + 1] == time[k] + 1;
        return most;
    }
    time[frames + 1] = NEVER; /* until the next net's times overwrite it */
    for (unsigned k = 0; k < frames; k++) {
        const uint32_t limit = time[k] + reach;
        unsigned index = (time[k + 1] <= limit) + (time[k + 2] <= limit);
        if (index == 2) while (time[k + index + 1] <= limit) index++;
        inertial[k] = index;
        most |= index;
    }
    return most;
}

static int plan_gates(struct plan *p, const struct circuit *c)
{
    unsigned frame = p->first[c->inputs], entry = 0;
    for (unsigned j = 0; j < c->gates; j++) {
        const struct gate *g = &c->gate[j];
        unsigned net = c->inputs + j;
        uint32_t *time = p->time + frame + net;
        unsigned frames = gate_times(p, g, time, p->source + entry);
        if (frames > MOST_NET_FRAMES || frame + frames > MOST_FRAMES) return 13;
        p->followers[j] = inertial_indices(time, frames, g->inertial_delay, p->inertial + frame);
        p->row[j] = entry;
        if (time[frames - 1] > p->last_time) p->last_time = time[frames - 1];
        frame += frames;
        entry += frames * g->fanins;
        p->first[net + 1] = frame;
    }
    p->frames = frame, p->entries = entry;
    return 0;
}

static int plan_task(struct packed *s, const struct task *task)
{
    plan_inputs(&s->plan, &s->circuit, task);
    return plan_gates(&s->plan, &s->circuit);
}

static int plan(struct packed *s, const struct task *task)
{
    int refusal = read_task(&s->circuit, task);
    return refusal ? refusal : plan_task(s, task);
}

/* ---- evaluate -------------------------------------------------------------------------------------------------------- */

static void input_values(struct packed *s, const struct task *task, const uint64_t *before, const uint64_t *after)
{
    uint64_t *value = s->value;
    for (unsigned i = 0; i < s->circuit.inputs; i++) {
        *value++ = before[i];
        for (unsigned k = task->counts[i]; k; k--) *value++ = *after++;
    }
}

enum op { ALL, SOME, ODD }; /* what a kind asks of its entries, up to the complement */

/* A gate at work: where its words go, what its fan-in rows and inertial indices are, and all ones if its kind is a complement. */
struct work {
    uint64_t *out;
    unsigned frames, followers;
    const uint64_t *value;
    const uint16_t *row;
    const uint8_t *inertial;
    uint64_t turn;
};

INLINE uint64_t joined(enum op op, uint64_t x, uint64_t y)
{
    return op == ALL ? x & y : op == SOME ? x | y : x ^ y;
}

/* The raw word of a frame, from the words of the frames that its row names. */
INLINE uint64_t raw_word(enum op op, struct work w, unsigned fanins)
{
    uint64_t word = joined(op, w.value[w.row[0]], w.value[w.row[1]]);
    for (unsigned e = 2; e < fanins; e++) word = joined(op, word, w.value[w.row[e]]);
    return word ^ w.turn;
}

INLINE void raw_words(enum op op, struct work w, unsigned fanins)
{
    for (unsigned k = 0; k < w.frames; k++, w.row += fanins) w.out[k] = raw_word(op, w, fanins);
}

/* Where no frame has more than one follower within reach, the raw words are filtered as they come, without a branch. The last
   frame has no follower. */
INLINE void filtered_words(enum op op, struct work w, unsigned fanins)
{
    uint64_t before = raw_word(op, w, fanins);
    w.row += fanins;
    uint64_t raw = raw_word(op, w, fanins);
    w.out[0] = before;
    for (unsigned k = 1; k + 1 < w.frames; k++) {
        w.row += fanins;
        uint64_t next = raw_word(op, w, fanins), unsteady = (next ^ raw) & -(uint64_t)w.inertial[k];
        w.out[k] = before = (before & unsteady) | (raw & ~unsteady);
        raw = next;
    }
    w.out[w.frames - 1] = raw;
}

/* The filter in place: the frames behind k still hold raw words when k is decided. */
static void filter(uint64_t *word, unsigned frames, const uint8_t *inertial)
{
    uint64_t before = word[0];
    for (unsigned k = 1; k < frames; k++) {
        unsigned followers = inertial[k];
        uint64_t raw = word[k], unsteady = 0;
        if (followers > 0) unsteady = word[k + 1] ^ raw;
        for (unsigned i = 2; i <= followers; i++) unsteady |= word[k + i] ^ raw;
        word[k] = before = (before & unsteady) | (raw & ~unsteady);
    }
}

INLINE void words_by_followers(enum op op, struct work w, unsigned fanins)
{
    if (w.followers == 1) filtered_words(op, w, fanins);
    else raw_words(op, w, fanins);
}

/* Loops of their own for the usual numbers of fan-ins. */
INLINE void words_by_fanins(enum op op, struct work w, unsigned fanins)
{
    switch (fanins) {
    case 2: words_by_followers(op, w, 2); break;
    case 3: words_by_followers(op, w, 3); break;
    case 4: words_by_followers(op, w, 4); break;
    case 5: words_by_followers(op, w, 5); break;
    default: words_by_followers(op, w, fanins);
    }
}

/* A gate of one fan-in has its fan-in's frames, one for one. */
static void one_fanin_words(struct work w, const uint64_t *from)
{
    for (unsigned k = 0; k < w.frames; k++) w.out[k] = from[k] ^ w.turn;
}

static void gate_words(struct packed *s, unsigned j)
{
    const struct gate *g = &s->circuit.gate[j];
    const struct plan *p = &s->plan;
    const unsigned net = s->circuit.inputs + j, first = p->first[net];
    const struct work w = {.out = s->value + first, .frames = p->first[net + 1] - first, .followers = p->followers[j],
                           .value = s->value, .row = p->source + p->row[j], .inertial = p->inertial + first,
                           .turn = g->kind & 1 ? ~0ull : 0};
    switch (g->kind) {
    case BUF: case NOT: one_fanin_words(w, s->value + p->first[g->fanin[0]]); break;
    case AND: case NAND: words_by_fanins(ALL, w, g->fanins); break;
    case OR: case NOR: words_by_fanins(SOME, w, g->fanins); break;
    default: words_by_fanins(ODD, w, g->fanins);
    }
    if (w.followers > 1 || (w.followers == 1 && g->fanins == 1)) filter(w.out, w.frames, w.inertial);
}

static void evaluate(struct packed *s, const struct task *task, const uint64_t *before, const uint64_t *after)
{
    input_values(s, task, before, after);
    for (unsigned j = 0; j < s->circuit.gates; j++) gate_words(s, j);
}

static int run(struct packed *s, const struct task *task, const uint64_t *before, const uint64_t *after)
{
    int refusal = plan(s, task);
    if (!refusal) evaluate(s, task, before, after);
    return refusal;
}

/* ---- mark ------------------------------------------------------------------------------------------------------------ */

/* The first frame in the span that breaks the expectation, or -1. */
INLINE int broken_frame(const struct packed *s, struct expectation x)
{
    const unsigned first = s->plan.first[x.net];
    const uint32_t *time = s->plan.time + first + x.net;
    unsigned k = 0;
    while (time[k + 1] <= x.from && time[k + 1] != NEVER) k++;
    for (; time[k] <= x.to && time[k] != NEVER; k++)
        if ((s->value[first + k] >> x.lane & 1) != x.level) return k;
    return -1;
}

static struct verdict verdict_on(const struct packed *s, const uint8_t *bytes, uint64_t records)
{
    for (uint64_t i = 0; i < records; i++) {
        int frame = broken_frame(s, expectation_at(bytes, i));
        if (frame >= 0) return (struct verdict){0, i, frame};
    }
    return (struct verdict){1, 0, 0};
}

static int mark(struct packed *s, const struct task *task, const uint64_t *before, const uint64_t *after,
                const uint8_t *expectations, uint64_t bytes, struct verdict *v)
{
    const uint64_t records = bytes / sizeof(struct expectation);
    if (bytes % sizeof(struct expectation) || records > MOST_EXPECTATIONS) return 100;
    int refusal = read_task(&s->circuit, task);
    if (refusal) return refusal;
    if ((refusal = check_expectations(expectations, records, s->circuit.inputs + s->circuit.gates))) return refusal;
    if ((refusal = plan_task(s, task))) return refusal;
    evaluate(s, task, before, after);
    *v = verdict_on(s, expectations, records);
    return 0;
}

/* ---- as the papers' areas have it ------------------------------------------------------------------------------------ */

/* The fan-in entries of a gate: frame numbers within the fan-in's net. */
static uint16_t *fanin_rows(const struct packed *s, unsigned j, uint16_t *entry)
{
    const struct gate *g = &s->circuit.gate[j];
    const struct plan *p = &s->plan;
    const uint16_t *source = p->source + p->row[j];
    const unsigned net = s->circuit.inputs + j, frames = p->first[net + 1] - p->first[net];
    for (unsigned k = 0; k < frames; k++)
        for (unsigned e = 0; e < g->fanins; e++) {
            if (g->fanins == 1) *entry++ = k;
            else *entry++ = *source++ - p->first[g->fanin[e]];
        }
    return entry;
}

static void show(const struct packed *s, struct areas *a, uint32_t totals[3])
{
    const struct plan *p = &s->plan;
    uint16_t *entry = a->fanins;
    memset(a, 0, sizeof *a);
    for (unsigned n = 0; n < s->circuit.inputs + s->circuit.gates; n++) {
        unsigned first = p->first[n], frames = p->first[n + 1] - first;
        a->directory[2 * n] = first, a->directory[2 * n + 1] = frames;
        memcpy(a->times + first, p->time + first + n, frames * sizeof *a->times);
        if (n >= s->circuit.inputs) entry = fanin_rows(s, n - s->circuit.inputs, entry);
    }
    for (unsigned k = 0; k < p->frames; k++) a->inertial[k] = p->inertial[k], a->values[k] = s->value[k];
    totals[0] = p->frames, totals[1] = p->entries, totals[2] = p->last_time;
}

static struct packed state;

const struct packed_engine ENGINE = {NAME, FLAGS, &state, read_circuit, plan, evaluate, run, mark, show};
