/* wheel.c - a conventional simulator: events on a timing wheel, one lane at a time, with the same inertial rule.
   An event is that a net turns. A slot of the wheel is a set of nets, so that the nets that turn at one time are taken in net
   order: a gate sees all that its fan-ins do at that time before its own event is due, and can still take it back. */
#include <string.h>
#include "wheel.h"

enum { SLOTS = 65536, SET_WORDS = (MOST_NETS + 63) / 64, IDLE = -1 };

struct set { uint64_t word[SET_WORDS]; };

static const struct circuit *circuit;
static unsigned nets, set_words, mask;                 /* mask: the wheel's size, a power of two, less 1 */
static uint16_t reader_first[MOST_NETS + 1];           /* of a net: where its readers begin */
static uint8_t reader[MOST_GATES * MOST_FANINS];       /* gates, once for each entry that names the net */
static struct set slot[SLOTS];
static uint8_t crowd[SLOTS];                           /* how many nets turn in a slot */

static uint8_t level[MOST_NETS];
static uint8_t ones[MOST_GATES];                       /* how many entries of a gate are 1 */
static uint8_t raw[MOST_GATES];                        /* the gate's level before the filter */
static int32_t due[MOST_GATES];                        /* when the gate's latest event is due, or IDLE */
static unsigned events;

static void list_readers(void)
{
    unsigned at = 0;
    for (unsigned n = 0; n < nets; n++) {
        reader_first[n] = at;
        for (unsigned j = 0; j < circuit->gates; j++)
            for (unsigned e = 0; e < circuit->gate[j].fanins; e++)
                if (circuit->gate[j].fanin[e] == n) reader[at++] = j;
    }
    reader_first[nets] = at;
}

int wheel_load(const struct circuit *c)
{
    unsigned longest = 255; /* the latest change of an input */
    circuit = c;
    nets = c->inputs + c->gates;
    set_words = (nets + 63) / 64;
    for (unsigned j = 0; j < c->gates; j++) {
        if (c->gate[j].inertial_delay > c->gate[j].delay) return 1;
        if (c->gate[j].delay > longest) longest = c->gate[j].delay;
    }
    for (mask = 255; mask < longest; mask = 2 * mask + 1);
    list_readers();
    return 0;
}

static inline unsigned gate_level(const struct gate *g, unsigned ones)
{
    unsigned complement = g->kind & 1;
    switch (g->kind >> 1) {
    case 1: return (ones == g->fanins) ^ complement;
    case 2: return (ones > 0) ^ complement;
    default: return (ones & 1) ^ complement; /* one entry, or parity */
    }
}

/* Puts the event that a net turns at a time on the wheel, or takes it off. */
static inline void post(unsigned net, uint32_t time)
{
    slot[time & mask].word[net / 64] |= 1ull << net % 64;
    crowd[time & mask]++, events++;
}

static inline void withdraw(unsigned net, uint32_t time)
{
    slot[time & mask].word[net / 64] &= ~(1ull << net % 64);
    crowd[time & mask]--, events--;
}

/* A fan-in of the gate has turned. A raw change that comes no later than the inertial delay after the one before takes that one
   back, and itself with it. */
static inline void look_again(unsigned j, uint32_t now)
{
    const struct gate *g = &circuit->gate[j];
    unsigned here = gate_level(g, ones[j]);
    if (here == raw[j]) return;
    raw[j] = here;
    int32_t time = now + g->delay;
    if (due[j] >= (int32_t)now && time - due[j] <= g->inertial_delay) {
        withdraw(circuit->inputs + j, due[j]);
        due[j] = IDLE;
        return;
    }
    post(circuit->inputs + j, time);
    due[j] = time;
}

static inline void turn(unsigned net, struct set *touched)
{
    level[net] ^= 1;
    for (unsigned i = reader_first[net]; i < reader_first[net + 1]; i++) {
        unsigned j = reader[i], own = circuit->inputs + j;
        ones[j] += 2 * level[net] - 1;
        touched->word[own / 64] |= 1ull << own % 64;
    }
}

/* The levels at time 0, and the inputs' events. */
static void settle(const struct task *task, const uint64_t *before, const uint64_t *after, unsigned lane)
{
    const uint32_t *change = task->changes;
    for (unsigned i = 0; i < circuit->inputs; i++) {
        uint64_t word = level[i] = before[i] >> lane & 1;
        for (unsigned k = task->counts[i]; k; k--, change++, after++) {
            if ((*after >> lane & 1) != word) post(i, *change);
            word = *after >> lane & 1;
        }
    }
    for (unsigned j = 0; j < circuit->gates; j++) {
        const struct gate *g = &circuit->gate[j];
        ones[j] = 0;
        for (unsigned e = 0; e < g->fanins; e++) ones[j] += level[g->fanin[e]];
        level[circuit->inputs + j] = raw[j] = gate_level(g, ones[j]);
        due[j] = IDLE;
    }
}

void wheel_lane(const struct task *task, const uint64_t *before, const uint64_t *after, unsigned lane, uint32_t *turns)
{
    struct set touched = {{0}};
    settle(task, before, after, lane);
    for (uint32_t now = 1; events; now++) {
        struct set *turning = &slot[now & mask];
        if (!crowd[now & mask]) continue;
        for (unsigned s = 0; s < set_words; s++)
            for (uint64_t both; (both = turning->word[s] | touched.word[s]);) {
                uint64_t bit = both & -both;
                unsigned net = 64 * s + __builtin_ctzll(both);
                if (touched.word[s] & bit) touched.word[s] ^= bit, look_again(net - circuit->inputs, now);
                if (turning->word[s] & bit) withdraw(net, now), turn(net, &touched), turns[net]++;
            }
    }
}
