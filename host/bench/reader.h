/* reader.h - questions 1 to 9, 20 and 12: what all engines ask alike. Functions to include, as each engine has its own flags. */
#ifndef READER_H
#define READER_H
#include <string.h>
#include "packed.h"

static inline unsigned number(const uint8_t *p)
{
    return p[0] | p[1] << 8;
}

static int read_gate(struct gate *g, const uint8_t *record, unsigned length, unsigned net)
{
    const unsigned fanins = (length - 5) / 2;
    g->kind = record[0];
    g->fanins = fanins;
    g->delay = number(record + 1);
    g->inertial_delay = number(record + 3);
    if (g->kind > XNOR) return 6;
    if (g->delay < 1 || g->delay > 60000 || g->inertial_delay > 60000) return 7;
    if (length % 2 == 0 || (g->kind < AND ? fanins != 1 : fanins < 2 || fanins > MOST_FANINS)) return 8;
    for (unsigned e = 0; e < fanins; e++) {
        g->fanin[e] = number(record + 5 + 2 * e);
        if (g->fanin[e] >= net) return 9;
    }
    return 0;
}

/* Question 5 is asked of all gates before 6 to 9 are asked of the first. */
static int read_circuit(struct circuit *c, const uint8_t *file, uint64_t length)
{
    if (length < 4) return 1;
    c->inputs = number(file) - 256;
    c->gates = number(file + 2);
    if (c->inputs < 1 || c->inputs > MOST_INPUTS) return 2;
    if (c->gates > MOST_GATES) return 3;
    const uint8_t *pair = file + 4;
    unsigned end = 4 + 4 * c->gates;
    if (length < end) return 4;
    for (unsigned j = 0; j < c->gates; j++) {
        if (number(pair + 4 * j) != end || number(pair + 4 * j + 2) < 5) return 5;
        end += number(pair + 4 * j + 2);
    }
    if (length != end) return 5;
    for (unsigned j = 0; j < c->gates; j++) {
        int refusal = read_gate(&c->gate[j], file + number(pair + 4 * j), number(pair + 4 * j + 2), c->inputs + j);
        if (refusal) return refusal;
    }
    return 0;
}

static int check_changes(const struct circuit *c, const struct task *task)
{
    uint64_t at = 0;
    if (task->inputs != c->inputs) return 20;
    for (unsigned i = 0; i < c->inputs; i++) {
        const unsigned count = task->counts[i];
        uint32_t last = 0;
        if (count > MOST_CHANGES || at + count > task->change_total) return 20;
        for (unsigned k = 0; k < count; k++, at++) {
            if (task->changes[at] <= last || task->changes[at] > 255) return 20;
            last = task->changes[at];
        }
    }
    return at == task->change_total ? 0 : 20;
}

static int read_task(struct circuit *c, const struct task *task)
{
    int refusal = read_circuit(c, task->file, task->length);
    return refusal ? refusal : check_changes(c, task);
}

struct expectation { /* laid out as the twelve bytes of a record are */
    uint16_t net;
    uint8_t lane, level;
    uint32_t from, to;
};

static inline struct expectation expectation_at(const uint8_t *bytes, uint64_t i)
{
    struct expectation x;
    memcpy(&x, bytes + sizeof x * i, sizeof x);
    return x;
}

static int check_expectations(const uint8_t *bytes, uint64_t records, unsigned nets)
{
    for (uint64_t i = 0; i < records; i++) {
        struct expectation x = expectation_at(bytes, i);
        if (x.net >= nets || x.lane > 63 || x.from > x.to || x.level > 1) return 12;
    }
    return 0;
}

#endif
