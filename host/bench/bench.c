/* bench.c - the proved calls beside two packed simulators in C, a plain and a tuned one, and a timing wheel.
   bench CIRCUIT..   ROUNDS (300) and SEED (7) from the environment. Each circuit's answers are compared first; a difference ends
   the program with status 1. Then all kernels are timed in turn. Writes three tables in Markdown. */
#include <math.h>
#include <stdio.h>
#include <stdlib.h>
#include <string.h>
#include <time.h>
#include "bench.h"

enum { BATCH_NS = 50000, MOST_CIRCUITS = 64 };

#define S subject

struct subject subject;

/* ---- the kernels ------------------------------------------------------------------------------------------------------- */

static unsigned next_set(void) /* the word sets in turn */
{
    static unsigned set;
    return set = (set + 1) % WORD_SETS;
}

static void read_kernel(void) { proved_read(); }
static void plan_kernel(void) { proved_plan(); }
static void evaluate_kernel(void) { proved_evaluate(next_set()); }
static void run_kernel(void) { proved_run(next_set()); }
static void size_kernel(void) { proved_size(); }
static void fitted_kernel(void) { proved_fitted(next_set()); }
static void mark_few_kernel(void) { proved_mark(FEW); }
static void mark_many_kernel(void) { proved_mark(MANY); }
static void wheel_kernel(void) { wheel_lanes(next_set()); }

static const struct packed_engine *engine; /* whose turn it is */

static void engine_read(void) { engine->read(&S.circuit, S.file, S.task.length); }
static void engine_plan(void) { engine->plan(engine->state, &S.task); }

static void engine_evaluate(void)
{
    unsigned set = next_set();
    engine->evaluate(engine->state, &S.task, S.before[set], S.after[set]);
}

static void engine_run(void)
{
    unsigned set = next_set();
    engine->run(engine->state, &S.task, S.before[set], S.after[set]);
}

static void engine_mark(unsigned records)
{
    struct verdict v;
    engine->mark(engine->state, &S.task, S.before[0], S.after[0], S.expectations, RECORD * records, &v);
}

static void engine_mark_few(void) { engine_mark(FEW); }
static void engine_mark_many(void) { engine_mark(MANY); }

enum {
    READ, PLAN, EVALUATE, RUN, SIZE, FITTED, MARK_FEW, MARK_MANY, /* proved */
    PLAIN_READ, PLAIN_PLAN, PLAIN_EVALUATE, PLAIN_RUN, CLEARING_RUN, PLAIN_MARK_FEW, PLAIN_MARK_MANY,
    TUNED_PLAN, TUNED_EVALUATE, TUNED_RUN, GENERIC_PLAN, GENERIC_EVALUATE, GENERIC_RUN, WHEEL, KERNELS
};

static const struct { void (*call)(void); const struct packed_engine *engine; } kernel[KERNELS] = {
    [READ] = {read_kernel, 0}, [PLAN] = {plan_kernel, 0}, [EVALUATE] = {evaluate_kernel, 0}, [RUN] = {run_kernel, 0},
    [SIZE] = {size_kernel, 0}, [FITTED] = {fitted_kernel, 0}, [MARK_FEW] = {mark_few_kernel, 0},
    [MARK_MANY] = {mark_many_kernel, 0}, [WHEEL] = {wheel_kernel, 0},
    [PLAIN_READ] = {engine_read, &plain}, [PLAIN_PLAN] = {engine_plan, &plain}, [PLAIN_EVALUATE] = {engine_evaluate, &plain},
    [PLAIN_RUN] = {engine_run, &plain}, [CLEARING_RUN] = {engine_run, &plain_clearing},
    [PLAIN_MARK_FEW] = {engine_mark_few, &plain}, [PLAIN_MARK_MANY] = {engine_mark_many, &plain},
    [TUNED_PLAN] = {engine_plan, &tuned}, [TUNED_EVALUATE] = {engine_evaluate, &tuned}, [TUNED_RUN] = {engine_run, &tuned},
    [GENERIC_PLAN] = {engine_plan, &tuned_generic}, [GENERIC_EVALUATE] = {engine_evaluate, &tuned_generic},
    [GENERIC_RUN] = {engine_run, &tuned_generic},
};

/* ---- timing ------------------------------------------------------------------------------------------------------------ */

static double now(void)
{
    struct timespec t;
    clock_gettime(CLOCK_MONOTONIC, &t);
    return 1e9 * t.tv_sec + t.tv_nsec;
}

static double batch_time(unsigned k, unsigned calls)
{
    engine = kernel[k].engine;
    double start = now();
    for (unsigned i = 0; i < calls; i++) kernel[k].call();
    return (now() - start) / calls;
}

/* All kernels in turn, so that what slows the machine for a while slows them all. The best batch of each counts. */
static void measure(double best[KERNELS], unsigned rounds)
{
    unsigned calls[KERNELS];
    for (unsigned k = 0; k < KERNELS; k++) {
        batch_time(k, 3);
        best[k] = batch_time(k, 3);
        calls[k] = best[k] < BATCH_NS ? BATCH_NS / best[k] + 1 : 1;
    }
    for (unsigned r = 0; r < rounds; r++)
        for (unsigned k = 0; k < KERNELS; k++) best[k] = fmin(best[k], batch_time(k, calls[k]));
}

/* ---- the tables -------------------------------------------------------------------------------------------------------- */

/* A column is a kernel's time, or its ratio to another's. */
struct column { const char *head; int kernel, to; };
enum { NS = -1 };

static const struct column times[] = {
    {"read", READ, NS}, {"plan", PLAN, NS}, {"evaluation", EVALUATE, NS}, {"run", RUN, NS}, {"size", SIZE, NS},
    {"fitted run", FITTED, NS}, {"mark 12", MARK_FEW, NS}, {"mark 1000", MARK_MANY, NS}, {0, 0, 0},
};

static const struct column against_plain[] = {
    {"read", READ, PLAIN_READ}, {"plan", PLAN, PLAIN_PLAN}, {"evaluation", EVALUATE, PLAIN_EVALUATE}, {"run", RUN, PLAIN_RUN},
    {"run, C clearing", RUN, CLEARING_RUN}, {"mark 12", MARK_FEW, PLAIN_MARK_FEW}, {"mark 1000", MARK_MANY, PLAIN_MARK_MANY},
    {0, 0, 0},
};

static const struct column against_tuned[] = {
    {"plan", PLAN, TUNED_PLAN}, {"evaluation", EVALUATE, TUNED_EVALUATE}, {"run", RUN, TUNED_RUN}, {"wheel / run", WHEEL, RUN},
    {0, 0, 0},
};

static const struct column against_generic[] = {
    {"plan", PLAN, GENERIC_PLAN}, {"evaluation", EVALUATE, GENERIC_EVALUATE}, {"run", RUN, GENERIC_RUN}, {0, 0, 0},
};

struct result { char name[64]; unsigned gates, frames; double best[KERNELS]; };

static struct result result[MOST_CIRCUITS];
static unsigned results;

static double entry(const struct column *c, const double best[KERNELS])
{
    return c->to == NS ? best[c->kernel] : best[c->kernel] / best[c->to];
}

static double geometric_mean(const struct column *c)
{
    double sum = 0;
    for (unsigned i = 0; i < results; i++) sum += log(entry(c, result[i].best));
    return exp(sum / results);
}

static void print_entry(const struct column *c, double x)
{
    printf(c->to == NS ? " %.0f |" : " %.2f |", x);
}

static void print_table(const char *title, const struct column *columns, int sizes)
{
    printf("\n%s:\n\n| Circuit |%s", title, sizes ? " gates | frames |" : "");
    for (const struct column *c = columns; c->head; c++) printf(" %s |", c->head);
    printf("\n|---|%s", sizes ? "---|---|" : "");
    for (const struct column *c = columns; c->head; c++) printf("---|");
    for (unsigned i = 0; i < results; i++) {
        printf("\n| %s |", result[i].name);
        if (sizes) printf(" %u | %u |", result[i].gates, result[i].frames);
        for (const struct column *c = columns; c->head; c++) print_entry(c, entry(c, result[i].best));
    }
    printf("\n| geometric mean |%s", sizes ? " | |" : "");
    for (const struct column *c = columns; c->head; c++) print_entry(c, geometric_mean(c));
    printf("\n");
}

static void print_tables(void)
{
    print_table("Proved, ns", times, 1);
    print_table("Proved / plain C", against_plain, 0);
    print_table("Proved / tuned C, and wheel / proved", against_tuned, 0);
    printf("\nProved / tuned C for any x86-64, geometric means:");
    for (const struct column *c = against_generic; c->head; c++)
        printf(" %s %.2f%s", c->head, geometric_mean(c), c[1].head ? "," : "\n");
}

/* The rest of the first line of a file that begins so. */
static void print_line(const char *path, const char *begin, const char *label)
{
    char line[512];
    FILE *f = fopen(path, "r");
    while (f && fgets(line, sizeof line, f))
        if (!strncmp(line, begin, strlen(begin))) {
            printf("- %s: %s", label, line + strlen(begin) + strspn(line + strlen(begin), "\t :"));
            break;
        }
    if (f) fclose(f);
}

static void print_setting(unsigned circuits, unsigned rounds, unsigned long seed)
{
    print_line("/proc/cpuinfo", "model name", "machine");
    print_line("/proc/loadavg", "", "load before");
    printf("- compiler of the C: %s %s\n- plain C: %s\n- tuned C: %s\n- tuned C for any x86-64, as the proved calls are: %s\n",
           COMPILER, __VERSION__, plain.flags, tuned.flags, tuned_generic.flags);
    printf("- %u circuits, best of %u rounds, all kernels in turn, batches of %d us or more, %d sets of words, seed %lu\n",
           circuits, rounds, BATCH_NS / 1000, WORD_SETS, seed);
}

/* ---- the circuits ------------------------------------------------------------------------------------------------------ */

static uint64_t state;

uint64_t drawn(void) /* xorshift64* */
{
    state ^= state >> 12, state ^= state << 25, state ^= state >> 27;
    return state * 0x2545F4914F6CDD1Dull;
}

static void draw_words(void)
{
    for (unsigned set = 0; set < WORD_SETS; set++) {
        for (unsigned i = 0; i < MOST_INPUTS; i++) S.before[set][i] = drawn();
        for (unsigned i = 0; i < MOST_WORDS; i++) S.after[set][i] = drawn();
    }
}

static void load(const char *path)
{
    FILE *f = fopen(path, "rb");
    if (!f) perror(path), exit(2);
    S.task = (struct task){.file = S.file, .counts = S.counts, .changes = S.changes};
    S.task.length = fread(S.file, 1, sizeof S.file, f);
    fclose(f);
    S.name = strrchr(path, '/') ? strrchr(path, '/') + 1 : path;
    int refusal = plain.read(&S.circuit, S.file, S.task.length);
    if (refusal) printf("%s: refused %d\n", S.name, refusal), exit(2);
    S.task.inputs = S.inputs = S.circuit.inputs;
    S.gates = S.circuit.gates;
    if (wheel_load(&S.circuit)) printf("%s: an inertial delay above the transport delay\n", S.name), exit(2);
}

static void take(const char *path, unsigned rounds)
{
    struct result *r = &result[results++];
    load(path);
    compare_all();
    measure(r->best, rounds);
    snprintf(r->name, sizeof r->name, "%.*s", (int)strcspn(S.name, "."), S.name);
    r->gates = S.gates, r->frames = S.frames;
    fprintf(stderr, "%s\n", r->name);
}

int main(int arguments, char **argument)
{
    const char *rounds_given = getenv("ROUNDS"), *seed_given = getenv("SEED");
    const unsigned rounds = rounds_given ? strtoul(rounds_given, 0, 10) : 300;
    const unsigned long seed = seed_given ? strtoul(seed_given, 0, 10) : 7;
    if (arguments < 2 || arguments > MOST_CIRCUITS) return 2;
    state = seed * 0x9E3779B97F4A7C15ull + 1; /* never 0 for a small seed */
    draw_words();
    print_setting(arguments - 1, rounds, seed);
    for (int i = 1; i < arguments; i++) take(argument[i], rounds);
    print_line("/proc/loadavg", "", "load after");
    printf("- compared before timing, all the same: areas, totals, changes of each net, verdicts, refusals of damaged files\n");
    print_tables();
    return 0;
}
