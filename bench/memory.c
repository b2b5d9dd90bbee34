/* Measures the library against its C twins in memory. Prints a line for each pair: what, C's name, both times in nanoseconds, ratio. The times are of
   a scan where a run goes over a block, and else of a call. */
#include "contest.h"
#include "jarveun.h"
#include "random.h"
#include "rules.h"
#include "twin.h"

#include <stdio.h>
#include <stdlib.h>
#include <string.h>

enum { BLOCK = 65536, BLOCKS = 16, RUN_CALLS = 16 };

static uint8_t scans[BLOCKS * BLOCK];

typedef uint8_t run_function(const uint16_t *, size_t, size_t, size_t *, const uint8_t *, size_t, uint8_t *, size_t, uint8_t *, size_t, size_t *,
                             size_t *);

/* Runs over the scans, so many a call and so many calls a turn: by a function that checks, or else by a loop in C that doesn't. */
struct runner {
    run_function *function;
    run_loop *loop;
    const uint16_t *table;
    size_t count, size, calls, turn, kept, dropped;
    struct run run;
    uint8_t refused, output[BLOCK], verdicts[BLOCK];
};

static void run_once(struct runner *r, const uint8_t *from, uint8_t *verdicts)
{
    uint8_t *output = r->output + r->kept;
    size_t dropped;
    if (r->function) {
        r->refused |= r->function(r->table, CODES * r->count, r->count, &r->run.equation, from, r->size, output, r->size, verdicts, r->size,
                                  &r->run.kept, &dropped);
    } else {
        r->loop(r->table, &r->run, from, r->size, output, verdicts);
        dropped = r->size - r->run.kept;
    }
    r->kept += r->run.kept;
    r->dropped += dropped;
}

static void run_turn(void *work)
{
    struct runner *r = work;
    const uint8_t *block = scans + BLOCK * (r->turn++ % BLOCKS);
    r->kept = r->dropped = 0;
    for (size_t i = 0; i < r->calls; i++)
        run_once(r, block + r->size * i, r->verdicts + r->size * i);
}

static int same_turn(const void *a, const void *b)
{
    const struct runner *x = a, *y = b;
    return x->refused == y->refused && x->run.equation == y->run.equation && x->kept == y->kept && x->dropped == y->dropped &&
           memcmp(x->output, y->output, x->kept) == 0 && memcmp(x->verdicts, y->verdicts, x->size * x->calls) == 0;
}

/* A table of so many equations with entries at random, so many in 100 of them dropped. */
static void random_table(uint16_t *table, size_t count, unsigned percent)
{
    uint64_t seed = 1000 + percent;
    for (size_t i = 0; i < CODES * count; i++)
        table[i] = random_under(&seed, 100) < percent ? DROPPED : (uint16_t)random_under(&seed, (unsigned)count);
}

/* The entrants of a contest of runs. The first is ours. */
static struct runner runners[MOST_ENTRANTS];
static struct entrant entrants[MOST_ENTRANTS];

static void enter(size_t j, const char *name, const struct runner *runner)
{
    runners[j] = *runner;
    entrants[j] = (struct entrant){name, &runners[j], run_turn, 0, 0};
}

/* One call on a block. */
static void contest_of_runs(size_t count, unsigned percent, size_t rounds)
{
    static uint16_t table[MOST_TABLE];
    char what[80];
    random_table(table, count, percent);
    struct runner runner = {.table = table, .count = count, .size = BLOCK, .calls = 1};
    runner.function = jarveun_run;
    enter(0, "run", &runner);
    runner.function = NULL;
    for (size_t j = 0; j < nloops; j++) {
        runner.loop = loops[j].loop;
        enter(j + 1, loops[j].name, &runner);
    }
    compete(entrants, nloops + 1, rounds, RUN_CALLS, same_turn);
    snprintf(what, sizeof what, "run %zu %u", count, percent);
    print_contest(what, entrants, nloops + 1, BLOCK);
}

/* So many calls a turn, on a few scans each: the loop "jump", without and with the checks of a run. */
static void contest_of_small_calls(size_t count, size_t size, size_t calls, size_t rounds)
{
    static uint16_t table[MOST_TABLE];
    char what[80];
    random_table(table, count, 1);
    struct runner runner = {.table = table, .count = count, .size = size, .calls = calls};
    runner.function = jarveun_run;
    enter(0, "run", &runner);
    runner.function = twin_run;
    enter(1, "checked jump", &runner);
    runner.function = NULL;
    runner.loop = loop_named("jump");
    enter(2, "jump", &runner);
    compete(entrants, 3, rounds, RUN_CALLS, same_turn);
    snprintf(what, sizeof what, "small %zu %zu", count, size);
    print_contest(what, entrants, 3, calls);
}

/* One of these, of the library or of its twin. */
struct function {
    uint8_t (*count)(const uint8_t *, size_t, size_t *);
    uint8_t (*fill)(const uint8_t *, size_t, uint16_t *, size_t, size_t *);
    uint8_t (*explain)(const uint8_t *, size_t, const uint8_t *, size_t, uint8_t, size_t *);
    uint8_t (*judge)(const uint8_t *, size_t, const uint8_t *, size_t, uint16_t *, size_t, size_t *);
};

/* With a table of so many entries, which the header says are enough. */
struct operation {
    const char *name;
    size_t table_len;
    struct function ours, twin;
};

static const struct operation operations[] = {
    {"count", 0, {.count = jarveun_count}, {.count = twin_count}},
    {"fill", JARVEUN_TABLE, {.fill = jarveun_fill}, {.fill = twin_fill}},
    {"explain", 0, {.explain = jarveun_explain}, {.explain = twin_explain}},
    {"judge", JARVEUN_TABLE, {.judge = jarveun_judge}, {.judge = twin_judge}},
};

static const struct operation preview_operations[] = {
    {"count_preview", 0, {.count = jarveun_count_preview}, {.count = twin_count_preview}},
    {"fill_preview", JARVEUN_PREVIEW_TABLE, {.fill = jarveun_fill_preview}, {.fill = twin_fill_preview}},
};

static const struct operation short_operations[] = {
    {"count_short", 0, {.count = jarveun_count_short}, {.count = twin_count_short}},
    {"fill_short", JARVEUN_TABLE, {.fill = jarveun_fill_short}, {.fill = twin_fill_short}},
};

enum {
    OPERATIONS = sizeof operations / sizeof operations[0],
    PREVIEW_OPERATIONS = sizeof preview_operations / sizeof preview_operations[0],
    SHORT_OPERATIONS = sizeof short_operations / sizeof short_operations[0],
};

/* A rule, and the answer that is due: 0, or the number of a refusal. */
struct named_rule {
    const char *name;
    const uint8_t *bytes;
    size_t len;
    uint8_t due;
};

/* A rule, and what becomes of it. Where a scan is to be explained, the first block of scans was kept before. */
struct job {
    struct function function;
    const struct named_rule *rule;
    size_t table_len, value;
    uint8_t refused;
    uint16_t table[MOST_TABLE];
};

static uint8_t model[LARGEST_MODEL];

static void do_job(void *work)
{
    struct job *j = work;
    const uint8_t *rule = j->rule->bytes;
    size_t len = j->rule->len;
    if (j->function.count)
        j->refused = j->function.count(rule, len, &j->value);
    else if (j->function.fill)
        j->refused = j->function.fill(rule, len, j->table, j->table_len, &j->value);
    else if (j->function.explain)
        j->refused = j->function.explain(rule, len, scans, BLOCK, scans[BLOCK], &j->value);
    else
        j->refused = j->function.judge(rule, len, model, LARGEST_MODEL, j->table, j->table_len, &j->value);
}

static int same_job(const void *a, const void *b)
{
    const struct job *x = a, *y = b;
    return x->refused == y->refused && x->value == y->value && memcmp(x->table, y->table, x->table_len * sizeof *x->table) == 0;
}

/* How many rounds a contest has, and how many calls a round. */
struct effort {
    size_t rounds, calls;
};

static void contest_of_jobs(const struct operation *operation, const struct named_rule *rule, struct effort effort)
{
    static struct job ours, twin;
    char what[80];
    snprintf(what, sizeof what, "%s %s", operation->name, rule->name);
    ours = (struct job){.function = operation->ours, .rule = rule, .table_len = operation->table_len};
    twin = ours;
    twin.function = operation->twin;
    struct entrant entrants[] = {{what, &ours, do_job, 0, 0}, {"twin", &twin, do_job, 0, 0}};
    compete(entrants, 2, effort.rounds, effort.calls, same_job);
    fprintf(stderr, "%s: %u %zu\n", what, ours.refused, ours.value);
    if (ours.refused != rule->due) {
        fprintf(stderr, "%u was due\n", rule->due);
        exit(1);
    }
    print_contest(what, entrants, 2, 1);
}

static void contests_of_rule(const struct operation *all, size_t n, const struct named_rule *rule, struct effort effort)
{
    for (size_t i = 0; i < n; i++)
        contest_of_jobs(&all[i], rule, effort);
}

/* Rules of up to 128 equations. */
static void contests_of_rules(struct effort effort)
{
    uint8_t chain_bytes[CHAIN_RULE];
    const struct named_rule paper = {"paper", paper_rule, sizeof paper_rule, 0}, hard = {"hard", hard_rule, sizeof hard_rule, 0},
                            page = {"page", page_rule, sizeof page_rule, 0}, over = {"over", paper_rule, sizeof paper_rule, 18},
                            chain = {"chain", chain_bytes, CHAIN_RULE, 0}, wheels = {"wheels", wheels_rule, sizeof wheels_rule, 0};
    chain_rule(chain_bytes);
    contests_of_rule(operations, OPERATIONS, &paper, effort);
    contests_of_rule(operations, OPERATIONS, &hard, effort);
    contests_of_rule(preview_operations, PREVIEW_OPERATIONS, &page, effort);
    contests_of_rule(preview_operations, PREVIEW_OPERATIONS, &over, effort);
    contests_of_rule(short_operations, SHORT_OPERATIONS, &hard, effort);
    contests_of_rule(short_operations, SHORT_OPERATIONS, &chain, effort);
    contests_of_rule(short_operations, SHORT_OPERATIONS, &wheels, effort);
}

/* Rules of up to 1,000. */
static void contests_of_long_rules(struct effort effort)
{
    const struct named_rule window = {"window", window_rule, sizeof window_rule, 0}, thousand = {"thousand", thousand_rule, sizeof thousand_rule, 0},
                            slow = {"slow", slow_rule, sizeof slow_rule, 0}, clash = {"clash", clash_rule, sizeof clash_rule, 0},
                            ring = {"ring", ring_rule, sizeof ring_rule, 0};
    contests_of_rule(operations, OPERATIONS, &window, effort);
    contests_of_rule(operations, OPERATIONS, &thousand, effort);
    contests_of_rule(operations, OPERATIONS, &slow, effort);
    contests_of_rule(operations, OPERATIONS, &clash, effort);
    contests_of_rule(short_operations, SHORT_OPERATIONS, &thousand, effort);
    contests_of_rule(short_operations, SHORT_OPERATIONS, &slow, effort);
    contests_of_rule(short_operations, SHORT_OPERATIONS, &ring, effort);
}

static void contests_of_small_calls(size_t count, size_t calls, size_t rounds)
{
    contest_of_small_calls(count, 1, calls, rounds);
    contest_of_small_calls(count, 16, calls, rounds);
    contest_of_small_calls(count, 50, calls, rounds);
}

int main(int argc, char **argv)
{
    size_t rounds = asked_rounds(argc, argv);
    random_bytes(1, scans, sizeof scans);
    largest_model(model);
    contest_of_runs(PROGRAM_MOST, 1, rounds);
    contest_of_runs(PROGRAM_MOST, 10, rounds);
    contest_of_runs(PROGRAM_MOST, 50, rounds);
    contest_of_runs(MOST_EQUATIONS, 10, rounds);
    contests_of_small_calls(3, 256, rounds);
    contests_of_small_calls(PROGRAM_MOST, 256, rounds);
    contests_of_small_calls(MOST_EQUATIONS, 16, rounds);
    contests_of_rules((struct effort){rounds, 7});
    contests_of_long_rules((struct effort){(rounds + 3) / 4, 3});
    return 0;
}
