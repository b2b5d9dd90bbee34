/* C functions that do what the library does, by the same algorithms. The library is measured against them. */
#ifndef TWIN_H
#define TWIN_H

#include <stddef.h>
#include <stdint.h>

enum { SLOTS = 32, CODES = 256, DROPPED = 65535, MOST_EQUATIONS = 1000, PROGRAM_MOST = 128, PREVIEW_MOST = 32 };
enum { MOST_TABLE = CODES * MOST_EQUATIONS, PROGRAM_TABLE = CODES * PROGRAM_MOST };
enum { MOST_PATTERNS = 32, MOST_NODES = 64, MOST_STATES = 64, MOST_STEPS = 512, MOST_PAIRS = 4096 };
enum kind { PATTERN = 1, TRUTH, FALSITY, BOTH, NECESSITY, MAX, VARIABLE };

struct pattern {
    uint8_t mask, first, last;
};

/* Node k's first part is node k + 1. args[k]: the second part of a "both", the pattern of a necessity, the max of a variable. */
struct rule {
    struct pattern patterns[MOST_PATTERNS];
    uint8_t kinds[MOST_NODES], args[MOST_NODES];
    size_t npatterns, nnodes;
};

enum { SILENT = 256 };

struct step {
    uint16_t label;
    uint8_t from, to;
};

struct model {
    size_t states, nsteps;
    struct step steps[MOST_STEPS];
};

/* 0 and the rule, or one of refusals 1 to 7 with its place. */
uint8_t twin_read(const uint8_t *bytes, size_t len, struct rule *rule, size_t *place);

/* 0 and the model, or one of refusals 11 to 14 with its place. */
uint8_t twin_read_model(const uint8_t *bytes, size_t len, struct model *model, size_t *place);

/* As the functions of jarveun.h. */
uint8_t twin_count(const uint8_t *rule, size_t rule_len, size_t *value);
uint8_t twin_fill(const uint8_t *rule, size_t rule_len, uint16_t *table, size_t table_len, size_t *value);
uint8_t twin_count_preview(const uint8_t *rule, size_t rule_len, size_t *value);
uint8_t twin_fill_preview(const uint8_t *rule, size_t rule_len, uint16_t *table, size_t table_len, size_t *value);
uint8_t twin_count_short(const uint8_t *rule, size_t rule_len, size_t *value);
uint8_t twin_fill_short(const uint8_t *rule, size_t rule_len, uint16_t *table, size_t table_len, size_t *value);
uint8_t twin_explain(const uint8_t *rule, size_t rule_len, const uint8_t *kept, size_t kept_len, uint8_t scan, size_t *value);
uint8_t twin_judge(const uint8_t *rule, size_t rule_len, const uint8_t *model, size_t model_len, uint16_t *table, size_t table_len, size_t *value);
uint8_t twin_match(const uint8_t *first, size_t first_len, const uint8_t *second, size_t second_len, const uint8_t *pairs, size_t pairs_len,
                   size_t *value, size_t *input);

/* As twin_fill, with another limit on equations, which is at most MOST_EQUATIONS. */
uint8_t twin_fill_within(const uint8_t *rule, size_t rule_len, size_t limit, uint16_t *table, size_t table_len, size_t *value);

/* A refusal, at a place. */
static inline uint8_t refuse_at(size_t *place, uint8_t number, size_t at)
{
    *place = at;
    return number;
}

/* 0 where so many rows fit into a table, or refusal 10 with its place. */
static inline uint8_t fit(size_t table_len, size_t *value)
{
    if (table_len >= CODES * *value)
        return 0;
    return refuse_at(value, 10, 0);
}

/* Where a run is, and how many scans its last block kept. */
struct run {
    size_t equation, kept;
};

/* A loop over a block of n scans. It checks nothing, and may write over the byte of the output after the kept scans. */
typedef void run_loop(const uint16_t *table, struct run *run, const uint8_t *scans, size_t n, uint8_t *output, uint8_t *verdicts);

struct named_loop {
    const char *name;
    run_loop *loop;
};

extern const struct named_loop loops[];
extern const size_t nloops;

/* NULL where there is none of that name. */
run_loop *loop_named(const char *name);

/* As jarveun_run: the loop "jump", after the same checks. */
uint8_t twin_run(const uint16_t *table, size_t table_len, size_t count, size_t *equation, const uint8_t *scans, size_t scans_len, uint8_t *output,
                 size_t output_len, uint8_t *verdicts, size_t verdicts_len, size_t *kept, size_t *dropped);

#endif
