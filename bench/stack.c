/* Measures how much stack the library takes: each function is called on a stack that was painted before. Prints a line for each, its name and the
   most bytes that were seen. */
#include "jarveun.h"
#include "rules.h"

#include <stdio.h>
#include <string.h>
#include <ucontext.h>

enum { STACK = 1 << 22, PAINT = 0xa5, SCANS = 4096 };

static uint8_t stack[STACK], model[LARGEST_MODEL], matched[LARGEST_MODEL], pairs[LONGEST_LIST], scans[SCANS], output[SCANS], verdicts[SCANS];
static uint16_t table[JARVEUN_TABLE], page_table[JARVEUN_PREVIEW_TABLE], short_table[JARVEUN_TABLE];
static const uint8_t *rule;
static size_t rule_len, equations;

static void count(void)
{
    size_t value;
    jarveun_count(rule, rule_len, &value);
}

static void fill(void)
{
    jarveun_fill(rule, rule_len, table, JARVEUN_TABLE, &equations);
}

static void count_preview(void)
{
    size_t value;
    jarveun_count_preview(rule, rule_len, &value);
}

static void fill_preview(void)
{
    size_t value;
    jarveun_fill_preview(rule, rule_len, page_table, JARVEUN_PREVIEW_TABLE, &value);
}

static void count_short(void)
{
    size_t value;
    jarveun_count_short(rule, rule_len, &value);
}

static void fill_short(void)
{
    size_t value;
    jarveun_fill_short(rule, rule_len, short_table, JARVEUN_TABLE, &value);
}

static void explain(void)
{
    size_t value;
    jarveun_explain(rule, rule_len, scans, SCANS, 5, &value);
}

static void judge(void)
{
    size_t value;
    jarveun_judge(rule, rule_len, model, sizeof model, table, JARVEUN_TABLE, &value);
}

/* It takes no rule. */
static void match(void)
{
    size_t value, input;
    jarveun_match(matched, sizeof matched, matched, sizeof matched, pairs, sizeof pairs, &value, &input);
}

static void run(void)
{
    size_t equation = 0, kept, dropped;
    jarveun_run(table, JARVEUN_TABLE, equations, &equation, scans, SCANS, output, SCANS, verdicts, SCANS, &kept, &dropped);
}

/* How many bytes of the painted stack a call changes. */
static size_t depth(void (*call)(void))
{
    static ucontext_t here, there;
    memset(stack, PAINT, STACK);
    getcontext(&there);
    there.uc_stack.ss_sp = stack;
    there.uc_stack.ss_size = STACK;
    there.uc_link = &here;
    makecontext(&there, call, 0);
    swapcontext(&here, &there);
    size_t untouched = 0;
    while (untouched < STACK && stack[untouched] == PAINT)
        untouched++;
    return STACK - untouched;
}

/* Each function, and the most that was seen of it. A run goes over what filling left. */
static struct {
    const char *name;
    void (*call)(void);
    size_t most;
} functions[] = {
    {"count", count, 0},
    {"fill", fill, 0},
    {"count_preview", count_preview, 0},
    {"fill_preview", fill_preview, 0},
    {"count_short", count_short, 0},
    {"fill_short", fill_short, 0},
    {"explain", explain, 0},
    {"judge", judge, 0},
    {"match", match, 0},
    {"run", run, 0},
};

enum { FUNCTIONS = sizeof functions / sizeof functions[0] };

static void measure(const uint8_t *bytes, size_t n)
{
    rule = bytes;
    rule_len = n;
    for (size_t i = 0; i < FUNCTIONS; i++) {
        size_t seen = depth(functions[i].call);
        if (functions[i].most < seen)
            functions[i].most = seen;
    }
}

int main(void)
{
    /* Max nodes, each inside the one before, and tt. */
    uint8_t nested[MOST_NODES];
    memset(nested, MAX, MOST_NODES - 1);
    nested[MOST_NODES - 1] = TRUTH;
    largest_model(model);
    matched_model(1, matched);
    all_pairs(pairs);
    random_bytes(1, scans, SCANS);
    measure(hard_rule, sizeof hard_rule);
    measure(thousand_rule, sizeof thousand_rule);
    measure(page_rule, sizeof page_rule);
    measure(nested, MOST_NODES);
    /* One node more, where the file ends: no file has the reader go deeper. */
    nested[MOST_NODES - 1] = MAX;
    measure(nested, MOST_NODES);
    for (size_t i = 0; i < FUNCTIONS; i++)
        printf("%s\t%zu\n", functions[i].name, functions[i].most);
    return 0;
}
