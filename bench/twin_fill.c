/* Counts the equations of a rule and fills its table, at the desk and on the rule page, and explains why a scan is dropped. Sets of nodes are
   numbers, node k is bit k. */
#include "jarveun.h"
#include "twin.h"

#include <string.h>

/* The first equation and the ff nodes; what opening the formula after each necessity gives; the necessities whose patterns hold each code. */
struct graph {
    uint64_t first, falsities;
    uint64_t after[MOST_NODES];
    uint64_t waiting[CODES];
};

/* What opening node k gives, where `opened` has that of each max before it. */
static uint64_t opening(const struct rule *rule, const uint64_t *opened, size_t k)
{
    switch (rule->kinds[k]) {
    case FALSITY:
    case NECESSITY:
        return (uint64_t)1 << k;
    case BOTH:
        return opening(rule, opened, k + 1) | opening(rule, opened, rule->args[k]);
    case MAX:
        return opening(rule, opened, k + 1);
    case VARIABLE:
        return opened[rule->args[k]];
    default:
        return 0;
    }
}

/* Puts a necessity into the set of each code that its pattern holds. The slots go round: after the last of all comes 0. */
static void wait_for(uint64_t *waiting, struct pattern p, uint64_t node)
{
    unsigned width = (p.last + SLOTS - p.first) % SLOTS + 1;
    for (unsigned kind = 0; kind < CODES / SLOTS; kind++)
        if (p.mask >> kind & 1)
            for (unsigned i = 0; i < width; i++)
                waiting[SLOTS * kind + (p.first + i) % SLOTS] |= node;
}

static void link_nodes(const struct rule *rule, struct graph *g)
{
    uint64_t opened[MOST_NODES];
    memset(g, 0, sizeof *g);
    g->first = opening(rule, opened, 0);
    for (size_t k = 0; k < rule->nnodes; k++) {
        uint64_t node = (uint64_t)1 << k;
        if (rule->kinds[k] == FALSITY) {
            g->falsities |= node;
        } else if (rule->kinds[k] == MAX) {
            opened[k] = opening(rule, opened, k + 1);
        } else if (rule->kinds[k] == NECESSITY) {
            g->after[k] = opening(rule, opened, k + 1);
            wait_for(g->waiting, rule->patterns[rule->args[k]], node);
        }
    }
}

/* The nodes that an equation reaches under a code. With an ff node among them the code is dropped. */
static inline uint64_t reached(const struct graph *g, uint64_t equation, size_t code)
{
    uint64_t all = 0;
    for (uint64_t live = equation & g->waiting[code]; live; live &= live - 1)
        all |= g->after[__builtin_ctzll(live)];
    return all;
}

/* Hints where a set was found last, two for each, by its remainders. */
enum { HINTS = 4096, FIRST_PRIME = 4093, SECOND_PRIME = 4091 };

/* The place of an equation among the first n, or n. A hint is checked before it is believed. Else the equation is put after them, so that the loop
   needs no test for the end, and its place is what both hints say then. */
static inline size_t find(uint64_t *found, size_t n, uint64_t equation, uint16_t *hints)
{
    uint16_t *first = &hints[equation % FIRST_PRIME], *second = &hints[equation % SECOND_PRIME];
    if (*first < n && found[*first] == equation)
        return *first;
    if (*second < n && found[*second] == equation)
        return *second;
    size_t i = 0;
    found[n] = equation;
    while (found[i] != equation)
        i++;
    *first = *second = (uint16_t)i;
    return i;
}

/* Finds the equations, and says how many there are; one more than `most` where they are over it. There is a place more than for `most`. */
static size_t search(const struct graph *g, size_t most, uint64_t *found)
{
    uint16_t hints[HINTS] = {0};
    size_t n = 1;
    found[0] = g->first;
    for (size_t k = 0; k < n; k++) {
        uint64_t equation = found[k];
        for (size_t code = 0; code < CODES; code++) {
            uint64_t next = reached(g, equation, code);
            if (next & g->falsities || find(found, n, next, hints) < n)
                continue;
            if (n == most)
                return n + 1;
            n++;
        }
    }
    return n;
}

static void fill_rows(const struct graph *g, uint64_t *found, size_t n, uint16_t *restrict table)
{
    uint16_t hints[HINTS] = {0};
    for (size_t k = 0; k < n; k++) {
        uint64_t equation = found[k];
        for (size_t code = 0; code < CODES; code++) {
            uint64_t next = reached(g, equation, code);
            *table++ = next & g->falsities ? DROPPED : (uint16_t)find(found, n, next, hints);
        }
    }
}

/* Reads a rule and finds its equations: 0 and their count, or one of refusals 1 to 9 with its place. */
static uint8_t plan(const uint8_t *bytes, size_t len, size_t limit, struct graph *g, uint64_t *found, size_t *value)
{
    struct rule rule;
    uint8_t refused = twin_read(bytes, len, &rule, value);
    if (refused)
        return refused;
    link_nodes(&rule, g);
    *value = 0;
    if (g->first & g->falsities)
        return 8;
    size_t n = search(g, limit, found);
    if (n > limit)
        return 9;
    *value = n;
    return 0;
}

static uint8_t count_within(const uint8_t *rule, size_t rule_len, size_t limit, size_t *value)
{
    struct graph g;
    uint64_t found[MOST_EQUATIONS + 1];
    return plan(rule, rule_len, limit, &g, found, value);
}

uint8_t twin_count(const uint8_t *rule, size_t rule_len, size_t *value)
{
    return count_within(rule, rule_len, MOST_EQUATIONS, value);
}

/* A refusal as the page has it: 18 stands in the place of 9. */
static uint8_t on_page(uint8_t refused)
{
    return refused == 9 ? 18 : refused;
}

uint8_t twin_count_preview(const uint8_t *rule, size_t rule_len, size_t *value)
{
    return on_page(count_within(rule, rule_len, PREVIEW_MOST, value));
}

uint8_t twin_fill_within(const uint8_t *rule, size_t rule_len, size_t limit, uint16_t *table, size_t table_len, size_t *value)
{
    struct graph g;
    uint64_t found[MOST_EQUATIONS + 1];
    uint8_t refused = plan(rule, rule_len, limit, &g, found, value);
    if (!refused)
        refused = fit(table_len, value);
    if (!refused)
        fill_rows(&g, found, *value, table);
    return refused;
}

uint8_t twin_fill(const uint8_t *rule, size_t rule_len, uint16_t *table, size_t table_len, size_t *value)
{
    return twin_fill_within(rule, rule_len, MOST_EQUATIONS, table, table_len, value);
}

uint8_t twin_fill_preview(const uint8_t *rule, size_t rule_len, uint16_t *table, size_t table_len, size_t *value)
{
    return on_page(twin_fill_within(rule, rule_len, PREVIEW_MOST, table, table_len, value));
}

uint8_t twin_explain(const uint8_t *rule, size_t rule_len, const uint8_t *kept, size_t kept_len, uint8_t scan, size_t *value)
{
    struct graph g;
    uint64_t found[MOST_EQUATIONS + 1];
    uint8_t refused = plan(rule, rule_len, MOST_EQUATIONS, &g, found, value);
    if (refused)
        return refused;
    uint64_t equation = g.first;
    for (size_t i = 0; i < kept_len; i++) {
        equation = reached(&g, equation, kept[i]);
        if (equation & g.falsities) {
            *value = i;
            return 17;
        }
    }
    uint64_t opened = reached(&g, equation, scan) & g.falsities;
    *value = opened ? (size_t)__builtin_ctzll(opened) : JARVEUN_KEPT;
    return 0;
}
