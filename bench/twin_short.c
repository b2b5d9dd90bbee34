/* Counts the rows of the shortest table of a rule, and fills it. */
#include "twin.h"

#include <string.h>

/* Whether equations k and l are of one class and lead to the same classes under every code. Dropped is a class of its own. */
static int stay_together(const uint16_t *table, const uint16_t *classes, size_t k, size_t l)
{
    const uint16_t *a = table + CODES * k, *b = table + CODES * l;
    if (classes[k] != classes[l])
        return 0;
    for (size_t code = 0; code < CODES; code++)
        if (classes[a[code]] != classes[b[code]])
            return 0;
    return 1;
}

/* One round: the new class of each equation is the first one with which it stays together; none is before the first of its old class. Says whether any
   class has changed. */
static int refine(const uint16_t *table, size_t n, uint16_t *classes)
{
    uint16_t next[MOST_EQUATIONS];
    for (size_t k = 0; k < n; k++) {
        size_t l = classes[k];
        while (l < k && (next[l] != l || !stay_together(table, classes, k, l)))
            l++;
        next[k] = (uint16_t)l;
    }
    int changed = memcmp(classes, next, n * sizeof *next) != 0;
    memcpy(classes, next, n * sizeof *next);
    return changed;
}

/* What the short table is filled from: the rows of all equations, the first equation of each class, and the number of each one's class. */
struct short_plan {
    uint16_t rows[MOST_TABLE], firsts[MOST_EQUATIONS], numbers[DROPPED + 1];
};

/* Numbers the classes of the n equations, and says how many there are. */
static size_t number_classes(struct short_plan *p, size_t n)
{
    uint16_t classes[DROPPED + 1];
    size_t m = 0;
    memset(classes, 0, n * sizeof *classes);
    classes[DROPPED] = DROPPED;
    while (refine(p->rows, n, classes))
        ;
    p->numbers[DROPPED] = DROPPED;
    for (size_t k = 0; k < n; k++) {
        if (classes[k] == k) {
            p->firsts[m] = (uint16_t)k;
            p->numbers[k] = (uint16_t)m++;
        } else {
            p->numbers[k] = p->numbers[classes[k]];
        }
    }
    return m;
}

/* 0 and the count of classes, or one of refusals 1 to 9 with its place. */
static uint8_t plan_short(const uint8_t *rule, size_t rule_len, struct short_plan *p, size_t *value)
{
    uint8_t refused = twin_fill(rule, rule_len, p->rows, MOST_TABLE, value);
    if (!refused)
        *value = number_classes(p, *value);
    return refused;
}

static void fill_short_rows(const struct short_plan *p, size_t m, uint16_t *restrict table)
{
    for (size_t i = 0; i < m; i++) {
        const uint16_t *row = p->rows + CODES * p->firsts[i];
        for (size_t code = 0; code < CODES; code++)
            *table++ = p->numbers[row[code]];
    }
}

uint8_t twin_count_short(const uint8_t *rule, size_t rule_len, size_t *value)
{
    struct short_plan p;
    return plan_short(rule, rule_len, &p, value);
}

uint8_t twin_fill_short(const uint8_t *rule, size_t rule_len, uint16_t *table, size_t table_len, size_t *value)
{
    struct short_plan p;
    uint8_t refused = plan_short(rule, rule_len, &p, value);
    if (!refused)
        refused = fit(table_len, value);
    if (!refused)
        fill_short_rows(&p, *value, table);
    return refused;
}
