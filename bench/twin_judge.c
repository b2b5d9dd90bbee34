/* Judges whether a phone model meets a rule. */
#include "twin.h"

/* last: for each state one more than the last step from it, or 0. earlier: for each step the same among the steps before it. */
struct links {
    uint16_t last[MOST_STATES], earlier[MOST_STEPS];
};

static void link_steps(const struct model *m, struct links *links)
{
    for (size_t s = 0; s < MOST_STATES; s++)
        links->last[s] = 0;
    for (size_t i = 0; i < m->nsteps; i++) {
        uint16_t *last = &links->last[m->steps[i].from];
        links->earlier[i] = *last;
        *last = (uint16_t)(i + 1);
    }
}

/* Whether no step is dropped of the pairs that are reached. State s beside equation e is pair 64 * e + s. */
static int never_drops(const struct model *m, const struct links *links, const uint16_t *table)
{
    uint8_t seen[MOST_STATES * MOST_EQUATIONS] = {1};
    uint16_t pairs[MOST_STATES * MOST_EQUATIONS] = {0};
    size_t found = 1;
    for (size_t turn = 0; turn < found; turn++) {
        size_t equation = pairs[turn] / MOST_STATES;
        for (size_t i = links->last[pairs[turn] % MOST_STATES]; i > 0; i = links->earlier[i - 1]) {
            struct step step = m->steps[i - 1];
            size_t next = step.label == SILENT ? equation : table[CODES * equation + step.label];
            if (next == DROPPED)
                return 0;
            size_t pair = MOST_STATES * next + step.to;
            if (!seen[pair]) {
                seen[pair] = 1;
                pairs[found++] = (uint16_t)pair;
            }
        }
    }
    return 1;
}

/* What is said where the model is refused: the refusals of the rule, and then 10, come first. */
static uint8_t refuse_model(const uint8_t *rule, size_t rule_len, size_t table_len, uint8_t number, size_t place, size_t *value)
{
    uint8_t refused = twin_count(rule, rule_len, value);
    if (refused)
        return refused;
    refused = fit(table_len, value);
    return refused ? refused : refuse_at(value, number, place);
}

uint8_t twin_judge(const uint8_t *rule, size_t rule_len, const uint8_t *model, size_t model_len, uint16_t *table, size_t table_len, size_t *value)
{
    struct model m;
    struct links links;
    size_t place;
    uint8_t refused = twin_read_model(model, model_len, &m, &place);
    if (refused)
        return refuse_model(rule, rule_len, table_len, refused, place, value);
    refused = twin_fill(rule, rule_len, table, table_len, value);
    if (refused)
        return refused;
    link_steps(&m, &links);
    *value = (size_t)never_drops(&m, &links, table);
    return 0;
}
