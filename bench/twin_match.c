/* Says whether a list of pairs of states matches two phone models. */
#include "twin.h"

#include <string.h>

/* Row x has the states of the second model that are paired with state x of the first, state y as bit y. Columns are the other way round. */
struct relation {
    uint64_t rows[MOST_STATES], columns[MOST_STATES];
};

static uint64_t only(uint8_t state)
{
    return (uint64_t)1 << state;
}

/* 0 and the relation, or one of refusals 22 to 24 with its place. */
static uint8_t read_pairs(const uint8_t *bytes, size_t len, size_t first, size_t second, struct relation *relation, size_t *place)
{
    memset(relation, 0, sizeof *relation);
    for (size_t at = 0; at < len; at += 2) {
        if (len - at < 2)
            return refuse_at(place, 22, len);
        uint8_t x = bytes[at], y = bytes[at + 1];
        if (x >= first || y >= second)
            return refuse_at(place, 23, at);
        if (at == 2 * MOST_PAIRS)
            return refuse_at(place, 24, at);
        relation->rows[x] |= only(y);
        relation->columns[y] |= only(x);
    }
    return 0;
}

/* The states from which a step with this label leads to one of the targets. */
static uint64_t partners(const struct model *m, uint16_t label, uint64_t targets)
{
    uint64_t states = 0;
    for (size_t i = 0; i < m->nsteps; i++) {
        struct step step = m->steps[i];
        if (step.label == label && (targets & only(step.to)))
            states |= only(step.from);
    }
    return states;
}

/* Whether each step of a model has a partner in the other from every state that is related to its own. */
static int have_partners(const struct model *m, const struct model *other, const uint64_t *rows)
{
    for (size_t i = 0; i < m->nsteps; i++) {
        struct step step = m->steps[i];
        if (rows[step.from] & ~partners(other, step.label, rows[step.to]))
            return 0;
    }
    return 1;
}

uint8_t twin_match(const uint8_t *first, size_t first_len, const uint8_t *second, size_t second_len, const uint8_t *pairs, size_t pairs_len,
                   size_t *value, size_t *input)
{
    struct model one, other;
    struct relation relation;
    *input = 1;
    uint8_t refused = twin_read_model(first, first_len, &one, value);
    if (refused)
        return refused;
    *input = 2;
    refused = twin_read_model(second, second_len, &other, value);
    if (refused)
        return refused;
    *input = 3;
    refused = read_pairs(pairs, pairs_len, one.states, other.states, &relation, value);
    if (refused)
        return refused;
    *input = 0;
    *value = (relation.rows[0] & 1) && have_partners(&one, &other, relation.rows) && have_partners(&other, &one, relation.columns);
    return 0;
}
