/* Reads a rule file. */
#include "twin.h"

struct reader {
    const uint8_t *bytes;
    size_t len, at, place;
    struct rule *rule;
    uint8_t maxes[MOST_NODES]; /* the max nodes around the record, outermost first */
};

static uint8_t refuse(struct reader *r, uint8_t number, size_t place)
{
    r->place = place;
    return number;
}

static uint8_t read_pattern(struct reader *r)
{
    struct rule *rule = r->rule;
    if (rule->npatterns == MOST_PATTERNS)
        return refuse(r, 4, r->at);
    if (r->len - r->at < 4)
        return refuse(r, 1, r->len);
    const uint8_t *body = r->bytes + r->at + 1;
    struct pattern p = {body[0], body[1], body[2]};
    if (p.first >= SLOTS || p.last >= SLOTS)
        return refuse(r, 5, r->at);
    rule->patterns[rule->npatterns++] = p;
    r->at += 4;
    return 0;
}

/* The body of node k, a necessity or a variable. The innermost `unguarded` of the max nodes around it have no necessity below them. */
static uint8_t read_body(struct reader *r, size_t k, size_t nmaxes, size_t unguarded)
{
    if (r->len - r->at < 2)
        return refuse(r, 1, r->len);
    uint8_t body = r->bytes[r->at + 1];
    if (r->rule->kinds[k] == NECESSITY) {
        if (body >= r->rule->npatterns)
            return refuse(r, 6, r->at);
        r->rule->args[k] = body;
    } else {
        if (body >= nmaxes)
            return refuse(r, 6, r->at);
        if (body < unguarded)
            return refuse(r, 7, r->at);
        r->rule->args[k] = r->maxes[nmaxes - 1 - body];
    }
    r->at += 2;
    return 0;
}

/* Whether a node record is due at this place, or the number of a refusal. */
static uint8_t check_node(struct reader *r)
{
    if (r->at >= r->len)
        return refuse(r, 1, r->len);
    uint8_t kind = r->bytes[r->at];
    if (kind == 0 || kind > VARIABLE)
        return refuse(r, 2, r->at);
    if (kind == PATTERN)
        return refuse(r, 3, r->at);
    if (r->rule->nnodes == MOST_NODES)
        return refuse(r, 4, r->at);
    return 0;
}

static uint8_t read_formula(struct reader *r, size_t nmaxes, size_t unguarded)
{
    uint8_t refused = check_node(r);
    if (refused)
        return refused;
    struct rule *rule = r->rule;
    size_t k = rule->nnodes++;
    uint8_t kind = rule->kinds[k] = r->bytes[r->at];
    rule->args[k] = 0;
    if (kind == NECESSITY || kind == VARIABLE) {
        refused = read_body(r, k, nmaxes, unguarded);
        if (refused || kind == VARIABLE)
            return refused;
        return read_formula(r, nmaxes, 0);
    }
    r->at++;
    if (kind == MAX) {
        r->maxes[nmaxes] = (uint8_t)k;
        return read_formula(r, nmaxes + 1, unguarded + 1);
    }
    if (kind == BOTH) {
        refused = read_formula(r, nmaxes, unguarded);
        if (refused)
            return refused;
        rule->args[k] = (uint8_t)rule->nnodes;
        return read_formula(r, nmaxes, unguarded);
    }
    return 0;
}

uint8_t twin_read(const uint8_t *bytes, size_t len, struct rule *rule, size_t *place)
{
    struct reader r = {.bytes = bytes, .len = len, .rule = rule};
    uint8_t refused = 0;
    rule->npatterns = 0;
    rule->nnodes = 0;
    while (!refused && r.at < len && bytes[r.at] == PATTERN)
        refused = read_pattern(&r);
    if (!refused)
        refused = read_formula(&r, 0, 0);
    if (!refused && r.at < len)
        refused = refuse(&r, 3, r.at);
    *place = r.place;
    return refused;
}
