/* Rules whose tables take long to fill, and models with as many states and steps as there can be. */
#ifndef RULES_H
#define RULES_H

#include "random.h"
#include "twin.h"

#include <stdint.h>
#include <string.h>

/* The paper's rule of 128 equations: max of "after any code, the variable" and "after code 5, seven times after any code, tt". */
static const uint8_t paper_rule[] = {
    1, 255, 0, 31, 1, 1, 5, 5,
    6, 4, 5, 0, 7, 0,
    5, 1, 5, 0, 5, 0, 5, 0, 5, 0, 5, 0, 5, 0, 5, 0, 2,
};

/* The same with five: 32 equations, as many as the rule page shows. */
static const uint8_t page_rule[] = {
    1, 255, 0, 31, 1, 1, 5, 5,
    6, 4, 5, 0, 7, 0,
    5, 1, 5, 0, 5, 0, 5, 0, 5, 0, 5, 0, 2,
};

/* The hardest rule of up to 128 equations that a search at random found, but that the slots of its second pattern go round: 64 nodes, 127 equations
   of 9 to 46 members. All but one of its necessities are of any code, so that most members of an equation count under each code. */
static const uint8_t hard_rule[] = {
    1, 255, 0, 31, 1, 174, 16, 12,
    6, 4, 5, 0, 7, 0,
    4, 5, 1, 5, 0, 5, 0, 5, 0, 5, 0, 5, 0, 2,
    4, 5, 0, 5, 0, 5, 0, 5, 0, 5, 0, 5, 0, 5, 0, 5, 0, 2,
    4, 5, 0, 5, 0, 5, 0, 7, 0,
    4, 5, 0, 5, 0, 5, 0, 5, 0, 5, 0, 5, 0, 5, 0, 2,
    4, 5, 0, 5, 0, 5, 0, 5, 0, 5, 0, 5, 0, 7, 0,
    4, 5, 0, 5, 0, 5, 0, 5, 0, 5, 0, 5, 0, 7, 0,
    4, 5, 0, 5, 0, 5, 0, 5, 0, 5, 0, 2,
    5, 0, 5, 0, 5, 0, 5, 0, 2,
};

/* Three wheels of 3, 5 and 8 places that each code turns by one; code 5 is dropped where some wheel isn't at its first place. So 120 equations of a ring
   drop the same but for one, and each round of merging parts one more of them. */
static const uint8_t wheels_rule[] = {
    1, 255, 0, 31, 1, 1, 5, 5,
    4, 4,
    6, 5, 0, 4, 5, 1, 3, 5, 0, 4, 5, 1, 3, 5, 0, 7, 0,
    6, 5, 0, 4, 5, 1, 3, 5, 0, 4, 5, 1, 3, 5, 0, 4, 5, 1, 3, 5, 0, 4, 5, 1, 3, 5, 0, 7, 0,
    6, 5, 0, 4, 5, 1, 3, 5, 0, 4, 5, 1, 3, 5, 0, 4, 5, 1, 3, 5, 0, 4, 5, 1, 3, 5, 0, 4, 5, 1, 3, 5, 0, 4, 5, 1, 3, 5, 0, 4, 5, 1, 3, 5, 0, 7, 0,
};

/* The paper's rule with nine: 512 equations. */
static const uint8_t window_rule[] = {
    1, 255, 0, 31, 1, 1, 5, 5,
    6, 4, 5, 0, 7, 0, 5, 1, 5, 0, 5, 0, 5, 0, 5, 0, 5, 0, 5, 0, 5, 0, 5, 0, 5, 0, 2,
};

/* A rule of 1,000 equations. */
static const uint8_t thousand_rule[] = {
    1, 255, 0, 31, 1, 2, 26, 28, 1, 13, 7, 26,
    6, 4, 5, 0, 7, 0,
    4, 5, 0, 5, 0, 5, 0, 5, 0, 2,
    4, 5, 0, 7, 0,
    4, 5, 0, 5, 0, 5, 0, 5, 0, 2,
    4, 5, 1, 5, 1, 5, 1, 5, 0, 5, 2, 5, 2, 5, 1, 5, 2, 5, 0, 5, 2, 5, 1, 5, 2, 5, 2, 7, 0,
    4, 5, 1, 5, 0, 5, 0, 5, 2, 5, 0, 5, 0, 5, 0, 5, 0, 5, 0, 5, 0, 5, 0, 5, 0, 2,
    4, 5, 2, 5, 0, 5, 0, 5, 0, 2,
    5, 2, 5, 1, 5, 0, 5, 1, 5, 1, 5, 2, 3,
};

/* The slowest to count that a search at random found: 64 nodes, 995 equations of 6 to 52 members. */
static const uint8_t slow_rule[] = {
    1, 255, 0, 31, 1, 77, 7, 27, 1, 8, 9, 25,
    6, 4, 5, 0, 7, 0,
    4, 5, 0, 5, 0, 5, 0, 5, 0, 5, 0, 5, 0, 5, 0, 5, 0, 5, 0, 5, 0, 2,
    4, 5, 0, 5, 0, 5, 0, 5, 0, 5, 0, 5, 0, 5, 0, 5, 0, 5, 0, 5, 0, 5, 0, 5, 0, 5, 0, 5, 0, 7, 0,
    4, 5, 0, 5, 0, 5, 0, 5, 0, 5, 0, 5, 0, 5, 0, 5, 0, 5, 0, 5, 0, 7, 0,
    4, 5, 0, 5, 0, 5, 2, 5, 0, 5, 0, 5, 0, 5, 1, 5, 2, 5, 0, 5, 0, 5, 0, 5, 0, 5, 1, 2,
    5, 0, 5, 0, 5, 0, 5, 2, 2,
};

/* A rule that is made so that first hints fail: 960 equations. Half of them have the eleven necessities of single slots, whose sum is a multiple of 4,093.
   So there, for most codes, the answers to one code and to the next share a first hint. */
static const uint8_t clash_rule[] = {
    1, 255, 0, 31, 1, 85, 0, 31, 1, 255, 0, 0, 1, 255, 2, 2, 1, 255, 4, 4, 1, 255, 6, 6, 1, 255, 8, 8, 1, 255, 10, 10, 1, 255, 12, 12,
    1, 255, 14, 14, 1, 255, 16, 16, 1, 255, 18, 18, 1, 255, 20, 20,
    4, 6, 5, 0, 5, 0, 5, 0, 7, 0, 4, 6, 5, 0, 5, 0, 5, 0, 5, 0, 5, 0, 7, 0, 4, 6, 4, 4, 4, 5, 2, 7, 0, 5, 3, 7, 0, 4, 5, 4, 7, 0, 4, 4, 4, 5, 5,
    7, 0, 5, 6, 7, 0, 4, 5, 7, 7, 0, 5, 8, 7, 0, 4, 5, 9, 7, 0, 4, 5, 10, 7, 0, 5, 11, 7, 0, 5, 12, 7, 0, 6, 4, 5, 0, 7, 0, 5, 1, 5, 0, 5, 0,
    5, 0, 5, 0, 5, 0, 2,
};

/* As the wheels above, with 5, 13, 3 and 4 places, of which 3, 1, 2 and 3 drop code 5: 780 equations in a ring that stay, in 565 rounds. */
static const uint8_t ring_rule[] = {
    1, 255, 0, 31, 1, 1, 5, 5,
    4, 4, 4,
    6, 4, 5, 1, 3, 5, 0, 4, 5, 1, 3, 5, 0, 4, 5, 1, 3, 5, 0, 5, 0, 5, 0, 7, 0,
    6, 4, 5, 1, 3, 5, 0, 5, 0, 5, 0, 5, 0, 5, 0, 5, 0, 5, 0, 5, 0, 5, 0, 5, 0, 5, 0, 5, 0, 5, 0, 7, 0,
    6, 4, 5, 1, 3, 5, 0, 4, 5, 1, 3, 5, 0, 5, 0, 7, 0,
    6, 4, 5, 1, 3, 5, 0, 4, 5, 1, 3, 5, 0, 4, 5, 1, 3, 5, 0, 5, 0, 7, 0,
};

enum { CHAIN_RULE = 4 + 2 * (MOST_NODES - 1) + 1 };

/* As many necessities of any code as there can be, and ff: 63 equations, and each round of merging parts one more of them. */
static inline void chain_rule(uint8_t *rule)
{
    memcpy(rule, paper_rule, 4);
    for (uint8_t *byte = rule + 4; byte < rule + CHAIN_RULE - 1; byte += 2) {
        byte[0] = NECESSITY;
        byte[1] = 0;
    }
    rule[CHAIN_RULE - 1] = FALSITY;
}

enum { LARGEST_MODEL = 2 + 3 * MOST_STATES + 4 * (MOST_STEPS - MOST_STATES) };

/* The largest model. Each state has a silent step to the next and seven steps with codes to states at random: code 5 from odd states, codes at
   random from even ones. */
static inline void largest_model(uint8_t *model)
{
    uint64_t seed = 7;
    *model++ = 16;
    *model++ = MOST_STATES;
    for (unsigned i = 0; i < MOST_STEPS; i++) {
        uint8_t from = (uint8_t)(i % MOST_STATES);
        *model++ = i < MOST_STATES ? 18 : 17;
        *model++ = from;
        if (i < MOST_STATES) {
            *model++ = (uint8_t)((i + 1) % MOST_STATES);
        } else {
            *model++ = i % 2 ? 5 : (uint8_t)random_under(&seed, CODES);
            *model++ = (uint8_t)random_under(&seed, MOST_STATES);
        }
    }
}

/* Another of this size. Each state has a silent step and a step with each of seven codes, and the steps stand in an order at random; those of state 0
   lead to it, all others to states at random. So any two of these are matched by the list of all pairs, and by the pair of the starts alone. */
static inline void matched_model(uint64_t seed, uint8_t *model)
{
    unsigned order[MOST_STEPS];
    for (unsigned i = 0; i < MOST_STEPS; i++) {
        unsigned j = random_under(&seed, i + 1);
        order[i] = order[j];
        order[j] = i;
    }
    *model++ = 16;
    *model++ = MOST_STATES;
    for (unsigned i = 0; i < MOST_STEPS; i++) {
        unsigned from = order[i] % MOST_STATES, code = order[i] / MOST_STATES;
        *model++ = code == 0 ? 18 : 17;
        *model++ = (uint8_t)from;
        if (code > 0)
            *model++ = (uint8_t)code;
        *model++ = from == 0 ? 0 : (uint8_t)random_under(&seed, MOST_STATES);
    }
}

enum { LONGEST_LIST = 2 * MOST_PAIRS };

/* The list of all pairs of 64 states and 64. */
static inline void all_pairs(uint8_t *pairs)
{
    for (unsigned i = 0; i < MOST_PAIRS; i++) {
        *pairs++ = (uint8_t)(i / MOST_STATES);
        *pairs++ = (uint8_t)(i % MOST_STATES);
    }
}

#endif
