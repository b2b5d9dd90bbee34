/* Measures matching against its C twin in memory. Prints a line for each list of pairs: what, C's name, both times of a call in nanoseconds, ratio. */
#include "contest.h"
#include "jarveun.h"
#include "rules.h"
#include "twin.h"

#include <stdio.h>
#include <stdlib.h>

enum { CALLS = 7 };

static uint8_t first[LARGEST_MODEL], second[LARGEST_MODEL];

/* Both models and a list, and what is said of them. */
struct job {
    uint8_t (*match)(const uint8_t *, size_t, const uint8_t *, size_t, const uint8_t *, size_t, size_t *, size_t *);
    const uint8_t *pairs;
    size_t value, input;
    uint8_t refused;
};

static void do_job(void *work)
{
    struct job *j = work;
    j->refused = j->match(first, sizeof first, second, sizeof second, j->pairs, LONGEST_LIST, &j->value, &j->input);
}

static int same_job(const void *a, const void *b)
{
    const struct job *x = a, *y = b;
    return x->refused == y->refused && x->value == y->value && x->input == y->input;
}

/* The answer that is due is yes: it takes the most, as no step is without partners. */
static void contest_of_lists(const char *what, const uint8_t *pairs, size_t rounds)
{
    struct job ours = {.match = jarveun_match, .pairs = pairs}, twin = {.match = twin_match, .pairs = pairs};
    struct entrant entrants[] = {{what, &ours, do_job, 0, 0}, {"twin", &twin, do_job, 0, 0}};
    compete(entrants, 2, rounds, CALLS, same_job);
    fprintf(stderr, "%s: %u %zu %zu\n", what, ours.refused, ours.value, ours.input);
    if (ours.refused || ours.value != 1) {
        fprintf(stderr, "yes was due\n");
        exit(1);
    }
    print_contest(what, entrants, 2, 1);
}

int main(int argc, char **argv)
{
    static uint8_t pairs[LONGEST_LIST], repeats[LONGEST_LIST];
    size_t rounds = asked_rounds(argc, argv);
    matched_model(1, first);
    matched_model(2, second);
    all_pairs(pairs);
    contest_of_lists("match pairs", pairs, rounds);
    contest_of_lists("match repeats", repeats, rounds);
    return 0;
}
