#include "contest.h"

#include <stdio.h>
#include <stdlib.h>
#include <time.h>

static double now(void)
{
    struct timespec t;
    clock_gettime(CLOCK_MONOTONIC, &t);
    return 1e9 * (double)t.tv_sec + (double)t.tv_nsec;
}

static int by_size(const void *a, const void *b)
{
    double x = *(const double *)a, y = *(const double *)b;
    return (x > y) - (x < y);
}

static double median(double *values, size_t n)
{
    qsort(values, n, sizeof *values, by_size);
    return (values[(n - 1) / 2] + values[n / 2]) / 2;
}

static void check(const struct entrant *entrants, size_t n, int (*same)(const void *, const void *))
{
    for (size_t j = 1; j < n; j++)
        if (!same(entrants[0].work, entrants[j].work)) {
            fprintf(stderr, "%s and %s differ\n", entrants[0].name, entrants[j].name);
            exit(1);
        }
}

static void play_round(struct entrant *entrants, size_t n, size_t calls, int (*same)(const void *, const void *), double *best)
{
    for (size_t i = 0; i < calls; i++) {
        for (size_t j = 0; j < n; j++) {
            double start = now();
            entrants[j].call(entrants[j].work);
            double time = now() - start;
            if (i == 0 || time < best[j])
                best[j] = time;
        }
        check(entrants, n, same);
    }
}

void compete(struct entrant *entrants, size_t n, size_t rounds, size_t calls, int (*same)(const void *, const void *))
{
    static double times[MOST_ENTRANTS][MOST_ROUNDS], ratios[MOST_ENTRANTS][MOST_ROUNDS];
    double best[MOST_ENTRANTS];
    for (size_t r = 0; r < WARM_UP; r++)
        play_round(entrants, n, calls, same, best);
    for (size_t r = 0; r < rounds; r++) {
        play_round(entrants, n, calls, same, best);
        for (size_t j = 0; j < n; j++) {
            times[j][r] = best[j];
            ratios[j][r] = best[0] / best[j];
        }
    }
    for (size_t j = 0; j < n; j++) {
        entrants[j].time = median(times[j], rounds);
        entrants[j].ratio = median(ratios[j], rounds);
    }
}

void print_contest(const char *what, const struct entrant *entrants, size_t n, size_t units)
{
    for (size_t j = 1; j < n; j++)
        printf("%s\t%s\t%.3f\t%.3f\t%.4f\n", what, entrants[j].name, entrants[0].time / (double)units, entrants[j].time / (double)units,
               entrants[j].ratio);
    fflush(stdout);
}

size_t asked_rounds(int argc, char **argv)
{
    size_t rounds = argc > 1 ? strtoul(argv[1], NULL, 10) : 0;
    if (rounds == 0 || rounds > MOST_ROUNDS) {
        fprintf(stderr, "usage: %s ROUNDS\n", argv[0]);
        exit(2);
    }
    return rounds;
}
