/* Contests between functions that do the same work. */
#ifndef CONTEST_H
#define CONTEST_H

#include <stddef.h>

enum { MOST_ENTRANTS = 8, MOST_ROUNDS = 200, WARM_UP = 3 };

/* After the contest, time has the nanoseconds of a call, and ratio those of the first entrant over them: the medians of the rounds. */
struct entrant {
    const char *name;
    void *work;
    void (*call)(void *work);
    double time, ratio;
};

/* Calls the entrants in turns, so many times a round. In a round the best call of each counts; rounds of warming up don't. After each turn
   `same` says whether two entrants got the same; the program ends where they didn't. */
void compete(struct entrant *entrants, size_t n, size_t rounds, size_t calls, int (*same)(const void *, const void *));

/* Prints a line for the first entrant and each other: what was done, the other's name, both times, each of so many units, and the ratio. */
void print_contest(const char *what, const struct entrant *entrants, size_t n, size_t units);

/* How many rounds a program is asked for, 1 to MOST_ROUNDS. It ends where there is no such argument. */
size_t asked_rounds(int argc, char **argv);

#endif
