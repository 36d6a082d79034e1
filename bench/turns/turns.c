// Calls timed in turn, and the lines that the table is made of.
#include "turns.h"
#include <stdio.h>
#include <stdlib.h>
#include <time.h>

enum { LEAST_TURNS = 15 };

double now(void) {
    struct timespec t;
    clock_gettime(CLOCK_MONOTONIC, &t);
    return (double)t.tv_sec * 1e6 + (double)t.tv_nsec / 1e3;
}

static void turn(contender *c) {
    if (c->before) c->before(c->with);
    double from = now();
    c->run(c->with);
    double time = now() - from;
    if (time < c->best) c->best = time;
}

// One after the other, again and again, so that what disturbs the machine disturbs all of them.
void take_turns(contender *list, size_t many, double milliseconds) {
    double end = now() + milliseconds * 1e3;
    for (size_t i = 0; i < many; i++) list[i].best = 1e18;
    for (size_t round = 0; round < LEAST_TURNS || now() < end; round++)
        for (size_t i = 0; i < many; i++) turn(list + i);
}

// Both parts of a ratio, so that the least of each over several runs can be taken; 0 and 0 where something cannot be done.
void record(const char *row, const char *order, size_t n, double over, double under) { printf("%s\t%s\t%zu\t%.6g\t%.6g\n", row, order, n, over, under); }

void must(int right, const char *what) {
    if (right) return;
    fprintf(stderr, "bench: %s\n", what);
    exit(1);
}
