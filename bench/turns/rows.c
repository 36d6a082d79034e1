// A row of the table: its sides compared, taken in turn, and told as ratios.
#include "rows.h"
#include "pools.h"
#include "turns.h"
#include <stdio.h>

typedef struct { const row *r; int side; } task;

static void run(void *with) {
    const task *t = with;
    for (size_t i = 0; i < t->r->many; i++) t->r->call[t->side](i);
}

static void ready(void *with) {
    task *t = with;
    if (t->r->before) t->r->before(&t->side);
}

static void compare_sides(const row *r, int sides) {
    for (size_t i = 0; i < r->many; i++) {
        book_answer a[SIDES];
        for (int side = 0; side < sides; side++) {
            if (r->before) r->before(&side);
            a[side] = r->call[side](i);
            same_answer(a[OURS], a[side]);
        }
        if (r->same) r->same(sides);
    }
}

// The least time of one call on each side, in microseconds.
void run_row(const row *r, double milliseconds, double *best) {
    int sides = r->call[BARE] ? SIDES : BARE;
    task tasks[SIDES];
    contender list[SIDES];
    compare_sides(r, sides);
    for (int side = 0; side < sides; side++) {
        tasks[side] = (task){r, side};
        list[side] = (contender){ready, run, tasks + side, 0};
    }
    take_turns(list, (size_t)sides, milliseconds);
    for (int side = 0; side < sides; side++) best[side] = list[side].best / (double)r->many;
}

// `pass` is the time of our pass over the same pool, 0 where the call is made on another one.
void tell_row(const row *r, const char *order, size_t n, const double *best, double pass) {
    char name[100];
    snprintf(name, sizeof name, "%s: ours / C", r->name);
    record(name, order, n, best[OURS], best[JUDGED]);
    if (!r->call[BARE]) return;
    snprintf(name, sizeof name, "%s: ours / C without the pass", r->name);
    record(name, order, n, best[OURS], best[BARE]);
    snprintf(name, sizeof name, "%s: our pass / our whole call", r->name);
    if (pass > 0) record(name, order, n, pass, best[OURS]);
}
