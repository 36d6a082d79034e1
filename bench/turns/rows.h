// A row of the table: one call on three sides.
#ifndef ROWS_H
#define ROWS_H
#include "book.h"

enum { OURS, JUDGED, BARE, SIDES };

// Call number i of a turn on each side; no BARE where the call has no pass in front. `before` makes a pool ready and is not timed;
// `same` ends the bench where the sides wrote something different.
typedef struct {
    const char *name;
    book_answer (*call[SIDES])(size_t i);
    void (*before)(void *side), (*same)(int sides);
    size_t many;
} row;

void run_row(const row *r, double milliseconds, double *best);
void tell_row(const row *r, const char *order, size_t n, const double *best, double pass);
#endif
