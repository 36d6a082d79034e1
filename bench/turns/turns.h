// Calls timed in turn, and the lines that the table is made of.
#ifndef TURNS_H
#define TURNS_H
#include <stddef.h>

// Something to be timed: `before` is not; `best` is the least time of a turn, in microseconds.
typedef struct {
    void (*before)(void *with), (*run)(void *with);
    void *with;
    double best;
} contender;

double now(void);
void   take_turns(contender *list, size_t many, double milliseconds);
void   record(const char *row, const char *order, size_t n, double over, double under);
void   must(int right, const char *what);
#endif
