// One entry added to or struck from a pool that is sound.
#ifndef ALTER_H
#define ALTER_H
#include "cell.h"

// The slots from the root down to where an entry is or would be, and at each the side that was taken.
typedef struct {
    size_t slot[TALLEST], side[TALLEST], n;
} path;

size_t find(const plain_pool *p, const int64_t *entry, path *way);
void   add_at(plain_pool *p, path *way, const int64_t *entry);
void   strike_at(plain_pool *p, path *way, size_t s);
#endif
