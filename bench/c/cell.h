// One slot of the lent tables: its numbers, its links, and the one comparison.
#ifndef CELL_H
#define CELL_H
#include "plain.h"

enum { MOST = 4096, TALLEST = 17 };

static inline const int64_t *numbers(const plain_pool *p, size_t s) { return p->keys + p->head.k * (s - 1); }

static inline size_t *link_of(const plain_pool *p, size_t s) { return p->links + 3 * (s - 1); }

static inline size_t height(const plain_pool *p, size_t s) { return s ? link_of(p, s)[2] : 0; }

static inline size_t next_cut(const plain_pool *p, size_t cut) { return cut + 1 == p->head.k ? 0 : cut + 1; }

// Under the super key that begins at the cut field.
static inline int compare(const int64_t *x, const int64_t *y, size_t k, size_t cut) {
    for (size_t i = cut; i < k; i++) if (x[i] != y[i]) return x[i] < y[i] ? -1 : 1;
    for (size_t i = 0; i < cut; i++) if (x[i] != y[i]) return x[i] < y[i] ? -1 : 1;
    return 0;
}

// Whether x is behind y: nearly always the cut field alone tells.
static inline int behind(const int64_t *x, const int64_t *y, size_t k, size_t cut) { return x[cut] != y[cut] ? x[cut] > y[cut] : compare(x, y, k, cut) > 0; }

static inline void put(const plain_pool *p, size_t s, size_t l, size_t r, size_t h) {
    size_t *at = link_of(p, s);
    at[0] = l;
    at[1] = r;
    at[2] = h;
}

// Links s to l and r, with the height that follows.
static inline void refresh(const plain_pool *p, size_t s, size_t l, size_t r) {
    size_t a = height(p, l), b = height(p, r);
    put(p, s, l, r, 1 + (a < b ? b : a));
}

static inline book_answer answer(size_t outcome, book_head head) { return (book_answer){.outcome = outcome, .head = head}; }

static inline book_answer refuse(size_t why, book_head head) { return (book_answer){.outcome = BOOK_REFUSED, .refusal = why, .head = head}; }
#endif
