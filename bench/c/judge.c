// Whether a pool is sound: one pass with the bounds in one array, set before a side and put back after it; then the free chain.
#include "cell.h"

static inline int inside(const plain_pool *p, size_t s, const size_t *bounds) {
    size_t k = p->head.k;
    for (size_t i = 0; i < k; i++) {
        size_t low = bounds[i], high = bounds[4 + i];
        if (low && compare(numbers(p, low), numbers(p, s), k, i) >= 0) return 0;
        if (high && compare(numbers(p, s), numbers(p, high), k, i) >= 0) return 0;
    }
    return 1;
}

// One more than the entries that may still be met; 0 refuses.
static size_t pass(const plain_pool *p, size_t s, size_t cut, size_t left, size_t *bounds) {
    if (left == 1) return 0;
    size_t l = link_of(p, s)[0], r = link_of(p, s)[1], h = link_of(p, s)[2];
    if (l > p->head.c || r > p->head.c) return 0;
    size_t a = height(p, l), b = height(p, r), most = a < b ? b : a, least = a < b ? a : b;
    if (h == 0 || h - 1 != most || most - least > 1) return 0;
    if (!inside(p, s, bounds)) return 0;
    size_t next = next_cut(p, cut);
    left--;
    if (l) {
        size_t old = bounds[4 + cut];
        bounds[4 + cut] = s;
        left = pass(p, l, next, left, bounds);
        bounds[4 + cut] = old;
        if (!left) return 0;
    }
    if (r) {
        size_t old = bounds[cut];
        bounds[cut] = s;
        left = pass(p, r, next, left, bounds);
        bounds[cut] = old;
    }
    return left;
}

static int chained(const plain_pool *p) {
    size_t left = p->head.c - p->head.n;
    for (size_t s = p->head.free; s; s = link_of(p, s)[0]) {
        if (!left || s > p->head.c || link_of(p, s)[1] || link_of(p, s)[2]) return 0;
        for (size_t i = 0; i < p->head.k; i++) if (numbers(p, s)[i]) return 0;
        left--;
    }
    return !left;
}

size_t plain_judge(const plain_pool *p) {
    book_head h = p->head;
    size_t bounds[8] = {0};
    if (h.k < 1 || h.k > 4) return 1;
    if (h.c < 1 || h.c > MOST) return 2;
    if (h.root > h.c || h.free > h.c || h.n > h.c) return 4;
    if (h.root == 0 ? h.n != 0 : pass(p, h.root, 0, h.n + 1, bounds) != 1) return 4;
    return chained(p) ? 0 : 4;
}
