// A flat array of entries, scanned from end to end for every question.
#include "peer.h"
#include <string.h>

static book_entry list[4096];
static size_t many;

static void load(const book_entry *entries, size_t n) {
    memcpy(list, entries, n * sizeof *list);
    many = n;
}

static size_t look_up(book_entry e) {
    for (size_t i = 0; i < many; i++) if (!memcmp(list + i, &e, sizeof e)) return 1;
    return 0;
}

static size_t count(book_box box) {
    size_t n = 0;
    for (size_t i = 0; i < many; i++) {
        int in = 1;
        for (size_t f = 0; f < 4; f++) in &= box.of[f].low <= list[i].f[f] && list[i].f[f] <= box.of[f].high;
        n += (size_t)in;
    }
    return n;
}

static uint64_t distance(const book_entry *x, const book_entry *y) {
    uint64_t most = 0;
    for (size_t f = 0; f < 4; f++) {
        uint64_t a = (uint64_t)x->f[f], b = (uint64_t)y->f[f], d = x->f[f] < y->f[f] ? b - a : a - b;
        if (d > most) most = d;
    }
    return most;
}

static int listed_before(const book_entry *x, const book_entry *y) {
    for (size_t f = 0; f < 4; f++) if (x->f[f] != y->f[f]) return x->f[f] < y->f[f];
    return 0;
}

static book_entry nearest(book_entry query) {
    size_t best = 0;
    uint64_t least = distance(list, &query);
    for (size_t i = 1; i < many; i++) {
        uint64_t d = distance(list + i, &query);
        if (d > least || (d == least && !listed_before(list + i, list + best))) continue;
        best = i;
        least = d;
    }
    return list[best];
}

static void drop(void) { many = 0; }

const peer scan_peer = {"flat scan in C", load, look_up, count, nearest, 1, drop};
