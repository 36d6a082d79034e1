// One entry added to or struck from a pool that is sound, with the upward check along its path.
#include "alter.h"
#include "rank.h"
#include <string.h>

// The slot of an entry, 0 where it is not there; the path leads to its parent.
size_t find(const plain_pool *p, const int64_t *entry, path *way) {
    size_t s = p->head.root, cut = 0;
    way->n = 0;
    while (s) {
        int order = compare(entry, numbers(p, s), p->head.k, cut);
        if (order == 0) return s;
        way->slot[way->n] = s;
        way->side[way->n++] = order > 0;
        s = link_of(p, s)[order > 0];
        cut = next_cut(p, cut);
    }
    return 0;
}

// Hangs `child` at the end of the path, then checks every entry of it from there up.
static void mend(plain_pool *p, const path *way, size_t child) {
    for (size_t i = way->n; i--;) {
        size_t s = way->slot[i], *at = link_of(p, s);
        at[way->side[i]] = child;
        size_t l = at[0], r = at[1], a = height(p, l), b = height(p, r);
        at[2] = 1 + (a < b ? b : a);
        child = a > b + 1 || b > a + 1 ? rebuild(p, s, i % p->head.k) : s;
    }
    p->head.root = child;
}

void add_at(plain_pool *p, path *way, const int64_t *entry) {
    size_t s = p->head.free;
    p->head.free = link_of(p, s)[0];
    p->head.n++;
    memcpy(p->keys + p->head.k * (s - 1), entry, p->head.k * sizeof *entry);
    put(p, s, 0, 0, 1);
    mend(p, way, s);
}

// The greatest (side 0) or least (side 1) under the cut `home` in the tree at s: at a level with the same cut one side alone can hold it.
static size_t seek(const plain_pool *p, size_t s, size_t cut, size_t home, size_t side) {
    size_t next = next_cut(p, cut), best = s;
    if (cut == home) {
        size_t far = link_of(p, s)[1 - side];
        return far ? seek(p, far, next, home, side) : s;
    }
    for (size_t i = 0; i < 2; i++) {
        size_t child = link_of(p, s)[i];
        if (!child) continue;
        size_t t = seek(p, child, next, home, side);
        int order = compare(numbers(p, best), numbers(p, t), p->head.k, home);
        if (side ? order > 0 : order < 0) best = t;
    }
    return best;
}

// From s, where the struck entry is: replacements move up until a leaf is left over, which gives up its slot.
void strike_at(plain_pool *p, path *way, size_t s) {
    size_t k = p->head.k;
    for (size_t *at = link_of(p, s); at[0] || at[1]; at = link_of(p, s)) {
        size_t cut = way->n % k, side = height(p, at[0]) > height(p, at[1]) ? 0 : 1;
        size_t heir = seek(p, at[side], cut + 1 == k ? 0 : cut + 1, cut, side);
        const int64_t *from = numbers(p, heir);
        memcpy(p->keys + k * (s - 1), from, k * sizeof *from);
        way->slot[way->n] = s;
        way->side[way->n++] = side;
        for (s = at[side]; s != heir;) {
            size_t turn = compare(from, numbers(p, s), k, way->n % k) > 0;
            way->slot[way->n] = s;
            way->side[way->n++] = turn;
            s = link_of(p, s)[turn];
        }
    }
    memset(p->keys + k * (s - 1), 0, k * sizeof *p->keys);
    put(p, s, p->head.free, 0, 0);
    p->head.free = s;
    p->head.n--;
    mend(p, way, 0);
}
