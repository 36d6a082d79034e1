// The questions: look up, count a box, list a box, the nearest.
#include "rank.h"
#include <string.h>

static book_entry entry_at(const plain_pool *p, size_t s) {
    book_entry e = {{0}};
    memcpy(e.f, numbers(p, s), p->head.k * sizeof *e.f);
    return e;
}

static size_t sizes(book_head h) { return h.k < 1 || h.k > 4 ? 1 : h.c < 1 || h.c > MOST ? 2 : 0; }

book_answer plain_look_up(const plain_pool *p, book_entry entry) {
    book_head h = p->head;
    size_t why = sizes(h), cut = 0, reads = 0, s = h.root;
    if (why) return refuse(why, h);
    while (s) {
        if (s > h.c || reads == 16) return refuse(4, h);
        const int64_t *x = entry.f, *y = numbers(p, s);
        size_t side = x[cut] > y[cut];
        reads++;
        if (x[cut] == y[cut]) {
            int order = compare(x, y, h.k, cut);
            if (order == 0) return (book_answer){.outcome = BOOK_FOUND, .head = h, .entry = entry_at(p, s), .slot = s, .reads = reads};
            side = order > 0;
        }
        s = link_of(p, s)[side];
        cut = next_cut(p, cut);
    }
    return (book_answer){.outcome = BOOK_ABSENT, .head = h, .reads = reads};
}

// A box as its lowest and highest numbers, so that each field is two comparisons.
typedef struct { int64_t low[4], high[4]; } ends;

static ends ends_of(book_box box) {
    ends e;
    for (size_t i = 0; i < 4; i++) {
        size_t kind = box.of[i].kind;
        e.low[i] = kind == 0 || kind == 2 ? INT64_MIN : box.of[i].low;
        e.high[i] = kind < 2 ? INT64_MAX : box.of[i].high;
    }
    return e;
}

static inline int in_box(const int64_t *x, const ends *e, size_t k) {
    for (size_t i = 0; i < k; i++) if (x[i] < e->low[i] || e->high[i] < x[i]) return 0;
    return 1;
}

static size_t count_in(const plain_pool *p, size_t s, size_t cut, const ends *e) {
    size_t n = 0;
    while (s) {
        const int64_t *x = numbers(p, s);
        size_t next = next_cut(p, cut);
        n += in_box(x, e, p->head.k);
        if (e->low[cut] <= x[cut]) n += count_in(p, link_of(p, s)[0], next, e);
        s = x[cut] <= e->high[cut] ? link_of(p, s)[1] : 0;
        cut = next;
    }
    return n;
}

static size_t collect(const plain_pool *p, size_t s, size_t cut, const ends *e, size_t *slots, size_t at) {
    while (s) {
        const int64_t *x = numbers(p, s);
        size_t next = next_cut(p, cut);
        if (e->low[cut] <= x[cut]) at = collect(p, link_of(p, s)[0], next, e, slots, at);
        if (in_box(x, e, p->head.k)) slots[at++] = s;
        s = x[cut] <= e->high[cut] ? link_of(p, s)[1] : 0;
        cut = next;
    }
    return at;
}

book_answer plain_count(const plain_pool *p, int judged, book_box box) {
    size_t why = judged ? plain_judge(p) : 0;
    if (why) return refuse(why, p->head);
    ends e = ends_of(box);
    book_answer a = answer(BOOK_DONE, p->head);
    a.count = count_in(p, p->head.root, 0, &e);
    return a;
}

book_answer plain_list(const plain_pool *p, int judged, book_box box, int64_t *room, size_t room_len) {
    size_t why = judged ? plain_judge(p) : 0, slots[MOST], spare[MOST], k = p->head.k;
    if (why) return refuse(why, p->head);
    ends e = ends_of(box);
    size_t n = collect(p, p->head.root, 0, &e, slots, 0);
    if (room_len < k * n) return refuse(8, p->head);
    rank(p, 0, slots, spare, n);
    for (size_t i = 0; i < n; i++) memcpy(room + k * i, numbers(p, slots[i]), k * sizeof *room);
    book_answer a = answer(BOOK_DONE, p->head);
    a.count = n;
    return a;
}

typedef struct { book_entry query; book_steps steps; size_t slot; uint64_t distance; } search;

static inline uint64_t apart(int64_t x, int64_t y) { return x < y ? (uint64_t)y - (uint64_t)x : (uint64_t)x - (uint64_t)y; }

// In steps, rounded up.
static inline uint64_t field_distance(uint64_t step, int64_t x, int64_t y) {
    uint64_t d = apart(x, y);
    return d / step + (d % step != 0);
}

static inline void visit(const plain_pool *p, size_t s, search *best) {
    const int64_t *x = numbers(p, s);
    size_t k = p->head.k;
    uint64_t d = 0;
    for (size_t i = 0; i < k; i++) {
        uint64_t one = field_distance(best->steps.of[i], x[i], best->query.f[i]);
        if (one > d) d = one;
    }
    if (best->slot && d > best->distance) return;
    if (best->slot && d == best->distance && compare(numbers(p, best->slot), x, k, 0) <= 0) return;
    best->slot = s;
    best->distance = d;
}

// The query's side first; the other while it can hold one as good, since a tie may win there.
static void nearest_in(const plain_pool *p, size_t s, size_t cut, search *best) {
    while (s) {
        visit(p, s, best);
        int64_t x = numbers(p, s)[cut], y = best->query.f[cut];
        size_t near = y < x ? 0 : 1, next = next_cut(p, cut);
        nearest_in(p, link_of(p, s)[near], next, best);
        if (best->distance < field_distance(best->steps.of[cut], x, y)) return;
        s = link_of(p, s)[1 - near];
        cut = next;
    }
}

book_answer plain_nearest(const plain_pool *p, int judged, book_entry query, book_steps steps) {
    size_t why = judged ? plain_judge(p) : 0;
    if (why) return refuse(why, p->head);
    for (size_t i = 0; i < p->head.k; i++) if (!steps.of[i]) return refuse(11, p->head);
    search best = {query, steps, 0, 0};
    nearest_in(p, p->head.root, 0, &best);
    if (!best.slot) return answer(BOOK_ABSENT, p->head);
    return (book_answer){.outcome = BOOK_FOUND, .head = p->head, .entry = entry_at(p, best.slot), .slot = best.slot, .distance = best.distance};
}
