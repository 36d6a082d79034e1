// The tray: its items are judged without a write, each beside the last earlier one of the same entry or else beside the pool; then they are worked.
#include "alter.h"
#include <string.h>

enum { ITEMS = 256, CELLS = 2 * ITEMS, ADD = 1, STRIKE = 2 };

// For each entry of the items so far the last of them, from 1, in an open table; 0 is no item.
typedef struct { uint16_t last[CELLS]; } table;

static size_t cell_of(const int64_t *entry, size_t k) {
    uint64_t mixed = 0;
    for (size_t i = 0; i < k; i++) {
        mixed = (mixed ^ (uint64_t)entry[i]) * 0x9E3779B97F4A7C15u;
        mixed ^= mixed >> 29;
    }
    return mixed % CELLS;
}

// The earlier item of the same entry as item i, which takes its place; 0 where there is none.
static size_t exchange(table *seen, const int64_t *items, size_t k, size_t i) {
    const int64_t *entry = items + (k + 1) * i + 1;
    size_t at = cell_of(entry, k), last;
    while ((last = seen->last[at]) && memcmp(items + (k + 1) * (last - 1) + 1, entry, k * sizeof *entry)) at = (at + 1) % CELLS;
    seen->last[at] = (uint16_t)(i + 1);
    return last;
}

static int well_formed(const int64_t *items, size_t len, size_t k) {
    if (len % (k + 1) || len / (k + 1) > ITEMS) return 0;
    for (size_t at = 0; at < len; at += k + 1) if (items[at] != ADD && items[at] != STRIKE) return 0;
    return 1;
}

// The first item that would be refused, from 1, and why; 0 where none would. Every earlier item was done, so the last one of an entry tells.
static size_t first_refused(const plain_pool *p, const int64_t *items, size_t many, size_t *why) {
    size_t k = p->head.k, n = p->head.n;
    table seen = {{0}};
    path way;
    for (size_t i = 0; i < many; i++) {
        const int64_t *item = items + (k + 1) * i;
        size_t last = exchange(&seen, items, k, i);
        int there = last ? items[(k + 1) * (last - 1)] == ADD : find(p, item + 1, &way) != 0;
        *why = item[0] == STRIKE ? (there ? 0 : 6) : there ? 5 : n == p->head.c ? 7 : 0;
        if (*why) return i + 1;
        n += item[0] == ADD ? 1 : (size_t)-1;
    }
    return 0;
}

book_answer plain_tray(plain_pool *p, int judged, const int64_t *items, size_t items_len) {
    size_t why = judged ? plain_judge(p) : 0, k = p->head.k;
    path way;
    if (why == 1 || why == 2) return refuse(why, p->head);
    if (!well_formed(items, items_len, k)) return refuse(12, p->head);
    if (why) return refuse(why, p->head);
    size_t many = items_len / (k + 1), place = first_refused(p, items, many, &why);
    if (place) return (book_answer){.outcome = BOOK_REFUSED, .refusal = why, .head = p->head, .place = place};
    for (size_t i = 0; i < many; i++) {
        const int64_t *item = items + (k + 1) * i;
        size_t s = find(p, item + 1, &way);
        if (item[0] == ADD) add_at(p, &way, item + 1);
        else strike_at(p, &way, s);
    }
    memset(p->scratch, 0, p->head.c * sizeof *p->scratch);
    return answer(BOOK_DONE, p->head);
}
