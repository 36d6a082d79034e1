// Trays of adds that fill a book and trays of strikes that empty it: ours, C with the pass, C without it; where a book of 4,096 is fullest also our
// single calls of the same items. Every tray counts by the best of its replays; the worst tray is the one whose best is the greatest.
#include "orders.h"
#include "pools.h"
#include "turns.h"
#include <stdio.h>
#include <string.h>

enum { MOST = 4096, ITEMS = 256, WIDTH = 5, ADD = 1, STRIKE = 2, OURS = 0, JUDGED, BARE, SINGLY, SIDES, REPLAYS = 8 };

static double best[SIDES][MOST / ITEMS];
static plain_pool pool[SIDES], full;
static book_entry entries[MOST];
static int64_t items[WIDTH * MOST];

static book_answer singly(plain_pool *p, const int64_t *tray, size_t len) {
    book_answer a = {0};
    for (const int64_t *item = tray; item < tray + len; item += WIDTH) {
        book_entry e;
        memcpy(e.f, item + 1, sizeof e.f);
        a = item[0] == ADD ? book_add(WRITE_PARTS(p), e) : book_strike(WRITE_PARTS(p), e);
        p->head = a.head;
    }
    return a;
}

static book_answer call(int side, const int64_t *tray, size_t len) {
    plain_pool *p = pool + side;
    if (side == SINGLY) return singly(p, tray, len);
    book_answer a = side == OURS ? book_tray(WRITE_PARTS(p), tray, len) : plain_tray(p, side == JUDGED, tray, len);
    p->head = a.head;
    return a;
}

static void step(size_t i, size_t len, int sides) {
    book_answer a[SIDES];
    if (sides > SINGLY) copy_pool(pool + SINGLY, pool + OURS);
    for (int side = 0; side < sides; side++) {
        double from = now();
        a[side] = call(side, items + len * i, len);
        double time = now() - from;
        if (time < best[side][i]) best[side][i] = time;
    }
    must(a[OURS].outcome == BOOK_DONE, "a tray of a history was refused");
    for (int side = JUDGED; side < sides; side++) {
        same_answer(a[OURS], a[side]);
        same_pool(pool + OURS, pool + side);
    }
}

static void replay(int first, size_t n, size_t trays, size_t fullest) {
    for (int side = 0; side < SINGLY; side++) {
        if (first == STRIKE) copy_pool(pool + side, &full);
        else plain_start(pool + side, 4, n);
    }
    for (size_t i = 0; i < trays; i++) step(i, WIDTH * n / trays, n == MOST && i == fullest ? SIDES : SINGLY);
}

static void tell(const char *name, const char *order, size_t n, size_t trays) {
    double sum[SINGLY] = {0}, worst[SINGLY] = {0};
    char row[100];
    for (int side = 0; side < SINGLY; side++) {
        for (size_t i = 0; i < trays; i++) {
            sum[side] += best[side][i];
            if (best[side][i] > worst[side]) worst[side] = best[side][i];
        }
    }
    snprintf(row, sizeof row, "trays of %s, a whole history: ours / C", name);
    record(row, order, n, sum[OURS], sum[JUDGED]);
    snprintf(row, sizeof row, "trays of %s, a whole history: ours / C without the pass", name);
    record(row, order, n, sum[OURS], sum[BARE]);
    snprintf(row, sizeof row, "trays of %s, worst single tray: ours / C", name);
    record(row, order, n, worst[OURS], worst[JUDGED]);
    snprintf(row, sizeof row, "trays of %s, worst single tray: ours / C without the pass", name);
    record(row, order, n, worst[OURS], worst[BARE]);
}

static void tell_fullest(const char *name, const char *where, const char *order, size_t i) {
    char row[100];
    snprintf(row, sizeof row, "a tray of 256 %s %s entries: ours / our single %s", name, where, name);
    record(row, order, MOST, best[OURS][i], best[SINGLY][i]);
    snprintf(row, sizeof row, "a tray of 256 %s %s entries: ours / C", name, where);
    record(row, order, MOST, best[OURS][i], best[JUDGED][i]);
}

static void history(int first, int order, size_t n) {
    const char *name = first == ADD ? "adds" : "strikes";
    size_t trays = n < ITEMS ? 1 : n / ITEMS, fullest = first == ADD ? trays - 1 : 0;
    for (int side = 0; side < SIDES; side++) for (size_t i = 0; i < trays; i++) best[side][i] = 1e18;
    if (first == STRIKE && (order == SHUFFLED || order == ONE_TORQUE)) shuffle(entries, n);
    for (size_t i = 0; i < n; i++) {
        items[WIDTH * i] = first;
        memcpy(items + WIDTH * i + 1, entries[i].f, sizeof entries[i].f);
    }
    for (int i = 0; i < REPLAYS; i++) replay(first, n, trays, fullest);
    tell(name, order_name[order], n, trays);
    if (n == MOST) tell_fullest(name, first == ADD ? "into 3,840" : "from 4,096", order_name[order], fullest);
}

int main(void) {
    for (int first = ADD; first <= STRIKE; first++) {
        for (int order = 0; order < ORDERS; order++) {
            for (size_t n = 64; n <= MOST; n *= 8) {
                for (int side = 0; side < SIDES; side++) pool[side] = new_pool(4, n);
                full = new_pool(4, n);
                make_entries(order, 4, n, entries);
                fill_pool(&full, entries, n);
                history(first, order, n);
                for (int side = 0; side < SIDES; side++) drop_pool(pool + side);
                drop_pool(&full);
            }
        }
    }
    return 0;
}
