// Histories of adds and of strikes, one call at a time: ours, C with the pass, C without it. Every call counts by the best of its replays,
// so that what disturbs the machine is left out; the worst call is the one whose best is the greatest.
#include "orders.h"
#include "pools.h"
#include "turns.h"
#include <stdio.h>

enum { MOST = 4096, SIDES = 3, REPLAYS = 4 };

static double best[SIDES][MOST];
static plain_pool pool[SIDES], full;
static book_entry entries[MOST];

static book_answer call(int side, int strike, book_entry e) {
    plain_pool *p = pool + side;
    if (side > 0) return strike ? plain_strike(p, side == 1, e) : plain_add(p, side == 1, e);
    book_answer a = strike ? book_strike(WRITE_PARTS(p), e) : book_add(WRITE_PARTS(p), e);
    p->head = a.head;
    return a;
}

static void step(int strike, size_t i, int compared) {
    book_answer a[SIDES];
    for (int side = 0; side < SIDES; side++) {
        double from = now();
        a[side] = call(side, strike, entries[i]);
        double time = now() - from;
        if (time < best[side][i]) best[side][i] = time;
    }
    must(a[0].outcome == BOOK_DONE, "a call of a history was refused");
    for (int side = 1; side < SIDES; side++) same_answer(a[0], a[side]);
    for (int side = 1; compared && side < SIDES; side++) same_pool(pool, pool + side);
}

static void replay(int strike, size_t n, int compared) {
    for (int side = 0; side < SIDES; side++) {
        if (strike) copy_pool(pool + side, &full);
        else plain_start(pool + side, 4, n);
    }
    for (size_t i = 0; i < n; i++) step(strike, i, compared);
    for (int side = 1; side < SIDES; side++) same_pool(pool, pool + side);
}

static void tell(const char *name, int order, size_t n) {
    double sum[SIDES] = {0}, worst[SIDES] = {0};
    char row[100];
    for (int side = 0; side < SIDES; side++) {
        for (size_t i = 0; i < n; i++) {
            sum[side] += best[side][i];
            if (best[side][i] > worst[side]) worst[side] = best[side][i];
        }
    }
    snprintf(row, sizeof row, "%s, a whole history: ours / C", name);
    record(row, order_name[order], n, sum[0], sum[1]);
    snprintf(row, sizeof row, "%s, a whole history: ours / C without the pass", name);
    record(row, order_name[order], n, sum[0], sum[2]);
    snprintf(row, sizeof row, "%s, worst single call: ours / C", name);
    record(row, order_name[order], n, worst[0], worst[1]);
    snprintf(row, sizeof row, "%s, worst single call: ours / C without the pass", name);
    record(row, order_name[order], n, worst[0], worst[2]);
}

static void history(int strike, int order, size_t n) {
    for (int side = 0; side < SIDES; side++) for (size_t i = 0; i < n; i++) best[side][i] = 1e18;
    if (strike && (order == SHUFFLED || order == ONE_TORQUE)) shuffle(entries, n);
    for (int i = 0; i < REPLAYS; i++) replay(strike, n, i == 0);
    tell(strike ? "strike" : "add", order, n);
}

int main(void) {
    for (int strike = 0; strike < 2; strike++) {
        for (int order = 0; order < ORDERS; order++) {
            for (size_t n = 64; n <= MOST; n *= 8) {
                for (int side = 0; side < SIDES; side++) pool[side] = new_pool(4, n);
                full = new_pool(4, n);
                make_entries(order, 4, n, entries);
                fill_pool(&full, entries, n);
                history(strike, order, n);
                for (int side = 0; side < SIDES; side++) drop_pool(pool + side);
                drop_pool(&full);
            }
        }
    }
    return 0;
}
