// Run under callgrind: adds of a history, and the pass over the pool before each, dumped as `add` and `pass` with how many there were.
// Of a long history every seventh add is counted; C does the others, which leave the same pool.
#include "orders.h"
#include "pools.h"
#include <stdio.h>
#include <valgrind/callgrind.h>

enum { MOST = 4096, FEW = 512, STEP = 7 };

static plain_pool pool;
static book_entry entries[MOST];

static void add(size_t i) { pool.head = book_add(WRITE_PARTS(&pool), entries[i]).head; }

static void pass(size_t i) {
    (void)i;
    book_judge(READ_PARTS(&pool));
}

static void counted(const char *what, int order, size_t n, void (*run)(size_t)) {
    size_t step = n > FEW ? STEP : 1, calls = 0;
    char name[80];
    plain_start(&pool, 4, n);
    for (size_t i = 0; i < n; i++) {
        int here = i % step == step - 1;
        if (here) {
            CALLGRIND_TOGGLE_COLLECT;
            run(i);
            CALLGRIND_TOGGLE_COLLECT;
            calls++;
        }
        if (!here || run == pass) plain_add(&pool, 0, entries[i]);
    }
    snprintf(name, sizeof name, "%s|%s|%zu|%zu", what, order_name[order], n, calls);
    CALLGRIND_DUMP_STATS_AT(name);
}

int main(void) {
    for (int order = SHUFFLED; order <= RISING; order++) {
        for (size_t n = FEW; n <= MOST; n *= 8) {
            pool = new_pool(4, n);
            make_entries(order, 4, n, entries);
            counted("add", order, n, add);
            counted("pass", order, n, pass);
            drop_pool(&pool);
        }
    }
    return 0;
}
