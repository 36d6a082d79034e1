// How many entries the rebuilds of a history have, told from C's, which rebuilds where the book does. Linked with --wrap=rebuild.
#include "orders.h"
#include "pools.h"
#include "rank.h"
#include <stdio.h>

static plain_pool pool;
static book_entry entries[MOST];
static size_t rebuilds, threes, above, longest;

size_t __real_rebuild(const plain_pool *p, size_t s, size_t cut);
size_t __wrap_rebuild(const plain_pool *p, size_t s, size_t cut);

size_t __wrap_rebuild(const plain_pool *p, size_t s, size_t cut) {
    size_t n = gather(p, s, p->scratch, 0);
    rebuilds++;
    if (n == 3) threes++;
    else above += n;
    if (n > longest) longest = n;
    return __real_rebuild(p, s, cut);
}

static void tell(const char *what, int order) {
    size_t others = rebuilds - threes;
    printf("%s, %s: %zu rebuilds, of three entries %zu (%.1f %%); the others have %.1f on average, %zu at most\n", what, order_name[order], rebuilds,
           threes, 100.0 * threes / rebuilds, others ? (double)above / others : 0, longest);
    rebuilds = threes = above = longest = 0;
}

// How many entries the adds of n rising entries rebuild in all.
static double rebuilt(size_t k, size_t n) {
    pool = new_pool(k, n);
    make_entries(RISING, k, n, entries);
    fill_pool(&pool, entries, n);
    double all = 3.0 * threes + above;
    rebuilds = threes = above = longest = 0;
    drop_pool(&pool);
    return all;
}

int main(void) {
    for (int order = SHUFFLED; order <= RISING; order++) {
        pool = new_pool(4, MOST);
        make_entries(order, 4, MOST, entries);
        fill_pool(&pool, entries, MOST);
        tell("4,096 adds", order);
        for (size_t i = 0; i < MOST; i++) {
            plain_strike(&pool, 0, entries[i]);
            if (i % 2) plain_add(&pool, 0, entries[i - 1]);
        }
        tell("then 4,096 strikes and 2,048 adds, mixed", order);
        drop_pool(&pool);
    }
    for (size_t k = 1; k <= 4; k++) printf("rising adds, fields %zu: entries rebuilt, 4,096 adds / 512 adds: %.1f\n", k, rebuilt(k, MOST) / rebuilt(k, 512));
    return 0;
}
