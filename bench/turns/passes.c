// The pass alone: books of one to three fields beside C, and what damaged pools cost beside a sound one.
#include "orders.h"
#include "pools.h"
#include "turns.h"
#include <stdio.h>
#include <string.h>

enum { MOST = 4096, MILLISECONDS = 40 };

static plain_pool pool, sound;
static book_entry entries[MOST];

static void ours(void *with) { book_judge(READ_PARTS((plain_pool *)with)); }

static void plain(void *with) { plain_judge(with); }

static void few_fields(size_t k, size_t n) {
    char row[100];
    pool = new_pool(k, n);
    make_entries(SHUFFLED, k, n, entries);
    fill_pool(&pool, entries, n);
    contender list[2] = {{0, ours, &pool, 0}, {0, plain, &pool, 0}};
    must(book_judge(READ_PARTS(&pool)) == 0 && plain_judge(&pool) == 0, "a sound pool was refused");
    take_turns(list, 2, MILLISECONDS);
    snprintf(row, sizeof row, "the pass, K = %zu: ours / C", k);
    record(row, order_name[SHUFFLED], n, list[0].best, list[1].best);
    drop_pool(&pool);
}

static size_t *link_at(size_t s) { return pool.links + 3 * (s - 1); }

static void circle(void) { link_at(MOST)[0] = pool.head.root; }

static void one_child(void) {
    for (size_t s = 1; s <= MOST; s++) for (size_t i = 0; i < 3; i++) link_at(s)[i] = 2;
    pool.head.root = 1;
}

static void doubling(void) {
    for (size_t s = 1; s <= 16; s++) {
        link_at(s)[0] = link_at(s)[1] = s < 16 ? s + 1 : 0;
        link_at(s)[2] = 17 - s;
    }
    pool.head.root = 1;
}

static void round_chain(void) {
    plain_start(&pool, 4, MOST);
    link_at(MOST)[0] = 1;
}

static void one_too_many(void) { pool.head.n--; }

static const struct { const char *name; void (*damage)(void); } damages[] = {
    {"a circle through the root", circle},
    {"all links to one child", one_child},
    {"sixteen levels of doubling", doubling},
    {"a free chain that goes round", round_chain},
    {"one entry more than counted", one_too_many},
};

static void damaged(void) {
    char row[100];
    pool = new_pool(4, MOST), sound = new_pool(4, MOST);
    make_entries(SHUFFLED, 4, MOST, entries);
    fill_pool(&sound, entries, MOST);
    for (size_t i = 0; i < sizeof damages / sizeof *damages; i++) {
        copy_pool(&pool, &sound);
        damages[i].damage();
        contender list[2] = {{0, ours, &pool, 0}, {0, ours, &sound, 0}};
        must(book_judge(READ_PARTS(&pool)) == 4 && plain_judge(&pool) == 4, "a damaged pool was not refused");
        take_turns(list, 2, MILLISECONDS);
        snprintf(row, sizeof row, "%s: our pass / our pass over a sound pool", damages[i].name);
        record(row, order_name[SHUFFLED], MOST, list[0].best, list[1].best);
    }
}

int main(void) {
    for (size_t k = 1; k < 4; k++) for (size_t n = 64; n <= MOST; n *= 8) few_fields(k, n);
    damaged();
    return 0;
}
