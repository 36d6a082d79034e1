// Run under callgrind: passes, look-ups, take-ins and trays, each dumped under its row, its part of the ratio and its place in the table.
#include "orders.h"
#include "pools.h"
#include <stdio.h>
#include <string.h>
#include <valgrind/callgrind.h>

enum { MOST = 4096, FEW = 512, LOOKS = 64, ITEMS = 256, LONGEST = 64 + 92 * MOST };

static plain_pool pool;
static book_entry entries[MOST];
static uint8_t text[LONGEST];
static int64_t items[5 * ITEMS];
static size_t text_len;

static void counted(const char *row, const char *part, int order, size_t n, void (*run)(void)) {
    char name[150];
    snprintf(name, sizeof name, "%s|%s|%s|%zu", row, part, order_name[order], n);
    CALLGRIND_START_INSTRUMENTATION;
    CALLGRIND_ZERO_STATS;
    run();
    CALLGRIND_DUMP_STATS_AT(name);
    CALLGRIND_STOP_INSTRUMENTATION;
}

static void our_pass(void) { book_judge(READ_PARTS(&pool)); }

static void plain_pass(void) { plain_judge(&pool); }

static void our_looks(void) {
    for (size_t i = 0; i < LOOKS; i++) book_look_up(READ_PARTS(&pool), entries[i * pool.head.n / LOOKS]);
}

static void plain_looks(void) {
    for (size_t i = 0; i < LOOKS; i++) plain_look_up(&pool, entries[i * pool.head.n / LOOKS]);
}

static void our_take_in(void) { book_take_in(WRITE_PARTS(&pool), text, text_len); }

static void plain_takes_in(void) { plain_take_in(&pool, 1, text, text_len); }

static void our_tray(void) { book_tray(WRITE_PARTS(&pool), items, 5 * ITEMS); }

static void plain_trays(void) { plain_tray(&pool, 1, items, 5 * ITEMS); }

static void our_adds(void) {
    for (size_t i = MOST - ITEMS; i < MOST; i++) pool.head = book_add(WRITE_PARTS(&pool), entries[i]).head;
}

static void fill(int order, size_t n) {
    pool = new_pool(4, n);
    make_entries(order, 4, n, entries);
    fill_pool(&pool, entries, n);
    text_len = plain_save(&pool, 0, text, LONGEST).bytes;
}

static void count_asking(int order, size_t n) {
    fill(order, n);
    counted("the pass, instructions: ours / C", "over", order, n, our_pass);
    counted("the pass, instructions: ours / C", "under", order, n, plain_pass);
    counted("look up, instructions: ours / C", "over", order, n, our_looks);
    counted("look up, instructions: ours / C", "under", order, n, plain_looks);
    drop_pool(&pool);
}

// How take in grows: n log n would be 10.7.
static void count_taking_in(const char *part, size_t n) {
    fill(SHUFFLED, n);
    plain_start(&pool, 4, n);
    counted("take in, instructions: C, 4,096 entries / 512 entries", part, SHUFFLED, MOST, plain_takes_in);
    plain_start(&pool, 4, n);
    if (book_take_in) counted("take in, instructions: ours, 4,096 entries / 512 entries", part, SHUFFLED, MOST, our_take_in);
    drop_pool(&pool);
}

static void count_tray(const char *row, const char *part, int order, void (*run)(void)) {
    plain_start(&pool, 4, MOST);
    fill_pool(&pool, entries, MOST - ITEMS);
    counted(row, part, order, MOST, run);
}

// 256 adds into 3,840 entries.
static void count_trays(int order) {
    pool = new_pool(4, MOST);
    make_entries(order, 4, MOST, entries);
    for (size_t i = 0; i < ITEMS; i++) {
        items[5 * i] = 1;
        memcpy(items + 5 * i + 1, entries[MOST - ITEMS + i].f, sizeof entries[i].f);
    }
    count_tray("a tray of 256 adds into 3,840 entries, instructions: ours / our single adds", "over", order, our_tray);
    count_tray("a tray of 256 adds into 3,840 entries, instructions: ours / our single adds", "under", order, our_adds);
    count_tray("a tray of 256 adds into 3,840 entries, instructions: ours / C", "over", order, our_tray);
    count_tray("a tray of 256 adds into 3,840 entries, instructions: ours / C", "under", order, plain_trays);
    drop_pool(&pool);
}

int main(void) {
    for (int order = 0; order < ORDERS; order++) for (size_t n = 64; n <= MOST; n *= 8) count_asking(order, n);
    count_taking_in("over", MOST);
    count_taking_in("under", FEW);
    for (int order = 0; order < ORDERS; order++) count_trays(order);
    return 0;
}
