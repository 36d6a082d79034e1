// The calls that leave a pool as it was, start, and take in: ours, C with the pass and C without it, in turn.
#include "orders.h"
#include "pools.h"
#include "rows.h"
#include "turns.h"
#include <string.h>

enum { MOST = 4096, MANY = 32, LOOKS = 4096, LONGEST = 64 + 92 * MOST, MILLISECONDS = 40 };

static plain_pool pool, target[SIDES];
static book_entry entries[MOST], there[LOOKS], gone[LOOKS];
static book_box small[MANY], slab[MANY], all;
static const book_steps steps = {{1, 1, 50, 60}};
static int64_t room[SIDES][4 * MOST];
static uint8_t page[SIDES][LONGEST], text[LONGEST];
static size_t text_len;

#define BOTH(name, ours, plain) \
    static book_answer ours_##name(size_t i) { (void)i; return ours; } \
    static book_answer judged_##name(size_t i) { enum { judged = 1, side = JUDGED }; (void)i, (void)judged, (void)side; return plain; }
#define THREE(name, ours, plain) \
    BOTH(name, ours, plain) \
    static book_answer bare_##name(size_t i) { enum { judged = 0, side = BARE }; (void)i, (void)side; return plain; }

static book_answer refusal(size_t why) { return (book_answer){.refusal = why}; }

static plain_pool *to(int side) { return target + side; }

static book_answer keep(plain_pool *p, book_answer a) {
    p->head = a.head;
    return a;
}

BOTH(judge, refusal(book_judge(READ_PARTS(&pool))), refusal(plain_judge(&pool)))
BOTH(start, keep(to(OURS), book_start(4, pool.head.c, to(OURS)->keys, 4 * pool.head.c, to(OURS)->links, 3 * pool.head.c)),
     plain_start(to(side), 4, pool.head.c))
BOTH(look_up_there, book_look_up(READ_PARTS(&pool), there[i]), plain_look_up(&pool, there[i]))
BOTH(look_up_gone, book_look_up(READ_PARTS(&pool), gone[i]), plain_look_up(&pool, gone[i]))
THREE(count_small, book_count(READ_PARTS(&pool), small[i]), plain_count(&pool, judged, small[i]))
THREE(count_slab, book_count(READ_PARTS(&pool), slab[i]), plain_count(&pool, judged, slab[i]))
THREE(list_small, book_list(READ_PARTS(&pool), small[i], room[OURS], 4 * MOST), plain_list(&pool, judged, small[i], room[side], 4 * MOST))
THREE(list_all, book_list(READ_PARTS(&pool), all, room[OURS], 4 * MOST), plain_list(&pool, judged, all, room[side], 4 * MOST))
THREE(nearest, book_nearest(READ_PARTS(&pool), gone[i], steps), plain_nearest(&pool, judged, gone[i], steps))
THREE(save, book_save(READ_PARTS(&pool), page[OURS], LONGEST), plain_save(&pool, judged, page[side], LONGEST))
THREE(take_in, keep(to(OURS), book_take_in(WRITE_PARTS(to(OURS)), text, text_len)), plain_take_in(to(side), judged, text, text_len))

static void empty(void *side) { plain_start(to(*(int *)side), 4, pool.head.c); }

static void same_room(int sides) {
    for (int side = JUDGED; side < sides; side++) must(!memcmp(room[OURS], room[side], sizeof room[side]), "the lists differ");
}

static void same_page(int sides) {
    for (int side = JUDGED; side < sides; side++) must(!memcmp(page[OURS], page[side], sizeof page[side]), "the texts differ");
}

static void same_target(int sides) {
    for (int side = JUDGED; side < sides; side++) same_pool(to(OURS), to(side));
}

#define ROW2(label, name, same, many) {label, {ours_##name, judged_##name, 0}, 0, same, many}
#define ROW3(label, name, before, same, many) {label, {ours_##name, judged_##name, bare_##name}, before, same, many}

static const row rows[] = {
    ROW2("the pass", judge, 0, MANY),
    ROW2("start", start, same_target, 1),
    ROW2("look up, there", look_up_there, 0, LOOKS),
    ROW2("look up, not there", look_up_gone, 0, LOOKS),
    ROW3("count, small box", count_small, 0, 0, MANY),
    ROW3("count, half of the book", count_slab, 0, 0, MANY),
    ROW3("list, small box", list_small, 0, same_room, MANY),
    ROW3("list, all", list_all, 0, same_room, 1),
    ROW3("nearest", nearest, 0, 0, MANY),
    ROW3("save", save, 0, same_page, 1),
    ROW3("take in, into an empty pool", take_in, empty, same_target, 1),
};

// More look-ups than a machine learns by heart. A small box is a quarter of the numbers of each field; a slab is half of those of one.
static void make_questions(size_t n) {
    for (size_t i = 0; i < LOOKS; i++) {
        there[i] = entries[i * n / LOOKS];
        for (size_t f = 0; f < 4; f++) gone[i].f[f] = any_number();
    }
    shuffle(there, LOOKS);
    for (size_t i = 0; i < MANY; i++) {
        for (size_t f = 0; f < 4; f++) small[i].of[f] = (book_bound){3, there[i].f[f] - RANGE / 4, there[i].f[f] + RANGE / 4};
        slab[i].of[2] = (book_bound){2, 0, 0};
    }
}

static void tell_growth(int order, const double *few, const double *many) {
    record("take in, time: ours, 4,096 entries / 512 entries", order_name[order], MOST, many[OURS], few[OURS]);
    record("take in, time: C, 4,096 entries / 512 entries", order_name[order], MOST, many[JUDGED], few[JUDGED]);
}

static void rows_of(int order, size_t n) {
    static double before[SIDES];
    double best[SIDES], pass = 0;
    for (size_t i = 0; i < sizeof rows / sizeof *rows; i++) {
        int takes_in = rows[i].call[OURS] == ours_take_in;
        if (takes_in && !book_take_in) continue;
        run_row(rows + i, MILLISECONDS, best);
        if (i == 0) pass = best[OURS];
        tell_row(rows + i, order_name[order], n, best, takes_in ? 0 : pass);
        if (takes_in && n == MOST) tell_growth(order, before, best);
        if (takes_in) memcpy(before, best, sizeof best);
    }
}

int main(void) {
    for (int order = 0; order < ORDERS; order++) {
        for (size_t n = 64; n <= MOST; n *= 8) {
            pool = new_pool(4, n);
            make_entries(order, 4, n, entries);
            fill_pool(&pool, entries, n);
            text_len = plain_save(&pool, 0, text, LONGEST).bytes;
            for (int side = 0; side < SIDES; side++) {
                target[side] = new_pool(4, n);
                copy_pool(target + side, &pool);
            }
            make_questions(n);
            rows_of(order, n);
            drop_pool(&pool);
            for (int side = 0; side < SIDES; side++) drop_pool(target + side);
        }
    }
    return 0;
}
