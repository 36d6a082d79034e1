// Look-up, a small box and the nearest beside the peers, in turn; also beside the C version without the pass, which no peer makes either.
#include "orders.h"
#include "peer.h"
#include "pools.h"
#include "turns.h"
#include <stdio.h>

enum { MOST = 4096, MANY = 32, LOOKS = 4096, PEERS = 7, OURS = PEERS, PLAIN, SIDES, LOOK_UP = 0, COUNT, NEAREST, QUESTIONS, MILLISECONDS = 120 };

static const peer *const peers[PEERS] = {&kdtree_peer, &boost_peer, &set_peer, &index_peer, &rstar_peer, &nanoflann_peer, &scan_peer};
static const char *const question_name[QUESTIONS] = {"look up", "count, small box", "nearest"};
static const book_steps steps = {{1, 1, 1, 1}};

static plain_pool pool;
static book_entry entries[MOST], there[LOOKS], beside[MANY];
static book_box boxes[MANY];
static int question;

static int can(int side) {
    if (side >= PEERS) return side == OURS || question != LOOK_UP;
    return question == LOOK_UP ? peers[side]->look_up != 0 : question == COUNT ? peers[side]->count != 0 : peers[side]->nearest != 0;
}

// One answer as one number; of a nearest its greatest difference in a field.
static uint64_t apart(book_entry x, book_entry y) {
    uint64_t most = 0;
    for (size_t f = 0; f < 4; f++) {
        uint64_t d = (uint64_t)(x.f[f] < y.f[f] ? y.f[f] - x.f[f] : x.f[f] - y.f[f]);
        if (d > most) most = d;
    }
    return most;
}

static uint64_t ask(int side, size_t i) {
    switch (question) {
    case LOOK_UP: return side < PEERS ? peers[side]->look_up(there[i]) : book_look_up(READ_PARTS(&pool), there[i]).outcome == BOOK_FOUND;
    case COUNT:
        if (side < PEERS) return peers[side]->count(boxes[i]);
        return side == OURS ? book_count(READ_PARTS(&pool), boxes[i]).count : plain_count(&pool, 0, boxes[i]).count;
    default:
        if (side < PEERS) return apart(beside[i], peers[side]->nearest(beside[i]));
        return side == OURS ? book_nearest(READ_PARTS(&pool), beside[i], steps).distance : plain_nearest(&pool, 0, beside[i], steps).distance;
    }
}

static void run(void *with) {
    int side = *(int *)with;
    for (size_t i = 0, many = question == LOOK_UP ? LOOKS : MANY; i < many; i++) ask(side, i);
}

static double euclid(book_entry x, book_entry y) {
    double sum = 0;
    for (size_t f = 0; f < 4; f++) sum += (double)(x.f[f] - y.f[f]) * (double)(x.f[f] - y.f[f]);
    return sum;
}

// By its own distance: no entry is nearer than the one it gives.
static void nearest_by_euclid(int side, size_t n) {
    for (size_t i = 0; i < MANY; i++) {
        double d = euclid(beside[i], peers[side]->nearest(beside[i]));
        for (size_t j = 0; j < n; j++) must(d <= euclid(beside[i], entries[j]), "a peer's nearest is not the nearest");
    }
}

static void same_answers(int side, size_t n) {
    if (question == NEAREST && side < PEERS && !peers[side]->exact) {
        nearest_by_euclid(side, n);
        return;
    }
    for (size_t i = 0; i < MANY; i++) must(ask(side, i) == ask(OURS, i), "a peer answers differently");
}

static void tell(const char *order, size_t n, const double *best) {
    char row[100];
    for (int side = 0; side < PEERS; side++) {
        snprintf(row, sizeof row, "%s: %s / ours", question_name[question], peers[side]->name);
        record(row, order, n, best[side], can(side) ? best[OURS] : 0);
        if (question == LOOK_UP) continue;
        snprintf(row, sizeof row, "%s: %s / C without the pass", question_name[question], peers[side]->name);
        record(row, order, n, best[side], can(side) ? best[PLAIN] : 0);
    }
}

static void measure(const char *order, size_t n) {
    int sides[SIDES];
    contender list[SIDES];
    double best[SIDES] = {0};
    size_t many = 0;
    for (int side = 0; side < SIDES; side++) {
        if (!can(side)) continue;
        same_answers(side, n);
        sides[many] = side;
        list[many] = (contender){0, run, sides + many, 0};
        many++;
    }
    take_turns(list, many, MILLISECONDS);
    for (size_t i = 0; i < many; i++) best[sides[i]] = list[i].best;
    tell(order, n, best);
}

static void make_questions(size_t n) {
    for (size_t i = 0; i < LOOKS; i++) there[i] = entries[i * n / LOOKS];
    shuffle(there, LOOKS);
    for (size_t i = 0; i < MANY; i++) {
        for (size_t f = 0; f < 4; f++) {
            beside[i].f[f] = any_number();
            boxes[i].of[f] = (book_bound){3, there[i].f[f] - RANGE / 4, there[i].f[f] + RANGE / 4};
        }
    }
}

static void compare_at(int order, size_t n) {
    pool = new_pool(4, n);
    make_entries(order, 4, n, entries);
    fill_pool(&pool, entries, n);
    make_questions(n);
    for (int i = 0; i < PEERS; i++) peers[i]->load(entries, n);
    for (question = 0; question < QUESTIONS; question++) measure(order_name[order], n);
    for (int i = 0; i < PEERS; i++) peers[i]->drop();
    drop_pool(&pool);
}

int main(void) {
    for (int order = 0; order < ORDERS; order++) for (size_t n = 64; n <= MOST; n *= 8) compare_at(order, n);
    return 0;
}
