// The entries of the bench: numbers of 31 bits, so that every peer can hold them; shuffled, rising, falling, or half of them with one torque.
#include "orders.h"
#include <stdlib.h>

const char *const order_name[ORDERS] = {"shuffled", "rising", "falling", "one torque"};

static uint64_t state = 88172645463325252u;

static uint64_t dice(void) {
    state ^= state << 13;
    state ^= state >> 7;
    state ^= state << 17;
    return state;
}

// From -RANGE to RANGE - 1.
int64_t any_number(void) { return (int64_t)(dice() % (2u * RANGE)) - RANGE; }

void shuffle(book_entry *list, size_t n) {
    for (size_t i = n; i > 1; i--) {
        size_t j = dice() % i;
        book_entry e = list[j];
        list[j] = list[i - 1];
        list[i - 1] = e;
    }
}

static int by_listing(const void *a, const void *b) {
    const book_entry *x = a, *y = b;
    for (size_t i = 0; i < 4; i++) if (x->f[i] != y->f[i]) return x->f[i] < y->f[i] ? -1 : 1;
    return 0;
}

void make_entries(int order, size_t k, size_t n, book_entry *out) {
    for (size_t i = 0; i < n; i++) {
        for (size_t f = 0; f < 4; f++) out[i].f[f] = f < k ? any_number() : 0;
        if (order == ONE_TORQUE && i % 2) out[i].f[2] = 420;
    }
    if (order != RISING && order != FALLING) return;
    qsort(out, n, sizeof *out, by_listing);
    for (size_t i = 0; order == FALLING && i < n / 2; i++) {
        book_entry e = out[i];
        out[i] = out[n - 1 - i];
        out[n - 1 - i] = e;
    }
}
