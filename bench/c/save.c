// Save: slots ranked in listing order, the text measured, then printed.
#include "rank.h"
#include <string.h>

static inline uint64_t size_of(int64_t x) { return x < 0 ? -(uint64_t)x : (uint64_t)x; }

static inline size_t digits(uint64_t x) {
    size_t n = 1;
    for (; x > 9999; x /= 10000) n += 4;
    return n + (x > 9) + (x > 99) + (x > 999);
}

static inline uint8_t *put_digits(uint8_t *to, uint64_t x) {
    uint8_t *end = to + digits(x), *at = end;
    do *--at = (uint8_t)('0' + x % 10); while (x /= 10);
    return end;
}

static uint8_t *put_word(uint8_t *to, const char *word) {
    size_t n = strlen(word);
    memcpy(to, word, n);
    return to + n;
}

static size_t measure(const plain_pool *p, const size_t *slots, size_t n) {
    size_t bytes = 24 + digits(p->head.k) + digits(n);
    for (size_t i = 0; i < n; i++) {
        const int64_t *x = numbers(p, slots[i]);
        for (size_t f = 0; f < p->head.k; f++) bytes += 3 + (x[f] < 0) + digits(size_of(x[f]));
    }
    return bytes;
}

static void print(const plain_pool *p, const size_t *slots, size_t n, uint8_t *to) {
    to = put_digits(put_word(to, "book=1 fields="), p->head.k);
    to = put_digits(put_word(to, " entries="), n);
    *to++ = '\n';
    for (size_t i = 0; i < n; i++) {
        const int64_t *x = numbers(p, slots[i]);
        for (size_t f = 0; f < p->head.k; f++) {
            *to++ = (uint8_t)('a' + f);
            *to++ = '=';
            if (x[f] < 0) *to++ = '-';
            to = put_digits(to, size_of(x[f]));
            *to++ = f + 1 == p->head.k ? '\n' : ' ';
        }
    }
}

book_answer plain_save(const plain_pool *p, int judged, uint8_t *room, size_t room_len) {
    size_t why = judged ? plain_judge(p) : 0, slots[MOST], spare[MOST];
    if (why) return refuse(why, p->head);
    size_t n = gather(p, p->head.root, slots, 0);
    rank(p, 0, slots, spare, n);
    size_t bytes = measure(p, slots, n);
    if (room_len < bytes) return refuse(8, p->head);
    print(p, slots, n, room);
    book_answer a = answer(BOOK_DONE, p->head);
    a.bytes = bytes;
    return a;
}
