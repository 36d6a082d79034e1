// Take in: the text is read once into entries, what is new is counted, then added in text order with no further pass.
#include "alter.h"
#include <string.h>

typedef struct { const uint8_t *at, *end; } text;

static int word(text *t, const char *w) {
    size_t n = strlen(w);
    if ((size_t)(t->end - t->at) < n || memcmp(t->at, w, n)) return 0;
    t->at += n;
    return 1;
}

static int byte(text *t, uint8_t b) {
    if (t->at == t->end || *t->at != b) return 0;
    t->at++;
    return 1;
}

// No leading zero, and no more than `most`.
static int decimal(text *t, uint64_t most, uint64_t *x) {
    const uint8_t *first = t->at;
    uint64_t sum = 0;
    for (; t->at < t->end && *t->at >= '0' && *t->at <= '9'; t->at++) {
        uint64_t digit = *t->at - '0';
        if (digit > most || sum > (most - digit) / 10) return 0;
        sum = sum * 10 + digit;
    }
    *x = sum;
    return t->at > first && (*first != '0' || t->at == first + 1);
}

static int number(text *t, int64_t *x) {
    uint64_t size;
    int minus = byte(t, '-');
    if (!decimal(t, (uint64_t)INT64_MAX + (minus ? 1 : 0), &size) || (minus && !size)) return 0;
    *x = (int64_t)(minus ? -size : size);
    return 1;
}

static int title(text *t, uint64_t *k, uint64_t *n) {
    return word(t, "book=1 fields=") && decimal(t, 4, k) && *k && word(t, " entries=") && decimal(t, MOST, n) && byte(t, '\n');
}

static int line(text *t, size_t k, int64_t *x) {
    for (size_t f = 0; f < k; f++) if (!byte(t, (uint8_t)('a' + f)) || !byte(t, '=') || !number(t, x + f) || !byte(t, f + 1 == k ? '\n' : ' ')) return 0;
    return 1;
}

// 0, or the line that is wrong.
static size_t parse(text t, uint64_t *k, uint64_t *n, int64_t *entries) {
    if (!title(&t, k, n)) return 1;
    for (size_t i = 0; i < *n; i++) {
        int64_t *x = entries + *k * i;
        if (!line(&t, *k, x) || (i && compare(x - *k, x, *k, 0) >= 0)) return i + 2;
    }
    return t.at == t.end ? 0 : *n + 2;
}

book_answer plain_take_in(plain_pool *p, int judged, const uint8_t *bytes, size_t len) {
    static int64_t entries[4 * MOST];
    uint64_t k, n;
    path way;
    size_t why = judged ? plain_judge(p) : 0, fresh = 0;
    if (why) return refuse(why, p->head);
    size_t wrong = parse((text){bytes, bytes + len}, &k, &n, entries);
    if (wrong) return (book_answer){.outcome = BOOK_REFUSED, .refusal = 9, .head = p->head, .line = wrong};
    if (k != p->head.k) return refuse(10, p->head);
    for (size_t i = 0; i < n; i++) fresh += !find(p, entries + k * i, &way);
    if (fresh > p->head.c - p->head.n) return refuse(7, p->head);
    for (size_t i = 0; i < n; i++) if (!find(p, entries + k * i, &way)) add_at(p, &way, entries + k * i);
    memset(p->scratch, 0, p->head.c * sizeof *p->scratch);
    return answer(BOOK_DONE, p->head);
}
