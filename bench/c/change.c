// The calls that write a pool: start, add, strike.
#include "alter.h"
#include <string.h>

book_answer plain_start(plain_pool *p, size_t k, size_t c) {
    book_head none = {0};
    if (k < 1 || k > 4) return refuse(1, none);
    if (c < 1 || c > MOST) return refuse(2, none);
    p->head = (book_head){k, c, 0, 1, 0};
    memset(p->keys, 0, k * c * sizeof *p->keys);
    for (size_t s = 1; s <= c; s++) put(p, s, s == c ? 0 : s + 1, 0, 0);
    return answer(BOOK_DONE, p->head);
}

// What add and strike leave behind: a clean scratch, and the head.
static book_answer finish(plain_pool *p) {
    memset(p->scratch, 0, p->head.c * sizeof *p->scratch);
    return answer(BOOK_DONE, p->head);
}

book_answer plain_add(plain_pool *p, int judged, book_entry entry) {
    size_t why = judged ? plain_judge(p) : 0;
    path way;
    if (why) return refuse(why, p->head);
    if (find(p, entry.f, &way)) return refuse(5, p->head);
    if (p->head.n == p->head.c) return refuse(7, p->head);
    add_at(p, &way, entry.f);
    return finish(p);
}

book_answer plain_strike(plain_pool *p, int judged, book_entry entry) {
    size_t why = judged ? plain_judge(p) : 0;
    path way;
    if (why) return refuse(why, p->head);
    size_t s = find(p, entry.f, &way);
    if (!s) return refuse(6, p->head);
    strike_at(p, &way, s);
    return finish(p);
}
