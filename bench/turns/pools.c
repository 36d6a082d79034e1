// Pools for both sides; where the two differ in one cell or one number of an answer, the bench ends.
#include "pools.h"
#include "turns.h"
#include <stdlib.h>
#include <string.h>

plain_pool new_pool(size_t k, size_t c) {
    plain_pool p = {{k, c, 0, 0, 0}, malloc(k * c * 8), malloc(3 * c * 8), calloc(c, 8)};
    must(p.keys && p.links && p.scratch, "no memory");
    plain_start(&p, k, c);
    return p;
}

void drop_pool(plain_pool *p) {
    free(p->keys);
    free(p->links);
    free(p->scratch);
}

void copy_pool(plain_pool *to, const plain_pool *from) {
    to->head = from->head;
    memcpy(to->keys, from->keys, from->head.k * from->head.c * 8);
    memcpy(to->links, from->links, 3 * from->head.c * 8);
    memcpy(to->scratch, from->scratch, from->head.c * 8);
}

void fill_pool(plain_pool *p, const book_entry *entries, size_t n) {
    for (size_t i = 0; i < n; i++) must(plain_add(p, 0, entries[i]).outcome == BOOK_DONE, "an entry twice");
}

void same_pool(const plain_pool *a, const plain_pool *b) {
    size_t k = a->head.k, c = a->head.c;
    must(!memcmp(&a->head, &b->head, sizeof a->head), "the heads differ");
    must(!memcmp(a->keys, b->keys, k * c * 8), "the numbers differ");
    must(!memcmp(a->links, b->links, 3 * c * 8), "the links differ");
    must(!memcmp(a->scratch, b->scratch, c * 8), "the scratch differs");
}

void same_answer(book_answer a, book_answer b) { must(!memcmp(&a, &b, sizeof a), "the answers differ"); }
