// Pools for both sides, and the book's doors over them, so that both are called alike.
#ifndef POOLS_H
#define POOLS_H
#include "plain.h"

// Take in is called only where the library has its door.
#pragma weak book_take_in
book_answer book_take_in(book_head head, int64_t *keys, size_t keys_len, size_t *links, size_t links_len, size_t *scratch, size_t scratch_len,
                         const uint8_t *text, size_t text_len);

#define READ_PARTS(p) (p)->head, (p)->keys, (p)->head.k * (p)->head.c, (p)->links, 3 * (p)->head.c
#define WRITE_PARTS(p) READ_PARTS(p), (p)->scratch, (p)->head.c

plain_pool new_pool(size_t k, size_t c);
void       drop_pool(plain_pool *p);
void       copy_pool(plain_pool *to, const plain_pool *from);
void       fill_pool(plain_pool *p, const book_entry *entries, size_t n);
void       same_pool(const plain_pool *a, const plain_pool *b);
void       same_answer(book_answer a, book_answer b);
#endif
