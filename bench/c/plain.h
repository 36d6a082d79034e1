// The ten calls in plain C, over the same lent memory and with the same answers. `judged` says whether the pool is judged first, as the book does.
#ifndef PLAIN_H
#define PLAIN_H
#include "book.h"

// A pool as it is lent, with its scratch.
typedef struct {
    book_head head;
    int64_t *keys;
    size_t *links, *scratch;
} plain_pool;

size_t      plain_judge(const plain_pool *p);
book_answer plain_start(plain_pool *p, size_t k, size_t c);
book_answer plain_look_up(const plain_pool *p, book_entry entry);
book_answer plain_count(const plain_pool *p, int judged, book_box box);
book_answer plain_list(const plain_pool *p, int judged, book_box box, int64_t *room, size_t room_len);
book_answer plain_nearest(const plain_pool *p, int judged, book_entry query, book_steps steps);
book_answer plain_add(plain_pool *p, int judged, book_entry entry);
book_answer plain_strike(plain_pool *p, int judged, book_entry entry);
book_answer plain_save(const plain_pool *p, int judged, uint8_t *room, size_t room_len);
book_answer plain_take_in(plain_pool *p, int judged, const uint8_t *text, size_t text_len);
book_answer plain_tray(plain_pool *p, int judged, const int64_t *items, size_t items_len);
#endif
