// Slots gathered from a tree, ranked, and linked anew.
#ifndef RANK_H
#define RANK_H
#include "cell.h"

size_t gather(const plain_pool *p, size_t s, size_t *slots, size_t at);
void   rank(const plain_pool *p, size_t cut, size_t *slots, size_t *spare, size_t n);
size_t rebuild(const plain_pool *p, size_t s, size_t cut);
#endif
