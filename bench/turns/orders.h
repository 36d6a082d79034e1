// The entries of the bench, in four orders.
#ifndef ORDERS_H
#define ORDERS_H
#include "book.h"

enum { SHUFFLED, RISING, FALLING, ONE_TORQUE, ORDERS, RANGE = 1 << 30 };

extern const char *const order_name[ORDERS];

int64_t any_number(void);
void    make_entries(int order, size_t k, size_t n, book_entry *out);
void    shuffle(book_entry *list, size_t n);
#endif
