// A table of SQLite in memory, and its prepared questions.
#ifndef SQLITE_H
#define SQLITE_H
#include "peer.h"
#include <sqlite3.h>

typedef struct {
    sqlite3 *db;
    sqlite3_stmt *look_up, *count, *nearest;
} table;

void       open_table(table *t, const char *schema, const char *insert, const book_entry *entries, size_t n);
void       prepare(table *t, sqlite3_stmt **to, const char *question);
size_t     ask_entry(sqlite3_stmt *s, book_entry e);
size_t     ask_box(sqlite3_stmt *s, book_box box);
book_entry ask_nearest(sqlite3_stmt *s, book_entry query);
void       close_table(table *t);
#endif
