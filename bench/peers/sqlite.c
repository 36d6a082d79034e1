// A table of SQLite in memory, and its prepared questions.
#include "sqlite.h"
#include <stdio.h>
#include <stdlib.h>

static void right(table *t, int code) {
    if (code == SQLITE_OK || code == SQLITE_DONE || code == SQLITE_ROW) return;
    fprintf(stderr, "bench: SQLite says %s\n", sqlite3_errmsg(t->db));
    exit(1);
}

static void bind_entry(sqlite3_stmt *s, book_entry e) {
    for (int f = 0; f < 4; f++) sqlite3_bind_int64(s, f + 1, e.f[f]);
}

void prepare(table *t, sqlite3_stmt **to, const char *question) { right(t, sqlite3_prepare_v2(t->db, question, -1, to, NULL)); }

void open_table(table *t, const char *schema, const char *insert, const book_entry *entries, size_t n) {
    sqlite3_stmt *s;
    right(t, sqlite3_open(":memory:", &t->db));
    right(t, sqlite3_exec(t->db, schema, NULL, NULL, NULL));
    right(t, sqlite3_exec(t->db, "begin", NULL, NULL, NULL));
    prepare(t, &s, insert);
    for (size_t i = 0; i < n; i++) {
        bind_entry(s, entries[i]);
        right(t, sqlite3_step(s));
        sqlite3_reset(s);
    }
    sqlite3_finalize(s);
    right(t, sqlite3_exec(t->db, "commit; analyze", NULL, NULL, NULL));
}

static size_t first_number(sqlite3_stmt *s) {
    size_t n = sqlite3_step(s) == SQLITE_ROW ? (size_t)sqlite3_column_int64(s, 0) : 0;
    sqlite3_reset(s);
    return n;
}

size_t ask_entry(sqlite3_stmt *s, book_entry e) {
    bind_entry(s, e);
    return first_number(s);
}

size_t ask_box(sqlite3_stmt *s, book_box box) {
    for (int f = 0; f < 4; f++) {
        sqlite3_bind_int64(s, 2 * f + 1, box.of[f].low);
        sqlite3_bind_int64(s, 2 * f + 2, box.of[f].high);
    }
    return first_number(s);
}

book_entry ask_nearest(sqlite3_stmt *s, book_entry query) {
    book_entry e = {{0}};
    bind_entry(s, query);
    if (sqlite3_step(s) == SQLITE_ROW) for (int f = 0; f < 4; f++) e.f[f] = sqlite3_column_int64(s, f);
    sqlite3_reset(s);
    return e;
}

void close_table(table *t) {
    sqlite3_finalize(t->look_up);
    sqlite3_finalize(t->count);
    sqlite3_finalize(t->nearest);
    sqlite3_close(t->db);
    *t = (table){0};
}
