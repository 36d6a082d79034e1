// SQLite with plain indexes: one in listing order and one for each further field. The nearest is a scan in SQL.
#include "sqlite.h"

static table t;

static void load(const book_entry *entries, size_t n) {
    open_table(&t,
               "create table e (a, b, c, d, primary key (a, b, c, d)) without rowid;"
               "create index eb on e (b); create index ec on e (c); create index ed on e (d)",
               "insert into e values (?, ?, ?, ?)", entries, n);
    prepare(&t, &t.look_up, "select 1 from e where a = ? and b = ? and c = ? and d = ?");
    prepare(&t, &t.count, "select count(*) from e where a between ? and ? and b between ? and ? and c between ? and ? and d between ? and ?");
    prepare(&t, &t.nearest, "select a, b, c, d from e order by max(abs(a - ?), abs(b - ?), abs(c - ?), abs(d - ?)), a, b, c, d limit 1");
}

static size_t look_up(book_entry e) { return ask_entry(t.look_up, e); }

static size_t count(book_box box) { return ask_box(t.count, box); }

static book_entry nearest(book_entry query) { return ask_nearest(t.nearest, query); }

static void drop(void) { close_table(&t); }

const peer index_peer = {"SQLite, plain indexes", load, look_up, count, nearest, 1, drop};
