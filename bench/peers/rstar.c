// SQLite's R*Tree over numbers of 32 bits, a point as a box without extent. It knows no nearest.
#include "sqlite.h"

static table t;

static void load(const book_entry *entries, size_t n) {
    open_table(&t, "create virtual table e using rtree_i32 (id, a, az, b, bz, c, cz, d, dz)",
               "insert into e values (null, ?1, ?1, ?2, ?2, ?3, ?3, ?4, ?4)", entries, n);
    prepare(&t, &t.look_up, "select 1 from e where a >= ?1 and az <= ?1 and b >= ?2 and bz <= ?2 and c >= ?3 and cz <= ?3 and d >= ?4 and dz <= ?4");
    prepare(&t, &t.count, "select count(*) from e where a >= ? and az <= ? and b >= ? and bz <= ? and c >= ? and cz <= ? and d >= ? and dz <= ?");
}

static size_t look_up(book_entry e) { return ask_entry(t.look_up, e); }

static size_t count(book_box box) { return ask_box(t.count, box); }

static void drop(void) { close_table(&t); }

const peer rstar_peer = {"SQLite, R*Tree", load, look_up, count, 0, 1, drop};
