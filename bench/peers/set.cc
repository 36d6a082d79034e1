// std::set in listing order: a look-up by one order, and a box by scanning the numbers of its first field. It knows no nearest.
#include "peer.h"
#include <array>
#include <set>

namespace {

typedef std::array<int64_t, 4> Point;

std::set<Point> points;

Point point(const book_entry &e) { return {e.f[0], e.f[1], e.f[2], e.f[3]}; }

void load(const book_entry *entries, size_t n) {
    for (size_t i = 0; i < n; i++) points.insert(point(entries[i]));
}

size_t look_up(book_entry e) { return points.count(point(e)); }

bool inside(const Point &p, const book_box &box) {
    for (size_t i = 0; i < 4; i++) if (p[i] < box.of[i].low || box.of[i].high < p[i]) return false;
    return true;
}

size_t count(book_box box) {
    size_t n = 0;
    auto p = points.lower_bound({box.of[0].low, box.of[1].low, box.of[2].low, box.of[3].low});
    for (; p != points.end() && (*p)[0] <= box.of[0].high; ++p) n += inside(*p, box);
    return n;
}

void drop() { points.clear(); }

}

extern const peer set_peer = {"std::set", load, look_up, count, nullptr, 1, drop};
