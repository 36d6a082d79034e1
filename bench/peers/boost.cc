// Boost.Geometry's R-tree over points, packed when it is made. Euclid's distance, in double.
#define BOOST_ALLOW_DEPRECATED_HEADERS
#include "peer.h"
#include <boost/geometry.hpp>
#include <boost/geometry/index/rtree.hpp>
#include <memory>
#include <vector>

namespace {

namespace bg = boost::geometry;
namespace bgi = boost::geometry::index;

typedef bg::model::point<int64_t, 4, bg::cs::cartesian> Point;
typedef bgi::rtree<Point, bgi::rstar<16>> Tree;

std::unique_ptr<Tree> tree;

Point point(int64_t a, int64_t b, int64_t c, int64_t d) {
    Point p;
    bg::set<0>(p, a), bg::set<1>(p, b), bg::set<2>(p, c), bg::set<3>(p, d);
    return p;
}

Point point(const book_entry &e) { return point(e.f[0], e.f[1], e.f[2], e.f[3]); }

void load(const book_entry *entries, size_t n) {
    std::vector<Point> points;
    for (size_t i = 0; i < n; i++) points.push_back(point(entries[i]));
    tree = std::make_unique<Tree>(points);
}

size_t look_up(book_entry e) { return tree->count(point(e)); }

struct Counter {
    size_t *n;
    Counter &operator=(const Point &) { return ++*n, *this; }
    Counter &operator*() { return *this; }
    Counter &operator++() { return *this; }
};

size_t count(book_box box) {
    size_t n = 0;
    const book_bound *o = box.of;
    bg::model::box<Point> b(point(o[0].low, o[1].low, o[2].low, o[3].low), point(o[0].high, o[1].high, o[2].high, o[3].high));
    tree->query(bgi::intersects(b), Counter{&n});
    return n;
}

book_entry nearest(book_entry query) {
    Point p;
    tree->query(bgi::nearest(point(query), 1), &p);
    return {{bg::get<0>(p), bg::get<1>(p), bg::get<2>(p), bg::get<3>(p)}};
}

void drop() { tree.reset(); }

}

extern const peer boost_peer = {"Boost R-tree", load, look_up, count, nearest, 0, drop};
