// libkdtree++: a tree of nodes from the heap, balanced when it is told to. Euclid's distance, in double.
#include "peer.h"
#include <kdtree++/kdtree.hpp>
#include <memory>
#include <vector>

namespace {

struct Point {
    typedef int64_t value_type;
    int64_t f[4];
    int64_t operator[](size_t i) const { return f[i]; }
    bool operator==(const Point &o) const { return f[0] == o.f[0] && f[1] == o.f[1] && f[2] == o.f[2] && f[3] == o.f[3]; }
};

typedef KDTree::KDTree<4, Point> Tree;

std::unique_ptr<Tree> tree;

Point point(const book_entry &e) { return {{e.f[0], e.f[1], e.f[2], e.f[3]}}; }

void load(const book_entry *entries, size_t n) {
    std::vector<Point> points;
    for (size_t i = 0; i < n; i++) points.push_back(point(entries[i]));
    tree = std::make_unique<Tree>();
    tree->efficient_replace_and_optimise(points);
}

size_t look_up(book_entry e) { return tree->find_exact(point(e)) != tree->end(); }

size_t count(book_box box) {
    Tree::_Region_ region;
    for (size_t i = 0; i < 4; i++) {
        region._M_low_bounds[i] = box.of[i].low;
        region._M_high_bounds[i] = box.of[i].high;
    }
    return tree->count_within_range(region);
}

book_entry nearest(book_entry query) {
    const Point &p = *tree->find_nearest(point(query)).first;
    return {{p.f[0], p.f[1], p.f[2], p.f[3]}};
}

void drop() { tree.reset(); }

}

extern const peer kdtree_peer = {"libkdtree++", load, look_up, count, nearest, 0, drop};
