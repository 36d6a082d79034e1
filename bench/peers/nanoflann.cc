// nanoflann: a k-d tree over an array of the caller's, made once. It finds the nearest by Euclid's distance and knows no exact look-up and no box.
#include "peer.h"
#include <memory>
#include <nanoflann.hpp>
#include <vector>

namespace {

struct Cloud {
    std::vector<book_entry> points;
    size_t kdtree_get_point_count() const { return points.size(); }
    int64_t kdtree_get_pt(size_t i, size_t field) const { return points[i].f[field]; }
    template <class Box> bool kdtree_get_bbox(Box &) const { return false; }
};

typedef nanoflann::KDTreeSingleIndexAdaptor<nanoflann::L2_Simple_Adaptor<int64_t, Cloud, double>, Cloud, 4> Tree;

Cloud cloud;
std::unique_ptr<Tree> tree;

void load(const book_entry *entries, size_t n) {
    cloud.points.assign(entries, entries + n);
    tree = std::make_unique<Tree>(4, cloud);
    tree->buildIndex();
}

book_entry nearest(book_entry query) {
    uint32_t at = 0;
    double distance = 0;
    tree->knnSearch(query.f, 1, &at, &distance);
    return cloud.points[at];
}

void drop() {
    tree.reset();
    cloud.points.clear();
}

}

extern const peer nanoflann_peer = {"nanoflann", load, nullptr, nullptr, nearest, 0, drop};
