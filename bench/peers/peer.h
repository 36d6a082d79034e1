// A library that answers some of the same questions; what it cannot do is null.
#ifndef PEER_H
#define PEER_H
#include "book.h"

#ifdef __cplusplus
extern "C" {
#endif

// Boxes have both ends in every field. The nearest is by its own distance, or, where `exact` says so, by the book's with all steps 1.
typedef struct {
    const char *name;
    void (*load)(const book_entry *entries, size_t n);
    size_t (*look_up)(book_entry e);
    size_t (*count)(book_box box);
    book_entry (*nearest)(book_entry query);
    int exact;
    void (*drop)(void);
} peer;

extern const peer kdtree_peer, boost_peer, set_peer, rstar_peer, index_peer, nanoflann_peer, scan_peer;

#ifdef __cplusplus
}
#endif
#endif
