/* The bench book for C: up to 4,096 entries of one to four whole numbers in memory that the caller lends. Link with -lunit. */
#ifndef BOOK_H
#define BOOK_H

#include <stddef.h>
#include <stdint.h>

#ifdef __cplusplus
extern "C" {
#endif

/* What a book is besides its memory: fields (1 to 4), capacity (1 to 4,096), root, first free slot, number of entries. Every call is given the
   head by value; keep the one that it answers and give it to the next call. */
typedef struct { size_t k, c, root, free, n; } book_head;

/* An entry: its fields a, b, c, d. Numbers beyond the book's fields are ignored on the way in and 0 on the way out. */
typedef struct { int64_t f[4]; } book_entry;

/* What a field may be, ends included. Kind 0: anything; 1: at least low; 2: at most high; any other: between low and high. */
typedef struct { size_t kind; int64_t low, high; } book_bound;

/* A bound for each field; those beyond the book's fields are ignored. Between with its ends reversed holds nothing. */
typedef struct { book_bound of[4]; } book_box;

/* For nearest, the step of each field, 1 or more: how much of a difference counts as one, any part of a step as a whole one. Those beyond the
   book's fields are ignored. */
typedef struct { uint64_t of[4]; } book_steps;

enum book_outcome { BOOK_FOUND = 1, BOOK_ABSENT = 2, BOOK_DONE = 3, BOOK_REFUSED = 4 };

/* Checked in this order, but 9 and 10 come before 7, and 12 comes after 3. A refused call writes nothing at all. */
enum book_refusal {
    BOOK_FIELDS = 1,    /* the number of fields, k, is not 1 to 4 */
    BOOK_CAPACITY = 2,  /* the capacity, c, is not 1 to 4,096 */
    BOOK_LENGTHS = 3,   /* the keys are not k times c numbers, or the links not 3 times c, or the scratch not c */
    BOOK_UNSOUND = 4,   /* head and memory are not a book; for look-up: the walk met a slot outside the book or a seventeenth entry */
    BOOK_PRESENT = 5,   /* add: the entry is there */
    BOOK_MISSING = 6,   /* strike: the entry is not there */
    BOOK_FULL = 7,      /* add: no slot is free; take in: there are fewer free slots than new entries */
    BOOK_ROOM = 8,      /* list, save: the room is shorter than the answer */
    BOOK_TEXT = 9,      /* take in: the text is not a saved book; the answer's line says where, from 1 */
    BOOK_MISMATCH = 10, /* take in: the text has another number of fields than the book */
    BOOK_STEP = 11,     /* nearest: one of the first k steps is 0 */
    BOOK_TRAY = 12      /* tray: over 256 items, a length that is no multiple of k + 1, or an item that begins with neither 1 nor 2 */
};

/* The answer of every call. The outcome is a book_outcome, the refusal a book_refusal, 0 where nothing was refused. The head is the book's from
   now on; a refused call answers the head that it was given, a refused start a head of all 0. A part that a call has no value for is 0. */
typedef struct {
    size_t outcome, refusal;
    book_head head;
    book_entry entry;   /* look-up and nearest, found: the entry */
    size_t slot;        /* and the slot that it is in, from 1 */
    size_t reads;       /* look-up: how many entries it met */
    uint64_t distance;  /* nearest, found: how far away the entry is, in steps, rounded up; 0 for the query itself alone */
    size_t count;       /* count and list: how many entries */
    size_t bytes;       /* save: the length of the text */
    size_t line;        /* refusal 9: the line */
    size_t place;       /* a tray refused by one of its items: the item's place, from 1 */
} book_answer;

/* Every length below is a number of elements, not of bytes. Pointers are not null, also where the length is 0; the lists that one call writes do
   not overlap with any other that it is given. */

/* 0 where head and memory are a sound book, else which of refusals 1 to 4 comes first. */
size_t book_judge(book_head head, const int64_t *keys, size_t keys_len, const size_t *links, size_t links_len);

/* Makes an empty book of k fields and c slots, whatever the memory held; keys are k times c numbers, links 3 times c. Done, or refused 1 to 3. */
book_answer book_start(size_t k, size_t c, int64_t *keys, size_t keys_len, size_t *links, size_t links_len);

/* Finds an entry: found with entry, slot and reads, or absent with reads. Refused 1 to 4, but 4 only for what the walk itself meets. */
book_answer book_look_up(book_head head, const int64_t *keys, size_t keys_len, const size_t *links, size_t links_len, book_entry entry);

/* Counts the entries in a box. Done with the count, or refused 1 to 4. */
book_answer book_count(book_head head, const int64_t *keys, size_t keys_len, const size_t *links, size_t links_len, book_box box);

/* Writes the entries in a box to the front of the room, k numbers each, rising by a, then b, c, d; the rest of the room is untouched. Done with
   the count, or refused 1 to 4 or 8. */
book_answer book_list(book_head head, const int64_t *keys, size_t keys_len, const size_t *links, size_t links_len, book_box box, int64_t *room,
                      size_t room_len);

/* Finds the entry nearest the query: the least of the greatest over the fields of difference / step, rounded up; at a tie the first that a list
   would give. Found with entry, slot and distance; absent where the book is empty; refused 1 to 4 or 11. */
book_answer book_nearest(book_head head, const int64_t *keys, size_t keys_len, const size_t *links, size_t links_len, book_entry query,
                         book_steps steps);

/* Adds an entry. Scratch is c numbers that may hold anything, and is all 0 after an accepted call. Done, or refused 1 to 5 or 7. */
book_answer book_add(book_head head, int64_t *keys, size_t keys_len, size_t *links, size_t links_len, size_t *scratch, size_t scratch_len,
                     book_entry entry);

/* Strikes an entry; scratch as in add. Done, or refused 1 to 4 or 6. */
book_answer book_strike(book_head head, int64_t *keys, size_t keys_len, size_t *links, size_t links_len, size_t *scratch, size_t scratch_len,
                        book_entry entry);

/* Writes the book as text to the front of the room, without a 0 behind it; the rest of the room is untouched. Done with the bytes, or refused 1
   to 4 or 8. */
book_answer book_save(book_head head, const int64_t *keys, size_t keys_len, const size_t *links, size_t links_len, uint8_t *room, size_t room_len);

/* Takes in a saved text, whole or not at all: adds in text order what is not yet there and strikes nothing; scratch as in add. Done, or refused
   1 to 4, then 9 with the line, 10 or 7. */
book_answer book_take_in(book_head head, int64_t *keys, size_t keys_len, size_t *links, size_t links_len, size_t *scratch, size_t scratch_len,
                         const uint8_t *text, size_t text_len);

/* Works a tray of up to 256 items in order, whole or not at all; scratch as in add. An item is k + 1 numbers: 1 to add or 2 to strike, then the
   entry's fields. It leaves the book as the single calls in that order would; an empty tray changes only scratch, to 0. Done, or refused 1 to 3,
   12 or 4; or 5, 6 or 7 with the place of the first item whose single call would be refused so. */
book_answer book_tray(book_head head, int64_t *keys, size_t keys_len, size_t *links, size_t links_len, size_t *scratch, size_t scratch_len,
                      const int64_t *items, size_t items_len);

#ifdef __cplusplus
}
#endif

#endif
