// A small book from C: three tightenings added, asked for, one struck, a tray worked, and the rest saved as text.
#include "book.h"
#include <stdio.h>
#include <stdlib.h>

enum { FIELDS = 2, SLOTS = 3 };

static book_head head;
static int64_t keys[FIELDS * SLOTS];
static size_t links[3 * SLOTS], scratch[SLOTS];

// Every call answers the head of the book from now on; here a refusal ends the program.
static book_answer keep(const char *call, book_answer answer) {
    if (answer.outcome == BOOK_REFUSED) {
        printf("%s: refused %zu\n", call, answer.refusal);
        exit(1);
    }
    head = answer.head;
    return answer;
}

static void add(int64_t a, int64_t b) {
    keep("add", book_add(head, keys, FIELDS * SLOTS, links, 3 * SLOTS, scratch, SLOTS, (book_entry){{a, b}}));
    printf("added %lld:%lld, entries %zu\n", (long long)a, (long long)b, head.n);
}

static void look_up(int64_t a, int64_t b) {
    book_answer r = keep("look up", book_look_up(head, keys, FIELDS * SLOTS, links, 3 * SLOTS, (book_entry){{a, b}}));
    printf("%lld:%lld is %s, slot %zu, reads %zu\n", (long long)a, (long long)b, r.outcome == BOOK_FOUND ? "there" : "not there", r.slot, r.reads);
}

int main(void) {
    keep("start", book_start(FIELDS, SLOTS, keys, FIELDS * SLOTS, links, 3 * SLOTS));
    add(1, 9);
    add(2, 4);
    add(3, 7);
    look_up(3, 7);
    book_answer again = book_add(head, keys, FIELDS * SLOTS, links, 3 * SLOTS, scratch, SLOTS, (book_entry){{1, 9}});
    printf("1:9 once more: refused %zu\n", again.refusal);

    book_box low = {{{.kind = 3, .low = 1, .high = 2}, {.kind = 0}}};
    book_answer counted = keep("count", book_count(head, keys, FIELDS * SLOTS, links, 3 * SLOTS, low));
    printf("a between 1 and 2: entries %zu\n", counted.count);
    int64_t listed[FIELDS * SLOTS];
    keep("list", book_list(head, keys, FIELDS * SLOTS, links, 3 * SLOTS, low, listed, FIELDS * SLOTS));
    for (size_t i = 0; i < counted.count; i++)
        printf("  %lld:%lld\n", (long long)listed[FIELDS * i], (long long)listed[FIELDS * i + 1]);

    book_steps steps = {{1, 2}};
    book_answer near = keep("nearest", book_nearest(head, keys, FIELDS * SLOTS, links, 3 * SLOTS, (book_entry){{4, 4}}, steps));
    printf("nearest 4:4 is %lld:%lld, distance %llu\n", (long long)near.entry.f[0], (long long)near.entry.f[1], (unsigned long long)near.distance);

    keep("strike", book_strike(head, keys, FIELDS * SLOTS, links, 3 * SLOTS, scratch, SLOTS, (book_entry){{2, 4}}));
    printf("struck 2:4, entries %zu\n", head.n);
    look_up(3, 7);
    look_up(2, 4);

    int64_t items[] = {1, 5, 5, 2, 1, 9, 2, 1, 9};
    book_answer wrong = book_tray(head, keys, FIELDS * SLOTS, links, 3 * SLOTS, scratch, SLOTS, items, 9);
    printf("a tray that strikes 1:9 twice: refused %zu, item %zu\n", wrong.refusal, wrong.place);
    keep("tray", book_tray(head, keys, FIELDS * SLOTS, links, 3 * SLOTS, scratch, SLOTS, items, 6));
    printf("added 5:5 and struck 1:9, entries %zu\n", head.n);

    uint8_t text[256];
    book_answer saved = keep("save", book_save(head, keys, FIELDS * SLOTS, links, 3 * SLOTS, text, sizeof text));
    fwrite(text, 1, saved.bytes, stdout);
    return 0;
}
