/* The baseline of stab in bench/run that sorts: low ends and stabs by point, which are then swept with a list of the intervals
   that began, and the pairs that this finds by stab and interval. Each stab reads the list and drops the intervals that ended.
   It reads intervals of later lines for nothing, so a file with its stabs first takes more moves than sorting does. It prints
   what emtool stab prints. */
#include "baseline.h"

/* At a point low ends come before stabs. */
enum { LOW_END, STAB };

/* (point, LOW_END, number of the interval, its high end) or (point, STAB, number of the stab, how many intervals came earlier);
   and (number of the stab, number of the interval, 0, 0) */
static struct sorter events, pairs;
static uint64_t stabs;

/* Records in the order in which they came, the last of them in memory. */
struct list {
    struct scratch scratch;
    size_t filled;
    struct record last[BLOCK];
};

static void append(struct list *list, struct record record) {
    if (list->filled == BLOCK) {
        if (!list->scratch.file) open_scratch(&list->scratch);
        store_block(&list->scratch, list->last, BLOCK);
        list->filled = 0;
    }
    list->last[list->filled++] = record;
}

static void read_events(struct text *text) {
    struct command command;
    uint64_t intervals = 0;
    while (next_command(text, &command)) {
        if (command.operands == 2)
            put_in(&events, record_of(command.operand[0], LOW_END, intervals++, command.operand[1]));
        else
            put_in(&events, record_of(command.operand[0], STAB, stabs++, intervals));
    }
    end_input(&events);
}

/* Appends those of some intervals that haven't ended at a stab, and finds the pairs with the stab. */
static void stab_some(struct record stab, const struct record *intervals, size_t count, struct list *kept) {
    for (size_t i = 0; i < count; i++)
        if (intervals[i].d >= stab.a) {
            append(kept, intervals[i]);
            if (intervals[i].c < stab.d) put_in(&pairs, record_of(stab.c, intervals[i].c, 0, 0));
        }
}

static void stab_list(struct record stab, struct list *list, struct list *kept) {
    static struct record block[BLOCK];
    kept->scratch.blocks = kept->filled = 0;
    for (uint64_t i = 0; i < list->scratch.blocks; i++) {
        load_block(&list->scratch, i, block, BLOCK);
        stab_some(stab, block, BLOCK, kept);
    }
    stab_some(stab, list->last, list->filled, kept);
}

static void sweep(void) {
    static struct list lists[2];
    struct record event;
    int now = 0;
    while (take_out(&events, &event)) {
        if (event.b == LOW_END) {
            append(&lists[now], event);
        } else {
            stab_list(event, &lists[now], &lists[1 - now]);
            now = 1 - now;
        }
    }
    end_input(&pairs);
}

static void print_pairs(void) {
    struct record pair = {0, 0, 0, 0};
    int more = take_out(&pairs, &pair);
    for (uint64_t stab = 0; stab < stabs; stab++) {
        if (!more || pair.a != stab) print_byte('-');
        for (int first = 1; more && pair.a == stab; first = 0, more = take_out(&pairs, &pair)) {
            if (!first) print_byte(' ');
            print_number(pair.b);
        }
        print_byte('\n');
    }
    flush_printed();
}

int main(int argc, char **argv) {
    read_events(opened_text(argc, argv));
    sweep();
    print_pairs();
    return 0;
}
