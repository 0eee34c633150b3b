/* The baseline of stab in bench/run: a sweep in memory over all ends and stabs by point, with the set of the intervals that the
   point is in. It prints what emtool stab prints. */
#include "baseline.h"

/* At a point low ends come before stabs, and stabs before high ends. */
enum { LOW_END, STAB, HIGH_END };

/* (point, LOW_END or HIGH_END, number of the interval, 0), or (point, STAB, number of the stab, how many intervals came
   earlier) */
static struct record *events;
static size_t event_count, event_room;

/* The intervals of each stab: a part of one list. */
struct part {
    size_t first, end;
};

static struct part *parts;
static uint64_t *found;
static uint64_t intervals, stabs;
static size_t found_count, found_room;

/* The intervals that the point is in. A bit of a level is set if a word of the level below, at that bit's place, isn't 0. */
enum { LEVELS = 7 };
static uint64_t *words[LEVELS];

/* The same places and more of them, if all are in use. */
static void *grown(void *places, size_t count, size_t *room, size_t size) {
    if (count < *room) return places;
    *room = 2 * *room + 1024;
    places = realloc(places, *room * size);
    if (!places) exit(7);
    return places;
}

static void add_event(struct record event) {
    events = grown(events, event_count, &event_room, sizeof *events);
    events[event_count++] = event;
}

static void read_events(struct text *text) {
    struct command command;
    while (next_command(text, &command)) {
        if (command.operands == 2) {
            add_event(record_of(command.operand[0], LOW_END, intervals, 0));
            add_event(record_of(command.operand[1], HIGH_END, intervals++, 0));
        } else {
            add_event(record_of(command.operand[0], STAB, stabs++, intervals));
        }
    }
}

/* Some places, all zeros. */
static void *zeros(uint64_t count, size_t size) {
    void *places = calloc(count, size);
    if (!places) exit(7);
    return places;
}

static void make_places(void) {
    uint64_t count = intervals;
    for (int level = 0; level < LEVELS; level++) {
        count = count / 64 + 2;
        words[level] = zeros(count, sizeof *words[level]);
    }
    parts = zeros(stabs + 1, sizeof *parts);
}

static void insert(uint64_t place) {
    for (int level = 0; level < LEVELS; level++, place /= 64) words[level][place / 64] |= UINT64_C(1) << place % 64;
}

static void erase(uint64_t place) {
    for (int level = 0; level < LEVELS; level++, place /= 64) {
        words[level][place / 64] &= ~(UINT64_C(1) << place % 64);
        if (words[level][place / 64]) return;
    }
}

/* The least interval of the set from a place on, or a greater number than all. */
static uint64_t next_in(uint64_t place) {
    for (int level = 0; level < LEVELS; level++, place = place / 64 + 1) {
        uint64_t bits = words[level][place / 64] >> place % 64;
        if (!bits) continue;
        place += (uint64_t)__builtin_ctzll(bits);
        while (level-- > 0) place = 64 * place + (uint64_t)__builtin_ctzll(words[level][place]);
        return place;
    }
    return UINT64_MAX;
}

static void find_intervals(struct record stab) {
    parts[stab.c].first = found_count;
    for (uint64_t i = next_in(0); i < stab.d; i = next_in(i + 1)) {
        found = grown(found, found_count, &found_room, sizeof *found);
        found[found_count++] = i;
    }
    parts[stab.c].end = found_count;
}

static void sweep(void) {
    if (event_count > 0) qsort(events, event_count, sizeof *events, compare);
    for (size_t i = 0; i < event_count; i++) {
        if (events[i].b == LOW_END)
            insert(events[i].c);
        else if (events[i].b == STAB)
            find_intervals(events[i]);
        else
            erase(events[i].c);
    }
}

static void print_intervals(void) {
    for (uint64_t stab = 0; stab < stabs; stab++) {
        if (parts[stab].first == parts[stab].end) print_byte('-');
        for (size_t i = parts[stab].first; i < parts[stab].end; i++) {
            if (i > parts[stab].first) print_byte(' ');
            print_number(found[i]);
        }
        print_byte('\n');
    }
    flush_printed();
}

int main(int argc, char **argv) {
    read_events(opened_text(argc, argv));
    make_places();
    sweep();
    print_intervals();
    return 0;
}
