/* The baseline of maps with adds in bench/run: a hash table in memory. It prints what emtool map prints. */
#include "baseline.h"

/* A key that was deleted keeps its place, and has no value. */
struct entry {
    uint64_t key, value;
    int used, found;
};

/* 2^bits places, of which at most half are used. A key stands at the first place from its own on that no other key has. */
static struct entry *table;
static size_t used;
static int bits;

static struct entry *entry_of(uint64_t key) {
    size_t last = ((size_t)1 << bits) - 1, at = (size_t)(key * 0x9E3779B97F4A7C15u >> (64 - bits));
    while (table[at].used && table[at].key != key) at = (at + 1) & last;
    return &table[at];
}

static void make_table(int new_bits) {
    bits = new_bits;
    table = calloc((size_t)1 << bits, sizeof *table);
    if (!table) exit(7);
}

static void double_table(void) {
    struct entry *old = table;
    size_t places = (size_t)1 << bits;
    make_table(bits + 1);
    for (size_t at = 0; at < places; at++)
        if (old[at].used) *entry_of(old[at].key) = old[at];
    free(old);
}

/* The entry of a key to which a value is given. */
static struct entry *given_entry(uint64_t key) {
    struct entry *entry = entry_of(key);
    if (entry->used) return entry;
    if (2 * ++used > (size_t)1 << bits) {
        double_table();
        entry = entry_of(key);
    }
    entry->key = key;
    entry->used = 1;
    return entry;
}

static void set(struct entry *entry, uint64_t value) {
    entry->value = value;
    entry->found = 1;
}

static void print_entry(const struct entry *entry) {
    if (entry->found)
        print_number(entry->value);
    else
        print_byte('-');
    print_byte('\n');
}

int main(int argc, char **argv) {
    struct text *text = opened_text(argc, argv);
    struct command command;
    make_table(10);
    while (next_command(text, &command)) {
        uint64_t key = command.operand[0];
        if (command.letter == 'p') {
            set(given_entry(key), command.operand[1]);
        } else if (command.letter == 'a') {
            struct entry *entry = given_entry(key);
            set(entry, entry->found ? entry->value + command.operand[1] : command.operand[1]);
        } else if (command.letter == 'd') {
            entry_of(key)->found = 0;
        } else if (command.letter == 'g') {
            print_entry(entry_of(key));
        }
    }
    flush_printed();
    return 0;
}
