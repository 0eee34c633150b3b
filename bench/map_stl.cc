/* The baseline of map in bench/run: a std::map in memory. It prints what emtool map prints. With -DDUMP it passes over gets, walks
   the map at the end, and prints what emtool dump prints. */
#include <map>

#include "baseline.h"

#ifdef DUMP
static const bool dumps = true;
#else
static const bool dumps = false;
#endif

static void print_pair(uint64_t key, uint64_t value) {
    print_number(key);
    print_byte(' ');
    print_number(value);
    print_byte('\n');
}

int main(int argc, char **argv) {
    struct text *text = opened_text(argc, argv);
    struct command command;
    std::map<uint64_t, uint64_t> held;
    while (next_command(text, &command)) {
        uint64_t key = command.operand[0];
        if (command.letter == 'p') {
            held[key] = command.operand[1];
        } else if (command.letter == 'a') {
            held[key] += command.operand[1];
        } else if (command.letter == 'd') {
            held.erase(key);
        } else if (!dumps) {
            auto found = held.find(key);
            if (found == held.end())
                print_byte('-');
            else
                print_number(found->second);
            print_byte('\n');
        }
    }
    if (dumps)
        for (const auto &pair : held) print_pair(pair.first, pair.second);
    flush_printed();
    return 0;
}
