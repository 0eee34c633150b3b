/* The baseline of queue in bench/run: a std::priority_queue in memory. It prints what emtool queue prints. */
#include <queue>
#include <vector>

#include "baseline.h"

/* Items as (key, number of the push, value, 0). The first one out is the least. */
struct later {
    bool operator()(const record &x, const record &y) const { return before(&y, &x); }
};

int main(int argc, char **argv) {
    struct text *text = opened_text(argc, argv);
    struct command command;
    std::priority_queue<record, std::vector<record>, later> waiting;
    uint64_t pushes = 0;
    while (next_command(text, &command)) {
        if (command.operands == 2) {
            waiting.push(record_of(command.operand[0], ++pushes, command.operand[1], 0));
        } else if (waiting.empty()) {
            print_byte('-');
            print_byte('\n');
        } else {
            print_number(waiting.top().a);
            print_byte(' ');
            print_number(waiting.top().c);
            print_byte('\n');
            waiting.pop();
        }
    }
    flush_printed();
    return 0;
}
