/* The baseline of map in bench/run that sorts: all commands by key and number, which are then answered key by key, and the
   answers by the numbers of their commands. It prints what emtool map prints. */
#include "baseline.h"

/* (key, number, letter of the word, value), and (number, 1 if a value was found, the value, 0) */
static struct sorter commands, answers;

static void read_commands(struct text *text) {
    struct command command;
    for (uint64_t number = 1; next_command(text, &command); number++)
        put_in(&commands, record_of(command.operand[0], number, (uint64_t)command.letter,
                                    command.operands == 2 ? command.operand[1] : 0));
    end_input(&commands);
}

static void answer_commands(void) {
    struct record command, held = {0, 0, 0, 0};
    int found = 0;
    while (take_out(&commands, &command)) {
        if (command.a != held.a) found = 0;
        if (command.c == 'g') {
            put_in(&answers, record_of(command.b, (uint64_t)found, found ? held.d : 0, 0));
        } else {
            if (command.c == 'a' && found) command.d += held.d;
            found = command.c != 'd';
            held = command;
        }
    }
    end_input(&answers);
}

static void print_answers(void) {
    struct record answer;
    while (take_out(&answers, &answer)) {
        if (answer.b)
            print_number(answer.c);
        else
            print_byte('-');
        print_byte('\n');
    }
    flush_printed();
}

int main(int argc, char **argv) {
    read_commands(opened_text(argc, argv));
    answer_commands();
    print_answers();
    return 0;
}
