/* The baseline of circuits in bench/run: reads a circuit in straight order and a stimulus, and prints the outputs of each
   step on a line, as emtool eval does. The files have no fault. With -DLANES=64 it evaluates 64 lines at once, as emtool eval
   --wide does, and the circuit has no latch. */
#include <stdint.h>
#include <stdio.h>
#include <stdlib.h>

/* The lines that are evaluated at once: bit t of a word is the value of a variable on line t of the group. */
#ifndef LANES
#define LANES 1
#endif
#if LANES == 1
typedef unsigned char word;
#else
typedef uint64_t word;
#endif

struct gate {
    uint64_t left, right;
};

static uint64_t inputs, latches, outputs, gates;

/* The value of each variable, those of the latches in the next step, and what latches, outputs and gates read. */
static word *values, *states;
static uint64_t *nexts, *prints;
static struct gate *ports;

static uint64_t number(FILE *file) {
    unsigned long long value;
    if (fscanf(file, "%llu", &value) != 1) exit(2);
    return value;
}

static word value_of(uint64_t literal) {
    return (word)(values[literal / 2] ^ -(word)(literal % 2));
}

/* Some places of this size, at least one, all zeros. */
static void *places(uint64_t count, size_t size) {
    void *made = calloc(count + 1, size);
    if (!made) exit(7);
    return made;
}

static void read_circuit(FILE *file) {
    if (fscanf(file, "aag") != 0) exit(2);
    uint64_t most = number(file);
    inputs = number(file);
    latches = number(file);
    outputs = number(file);
    gates = number(file);
    if (LANES > 1 && latches > 0) exit(2);
    values = places(most, sizeof *values);
    states = places(latches, sizeof *states);
    nexts = places(latches, sizeof *nexts);
    prints = places(outputs, sizeof *prints);
    ports = places(gates, sizeof *ports);
    for (uint64_t i = 0; i < inputs; i++) number(file);
    for (uint64_t i = 0; i < latches; i++) {
        number(file);
        nexts[i] = number(file);
    }
    for (uint64_t i = 0; i < outputs; i++) prints[i] = number(file);
    for (uint64_t i = 0; i < gates; i++) {
        number(file);
        ports[i].left = number(file);
        ports[i].right = number(file);
    }
}

/* Reads the bits of a line into a lane; or answers 0 if nothing is left. */
static int read_line(FILE *file, unsigned lane) {
    int byte = getc(file);
    if (byte == EOF) return 0;
    for (uint64_t i = 0; i < inputs; i++, byte = getc(file)) values[1 + i] |= (word)((word)(byte == '1') << lane);
    return 1;
}

/* Reads lines until the group is full or nothing is left, and answers how many. */
static unsigned read_group(FILE *file) {
    unsigned lines = 0;
    for (uint64_t i = 0; i < inputs; i++) values[1 + i] = 0;
    while (lines < LANES && read_line(file, lines)) lines++;
    return lines;
}

/* Evaluates a group, and prints a line for each of its lines. */
static void step(unsigned lines) {
    for (uint64_t i = 0; i < latches; i++) values[1 + inputs + i] = states[i];
    for (uint64_t i = 0; i < gates; i++)
        values[1 + inputs + latches + i] = value_of(ports[i].left) & value_of(ports[i].right);
    for (unsigned lane = 0; lane < lines; lane++) {
        for (uint64_t i = 0; i < outputs; i++) putchar('0' + (int)(value_of(prints[i]) >> lane & 1));
        putchar('\n');
    }
    for (uint64_t i = 0; i < latches; i++) states[i] = value_of(nexts[i]);
}

int main(int argc, char **argv) {
    if (argc != 3) {
        fprintf(stderr, "usage: circuit CIRCUIT STIMULUS\n");
        return 1;
    }
    FILE *circuit = fopen(argv[1], "r"), *stimulus = fopen(argv[2], "r");
    if (!circuit || !stimulus) return 3;
    read_circuit(circuit);
    for (unsigned lines; (lines = read_group(stimulus)) > 0;) step(lines);
    return ferror(stimulus) || fflush(stdout) != 0 ? 4 : 0;
}
