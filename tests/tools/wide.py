#!/usr/bin/env python3
"""Drawn circuits without latches and drawn stimuli: `emtool eval` and `emtool eval --wide` must print the same at two shapes,
which is what the evaluator of aiger.py prints.

tests/tools/wide.py --run            runs the program on the circuits that the gate tries
tests/tools/wide.py --run FROM TO    on those of these numbers
tests/tools/wide.py NUMBER CIRCUIT STIMULUS    writes the circuit and the stimulus of a number

Some circuits and stimuli have a fault, and one circuit in eight has a latch, which `--wide` refuses.
The program is the one that `rt ci` or `./emtool` built, or the one that EMTOOL names.
"""
import os
import random
import subprocess
import sys
import tempfile

sys.dont_write_bytecode = True
HERE = os.path.dirname(os.path.abspath(__file__))
TOP = os.path.dirname(os.path.dirname(HERE))
sys.path.insert(0, HERE)
import aiger

SHAPES = ["--block=128", "--frames=64"], []
# how many circuits the gate tries
TRIED = 200
# a number of variables of which the bits don't fit into an area at the smallest shape, so that gates are ordered through the queue there, and
# by bits at the default shape
MANY = 1 << 18
# numbers of inputs, of columns and of lines: words and groups have 64 bits and lines
WIDTHS = 0, 1, 2, 5, 63, 64, 65, 127, 128, 130
LINES = 0, 1, 2, 63, 64, 65, 100, 127, 128, 129, 130


class Drawn:
    """The literals of a circuit in straight order, and its form."""

    def __init__(self, draw):
        self.inputs, self.columns = draw.choice(WIDTHS), draw.choice(WIDTHS)
        self.latches = int(draw.random() < 1 / 8)
        count = draw.choice((0, 1, 3, 20, 150))
        first = 1 + self.inputs + self.latches
        self.greatest = self.inputs + self.latches + count
        self.gates = []
        for variable in range(first, first + count):
            operands = sorted((draw.randrange(2 * variable) for _ in range(2)), reverse=True)
            self.gates.append((2 * variable, *operands))
        self.used = [draw.randrange(2 * self.greatest + 2) for _ in range(self.columns + self.latches)]
        self.binary = draw.random() < 1 / 3
        # outputs, bad literals and constraints
        cuts = sorted(draw.randrange(self.columns + 1) for _ in range(2)) if draw.random() < 1 / 2 else [self.columns] * 2
        self.parts = cuts[0], cuts[1] - cuts[0], self.columns - cuts[1]

    def header(self, magic, greatest):
        """The first line. Numbers of bad literals and constraints are written if there are any."""
        outputs, bads, constraints = self.parts
        numbers = [greatest, self.inputs, self.latches, outputs, len(self.gates)]
        if bads or constraints:
            numbers += [bads, constraints]
        return " ".join([magic, *map(str, numbers)]) + "\n"

    def in_binary(self):
        """The text of the binary form."""
        text = self.header("aig", self.greatest) + "".join(f"{it}\n" for it in self.used)
        return text.encode() + b"".join(delta(it[0] - it[1]) + delta(it[1] - it[2]) for it in self.gates)

    def in_ascii(self, draw):
        """The text of the ASCII form: variables have other numbers, of which one is left out, and the lines of gates any order. In one
        text of three a gate has another variable at a place, so that one can be defined twice, or isn't defined, or lies on a cycle. In one
        of three the header says that there are many variables."""
        most = self.greatest + 1
        variables = list(range(1, most + 1))
        draw.shuffle(variables)
        variables.insert(0, 0)

        def other(literal):
            return 2 * variables[literal // 2] + literal % 2

        first = 1 + self.inputs
        lines = [f"{other(2 * it)}\n" for it in range(1, first)]
        used = [other(it) for it in self.used]
        lines += [f"{other(2 * first)} {used.pop()}\n" for _ in range(self.latches)]
        lines += [f"{it}\n" for it in used]
        gates = [[other(literal) for literal in it] for it in self.gates]
        draw.shuffle(gates)
        if gates and draw.random() < 1 / 3:
            draw.choice(gates)[draw.randrange(3)] = 2 * draw.randrange(1, most + 1)
        said = MANY if draw.random() < 1 / 3 else most
        return (self.header("aag", said) + "".join(lines) + "".join("{} {} {}\n".format(*it) for it in gates)).encode()

    def text(self, draw):
        return self.in_binary() if self.binary else self.in_ascii(draw)


def delta(number):
    """The bytes of a delta."""
    text = bytearray()
    while number >= 128:
        text.append(number % 128 + 128)
        number //= 128
    text.append(number)
    return bytes(text)


def stimulus_of(draw, inputs):
    """A stimulus, whose last line may have no newline; one in four has another byte than it must have, or ends too early."""
    lines = ["".join(draw.choice("01") for _ in range(inputs)) + "\n" for _ in range(draw.choice(LINES))]
    text = "".join(lines)
    if text and draw.random() < 1 / 4:
        place = draw.randrange(len(text))
        text = text[:place] + draw.choice(["\n", "0", "x", " ", ""]) + text[place + draw.randrange(2) :]
    if text and inputs and draw.random() < 1 / 4:
        text = text[:-1]
    return text.encode()


def texts(number):
    """The circuit and the stimulus of a number."""
    draw = random.Random(number)
    drawn = Drawn(draw)
    circuit = drawn.text(draw)
    return circuit, stimulus_of(draw, drawn.inputs)


def ran(program, folder, *words):
    """What a run printed and wrote on the error stream, and its code."""
    child = subprocess.run([program, "eval", *words, "circuit", "stimulus"], cwd=folder, stdin=subprocess.DEVNULL,
                           stdout=subprocess.PIPE, stderr=subprocess.PIPE, timeout=600)
    return child.stdout.decode(), child.stderr.decode(), child.returncode


def run(numbers):
    """Runs the program on the circuits of these numbers, and says what differs."""
    program = os.path.abspath(os.environ.get("EMTOOL") or os.path.join(TOP, "emtool"))
    wrong, ends = 0, {}
    with tempfile.TemporaryDirectory(prefix="emtool-wide-") as folder:
        for number in numbers:
            drawn = texts(number)
            for name, text in zip(("circuit", "stimulus"), drawn):
                with open(os.path.join(folder, name), "wb") as it:
                    it.write(text)
            for wide in False, True:
                due = aiger.answer(*drawn, wide=wide)
                for shape in SHAPES:
                    words = [*shape, *["--wide"] * wide]
                    if ran(program, folder, *words) != due:
                        wrong += 1
                        print(f"WRONG {number}: eval {' '.join(words)} isn't answered as tests/tools/aiger.py answers")
            # how the runs with --wide ended
            kind = due[1].split()[2] if due[1] else "Done"
            ends[kind] = ends.get(kind, 0) + 1
    told = ", ".join(f"{count} {kind}" for kind, count in sorted(ends.items()))
    print(f"{len(numbers)} drawn circuits ({told}), {wrong} wrong")
    return 1 if wrong else 0


def main(words):
    if words == ["--run"]:
        return run(range(TRIED))
    if len(words) != 3:
        print(__doc__, file=sys.stderr)
        return 1
    if words[0] == "--run":
        return run(range(int(words[1]), int(words[2]) + 1))
    for name, text in zip(words[1:], texts(int(words[0]))):
        with open(name, "wb") as it:
            it.write(text)
    return 0


if __name__ == "__main__":
    sys.exit(main(sys.argv[1:]))
