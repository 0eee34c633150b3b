#!/usr/bin/env python3
"""Makes the rows of circuits that a tool could have written: the networks of networks.py as texts, with the columns
that plain arithmetic and the evaluator of aiger.py both give.

tests/tools/circuits.py    writes tests/rows/circuits.rows and tests/rows/any-order.rows
"""
import os
import sys

sys.dont_write_bytecode = True
HERE = os.path.dirname(os.path.abspath(__file__))
sys.path.insert(0, HERE)
import aiger
import networks

WIDTH = 100
RISING, ANY = "rows/circuits.rows", "rows/any-order.rows"
HEADS = {
    RISING: """\
# Circuits that a tool could have written. tests/tools/circuits.py makes this table: change it there. The outputs are
# those that plain arithmetic says, and those of the evaluator of tests/tools/aiger.py.
""",
    ANY: """\
# The circuits of rows/circuits.rows with any variables, so that gates use gates of greater variables too.
# tests/tools/circuits.py makes this table: change it there.
""",
}


class Lines:
    """A circuit's sections before they are a text: its greatest variable, and the lines of each section as numbers."""

    def __init__(self, made):
        """The lines of a network in its own order."""
        first = 2 * len(made.input_names) + 2
        self.greatest = len(made.input_names) + len(made.latch_names) + len(made.gates)
        self.inputs = [[2 * it + 2] for it in range(len(made.input_names))]
        self.latches = [[first + 2 * it, made.next[name]] for it, name in enumerate(made.latch_names)]
        for line, name in zip(self.latches, made.latch_names):
            if name in made.resets:
                line.append(made.resets[name])
        self.outputs, self.bads, self.constraints = (
            [[it[1]] for it in named] for named in (made.outputs, made.bads, made.constraints)
        )
        self.gates = [list(it) for it in made.gates]

    def columns(self):
        return self.outputs, self.bads, self.constraints

    def sections(self):
        return self.inputs, self.latches, *self.columns(), self.gates

    def renamed(self, variables):
        """The same circuit with variable v as variables[v]."""
        self.greatest = max(variables)
        for section in self.sections():
            for line in section:
                line[:] = [2 * variables[it // 2] + it % 2 for it in line]

    def mixed(self, draws):
        """The same circuit with the lines of latches and gates, and the operands of gates, in another order."""
        self.latches, self.gates = draws.shuffled(self.latches), draws.shuffled(self.gates)
        self.gates = [[it[0], *draws.shuffled(it[1:])] for it in self.gates]


def header(magic, lines):
    """The header's line. Its further numbers end with the last one that isn't 0."""
    sections = lines.inputs, lines.latches, lines.outputs, lines.gates, lines.bads, lines.constraints
    counts = [len(it) for it in sections]
    while len(counts) > 4 and counts[-1] == 0:
        counts.pop()
    return f"{magic} {lines.greatest} " + " ".join(map(str, counts))


def packed(items, join, end):
    """Rows' lines `c | ..` with as many of these items on each as there is room for."""
    found, text = [], ""
    for it in items:
        if text and len("c | " + text + join + it + end) > WIDTH:
            found.append(f"c | {text}{end}")
            text = it
        else:
            text = text + join + it if text else it
    return found + ([f"c | {text}{end}"] if text else [])


def lines_of(sections):
    """Rows' lines of the lines of these sections."""
    return [it for section in sections for it in packed([" ".join(map(str, line)) for line in section], r"\n", "")]


def spelled(delta):
    """The bytes of a delta, as a row has them."""
    found = ""
    while delta >= 128:
        found += f"\\x{128 + delta % 128:02x}"
        delta //= 128
    return found + f"\\x{delta:02x}"


def ascii_text(lines):
    """Rows' lines of a circuit in the ASCII form."""
    return [f"c | {header('aag', lines)}"] + lines_of(lines.sections())


def binary_text(lines):
    """Rows' lines of a circuit in the binary form."""
    rest = [it[1:] for it in lines.latches], *lines.columns()
    deltas = [spelled(left - one) + spelled(one - other) for left, one, other in lines.gates]
    return [f"c | {header('aig', lines)}"] + lines_of(rest) + packed(deltas, "", "\\")


def tail(made, comment):
    """Rows' lines of the symbols of a network, and a comment. A constraint's name begins the comment."""
    columns = zip("obc", ([it[0] for it in named] for named in (made.outputs, made.bads, made.constraints)))
    named = ("i", made.input_names), ("l", made.latch_names), *columns
    found = [[f"{kind}{place} {name}" for place, name in enumerate(it)] for kind, it in named]
    return [it for one in found for it in packed(one, r"\n", "")] + ["c | c", f"c | {comment}"]


def rising(made, draws):
    """Variables with gaps, any for inputs and latches and rising ones for gates."""
    gates = len(made.gates)
    count = len(made.input_names) + len(made.latch_names) + gates
    chosen = draws.shuffled(range(1, count + count // 4 + 2))[:count]
    sources = chosen[: count - gates]
    return [0] + sources + sorted(chosen[count - gates :])


def any_order(made, draws):
    """Variables in any order."""
    return [0] + draws.shuffled(range(1, len(made.input_names) + len(made.latch_names) + len(made.gates) + 1))


def text_of(lines):
    """The bytes that rows' lines of a circuit stand for."""
    found = b""
    for it in lines:
        line = it[4:] + ("\n" if not it.endswith("\\") else "")
        found += line.rstrip("\\").encode().decode("unicode_escape").encode("latin-1")
    return found


def row(title, circuit, uninit, steps, answers):
    """A row, after a look whether the evaluator gives these answers."""
    stimulus = ["".join(map(str, it)) for it in steps]
    outputs = ["".join(map(str, it)) for it in answers]
    got = aiger.answer(text_of(circuit), "".join(it + "\n" for it in stimulus).encode(), uninit)
    if got != ("".join(it + "\n" for it in outputs), "", 0):
        sys.exit(f"{title}: plain arithmetic says other outputs than the evaluator")
    # a file of empty lines: the first newline ends the row's line
    shown = ["s | " + r"\n" * len(steps) + "\\"] if not steps[0] else [f"s | {it}" for it in stimulus]
    options = "--block=128 --frames=64" + (f" --uninit={uninit}" if uninit is not None else "")
    return [title, f"$ emtool eval {options} c s", *circuit, *shown, *[f"> {it}" for it in outputs]]


def tables():
    """The text of each table by its name."""
    found = {RISING: [HEADS[RISING]], ANY: [HEADS[ANY]]}
    draws = networks.Draws(2007)
    for number, maker in enumerate(networks.MAKERS):
        title, made, steps, answers = maker()
        symbols = tail(made, title) if number % 3 else []
        rows = {
            "in ASCII": ascii_text(Lines(made)) + symbols,
            "in binary": binary_text(Lines(made)) + symbols,
        }
        for style, variables in (("its lines in another order", rising), ("its gates in any order", any_order)):
            lines = Lines(made)
            lines.renamed(variables(made, draws))
            lines.mixed(draws)
            rows[style] = ascii_text(lines)
        if number % 2:
            del rows["its lines in another order"]
        for style, circuit in rows.items():
            table = ANY if style == "its gates in any order" else RISING
            made_row = row(f"{title}, {style}", circuit, made.uninit, steps, answers)
            found[table].append("".join(it + "\n" for it in made_row))
    return {name: "\n".join(it) for name, it in found.items()}


def main():
    for name, text in tables().items():
        with open(os.path.join(os.path.dirname(HERE), name), "w", encoding="utf-8") as it:
            it.write(text)


if __name__ == "__main__":
    main()
