#!/usr/bin/env python3
"""Evaluates a circuit on a stimulus as `emtool eval` must, by docs/FORMATS.md and in another way than the program: the
whole circuit stands in memory, and the value of a literal is asked of its gate, which asks its operands.

tests/tools/aiger.py [--uninit=N] [--wide] CIRCUIT STIMULUS    prints what `emtool eval` with these words must print
"""
import sys

sys.setrecursionlimit(100_000)
NEWLINE, SPACE = 0x0A, 0x20
GREATEST = 1 << 40
DIGITS = b"0123456789"
DELTA_BYTES = 6


class Fault(Exception):
    """A fault's kind and place."""

    def __init__(self, kind, place):
        super().__init__(kind, place)
        self.kind, self.place = kind, place


class Circuit:
    """Header numbers, input literals, latches (current, next, reset), columns, and gates (lhs, rhs0, rhs1). The header
    numbers are the first seven: the last two of them count the bad literals and the constraints. The columns are the
    outputs, then the bad literals, then the constraints."""

    def __init__(self, header):
        self.header = header
        self.inputs, self.latches, self.columns, self.gates = [], [], [], []

    def defined(self):
        """The variables of all definitions, one for each."""
        left = self.inputs + [it[0] for it in self.latches] + [it[0] for it in self.gates]
        return [it // 2 for it in left]

    def used(self):
        """The variables of all literals that are used."""
        literals = [it[1] for it in self.latches] + self.columns
        literals += [operand for it in self.gates for operand in it[1:]]
        return [it // 2 for it in literals]


class Text:
    """A text that is read item by item, and the offset of the next byte."""

    def __init__(self, data, uninit=None):
        self.data, self.at, self.uninit = data, 0, uninit

    def ended(self):
        return self.at == len(self.data)

    def byte(self):
        """The next byte, which an item needs. It isn't passed."""
        if self.ended():
            raise Fault("Short", self.at)
        return self.data[self.at]

    def one(self, wanted, kind="BadSeparator"):
        """Passes one byte, which must be this one."""
        if self.byte() != wanted:
            raise Fault(kind, self.at)
        self.at += 1

    def goes_on(self):
        """Whether another number follows on the line. Passes the space before it, or else the line end."""
        if not self.ended() and self.byte() == SPACE:
            self.at += 1
            return True
        self.line_end()
        return False

    def line_end(self, at_space="BadSeparator"):
        """A newline, or the text's end."""
        if not self.ended():
            self.one(NEWLINE, at_space if self.byte() == SPACE else "BadSeparator")

    def number(self):
        """The place of a number, and the number."""
        first = self.at
        if self.byte() not in DIGITS:
            raise Fault("BadNumber", first)
        while not self.ended() and self.data[self.at] in DIGITS:
            self.at += 1
        if self.at - first > 20:
            raise Fault("BadNumber", first)
        return first, int(self.data[first : self.at])

    def below(self, limit, kind):
        """A number that is less than the limit."""
        place, value = self.number()
        if value >= limit:
            raise Fault(kind, place)
        return value

    def used(self, greatest):
        """A used literal."""
        return self.below(2 * greatest + 2, "LiteralRange")

    def defining(self, greatest):
        """A defining literal."""
        place = self.at
        value = self.below(2 * greatest + 2, "LiteralRange")
        if value % 2 or value == 0:
            raise Fault("OddDefinition", place)
        return value

    def reset(self, own):
        """The reset of the latch with this literal, and the end of its line."""
        if not self.goes_on():
            return 0
        place, value = self.number()
        if value not in (0, 1, own):
            raise Fault("BadReset", place)
        if value == own and self.uninit is None:
            raise Fault("Uninit", place)
        self.line_end("Extension")
        return self.uninit if value == own else value

    def delta(self, least, most):
        """A delta of a gate in the binary form."""
        first, value = self.at, 0
        for place in range(DELTA_BYTES):
            byte = self.byte()
            self.at += 1
            value += byte % 128 * 128**place
            if byte < 128:
                break
        else:
            raise Fault("BadDelta", first)
        if not least <= value <= most:
            raise Fault("BadDelta", first)
        return value


def read_header(text):
    """Whether the form is the binary one, and the numbers but the last two, of justice and fairness, which are 0."""
    magic = text.data[:3]
    if magic not in (b"aag", b"aig"):
        raise Fault("BadMagic", 0)
    text.at = 3
    numbers = []
    for _ in range(5):
        text.one(SPACE)
        numbers.append(text.below(GREATEST + 1, "TooLarge"))
    variables, inputs, latches, _, gates = numbers
    defined = inputs + latches + gates
    if variables < defined or (magic == b"aig" and variables != defined):
        raise Fault("BadCounts", 4)
    bads_and_constraints = [0, 0]
    for section, refused in enumerate((None, None, "Justice", "Fairness")):
        if not text.goes_on():
            break
        place = text.at
        count = text.below(GREATEST + 1, "TooLarge")
        if refused is None:
            bads_and_constraints[section] = count
        elif count:
            raise Fault(refused, place)
    else:
        text.line_end("Extension")
    return magic == b"aig", numbers + bads_and_constraints


def read_columns(text, circuit):
    """The outputs, bad literals and constraints."""
    greatest, _, _, outputs, _, bads, constraints = circuit.header
    for _ in range(outputs + bads + constraints):
        circuit.columns.append(text.used(greatest))
        text.line_end()


def read_ascii(text, circuit):
    """The sections of the ASCII form."""
    greatest, inputs, latches, _, gates = circuit.header[:5]
    for _ in range(inputs):
        circuit.inputs.append(text.defining(greatest))
        text.line_end()
    for _ in range(latches):
        current = text.defining(greatest)
        text.one(SPACE)
        circuit.latches.append((current, text.used(greatest), text.reset(current)))
    read_columns(text, circuit)
    for _ in range(gates):
        left = text.defining(greatest)
        text.one(SPACE)
        first = text.used(greatest)
        text.one(SPACE)
        circuit.gates.append((left, first, text.used(greatest)))
        text.line_end()


def read_binary(text, circuit):
    """The sections of the binary form."""
    greatest, inputs, latches, _, gates = circuit.header[:5]
    for it in range(latches):
        current = 2 * (inputs + 1 + it)
        circuit.latches.append((current, text.used(greatest), text.reset(current)))
    read_columns(text, circuit)
    for it in range(gates):
        left = 2 * (inputs + latches + 1 + it)
        first = left - text.delta(1, left)
        circuit.gates.append((left, first, first - text.delta(0, first)))
    circuit.inputs = [2 * (it + 1) for it in range(inputs)]


def read_tail(text, circuit):
    """Symbols, and a comment."""
    _, inputs, latches, outputs, _, bads, _ = circuit.header
    counts = {ord("i"): inputs, ord("l"): latches, ord("o"): outputs, ord("b"): bads}
    while not text.ended() and text.byte() != ord("c"):
        if text.byte() not in counts:
            raise Fault("Extra", text.at)
        count = counts[text.byte()]
        text.at += 1
        text.below(count, "BadSymbol")
        text.one(SPACE)
        while not text.ended() and text.byte() != NEWLINE:
            text.at += 1
        text.line_end()


def circuit_of(data, uninit=None):
    """The circuit that a text spells, or the fault of its first item that fails."""
    text = Text(data, uninit)
    binary, header = read_header(text)
    circuit = Circuit(header)
    (read_binary if binary else read_ascii)(text, circuit)
    read_tail(text, circuit)
    return circuit


def founded(circuit):
    """The least set of variables that holds 0, inputs, latches, and each gate of which both operands are in it."""
    known = {0} | {it // 2 for it in circuit.inputs} | {it[0] // 2 for it in circuit.latches}
    waiting = circuit.gates
    while True:
        left = [it for it in waiting if it[1] // 2 not in known or it[2] // 2 not in known]
        if len(left) == len(waiting):
            return known
        known |= {it[0] // 2 for it in waiting} - {it[0] // 2 for it in left}
        waiting = left


def check(circuit, wide=False):
    """The faults of a circuit that a text spells. With `--wide` latches are one too."""
    seen, twice = set(), set()
    for it in circuit.defined():
        (twice if it in seen else seen).add(it)
    if twice:
        raise Fault("Twice", min(twice))
    undefined = set(circuit.used()) - seen - {0}
    if undefined:
        raise Fault("Undefined", min(undefined))
    cyclic = {it[0] // 2 for it in circuit.gates} - founded(circuit)
    if cyclic:
        raise Fault("Cyclic", min(cyclic))
    if wide and circuit.latches:
        raise Fault("Latched", 0)


class Evaluator:
    """A circuit without a fault, and the bits of its latches, at first their resets."""

    def __init__(self, circuit):
        self.circuit = circuit
        self.gates = {left: (first, second) for left, first, second in circuit.gates}
        self.state = [it[2] for it in circuit.latches]

    def value(self, literal, known):
        """The value of a literal in a step. The values of plain literals that were found stand in `known`."""
        plain = literal & ~1
        if plain not in known:
            first, second = self.gates[plain]
            known[plain] = self.value(first, known) & self.value(second, known)
        return known[plain] ^ (literal & 1)

    def step(self, bits):
        """The columns of one step. All latches change at its end."""
        known = {0: 0}
        known.update(zip(self.circuit.inputs, bits))
        known.update((it[0], bit) for it, bit in zip(self.circuit.latches, self.state))
        columns = [self.value(it, known) for it in self.circuit.columns]
        self.state = [self.value(it[1], known) for it in self.circuit.latches]
        return columns


def steps_of(inputs, data):
    """The steps of a stimulus before its first fault, and that fault or none."""
    steps, at = [], 0
    while at < len(data):
        end = at + inputs
        for place in range(at, end):
            if place == len(data) or data[place] == NEWLINE:
                return steps, Fault("StimLength", place)
            if data[place] not in b"01":
                return steps, Fault("StimChar", place)
        if end < len(data) and data[end] != NEWLINE:
            return steps, Fault("StimLength", end)
        steps.append([it - ord("0") for it in data[at:end]])
        at = end + 1
    return steps, None


def answer(circuit_text, stimulus_text, uninit=None, wide=False):
    """The output, the message and the exit code of an evaluation, one step after another also with `--wide`. A text
    that isn't there is None."""
    unread = "emtool: an input could not be read\n"
    if circuit_text is None:
        return "", unread, 3
    try:
        circuit = circuit_of(circuit_text, uninit)
        check(circuit, wide)
    except Fault as it:
        return "", f"emtool: malformed: {it.kind} at {it.place}\n", 2
    if stimulus_text is None:
        return "", unread, 3
    steps, fault = steps_of(len(circuit.inputs), stimulus_text)
    evaluator = Evaluator(circuit)
    lines = ["".join(map(str, evaluator.step(it))) + "\n" for it in steps]
    message = f"emtool: malformed: {fault.kind} at {fault.place}\n" if fault else ""
    return "".join(lines), message, 2 if fault else 0


def bytes_of(name):
    """The bytes of a file, or None if it can't be read."""
    try:
        with open(name, "rb") as it:
            return it.read()
    except OSError:
        return None


def main(words):
    uninit, wide = None, False
    while words and words[0] in ("--uninit=0", "--uninit=1", "--wide"):
        if words[0] == "--wide":
            wide = True
        else:
            uninit = int(words[0][-1])
        words = words[1:]
    if len(words) != 2:
        print(__doc__, file=sys.stderr)
        return 1
    output, message, code = answer(bytes_of(words[0]), bytes_of(words[1]), uninit, wide)
    sys.stdout.write(output)
    sys.stderr.write(message)
    return code


if __name__ == "__main__":
    sys.exit(main(sys.argv[1:]))
