#!/usr/bin/env python3
"""Made texts by another program than `emtool gen`: the generator of docs/FORMATS.md, "Made texts", plain answers in memory,
and the summary of what they print.

tests/tools/made.py KIND START COUNT          prints the summary
tests/tools/made.py --text KIND START COUNT   prints the first text, and of `eval` an empty line and the stimulus
tests/tools/made.py --run                     runs the program on made texts and on files with the same bytes: both must
                                              make the same moves, and the summary must be that of the file's answers

The program is the one that `rt ci` or `./emtool` built, or the one that EMTOOL names.
"""
import heapq
import os
import re
import subprocess
import sys
import tempfile

sys.dont_write_bytecode = True
HERE = os.path.dirname(os.path.abspath(__file__))
TOP = os.path.dirname(os.path.dirname(HERE))
sys.path.insert(0, HERE)
import aiger

STATES = 1 << 31
KINDS = "map", "queue", "stab", "eval"
SMALLEST = ["--block=128", "--frames=64"]
# what --run tries; the plain answers of stab are quadratic. 20,000 lines of it have 5,000 stabs, of which nodes have nodes below them; the bits of
# 300,000 gates don't fit into an area of the smallest shape, but into one of the default shape
TRIED = ("map", 1, 20000), ("queue", 1, 20000), ("stab", 1, 2000), ("stab", 1, 20000), ("eval", 1, 2000), ("eval", 3, 300000), ("map", 7, 1), ("eval", 2147483647, 1)
COMMAND = re.compile(r"emtool gen(?: --(?:stats|block=\d+|frames=\d+))* (\w+) (\d+) (\d+)")


def draws(state):
    """The numbers of a stream of draws."""
    while True:
        state = (1103515245 * state + 12345) % STATES
        yield state // 65536


def wide(stream, below):
    """A wide draw: the first draw has the upper digits."""
    upper = next(stream)
    return (32768 * upper + next(stream)) % below


def command_lines(kind, start, count):
    """The lines of a command file."""
    stream = draws(start % STATES)
    for i in range(1, count + 1):
        choice = next(stream)
        key = wide(stream, count)
        if kind == "map":
            yield (f"del {key}", f"put {key} {i}", f"put {key} {i}", f"get {key}")[choice % 4]
        elif kind == "queue":
            yield "pop" if choice % 4 == 0 else f"push {key} {i}"
        else:
            yield f"stab {key}" if choice % 4 == 0 else f"iv {key} {key + choice % 16}"


def circuit_lines(start, count):
    """The lines of a circuit."""
    stream = draws(start % STATES)
    most = 32 + count
    yield f"aag {most} 16 16 16 {count}"
    yield from (f"{literal}" for literal in range(2, 33, 2))
    yield from (f"{current} {wide(stream, 2 * most + 2)}" for current in range(34, 65, 2))
    yield from (f"{wide(stream, 2 * most + 2)}" for _ in range(16))
    for gate in range(66, 66 + 2 * count, 2):
        first = wide(stream, gate)
        yield f"{gate} {first} {wide(stream, gate)}"


def stimulus_lines(start):
    """The lines of a stimulus."""
    stream = draws((start % STATES + 1) % STATES)
    for _ in range(8):
        yield "".join("1" if next(stream) % 2 else "0" for _ in range(16))


def texts(kind, start, count):
    """The texts of both slots."""
    if kind == "eval":
        lines = circuit_lines(start, count), stimulus_lines(start)
    else:
        lines = command_lines(kind, start, count), ()
    return tuple("".join(f"{line}\n" for line in it).encode() for it in lines)


# how an add joins its value to that of its key
COMBINERS = {
    "sum": lambda old, value: (old + value) % 2**64,
    "max": max,
    "min": min,
    "xor": lambda old, value: old ^ value,
}


def map_answers(lines, combine="sum"):
    """What a map in memory prints: at each sync, and at the end, the answers that weren't printed."""
    held, waiting = {}, []
    for line in lines:
        word, *numbers = line.split()
        if word == "put":
            held[numbers[0]] = numbers[1]
        elif word == "add":
            key, value = numbers
            held[key] = str(COMBINERS[combine](int(held[key]), int(value))) if key in held else value
        elif word == "del":
            held.pop(numbers[0], None)
        elif word == "get":
            waiting.append(held.get(numbers[0], "-"))
        else:
            yield from waiting
            waiting = []
    yield from waiting


def queue_answers(lines):
    """What a heap in memory prints."""
    heap = []
    for number, line in enumerate(lines):
        word, *numbers = line.split()
        if word == "push":
            heapq.heappush(heap, (int(numbers[0]), number, numbers[1]))
        elif heap:
            key, _, value = heapq.heappop(heap)
            yield f"{key} {value}"
        else:
            yield "-"


def stab_answers(lines):
    """What a list of intervals in memory prints."""
    intervals = []
    for line in lines:
        word, *numbers = line.split()
        if word == "iv":
            intervals.append(tuple(map(int, numbers)))
        else:
            point = int(numbers[0])
            yield " ".join(str(i) for i, (low, high) in enumerate(intervals) if low <= point <= high) or "-"


def answers(kind, start, count):
    """What a plain program prints for the made texts."""
    first, second = texts(kind, start, count)
    if kind == "eval":
        output, message, code = aiger.answer(first, second)
        assert (message, code) == ("", 0), message
        return output.encode()
    plain = {"map": map_answers, "queue": queue_answers, "stab": stab_answers}[kind]
    return "".join(f"{line}\n" for line in plain(first.decode().splitlines())).encode()


def summary(kind, count, output):
    """The line of a run that printed this."""
    return f"{kind} {count} lines {output.count(10)} bytes {len(output)} sum {sum(output) % (1 << 64)}\n"


def wanted(command):
    """The output that a row's command must have, or None if it isn't one of `gen`."""
    found = COMMAND.fullmatch(command)
    if not found:
        return None
    kind, start, count = found[1], int(found[2]), int(found[3])
    return summary(kind, count, answers(kind, start, count)).encode()


def ran(program, folder, *words):
    """The output and the error stream of a run that must end with code 0."""
    child = subprocess.run([program, *words], cwd=folder, stdin=subprocess.DEVNULL, stdout=subprocess.PIPE,
                           stderr=subprocess.PIPE, timeout=600)
    if child.returncode:
        sys.exit(f"made.py: {words} ended with {child.returncode}: {child.stderr.decode()}")
    return child.stdout, child.stderr


def run():
    """Runs the program on each text and as `gen`, at the smallest shape, and on the text at the default shape, and says what differs."""
    program = os.path.abspath(os.environ.get("EMTOOL") or os.path.join(TOP, "emtool"))
    wrong = 0
    with tempfile.TemporaryDirectory(prefix="emtool-made-") as folder:
        for kind, start, count in TRIED:
            names = ["first", "second"][: 2 if kind == "eval" else 1]
            for name, text in zip(names, texts(kind, start, count)):
                with open(os.path.join(folder, name), "wb") as it:
                    it.write(text)
            options = [*SMALLEST, "--stats"]
            printed, cost = ran(program, folder, kind, *options, *names)
            line, made_cost = ran(program, folder, "gen", *options, kind, str(start), str(count))
            plain = answers(kind, start, count)
            larger, _ = ran(program, folder, kind, *names)
            title = f"{kind} {start} {count}"
            for what, same in (("answers", printed == plain), ("answers at the default shape", larger == plain), ("summary", line.decode() == summary(kind, count, plain)),
                               ("moves and peak", cost == made_cost)):
                if not same:
                    wrong += 1
                    print(f"WRONG {title}: other {what}")
            print(f"{title}: {cost.decode().strip()}")
    print(f"{len(TRIED)} made texts, {wrong} wrong")
    return 1 if wrong else 0


def main(words):
    if words == ["--run"]:
        return run()
    shows = words[:1] == ["--text"]
    words = words[1:] if shows else words
    if len(words) != 3 or words[0] not in KINDS:
        print(__doc__, file=sys.stderr)
        return 1
    kind, start, count = words[0], int(words[1]), int(words[2])
    if shows:
        sys.stdout.write("\n".join(it.decode() for it in texts(kind, start, count) if it))
    else:
        sys.stdout.write(summary(kind, count, answers(kind, start, count)))
    return 0


if __name__ == "__main__":
    sys.exit(main(sys.argv[1:]))
