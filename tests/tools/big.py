#!/usr/bin/env python3
"""Large files of random commands and large circuits, and the program's answers to them beside those of the baselines of
bench/. The gate doesn't run it.

tests/tools/big.py KIND COUNT FILE            writes COUNT commands of a map, queue or stab file
tests/tools/big.py eval COUNT FILE STIMULUS   writes a circuit of COUNT gates in straight order, and a stimulus
tests/tools/big.py --compare KIND COUNT       runs the baselines on such a file, and the program at three shapes: all must print
                                              the same
tests/tools/big.py --plain KIND COUNT         compares the baselines with the plain answers of made.py and aiger.py, without the
                                              program; those that sort also with blocks of 4 records and 3 frames

Options, anywhere: --asks=PERCENT of the commands are gets, pops or stabs (25), also as 0.1; --keys=N, keys and points are below
it (COUNT); --start=N, another file of the same kind (1); of `map` --syncs=N lines `sync` (0), around each of which a stripe of keys is put and
deleted; of `eval` --latches=N (32) and --steps=N, lines of the stimulus (8). A circuit
with --latches=0 is evaluated 64 lines at once too, by the program with --wide and by its baseline.

The program is the one that `rt ci` or `./emtool` built, or the one that EMTOOL names.
"""
import filecmp
import math
import os
import random
import subprocess
import sys
import tempfile
import time

sys.dont_write_bytecode = True
HERE = os.path.dirname(os.path.abspath(__file__))
TOP = os.path.dirname(os.path.dirname(HERE))
sys.path.insert(0, HERE)
import aiger
import made
import networks
import wide

# the baselines of each kind, programs of bench/
BASELINES = {
    "map": ("map_stl", "map_sort"),
    "queue": ("queue_stl", "queue_merge"),
    "stab": ("stab_sweep", "stab_sort"),
    "eval": ("circuit",),
}
SORTING = "map_sort", "queue_merge", "stab_sort"
# the shapes that --compare runs: records of a block, and frames; the last is the default
SHAPES = (128, 64), (512, 128), (1024, 256)
LATCHES, STEPS = 32, 8
# the baseline of `eval --wide` is that of `eval` with this flag
LANES = "-DLANES=64"


def map_lines(count, asks, keys, draw, syncs=0):
    """Of the commands that aren't gets, one in five is a del. Around each of the syncs, which stand at equal distances, a stripe of
    keys is put before it and deleted after it."""
    puts = asks + (1 - asks) * 4 / 5
    every = count // syncs if syncs else count + 1
    stripe = min(every // 4, keys // 4 + 1)
    for i in range(1, count + 1):
        place, part = i % every, i // every
        low = part * stripe % keys
        if syncs and place == 0:
            yield "sync\n"
        elif syncs and every - place <= stripe:
            yield f"put {(low + every - place) % keys} {i}\n"
        elif syncs and part and place <= stripe:
            yield f"del {(low - stripe + place) % keys}\n"
        else:
            word, key = draw(), int(draw() * keys)
            yield f"get {key}\n" if word < asks else f"put {key} {i}\n" if word < puts else f"del {key}\n"


def queue_lines(count, asks, keys, draw):
    for i in range(1, count + 1):
        yield "pop\n" if draw() < asks else f"push {int(draw() * keys)} {i}\n"


def stab_lines(count, asks, keys, draw):
    """Intervals of all widths: for N keys, a share of N / (COUNT * w) is w wide at least. So a point is in about ln COUNT."""
    for _ in range(count):
        word, low = draw(), int(draw() * keys)
        if word < asks:
            yield f"stab {low}\n"
        else:
            yield f"iv {low} {min(low + int(keys / (count * (1 - draw()))), keys - 1)}\n"


def circuit_lines(gates, inputs=64, latches=LATCHES, outputs=64):
    """A circuit in straight order. A rule with a fixed start draws the literals: operands of each gate from those below
    it, next values and outputs from all."""
    drawn = 1

    def literal(below):
        nonlocal drawn
        drawn = (drawn * 6364136223846793005 + 1442695040888963407) % (1 << 64)
        return (drawn >> 33) % below

    first = 1 + inputs + latches
    most = inputs + latches + gates
    yield f"aag {most} {inputs} {latches} {outputs} {gates}\n"
    yield from (f"{2 * (1 + i)}\n" for i in range(inputs))
    yield from (f"{2 * (1 + inputs + i)} {literal(2 * most + 2)}\n" for i in range(latches))
    yield from (f"{literal(2 * most + 2)}\n" for _ in range(outputs))
    yield from (f"{2 * v} {literal(2 * v)} {literal(2 * v)}\n" for v in range(first, first + gates))


def renumbered_lines(gates):
    """The same circuit, its gates with other variables, drawn from those that they had: several passes find them."""
    lines = list(circuit_lines(gates))
    most, inputs, latches = (int(it) for it in lines[0].split()[1:4])
    variables = list(range(1 + inputs + latches, most + 1))
    random.Random(1).shuffle(variables)
    variables = [*range(1 + inputs + latches), *variables]
    for line in lines[:1]:
        yield line
    for line in lines[1:]:
        yield " ".join(str(2 * variables[it // 2] + it % 2) for it in map(int, line.split())) + "\n"


def network_lines(network, word):
    """The lines of a network without latches whose outputs are the literals of a word."""
    inputs = len(network.input_names)
    yield f"aag {inputs + len(network.gates)} {inputs} 0 {len(word)} {len(network.gates)}\n"
    yield from (f"{2 * it}\n" for it in range(1, inputs + 1))
    yield from (f"{it}\n" for it in word)
    yield from ("{} {} {}\n".format(*it) for it in network.gates)


def adder_lines(gates):
    """An adder of which a carry goes from bit to bit: nine gates a bit."""
    bits = gates // 9
    network = networks.Network(networks.names("a", bits) + networks.names("b", bits), [])
    total, carry = network.sum([2 * it for it in range(1, bits + 1)], [2 * it for it in range(bits + 1, 2 * bits + 1)])
    return network_lines(network, [*total, carry])


def multiplier_lines(gates):
    """A multiplier that adds a row for each bit: ten gates for each pair of bits."""
    bits = math.isqrt(gates // 10)
    network = networks.Network(networks.names("a", bits) + networks.names("b", bits), [])
    return network_lines(network, networks.product(network, network.word("a", bits), network.word("b", bits)))


# circuits by name: their gates, and their lines
CIRCUITS = {
    "operands at random": (1_000_000, circuit_lines),
    "variables at random": (100_000, renumbered_lines),
    "an adder": (1_000_000, adder_lines),
    "a multiplier": (1_000_000, multiplier_lines),
}


def in_binary(lines):
    """The binary form of a circuit in straight order without bad literals, from the lines of its ASCII form."""
    most, inputs, latches, outputs, _ = (int(it) for it in lines[0].split()[1:])
    first = 1 + inputs + latches + outputs
    words = [it.split() for it in lines]
    text = lines[0].replace("aag", "aig") + "".join(it[-1] + "\n" for it in words[1 + inputs : first])
    found = bytearray(text.encode())
    for left, *pair in ([int(it) for it in line] for line in words[first:]):
        found += wide.delta(left - max(pair)) + wide.delta(max(pair) - min(pair))
    return bytes(found)


def stimulus_lines(inputs=64, steps=STEPS):
    """A stimulus: the bit of input i in step t is bit 3 of the number 5 * i + 7 * t, and 1 more for every 16 steps, so that no
    group of 64 lines is the one before it."""
    for t in range(steps):
        yield "".join(str((5 * i + 7 * t + t // 16) >> 3 & 1) for i in range(inputs)) + "\n"


def write_files(kind, count, paths, asks=25, keys=None, start=1, latches=LATCHES, steps=STEPS, syncs=0):
    """Writes a command file, or a circuit and its stimulus."""
    if kind == "eval":
        texts = circuit_lines(count, latches=latches), stimulus_lines(steps=steps)
    else:
        lines = {"map": map_lines, "queue": queue_lines, "stab": stab_lines}[kind]
        more = {"syncs": syncs} if kind == "map" else {}
        texts = (lines(count, asks / 100, keys or count, random.Random(start).random, **more),)
    for path, text in zip(paths, texts, strict=True):
        with open(path, "w") as file:
            file.writelines(text)


def names_of(kind):
    """The names of a kind's files."""
    return ["circuit.aag", "stimulus"] if kind == "eval" else ["commands"]


def sorting_bound(records, block, frames):
    """The sorting bound in block moves: 2 * q * (1 + ceil(log q)) for q blocks of records, to the base of the frames."""
    blocks = -(-records // block)
    passes, reached = 1, 1
    while reached < blocks:
        passes, reached = passes + 1, reached * frames
    return 2 * blocks * passes


def compiled(name, folder, *flags):
    """The program of a C or C++ file of bench/."""
    program = os.path.join(folder, name + "".join(flags))
    source = os.path.join(TOP, "bench", name)
    command = [os.environ.get("CC", "cc"), source + ".c"]
    if not os.path.exists(command[1]):
        command = [os.environ.get("CXX", "c++"), source + ".cc"]
    subprocess.run([*command, "-O2", "-Wall", "-Wextra", *flags, "-o", program], check=True)
    return program


def ran(title, command, folder, answers):
    """Runs a command, and keeps what it prints in a file. What it writes to the error stream is shown."""
    start = time.perf_counter()
    with open(os.path.join(folder, answers), "wb") as output:
        child = subprocess.run(command, cwd=folder, stdin=subprocess.DEVNULL, stdout=output, stderr=subprocess.PIPE)
    print(f"  {title:40} {time.perf_counter() - start:9.2f} s  {child.stderr.decode().strip()}", flush=True)
    if child.returncode:
        sys.exit(f"big.py: {command} ended with {child.returncode}")


def plain_answers(kind, folder, answers):
    """Keeps what a plain program prints in a file."""
    texts = []
    for name in names_of(kind):
        with open(os.path.join(folder, name), "rb") as file:
            texts.append(file.read())
    if kind == "eval":
        output = aiger.answer(*texts)[0]
    else:
        plain = {"map": made.map_answers, "queue": made.queue_answers, "stab": made.stab_answers}[kind]
        output = "".join(f"{line}\n" for line in plain(texts[0].decode().splitlines()))
    with open(os.path.join(folder, answers), "w") as file:
        file.write(output)


def runs_of(kind, count, with_program, wide, folder):
    """The title and the command of each run that must print the same. If `wide`, the lines of a stimulus are evaluated 64 at once
    too."""
    for name in BASELINES[kind]:
        yield name, [compiled(name, folder), *names_of(kind)]
        if wide:
            yield name + ", 64 lines at once", [compiled(name, folder, LANES), *names_of(kind)]
        if not with_program and name in SORTING:
            yield name + ", 3 blocks of 4", [compiled(name, folder, "-DBLOCK=4", "-DFRAMES=3"), *names_of(kind)]
    if with_program:
        program = os.path.abspath(os.environ.get("EMTOOL") or os.path.join(TOP, "emtool"))
        for block, frames in SHAPES:
            options = [f"--block={block}", f"--frames={frames}", "--stats"]
            bound = f", sorting bound {sorting_bound(count, block, frames)}" if kind != "eval" else ""
            yield f"emtool, B = {block}, m = {frames}{bound}", [program, kind, *options, *names_of(kind)]
            if wide:
                yield f"emtool --wide, B = {block}, m = {frames}", [program, kind, "--wide", *options, *names_of(kind)]


def compare(kind, count, options, with_program):
    """Runs all on one file, and says which print something else than the first."""
    wrong = []
    with tempfile.TemporaryDirectory(prefix="emtool-big-") as folder:
        write_files(kind, count, [os.path.join(folder, name) for name in names_of(kind)], **options)
        print(f"{kind}, {count} {'gates' if kind == 'eval' else 'lines'}", *(f"{name} {it}" for name, it in options.items()))
        first = None if with_program else "plain"
        if first:
            plain_answers(kind, folder, first)
        wide = kind == "eval" and options.get("latches") == 0
        for number, (title, command) in enumerate(runs_of(kind, count, with_program, wide, folder)):
            answers = f"answers{number}"
            ran(title, command, folder, answers)
            first = first or answers
            if not filecmp.cmp(os.path.join(folder, first), os.path.join(folder, answers), shallow=False):
                wrong.append(title)
        size = os.path.getsize(os.path.join(folder, first))
    print("".join(f"  WRONG: {title} prints something else\n" for title in wrong), end="")
    print(f"  {size} bytes of answers, {len(wrong)} wrong")
    return 1 if wrong else 0


def main(words):
    try:
        options = {name[2:]: it for name, _, it in (word.partition("=") for word in words if "=" in word)}
        options = {name: float(it) if name == "asks" else int(it) for name, it in options.items()}
        words = [word for word in words if "=" not in word]
        mode = words.pop(0) if words[0] in ("--compare", "--plain") else None
        kind, count, paths = words[0], int(words[1]), words[2:]
        known = {"latches", "steps"} if kind == "eval" else {"asks", "keys", "start"} | ({"syncs"} if kind == "map" else set())
        fits = len(paths) == (0 if mode else len(names_of(kind)))
        if not fits or kind not in BASELINES or count < 1 or not set(options) <= known:
            raise ValueError
    except (ValueError, IndexError):
        print(__doc__, file=sys.stderr)
        return 1
    if mode:
        return compare(kind, count, options, mode == "--compare")
    write_files(kind, count, paths, **options)
    return 0


if __name__ == "__main__":
    sys.exit(main(sys.argv[1:]))
