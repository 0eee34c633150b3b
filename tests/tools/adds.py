#!/usr/bin/env python3
"""Drawn map files with adds: `emtool map` must print at two shapes, with each combiner, what a map in memory answers.

tests/tools/adds.py --run            runs the program on the files that the gate tries
tests/tools/adds.py --run FROM TO    on those of these numbers
tests/tools/adds.py --early --run .. does the same, and runs `emtool map --early` on each file too, as the gate does
tests/tools/adds.py --dump --run ..  does the same, and runs `emtool dump` on each file too, as the gate does; both may be asked for
tests/tools/adds.py NUMBER FILE      writes the file of a number

Each file has puts, dels, gets, adds and syncs of a few keys or of many, with values at both ends of the range. In the last 6 of each 26
files most commands are adds of few keys, and each sync, and the file's end, comes at the end of a load, one command before it or one after
it. A load is as many commands as an area has records.
`emtool map --early` joins the adds of each load. It must print the same, and make at most (y + 1)·cost(n') moves, for y syncs and the size
n' of the joined file (`joined_size`). `emtool dump` must print the pairs that the map in memory has at the end (dumps.py), and make at most
2·(y + 1)·cost(n) moves, for n commands.
The program is the one that `rt ci` or `./emtool` built, or the one that EMTOOL names.
"""
import itertools
import os
import random
import re
import subprocess
import sys
import tempfile

sys.dont_write_bytecode = True
HERE = os.path.dirname(os.path.abspath(__file__))
TOP = os.path.dirname(os.path.dirname(HERE))
sys.path.insert(0, HERE)
import dumps
import made

# the words, the records of a block, and the frames
SHAPES = (["--block=128", "--frames=64"], 128, 64), ([], 1024, 256)
# how many commands after the end of a load a sync or the file's end comes
ENDS = -1, 0, 1
# how many of the files that the gate tries are drawn line by line; of the others there is one for each shape and end
BY_LINES = 20
CASES = list(itertools.product(SHAPES, ENDS))
TRIED = BY_LINES + len(CASES)
GREATEST = 2**64 - 1
# numbers of keys and of lines: at the smallest shape a leaf has at most 4096 records
KEYS = 1, 3, 40, 1_000, 8_000
LINES = 0, 1, 30, 2_000, 20_000
# numbers of keys in a file of loads, and how often a command isn't an add
FEW = 1, 2, 5, 40
OTHERS = 0.005, 0.05, 0.3
MOVES = re.compile(r"moves (\d+) peak \d+\n")

# worked by hand: how many commands a load has, a file, and the size of the joined file
WORKED = (
    (64, "put 1 5, add 1 1, get 1, add 1 1, add 1 1, get 1", 5),
    (64, "add 7 1, add 3 5, add 7 2, get 7, add 7 4", 4),
    # a command of another key ends no run
    (64, "add 1 1, put 2 5, get 2, del 2, add 1 1", 4),
    (64, "add 1 1, put 1 5, add 1 1, del 1, add 1 1", 5),
    (64, "add 1 1, sync, add 1 1", 3),
    # a load that is full
    (2, "add 1 1, add 1 1, add 1 1", 2),
    (1, "add 1 1, add 1 1, get 1", 3),
    # a sync after a full load, as the last command of one, and before a load is full
    (2, "add 1 1, add 1 1, sync, add 1 1, add 1 1", 3),
    (3, "add 1 1, add 1 1, sync, add 1 1, add 1 1, add 1 1", 3),
    (4, "add 1 1, add 1 1, sync, add 1 1, add 1 1, add 1 1, add 1 1", 3),
)
# the same of a cost: the size, the records of a block, the frames, and the cost
WORKED_COSTS = (0, 128, 64, 2048), (129, 128, 64, 2048 * 3 * 2), (1_000_000, 1024, 256, 2048 * 978 * 3)


def joined_size(commands, load):
    """The size of a file whose adds are joined early: how many runs it has, and how many commands that aren't adds.

    Loads have so many commands, in the order of the file. A sync, or the file's end, closes one early, and the sync belongs to it. A run is
    a longest list of adds of one key within a load that has no other command of that key between two of them.
    """
    size = taken = 0
    # the keys whose last command in this load is an add
    running = set()
    for command in commands:
        if command[0] != "add":
            size += 1
            running.difference_update(command[1:2])
        elif command[1] not in running:
            size += 1
            running.add(command[1])
        taken += 1
        if taken == load or command[0] == "sync":
            taken = 0
            running.clear()
    return size


def cost(size, block, frames):
    """The transfer cost of so many commands."""
    left = blocks = -(-size // block)
    levels = 0
    while left > 1:
        left = -(-left // (frames // 4))
        levels += 1
    return 2048 * (blocks + 1) * (1 + levels)


def load_of(block, frames):
    """The records of an area."""
    return frames // 8 * block


def most_moves(lines, block, frames):
    """How many blocks may be moved for a file whose adds are joined early."""
    commands = [it.split() for it in lines]
    size = joined_size(commands, load_of(block, frames))
    return (commands.count(["sync"]) + 1) * cost(size, block, frames)


def most_moves_of_dump(lines, block, frames):
    """How many blocks may be moved for a file that is dumped."""
    return 2 * (lines.count("sync\n") + 1) * cost(len(lines), block, frames)


def check_worked():
    """Stops unless each row that was worked by hand comes out."""
    for load, text, size in WORKED:
        assert joined_size(map(str.split, text.split(", ")), load) == size, (load, text)
    # 153 loads, of which the last one has the get
    many = itertools.chain(itertools.repeat(["add", "7", "1"], 5_000_000), [["get", "7"]])
    assert joined_size(many, 32768) == 154
    for size, block, frames, due in WORKED_COSTS:
        assert cost(size, block, frames) == due, size


def number_of(draw):
    """A value: near one end of the range, or anywhere in it."""
    return draw.choice((draw.randrange(4), GREATEST - draw.randrange(4), draw.randrange(GREATEST + 1)))


def spread(numbers):
    """Keys all over the range."""
    return [i * 0x9E3779B97F4A7C15 & GREATEST for i in numbers]


def line_of(draw, word, key):
    """The line of a command."""
    operands = {"add": [key, number_of(draw)], "put": [key, number_of(draw)], "sync": []}.get(word, [key])
    return " ".join(map(str, [word, *operands])) + "\n"


def lines_by_weights(draw):
    """Lines that are drawn one by one."""
    # the least and the greatest key are among them
    keys = [0, GREATEST, *spread(range(1, draw.choice(KEYS)))]
    weights = [draw.randrange(1, 6) for _ in range(4)] + [draw.choice((0, 0.002))]
    for _ in range(draw.choice(LINES)):
        word, key = draw.choices(("add", "put", "del", "get", "sync"), weights)[0], draw.choice(keys)
        yield line_of(draw, word, key)


def lines_of_adds(draw, keys, count):
    """So many lines, most of them adds. The others have the key of the last add, whose run ends there, or any key."""
    others = draw.choice(OTHERS)
    last = draw.choice(keys)
    for _ in range(count):
        if draw.random() < others:
            yield line_of(draw, draw.choice(("put", "del", "get")), draw.choice((last, draw.choice(keys))))
        else:
            last = draw.choice(keys)
            yield line_of(draw, "add", last)


def lines_by_loads(draw, load, end):
    """Lines of adds with a sync at each of `ENDS`, and one that follows no command. The file's end comes at the end that is given."""
    keys = spread(range(draw.choice(FEW)))
    counts = [load * draw.randrange(1, 3) + it for it in ENDS] + [0]
    draw.shuffle(counts)
    for count in counts:
        yield from lines_of_adds(draw, keys, count)
        yield "sync\n"
    # at the end all keys are asked for
    yield from lines_of_adds(draw, keys, load * draw.randrange(1, 3) + end - len(keys))
    yield from (line_of(draw, "get", key) for key in keys)


def lines_of(number):
    """The lines of the file of a number."""
    draw = random.Random(number)
    case = number % TRIED - BY_LINES
    if case < 0:
        return lines_by_weights(draw)
    (_, block, frames), end = CASES[case]
    return lines_by_loads(draw, load_of(block, frames), end)


def fault_of(program, folder, words, due, most=None):
    """What is wrong with a run over the file `commands`, or None. If there is a bound on its moves, it must tell them."""
    child = subprocess.run([program, *words, "commands"], cwd=folder, stdin=subprocess.DEVNULL, stdout=subprocess.PIPE,
                           stderr=subprocess.PIPE, timeout=600)
    told = child.stderr.decode()
    moves = MOVES.fullmatch(told)
    if (child.stdout.decode(), child.returncode) != (due, 0) or (told if most is None else not moves):
        return "isn't answered as by a map in memory"
    if most is not None and int(moves[1]) > most:
        return f"moves {moves[1]} blocks, more than {most}"
    return None


def runs_of(lines, options):
    """The words of each run over a file but for the combiner, and its most moves if they are asked for."""
    for words, block, frames in SHAPES:
        yield ["map", *words], None
        if "--early" in options:
            yield ["map", *words, "--stats", "--early"], most_moves(lines, block, frames)
        if "--dump" in options:
            yield ["dump", *words, "--stats"], most_moves_of_dump(lines, block, frames)


def run(numbers, options):
    """Runs the program on the files of these numbers, and says what differs."""
    program = os.path.abspath(os.environ.get("EMTOOL") or os.path.join(TOP, "emtool"))
    wrong = gets = pairs = 0
    with tempfile.TemporaryDirectory(prefix="emtool-adds-") as folder:
        for number in numbers:
            lines = list(lines_of(number))
            runs = list(runs_of(lines, options))
            with open(os.path.join(folder, "commands"), "w") as it:
                it.writelines(lines)
            for kind in made.COMBINERS:
                due = {
                    "map": "".join(f"{it}\n" for it in made.map_answers(lines, kind)),
                    "dump": dumps.answer("".join(lines).encode(), kind)[0],
                }
                gets, pairs = gets + due["map"].count("\n"), pairs + due["dump"].count("\n")
                for words, most in runs:
                    words = [*words, f"--combine={kind}"]
                    fault = fault_of(program, folder, words, due[words[0]], most)
                    if fault:
                        wrong += 1
                        print(f"WRONG {number}: {' '.join(words)} {fault}")
    print(f"{len(numbers)} drawn map files with adds, {gets} answers, {pairs} pairs: {wrong} wrong")
    if wrong or not gets or not pairs:
        sys.exit(1)


def main(words):
    check_worked()
    options = list(itertools.takewhile(lambda it: it in ("--early", "--dump"), words))
    words = words[len(options) :]
    if words == ["--run"]:
        run(range(TRIED), options)
    elif len(words) == 3 and words[0] == "--run":
        run(range(int(words[1]), int(words[2])), options)
    elif len(words) == 2 and not options:
        with open(words[1], "w") as it:
            it.writelines(lines_of(int(words[0])))
    else:
        sys.exit(__doc__)


if __name__ == "__main__":
    main(sys.argv[1:])
