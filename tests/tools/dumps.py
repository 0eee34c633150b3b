#!/usr/bin/env python3
"""What `emtool dump` prints of a file, by a map in memory and the rules of docs/FORMATS.md, "Command files" and "Output".

tests/tools/dumps.py FILE          prints the pairs of a file, or its first fault
tests/tools/dumps.py COMBINER FILE prints them for the adds of `--combine=COMBINER`
"""
import os
import sys

sys.dont_write_bytecode = True
HERE = os.path.dirname(os.path.abspath(__file__))
sys.path.insert(0, HERE)
import made

# how many operands each word has
WORDS = {b"put": 2, b"add": 2, b"del": 1, b"get": 1, b"sync": 0}


def fault_of(line):
    """The kind of a line's fault, or None."""
    if not line:
        return "EmptyLine"
    word, *operands = line.split(b" ")
    if word not in WORDS:
        return "Unknown"
    for it in operands[: WORDS[word]]:
        if not it:
            return "BadSeparator"
        if len(it) > 20 or not it.isdigit():
            return "BadNumber"
        if int(it) >= 2**64:
            return "TooLarge"
    return None if len(operands) == WORDS[word] else "BadSeparator"


def step(held, line, combine):
    """Changes a map in memory by a command."""
    word, *numbers = line.split(b" ")
    numbers = [int(it) for it in numbers]
    if word == b"put":
        held[numbers[0]] = numbers[1]
    elif word == b"del":
        held.pop(numbers[0], None)
    elif word == b"add":
        key, value = numbers
        held[key] = made.COMBINERS[combine](held[key], value) if key in held else value


def answer(text, combine="sum"):
    """The output, the message and the exit code of `emtool dump` over a file of these bytes."""
    lines = text.split(b"\n")
    lines = lines if lines[-1] else lines[:-1]
    held = {}
    for number, line in enumerate(lines, 1):
        fault = fault_of(line)
        if fault:
            return "", f"emtool: malformed: {fault} at {number}\n", 2
        step(held, line, combine)
    return "".join(f"{key} {held[key]}\n" for key in sorted(held)), "", 0


def main(words):
    if len(words) not in (1, 2) or len(words) == 2 and words[0] not in made.COMBINERS:
        sys.exit(__doc__)
    with open(words[-1], "rb") as it:
        output, message, code = answer(it.read(), *words[:-1])
    sys.stdout.write(output)
    sys.stderr.write(message)
    return code


if __name__ == "__main__":
    sys.exit(main(sys.argv[1:]))
