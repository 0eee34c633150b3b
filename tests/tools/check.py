#!/usr/bin/env python3
"""Checks the rows of `eval`, of `gen` and of `dump` without the program: the evaluator of aiger.py must give what each row says, the two
forms of a circuit must spell the same circuit, the made tables must be those that circuits.py makes, the summaries
of made texts those of made.py, and the pairs of a dump those of dumps.py.

tests/tools/check.py
"""
import glob
import os
import re
import sys
from importlib.machinery import SourceFileLoader

sys.dont_write_bytecode = True
HERE = os.path.dirname(os.path.abspath(__file__))
TESTS = os.path.dirname(HERE)
sys.path.insert(0, HERE)
import aiger
import circuits
import dumps
import made

# what the evaluator can answer: it has no blocks, and writes where it is told
COMMAND = re.compile(r"emtool eval(?: --(?:stats|block=\d+|frames=\d+|uninit=([01])|(wide)))* ([a-z]+) ([a-z]+)")
DUMP = re.compile(r"(?:ulimit -v \d+; )?emtool dump(?: --(?:stats|block=\d+|frames=\d+|blocks=\d{4,}|combine=(sum|max|min|xor)))* ([a-z]+)")
STATISTICS = re.compile(rb"moves (\d+|<= \d+)( peak (\d+|<= \d+))?\n\Z")
FORMS = re.compile(r"(.*), in (ASCII|binary)")


def given(row):
    """The circuit, the stimulus, the value of `--uninit` and whether `--wide` stands that a row's command names, or None if
    the evaluator can't run it."""
    found = COMMAND.fullmatch(row.command)
    return found and (row.files.get(found[3]), row.files.get(found[4]), found[1] and int(found[1]), bool(found[2]))


def answered(row):
    """What a row's circuit and stimulus are answered by, or None if the evaluator can't run its command."""
    if not given(row):
        return None
    output, message, code = aiger.answer(*given(row))
    return output.encode(), message.encode(), code


def spelled(row):
    """The circuit that a row spells."""
    circuit, _, uninit, _ = given(row)
    return vars(aiger.circuit_of(circuit, uninit))


def check_rows(rows):
    """The number of rows that the evaluator ran, and what it found wrong."""
    ran, wrong = 0, []
    for row in rows:
        found = answered(row)
        if found and not row.message.startswith(b"emtool: usage"):
            ran += 1
            message = STATISTICS.sub(b"", row.message) if "--stats" in row.command else row.message
            if found != (row.output, message, row.code or 0):
                wrong.append(f"{row.place}: {row.title}: the evaluator answers {found[1:]}")
    return ran, wrong


def check_dumps(rows):
    """The number of rows of `dump` that a map in memory answered, and those that it answers otherwise."""
    ran, wrong = 0, []
    for row in rows:
        found = DUMP.fullmatch(row.command)
        text = found and row.files.get(found[2])
        if text is not None:
            ran += 1
            output, message, code = dumps.answer(text, found[1] or "sum")
            if (output.encode(), message.encode(), code) != (row.output, STATISTICS.sub(b"", row.message), row.code or 0):
                wrong.append(f"{row.place}: {row.title}: a map in memory answers {message or output[:200]!r} with code {code}")
    return ran, wrong


def check_forms(rows):
    """The number of circuits in both forms, and what is wrong with them."""
    both, wrong, titles = 0, [], {}
    for row in rows:
        found = FORMS.fullmatch(row.title)
        if found:
            titles.setdefault(found[1], {})[found[2]] = row
    for title, forms in titles.items():
        if len(forms) != 2:
            wrong.append(f"{title}: it stands in one form alone")
            continue
        both += 1
        first, second = forms["ASCII"], forms["binary"]
        if spelled(first) != spelled(second):
            wrong.append(f"{second.place}: {title}: the two forms spell other circuits")
        if (first.files["s"], first.output) != (second.files["s"], second.output):
            wrong.append(f"{second.place}: {title}: the two forms have other stimuli or outputs")
    return both, wrong


def check_made():
    """The made tables that aren't what circuits.py makes."""
    wrong = []
    for name, text in circuits.tables().items():
        with open(os.path.join(TESTS, name), encoding="utf-8") as it:
            if it.read() != text:
                wrong.append(f"tests/{name}: it isn't what tests/tools/circuits.py makes")
    return wrong


def check_summaries(rows):
    """The number of rows with a summary of made texts, and those that have another one than made.py."""
    found = [(row, made.wanted(row.command)) for row in rows if not row.code]
    wrong = [f"{row.place}: {row.title}: made.py answers {it}" for row, it in found if it not in (None, row.output)]
    return sum(it is not None for _, it in found), wrong


def main():
    run = SourceFileLoader("run", os.path.join(TESTS, "run")).load_module()
    wrong, summaries, dumped = check_made(), 0, 0
    for table in sorted(glob.glob(os.path.join(TESTS, "rows", "*.rows"))):
        rows = run.rows_of(table)
        count, found = check_summaries(rows)
        summaries, wrong = summaries + count, wrong + found
        count, found = check_dumps(rows)
        dumped, wrong = dumped + count, wrong + found
        rows = [it for it in rows if it.command.startswith("emtool eval ")]
        ran, found = check_rows(rows)
        both, others = check_forms(rows)
        wrong += found + others
        if ran:
            place = os.path.basename(table)
            print(f"{place}: {ran} of {len(rows)} rows evaluated, {both} circuits in both forms")
    print(f"{summaries} summaries of made texts, {dumped} dumps")
    print("".join(f"WRONG {it}\n" for it in wrong) + f"{len(wrong)} wrong")
    return 1 if wrong else 0


sys.exit(main())
