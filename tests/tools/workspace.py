#!/usr/bin/env python3
"""The crates of the repository: which stand on which, and copies of some of them in which rt runs beside other runs of it.

tests/tools/workspace.py --above          writes into docs/ARCHITECTURE.md, between two comments, which crates stand on each
tests/tools/workspace.py --above NAME ..  prints all crates that are proved again after a change of these, lowest first
tests/tools/workspace.py --check          says whether that document has the table that --above writes now

rt lets one command at a time work on a crate and on all below it. So what is to run side by side has a copy each.
"""
import os
import shutil
import sys

TOP = os.path.dirname(os.path.dirname(os.path.dirname(os.path.abspath(__file__))))
CRATES = os.path.join(TOP, "crates")
# what a check of a crate reads
PARTS = ("src", "specs", "proofs", "c")
LIBRARY = "out/rlib"
DOCUMENT = os.path.join("docs", "ARCHITECTURE.md")
BEGIN, END = "<!-- above: begin -->\n", "<!-- above: end -->\n"


def listed():
    """The crates of crates.txt, each with the repository's libraries that it names."""
    found = {}
    with open(os.path.join(TOP, "crates.txt"), encoding="utf-8") as it:
        for line in it:
            name, colon, below = line.partition("#")[0].partition(":")
            if colon:
                found[name.split()[0]] = below.split()
    return {name: [it for it in below if it in found] for name, below in found.items()}


def with_below(names, crates):
    """These crates and all libraries of the repository below them, lowest first."""
    found = []

    def add(name):
        if name not in found:
            for it in crates[name]:
                add(it)
            found.append(name)

    for name in names:
        add(name)
    return found


def linked(source, to):
    """Copies a file. One that was proved gets a second name: rt replaces such a file, and never writes into it."""
    try:
        if source.endswith(".oantt") or f"/{LIBRARY}/" in source and os.path.basename(source) != "stamp":
            return os.link(source, to)
    except OSError:
        pass
    return shutil.copy2(source, to)


def copied(name, room, parts):
    """Copies what the folder of a crate has of these parts into the workspace `room`."""
    for part in parts:
        source = os.path.join(CRATES, name, part)
        if os.path.isdir(source):
            shutil.copytree(source, os.path.join(room, "crates", name, part), copy_function=linked)


def begun(room, names):
    """Makes the folder `room` the top of a workspace of these crates, which are still to be copied."""
    os.makedirs(os.path.join(room, ".git"))
    shutil.copyfile(os.path.join(TOP, "HANDLES"), os.path.join(room, "HANDLES"))
    with open(os.path.join(room, "crates.txt"), "w", encoding="utf-8") as to, open(os.path.join(TOP, "crates.txt"), encoding="utf-8") as it:
        to.writelines(line for line in it if line.partition(":")[0].split()[:1] and line.partition(":")[0].split()[0] in names)


def above(crates):
    """All crates that stand on each one, lowest first: those that are proved again after a change of it."""
    below = {name: set(with_below([name], crates)) - {name} for name in crates}
    order = with_below(crates, crates)
    return {name: [it for it in order if name in below[it]] for name in order}


def right_above(name, over):
    """Of the crates above one those that stand on no other of them."""
    return [it for it in over[name] if not any(it in over[other] for other in over[name])]


def table(crates):
    """The crates on which others stand, lowest first, each with those right above it and the number of all above it."""
    over = above(crates)
    rows = [f"| `{name}` | {', '.join(f'`{it}`' for it in right_above(name, over))} | {len(over[name])} |\n" for name in over if over[name]]
    return "".join(["| Changed | Right above it | All above it |\n", "|---|---|---|\n", *rows])


def parted(text):
    """A document before the table, the table, and the rest."""
    before, begin, rest = text.partition(BEGIN)
    found, end, after = rest.partition(END)
    if not end:
        sys.exit(f"tests/tools/workspace.py: {DOCUMENT} lacks the line {(END if begin else BEGIN).strip()}")
    return before + begin, found, end + after


def main(words):
    crates, path = listed(), os.path.join(TOP, DOCUMENT)
    unknown = [it for it in words[1:] if it not in crates]
    if words[:1] not in (["--above"], ["--check"]) or words[0] == "--check" and words[1:] or unknown:
        sys.exit(f"tests/tools/workspace.py: crates.txt has no {unknown[0]}" if unknown else __doc__)
    if words[1:]:
        over = above(crates)
        print("\n".join(it for it in over if it in words[1:] or any(it in over[name] for name in words[1:])))
        return
    with open(path, encoding="utf-8") as it:
        before, found, after = parted(it.read())
    if words == ["--above"]:
        with open(path, "w", encoding="utf-8") as to:
            to.write(before + table(crates) + after)
    elif found != table(crates):
        sys.exit(f"{DOCUMENT} has another table of crates than crates.txt: run tests/tools/workspace.py --above")


if __name__ == "__main__":
    main(sys.argv[1:])
