#!/usr/bin/env python3
"""Counts the lines of each crate, and writes the table of them in docs/PROOFS.md.

    tools/lines.py [--write]

Without a word it prints the table. tests/papers.py holds the document to it.
"""
import re
import sys

from antt import CRATES, ROOT

PAPER = ROOT / "docs/PROOFS.md"
HEAD = ["| crate | code | of it tests | definitions | proofs | edits that must fail |", "|---|---:|---:|---:|---:|---:|"]


def crates():
    """The names of crates.txt, in its order."""
    lines = (ROOT / "crates.txt").read_text().splitlines()
    return [line.split(":")[0].split()[0] for line in lines if line.strip() and not line.startswith("#")]


def lines_of(files):
    return sum(len(file.read_text().splitlines()) for file in files)


def tests_of(source):
    """The files that are compiled for tests alone, by the root file of the crate."""
    root = next(file for file in (source / "lib.rt", source / "main.rt") if file.is_file())
    return [source / (name + ".rt") for name in re.findall(r"#\[cfg\(test\)\]\nmod (\w+);", root.read_text())]


def counts(crate):
    """Lines of code, of it tests, of definitions and of proofs, each with its blank lines; and the number of edits."""
    folder = CRATES / crate
    edits = len(list(folder.glob("must-fail/*.edit")))
    return [
        lines_of(folder.glob("src/**/*.rt")),
        lines_of(tests_of(folder / "src")),
        lines_of(folder.glob("specs/**/*.antt")),
        lines_of(folder.glob("proofs/**/*.antt")),
        edits,
    ]


def table():
    rows = {"`%s`" % crate: counts(crate) for crate in crates()}
    rows["all"] = [sum(column) for column in zip(*rows.values())]
    return HEAD + ["| %s | %s |" % (name, " | ".join("{:,}".format(count) for count in row)) for name, row in rows.items()]


def with_table(text):
    """The document with this table in the place of the one with its head."""
    lines = text.splitlines()
    first = last = lines.index(HEAD[0])
    while last < len(lines) and lines[last].startswith("|"):
        last += 1
    return "\n".join(lines[:first] + table() + lines[last:]) + "\n"


def faults():
    text = PAPER.read_text()
    if with_table(text) != text:
        yield "docs/PROOFS.md: the table of lines is not what tools/lines.py counts; tools/lines.py --write writes it"


def main():
    if sys.argv[1:] == ["--write"]:
        PAPER.write_text(with_table(PAPER.read_text()))
    else:
        print("\n".join(table()))


if __name__ == "__main__":
    main()
