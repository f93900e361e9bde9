"""Reads, writes, memory and threads that are refused one at a time, and a text that ends too soon: what is due of each.

    python3 tests/failing.py PATH_TO_HBIRD

The text of the accessors is cut at each length; what is due of each front was found by hand, token by token. For the others
tests/refusing.c is compiled, which stands before the C library; without a compiler they are skipped.
"""
import os
import shutil
import subprocess
import sys
import tempfile
from pathlib import Path

from bundles import BUNDLE
from bundles import TEXT as DERIVED
from turns import ACCESSORS, BUSY, FREE, HELD, HELLO, ONE, SET_UP

ROOT = Path(__file__).resolve().parent.parent
# No run here takes more of a kind.
MANY = 5000
PIECE = 10

# The tokens of the accessors, in their order. Each has what is due behind it and blanks: the word that is expected, or what is
# written where the front is a program. Then what is due in the middle of it: a name there is a name too, and has the same
# due as a name at its place, `here` says that the front itself goes nowhere, and else it is a fault that has its place.
HERE, OPEN, UNKNOWN = "here", "OpenText", "UnknownClass"
NAME = "Expected end"
NOTHING_RUN = ""


def method(first, behind):
    """The tokens of `type` or `def` with a name that is made, up to its closing parenthesis."""
    return [(first, "classname", NAME), ("A", "."), (".", "name"), ("(", "expression"), ('"get_"', ")", OPEN),
            ("++", "expression", "Expected expression"), ("str", "(", "Expected )"), ("(", "expression"), ("i", ")"), (")", ")"),
            (")", behind)]


TOKENS = [
    ("class", "classname", HERE), ("A", NOTHING_RUN),
    ("setup", "end", HERE),
    ("i", "end"), ("=", "expression"), ("1", "end"),
    ("while", "expression", NAME), ("i", "do"), ("<", "expression"), ("4", "do"), ("do", "end", HERE),
    *method("type", ":"), (":", "("), ("(", ")"), (")", "->"), ("->", "type", HERE), ("Int", "end", UNKNOWN),
    *method("def", "("), ("(", ")"), (")", "end"), ("7", "end"), ("end", "end", HERE),
    ("i", "end"), ("=", "expression"), ("i", "end"), ("+", "expression"), ("1", "end"),
    ("end", "end", NAME),
    ("end", SET_UP, NAME),
    ("script", "name", HERE), ("main", "end", NAME),
    ("print", "expression", NAME), ("A", "."), (".", "new"), ("new", "end", HERE), (".", "name"), ("get_2", "end", NAME),
    ("end", SET_UP + "script main\n> 7\ndone\n" + ONE, NAME),
]
WORDS = {"classname", "end", "expression", "do", ".", "name", ")", "(", ":", "->", "type", "new"}


def place(text):
    """The place behind a text."""
    return "%d:%d" % (text.count("\n") + 1, len(text) - text.rfind("\n"))


def due_behind(front, behind):
    """What is due of a front that ends behind a token and blanks: the answer and the status."""
    return ("text Expected %s %s\n" % (behind, place(front)), 1) if behind in WORDS else (behind, 0)


def due_within(front, part, before, within):
    """What is due of a front that ends in the middle of a token."""
    if within in (OPEN, UNKNOWN):
        return "text %s %s\n" % (within, place(front)), 1
    if within == HERE:
        return "text Expected %s %s\n" % (before if before in WORDS else "item", place(front)), 1
    return "text %s %s\n" % (within, place(front + part)), 1


def fronts():
    """Each front of the accessors, with what is due of it."""
    at, before = 0, NOTHING_RUN
    yield "", (NOTHING_RUN, 0)
    for token, behind, *within in TOKENS:
        start = ACCESSORS.index(token, at)
        for length in range(at + 1, start + 1):
            yield ACCESSORS[:length], due_behind(ACCESSORS[:length], before)
        for length in range(1, len(token)):
            yield ACCESSORS[:start + length], due_within(ACCESSORS[:start], token[:length], before, *within)
        at, before = start + len(token), behind
        yield ACCESSORS[:at], due_behind(ACCESSORS[:at], before)
    yield ACCESSORS, due_behind(ACCESSORS, before)


def ran(program, words, text, **more):
    return subprocess.run([program, *words.split()], input=text.encode(), stdout=subprocess.PIPE, stderr=subprocess.PIPE,
                          env=dict(os.environ, **more), timeout=60)


def wrong_fronts(program):
    found = list(fronts())
    if [front for front, _ in found] != [ACCESSORS[:length] for length in range(len(ACCESSORS) + 1)]:
        yield "the fronts are not those of the text"
    for front, due in found:
        done = ran(program, "run", front)
        came = done.stdout.decode(), done.returncode
        if came != due:
            yield "%r: %r is due, and %r came" % (front, due, came)


class Refusing:
    """Runs of the program with the library before the C library that refuses."""

    def __init__(self, program, library):
        self.program, self.library, self.tried, self.wrong, self.dues = program, str(library), 0, [], []

    def expect(self, what, is_right, came):
        self.tried += 1
        if not is_right:
            self.wrong.append("%s: %r came" % (what, came))

    def run(self, words, text, **more):
        """What is written and the status, and whether anything was refused."""
        values = {name: str(value) for name, value in more.items()}
        done = ran(self.program, words, text, LD_PRELOAD=self.library, **values)
        return (done.stdout.decode(), done.returncode), bool(done.stderr)

    def each(self, kind, words, text, due, step=1, **more):
        """Refuses one after another, until none is refused any more, with what `due` says of each. Gives how many there were."""
        for number in range(1, MANY, step):
            came, is_refused = self.run(words, text, **{"REFUSE_" + kind: number}, **more)
            what = "%s, where number %d of %s is refused, with %s" % (words, number, kind, more)
            self.expect(what, due(number, came) if is_refused else came in self.dues, came)
            if not is_refused:
                return number - 1
        return MANY

    def reads(self, words, text):
        """Each read fails that is made of the text in small pieces."""
        count = self.each("READ", words, text, lambda _, came: came == ("", 4), PIECE=PIECE)
        self.expect("the reads of " + words, count == -(-len(text) // PIECE) + 1, count)

    def writes(self, words, text):
        """Each write fails that is made in small pieces: what was written before it is a front of what is due."""
        count = self.each("WRITE", words, text, lambda number, came: came[1] == 5 and came[0] in {
            report[:PIECE * (number - 1)] for report, _ in self.dues}, PIECE=PIECE)
        self.expect("the writes of " + words, count in {-(-len(report) // PIECE) for report, _ in self.dues}, count)

    def memory(self, words, text):
        """Each piece of memory is refused, alone and with all behind it: status 3 and nothing written, or what is due."""
        for step, more in ((1, {}), (7, {"REFUSE_ALL": 1})):
            statuses = set()
            self.each("MEMORY", words, text, lambda _, came: statuses.add(came[1]) or came == ("", 3) or came in self.dues,
                      step, **more)
            self.expect("the memory of " + words, 3 in statuses, statuses)

    def threads(self, words, text):
        """A thread that is refused has its script run by another one."""
        for more in ({}, {"REFUSE_ALL": 1}):
            count = self.each("THREAD", words, text, lambda _, came: came in self.dues, **more)
            self.expect("the threads of " + words, count > 0, count)


HELLO_DUE = [("script main\n> hi bob\ndone\n" + ONE, 0)]
HELD_DUE = [(BUSY, 0), (FREE, 0)]
ACCESSORS_DUE = [(SET_UP + "script main\n> 7\ndone\n" + ONE, 0)]
DERIVED_DUE, VERIFIED_DUE = [(BUNDLE, 6)], [("ok\nok\n", 0)]
REFUSED_DUE = [("words refused\n", 2)]
FAULT_DUE = [("text Expected end 2:12\n", 1)]
FAULTY = "class A\nscript main"


def try_refused(tries):
    """What is refused of which row: reads, writes, memory, threads."""
    for kinds, words, text, tries.dues in (
            ("r", "run", ACCESSORS, ACCESSORS_DUE), ("rw", "run --order 1 --trace", FAULTY, FAULT_DUE), ("m", "run", HELLO, HELLO_DUE),
            ("wm", "run --order 11122", HELD, HELD_DUE[:1]), ("wmt", "run", HELD, HELD_DUE), ("w", "walk", "", REFUSED_DUE),
            ("rwm", "derive", DERIVED, DERIVED_DUE), ("rwm", "verify", BUNDLE, VERIFIED_DUE)):
        for kind, tried in (("r", tries.reads), ("w", tries.writes), ("m", tries.memory), ("t", tries.threads)):
            if kind in kinds:
                tried(words, text)


def main():
    program = sys.argv[1]
    wrong = list(wrong_fronts(program))
    print("%d fronts of a text, %d wrong" % (len(ACCESSORS) + 1, len(wrong)))
    compiler = shutil.which("cc") or shutil.which("clang") or shutil.which("gcc")
    if compiler:
        with tempfile.TemporaryDirectory() as folder:
            library = Path(folder) / "refusing.so"
            subprocess.run([compiler, "-shared", "-fPIC", "-O1", "-o", library, ROOT / "tests/refusing.c", "-ldl"], check=True)
            tries = Refusing(program, library)
            try_refused(tries)
        wrong += tries.wrong
        print("%d runs with something refused, %d wrong" % (tries.tried, len(tries.wrong)))
    else:
        print("check: skipped: there is no C compiler: what is refused one at a time")
    for message in wrong[:50]:
        print(message)
    return 1 if wrong else 0


if __name__ == "__main__":
    sys.exit(main())
