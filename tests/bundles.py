"""Bundles: what `hbird derive` writes, and what `hbird verify` tells of one, good or not.

    python3 tests/bundles.py PATH_TO_HBIRD

A row has a bundle, and the status and the lines that `verify` owes it. Each
example and some programs made from a seed are derived and verified: the bundle
begins with the text, the status is that of the run, and each line is `ok`.
"""
import subprocess
import sys

from made import programs
from markdown import ROOT

# One method calls another one, and a type changes behind the derivations of both.
TEXT = """class A
script main
type A.g : () -> Int
def A.g() 1 end
type A.f : () -> Int
def A.f() self.g end
print A.new.f
type A.g : () -> Str
print A.new.f
end
"""
OF_F = "derivation A 6:1 5:1\nuse A.g 3:1\nstep 6:11 A\nstep 6:16 Int\nend\n"
OF_G = "derivation A 4:1 3:1\nstep 4:11 Int\nend\n"


def bundle(text, *derivations):
    """The bundle of a text, by what docs/FORMATS.md says of its parts."""
    return "program %d\n%s%s" % (len(text), text, "" if text.endswith("\n") else "\n") + "".join(derivations)


def lines_before(text):
    """How many lines of a bundle stand before its derivations."""
    return bundle(text).count("\n")


BUNDLE = bundle(TEXT, OF_F, OF_G)
FIRST = lines_before(TEXT) + 1
NO_BUNDLE = "text BadBundle 1:1\n"

ROWS = [
    # Verdicts
    (BUNDLE, 0, "ok\nok\n"),
    (bundle(TEXT), 0, ""),
    (bundle(TEXT, *[OF_G] * 100), 0, "ok\n" * 100),
    (BUNDLE.replace("use A.g 3:1\n", ""), 6, "no uses 0\nok\n"),
    (BUNDLE.replace("step 6:16 Int", "step 6:16 Str"), 6, "no step 1\nok\n"),
    (BUNDLE.replace("step 6:11 A\n", ""), 6, "no step 0\nok\n"),
    (BUNDLE.replace("step 6:16 Int\n", ""), 6, "no step 1\nok\n"),
    (BUNDLE.replace("step 6:16 Int\n", "step 6:16 Int\n" * 2), 6, "no step 2\nok\n"),
    (BUNDLE.replace("use A.g 3:1\n", "use A.g 3:1\n" * 2), 6, "no uses 1\nok\n"),
    (BUNDLE.replace("use A.g 3:1", "use A.g 8:1"), 6, "no step 1\nok\n"),
    (BUNDLE.replace("use A.g 3:1", "use A.f 5:1"), 6, "no uses 0\nok\n"),
    (BUNDLE.replace("derivation A 4:1 3:1", "derivation A 4:1 8:1"), 6, "ok\nno step 1\n"),
    (BUNDLE.replace("derivation A 4:1 3:1", "derivation A 6:1 3:1"), 6, "ok\nno step 0\n"),
    # No program begins it
    *[(bytes, 1, NO_BUNDLE) for bytes in (
        "", "\n", "program x\n", "program", "program 0", "program 0\n", "program \n", "program 00\n\n", "program 01\nx\n", "program +1\nx\n",
        "program -1\nx\n", "program 1 \nx\n", " program 1\nx\n", "Program 1\nx\n", "program  1\nx\n", "program 1\r\nx\n", "program 1\n",
        "program 1\nx", "program 1\nxy\n", "program 3\nx\n", "program 153\n" + TEXT, "program 1048577\n" + " " * 1048577 + "\n",
        "program 4294967296\n\n", "program 18446744073709551617\nx\n", TEXT)],
    ("program 0\n\n", 0, ""),
    ("program 1\n\n", 0, ""),
    ("program 1\n\n\n", 1, "text BadBundle 3:1\n"),
    ("program 1048576\n" + " " * 1048576 + "\n", 0, ""),
    # Its text has a fault, told before what stands behind it
    (bundle("class A\nclass A"), 1, "text TwiceClass 2:7\n"),
    (bundle("script s\nx = @", "nothing"), 1, "text BadByte 2:5\n"),
    (bundle("x"), 1, "text Expected item 1:1\n"),
    # What stands behind it does not fit: told in the first such line
    (BUNDLE[:-len("end\n")], 1, "text BadBundle 19:1\n"),
    (BUNDLE[:-1], 1, "text BadBundle 19:1\n"),
]


def bad_line(number, derivations):
    """A row where so many lines of the derivations fit, and no more."""
    ROWS.append((bundle(TEXT, derivations), 1, "text BadBundle %d:1\n" % (FIRST + number)))


def replaced(number, line):
    """The derivations with another line there, which does not fit, and what stands behind it after all."""
    lines = (OF_F + OF_G).splitlines(keepends=True)
    bad_line(number, "".join(lines[:number] + [line] + lines[number + 1:]))


for line in ("\n", "derivation\n", "derivation A 6:1\n", "derivation B 6:1 5:1\n", "derivation A 6:2 5:1\n", "derivation A 5:1 5:1\n",
             "derivation A 6:1 6:1\n", "derivation A 6:1 5:1 \n", "derivation  A 6:1 5:1\n", "derivation A 06:1 5:1\n", "Derivation A 6:1 5:1\n",
             "use A.g 3:1\n", "step 6:11 A\n", "end\n", "derivation A 6:1 5:1\r\n"):
    replaced(0, line)
for line in ("use A.g\n", "use A.h 3:1\n", "use B.g 3:1\n", "use A g 3:1\n", "use A.g 4:1\n", "use A.g 3:01\n", "derivation A 6:1 5:1\n", "stop\n"):
    replaced(1, line)
for line in ("step 6:12 A\n", "step 6:11 B\n", "step 6:11\n", "step 6:11 a\n", "step 6:11  A\n", "step 3:1x A\n", "# no comment\n"):
    replaced(2, line)
for line in ("use A.g 3:1\n", "end \n", " end\n", "End\n", "\n"):
    replaced(4, line)
for line in ("end\n", "step 6:11 A\n", "\n", "ok\n"):
    replaced(5, line)
bad_line(8, OF_F + OF_G + "x")
bad_line(8, OF_F + OF_G + "\n")
bad_line(9, OF_F + OF_G + "derivation A 4:1 3:1\n")
bad_line(8, OF_F + OF_G + "derivation A 4:1 3:1")
bad_line(0, "\n" + OF_F)


def answer(program, words, text):
    done = subprocess.run([program, *words], input=text, stdout=subprocess.PIPE)
    return done.stdout, done.returncode


def wrong_verdicts(program):
    for bytes, status, lines in ROWS:
        found = answer(program, ["verify"], bytes.encode())
        if found != (lines.encode(), status):
            yield "%.60r..%r: %r is due with status %d, and %r came with %d" % (bytes, bytes[-40:], lines, status, *found)


def wrong_length(program):
    """A bundle is too long by one byte, and a text too."""
    text = TEXT.encode()
    front = bundle(TEXT).encode()
    most = (33554432 - len(front)) // len(OF_G)
    rest = 33554432 - len(front) - most * len(OF_G)
    long = front + OF_G.encode() * most + b"\n" * rest
    fault = ("text BadBundle %d:1\n" % (long[:len(long) - rest].count(b"\n") + 1)).encode()
    for words, bytes, due in ((["verify"], long, (fault if rest else b"ok\n" * most, 1 if rest else 0)),
                              (["verify"], long + b"\n", (b"text TooLong\n", 1)),
                              (["verify"], b" " * 33554433, (b"text TooLong\n", 1)),
                              (["derive"], text + b"#" * (1048577 - len(text)), (b"text TooLong\n", 1))):
        found = answer(program, words, bytes)
        if found != due:
            yield "%s of %d bytes: %.60r is due, and %.60r came" % (words, len(bytes), due, found)


def wrong_bundle(program, text):
    """A text is derived, and its bundle verified."""
    report, status = answer(program, ["run", "--order=1"], text)
    made, ended = answer(program, ["derive"], text)
    if ended != status:
        yield "derive has status %d, and the run %d" % (ended, status)
    if status == 1:
        if made != report:
            yield "derive tells %r, and the run %r" % (made, report)
        return
    front = b"program %d\n%s" % (len(text), text) + (b"" if text.endswith(b"\n") else b"\n")
    if not made.startswith(front):
        yield "the bundle begins with %.80r" % made
    fresh = sum(int(line.rsplit(b" ", 1)[1]) for line in report.splitlines() if line.startswith(b"calls "))
    due = b"ok\n" * min(fresh, 64)
    found = answer(program, ["verify"], made)
    if found != (due, 0):
        yield "%d times ok is due, and %.80r came" % (min(fresh, 64), found)


def wrongs(program):
    if answer(program, ["derive"], TEXT.encode()) != (BUNDLE.encode(), 6):
        yield "derive: %r came" % (answer(program, ["derive"], TEXT.encode()),)
    late = (ROOT / "examples/late.bundle").read_bytes()
    if answer(program, ["derive"], (ROOT / "examples/late.hb").read_bytes()) != (late, 0):
        yield "examples/late.bundle is not what derive writes"
    yield from wrong_verdicts(program)
    yield from wrong_length(program)
    for file in sorted((ROOT / "examples").glob("**/*.hb")):
        for message in wrong_bundle(program, file.read_bytes()):
            yield "%s: %s" % (file.relative_to(ROOT), message)
    for text in [b"", b"class A\nclass A", *programs(200), *generated(program)]:
        for message in wrong_bundle(program, text):
            yield "%.60r: %s" % (text, message)


def generated(program):
    """Generated programs: the smallest, one of as many fresh calls as are collected, and the greatest."""
    return [answer(program, ["gen", size], b"")[0] for size in ("1", "32", "33", "200")]


def main():
    messages = list(wrongs(sys.argv[1]))
    print(*messages, "%d bundles, %d wrong" % (len(ROWS), len(messages)), sep="\n")
    return 1 if messages else 0


if __name__ == "__main__":
    sys.exit(main())
