"""Tries hb, the front, by a table, with a program that writes what a row says.

    python3 tests/front.py

A row has the words for hb, what the program writes and its status, what hb
then writes and its status, and a part of what it says on standard error. The
files named in the rows stand in FILES.
"""
import json
import os
import shutil
import subprocess
import sys
import tempfile
from pathlib import Path

ROOT = Path(__file__).resolve().parent.parent
HB = str(ROOT / "hb")

FILES = {
    "a.hb": b"class A\nscript s\nA.new.f(1)\nend\n",
    "one_line.hb": b"class A script s type A.f : () -> Int; def A.f() x end; A.new.f end",
    "tab.hb": b'script s\n\tx = "\xc3\xa9" + \xe4\xbd\xa0 + y\r\nend\n',
    "long.hb": b"#" * 300 + b"\n" + b"1 + " * 100 + b"\n",
    "strange.hb": b"\x1b[31m\xff 1\n",
    "my file.hb": b"script s\nx\nend\n",
    "-dash.hb": b"x\n",
    "busy.hb": b"class A\nscript one\nend\nscript two\ntype A.f : () -> Int\nend\n",
    "two.hb": b"class A\nscript one\nend\nscript two\nend\n",
}

# Stands for the program: it writes its words and the input's length where a row asks for them.
FAKE = """#!/bin/sh
input=$(wc -c)
[ "$WRITES" = words ] && { echo "$* ($input)"; exit 0; }
printf '%s' "$WRITES"; exit "$ENDS"
"""

# What hb says of a program that ended and said nothing.
ENDED = "hb: the program ended with status %d: %s\n"
REPORT = "script s\n> 1\ndone\ncalls 1 own 0 shared 0 fresh 1\n"
TABLE = [
    # what is not understood goes through as it came
    ("a.hb", REPORT, 0, REPORT, 0, ""),
    ("a.hb", "trace\n0 calls 1 A.f 3:1 () enter own\n\n", 0, "trace\n0 calls 1 A.f 3:1 () enter own\n\n", 0, ""),
    ("a.hb", "> stop Busy 1:1\n> text TooLong\n", 0, "> stop Busy 1:1\n> text TooLong\n", 0, ""),
    ("a.hb", "stop busy 1:1\nstop Busy 1\n stop Busy 1:1\n", 6, "stop busy 1:1\nstop Busy 1\n stop Busy 1:1\n", 6, ""),
    ("a.hb", "words refused\n", 2, "words refused\n", 2, ""),
    ("a.hb", "script s\n> cut he", 5, "script s\n> cut he", 5, ENDED % (5, "a write failed")),
    ("a.hb", "stop Steps 3:7", 5, "stop Steps 3:7", 5, ENDED % (5, "a write failed")),
    ("a.hb", "", 3, "", 3, ENDED % (3, "memory ran out")),
    ("a.hb", "", 4, "", 4, ENDED % (4, "a read failed")),
    ("a.hb", "", 7, "", 7, ENDED % (7, "the process could not get its words")),
    ("a.hb", "", 70, "", 70, ""),
    # places and what the words mean
    ("a.hb", "stop NilValue 3:7\n", 6, """\
stop NilValue a.hb:3:7
  3 | A.new.f(1)
    |       ^
  NilValue: An operator or a call got nil where it needs a value.
  (hb explain NilValue)
""", 6, ""),
    ("one_line.hb", "stop IllTyped 1:62 Unbound 1:50\n", 6, """\
stop IllTyped one_line.hb:1:62 Unbound one_line.hb:1:50
  1 | class A script s type A.f : () -> Int; def A.f() x end; A.new.f end
    |                                                              ^
    |                                                  ^ Unbound
  IllTyped: The method's body was checked at this call, and breaks a rule of types.
  Unbound: The body uses a variable that may have no value here.
  (hb explain IllTyped Unbound)
""", 6, ""),
    ("a.hb", "text Expected ) 5:1\n", 1, """\
text Expected ) a.hb:5:1
  5 |
    | ^
  Expected ): A parenthesis is open, and must be closed here.
  (hb explain Expected ')')
""", 1, ""),
    ("a.hb", "text TooLong\n", 1, "text TooLong\n  TooLong: The text has more than 1,048,576 bytes.\n"
     "  (hb explain TooLong)\n", 1, ""),
    ("a.hb", "stop Newer 3:1 Newest 1:1\n", 6, """\
stop Newer a.hb:3:1 Newest a.hb:1:1
  3 | A.new.f(1)
    | ^
  1 | class A
    | ^ Newest
""", 6, ""),
    ("a.hb", "text Newer 30:1\n", 1, "text Newer a.hb:30:1\n", 1, ""),
    ("tab.hb", "text Newer 2:17\n", 1, """\
text Newer tab.hb:2:17
  2 |     x = "\u00e9" + \u4f60 + y
    |                  ^
""", 1, ""),
    ("strange.hb", "text Newer 1:7\n", 1, "text Newer strange.hb:1:7\n  1 | ?[31m\ufffd 1\n    |       ^\n", 1, ""),
    ("long.hb", "text Newer 2:201\n", 1, "text Newer long.hb:2:201\n  2 | ...%s%s...\n    | %s^\n"
     % (("1 + " * 50)[-47:], ("1 + " * 50)[:47], " " * 50), 1, ""),
    ("my\\ file.hb", "stop Unbound 2:1\n", 6, """\
stop Unbound my file.hb:2:1
  2 | x
    | ^
  Unbound: The variable has no value yet.
  (hb explain Unbound)
""", 6, ""),
    # a type that another script's call holds
    ("busy.hb", "script two\nstop Busy 5:1\n", 6, """\
script two
stop Busy busy.hb:5:1
  5 | type A.f : () -> Int
    | ^
  Busy: The type of this method is in use by a call that still runs.
  hint: A call of another script uses the type, and `--trace` shows which.
  (hb explain Busy)
""", 6, ""),
    # a trace, with why an act came as it did
    ("two.hb", "trace\n2 call 1 A.f 3:1 (Int,A) IllTyped Loop 4:7\n2 call 2 A.f none () NoBody\n", 6,
     "trace\n2 call 1 A.f two.hb:3:1 (Int,A) IllTyped Loop two.hb:4:7\n2 call 2 A.f none () NoBody\n", 6, ""),
    ("two.hb", """\
trace
1 hold 1 A.f 1:1 1
1 hold 1 A.g 1:2 1
2 busy A.g 1
2 def A.f 3:1
1 free 1 A.g
1 call 1 A.f 3:1 () enter fresh
1 free 1 A.f
""", 0, """\
trace
1 hold 1 A.f two.hb:1:1 1
1 hold 1 A.g two.hb:1:2 1
2 busy A.g 1
  why: the type of A.g is in use by call 1 of script one (A.f)
2 def A.f two.hb:3:1
1 free 1 A.g
  why: a newer body of script two came before call 1 of script one (A.f) was decided, which goes on with that
1 call 1 A.f two.hb:3:1 () enter fresh
1 free 1 A.f
""", 0, ""),
    ("two.hb", """\
trace
1 hold 1 A.f 1:1 1
1 call 1 A.f 3:1 () enter fresh
1 free 1 A.f
2 def A.f 3:1
0 type A.f 1:2
2 type A.f 1:3
1 hold 2 A.f 1:3 3
1 call 2 A.f 3:1 () enter fresh
1 free 2 A.f
2 def A.f 4:1
1 hold 3 A.f 1:3 3
1 call 3 A.f 4:1 () enter fresh
""", 0, """\
trace
1 hold 1 A.f two.hb:1:1 1
1 call 1 A.f two.hb:3:1 () enter fresh
1 free 1 A.f
2 def A.f two.hb:3:1
0 type A.f two.hb:1:2
2 type A.f two.hb:1:3
1 hold 2 A.f two.hb:1:3 3
1 call 2 A.f two.hb:3:1 () enter fresh
  why: a check was kept and agrees no more: the setup gave A.f a type
1 free 2 A.f
2 def A.f two.hb:4:1
1 hold 3 A.f two.hb:1:3 3
1 call 3 A.f two.hb:4:1 () enter fresh
  why: a check was kept and agrees no more: script two gave A.f a body
""", 0, ""),
    ("two.hb", "trace\n1 hold 1 A.f 1:1 1\n1 hold 2 A.f 1:1 1\n1 hold 3 A.f 1:1 1\n2 hold 1 A.f 1:1 1\n2 busy A.f 4\n", 0,
     "trace\n1 hold 1 A.f two.hb:1:1 1\n1 hold 2 A.f two.hb:1:1 1\n1 hold 3 A.f two.hb:1:1 1\n"
     "2 hold 1 A.f two.hb:1:1 1\n2 busy A.f 4\n  why: the type of A.f is in use by call 1 of script one (A.f) and call 2 "
     "of script one (A.f) and call 3 of script one (A.f) and 1 more\n", 0, ""),
    # several runs: what does not hang on how scripts went is run once
    ("--runs=9 a.hb", "", 3, "9 runs, and all gave one report\n\n==> 9 of 9 <==\n", 3, ENDED % (3, "memory ran out")),
    ("--runs=9 a.hb", "text TooLong\n", 1, "text TooLong\n  TooLong: The text has more than 1,048,576 bytes.\n"
     "  (hb explain TooLong)\n", 1, ""),
    # words
    ("a.hb one_line.hb", "words", 0, "==> a.hb <==\nrun (32)\n\n==> one_line.hb <==\nrun (67)\n", 0, ""),
    ("a.hb nosuch.hb a.hb", "", 6, "==> a.hb <==\n\n==> nosuch.hb <==\n\n==> a.hb <==\n", 6, "hb: nosuch.hb: No such"),
    ("nosuch.hb a.hb", "", 0, "==> nosuch.hb <==\n\n==> a.hb <==\n", 4, "hb: nosuch.hb: No such file"),
    (".", "", 0, "", 4, "hb: .: Is a directory"),
    ("--steps=9 a.hb --trace", "words", 0, "run --steps=9 --trace (32)\n", 0, ""),
    ("-- -dash.hb", "words", 0, "run (2)\n", 0, ""),
    ("- < a.hb", "words", 0, "run (32)\n", 0, ""),
    ("", "", 0, "", 2, "hb: no file is named; hb help tells what hb does\n"),
    ("--json", "", 0, "", 2, "hb: no file is named"),
    ("explain bussy", "", 0, "", 2, "hb: nothing is known of bussy; is it Busy?\n"),
    ("explain Busy qqqq", "", 0, "", 2, "hb: nothing is known of qqqq; hb explain lists all words\n"),
]

OBJECTS = [
    ("script s\n> a\\tb\\\\n\n> 1\nstop IllTyped 3:7 Result 1:1\ncalls 2 own 1 shared 0 fresh 0\nmore\n", 6,
     {"fault": None, "other": ["more"], "sections": [
         {"section": "script", "name": "s", "prints": ["a\tb\\n", "1"],
          "end": {"kind": "IllTyped", "line": 3, "column": 7, "reason": {"kind": "Result", "line": 1, "column": 1}},
          "calls": {"all": 2, "own": 1, "shared": 0, "fresh": 0}}]}),
    ("setup\ndone\ncalls 0 own 0 shared 0 fresh 0\nscript s\n> x\ntrace\n1 free 1 A.f\n", 0,
     {"fault": None, "other": [], "trace": ["1 free 1 A.f"], "sections": [
         {"section": "setup", "name": None, "prints": [], "end": {"kind": "done"},
          "calls": {"all": 0, "own": 0, "shared": 0, "fresh": 0}},
         {"section": "script", "name": "s", "prints": ["x"], "end": None, "calls": None}]}),
    ("text Expected end 2:12\n", 1,
     {"fault": {"kind": "Expected end", "line": 2, "column": 12}, "sections": [], "other": []}),
    ("text TooLong\n", 1, {"fault": {"kind": "TooLong", "line": None, "column": None}, "sections": [], "other": []}),
    ("words refused\n", 2, {"fault": None, "sections": [], "other": ["words refused"]}),
]


class Room:
    """A folder with the files and the program that stands for hbird."""

    def __init__(self, folder):
        self.folder = Path(folder)
        for name, text in FILES.items():
            (self.folder / name).write_bytes(text)
        self.program = self.executable("fake", FAKE)
        self.wrong, self.tried = [], 0

    def executable(self, name, text):
        path = self.folder / name
        path.parent.mkdir(parents=True, exist_ok=True)
        path.write_text(text)
        path.chmod(0o755)
        return path

    def run(self, words, writes="", ends=0, hb=HB, **more):
        """What a line of the shell that begins with hb writes, says, and ends with."""
        env = dict(os.environ, HBIRD=str(self.program), WRITES=writes, ENDS=str(ends))
        env.update(more)
        done = subprocess.run(["bash", "-c", hb + " " + words], cwd=self.folder, env=env, timeout=60,
                              stdin=subprocess.DEVNULL, stdout=subprocess.PIPE, stderr=subprocess.PIPE)
        return done.stdout.decode(), done.stderr.decode(), done.returncode

    def expect(self, name, found, due):
        self.tried += 1
        if found != due:
            self.wrong.append("%s: %r is due, and %r came" % (name, due, found))


def try_table(room):
    for words, writes, ends, out, status, says in TABLE:
        found = room.run(words, writes, ends)
        room.expect("hb %s on %r" % (words, writes), (found[0], found[2]), (out, status))
        room.expect("hb %s: what it says" % words, found[1][:len(says) or 1000], says)


def try_json(room):
    for writes, ends, due in OBJECTS:
        out, _, status = room.run("--json a.hb", writes, ends)
        room.expect("hb --json on %r" % writes, (json.loads(out), status),
                    (dict({"trace": None}, **due, file="a.hb", status=ends), ends))
    out, _, status = room.run("a.hb nosuch.hb --json", "text TooLong\n", 1)
    room.expect("hb --json of two files", [json.loads(line)["status"] for line in out.splitlines()], [1, 4])


def try_pages(room):
    out, _, status = room.run("help")
    room.expect("hb help", (out.splitlines()[0][:8], "\nStatuses\n" in out, status), ("hb runs ", True, 0))
    version = (ROOT / "VERSION").read_text().strip()
    room.expect("the version in hb help", " hbird %s. " % version in out, True)
    room.expect("hb --version", room.run("--version"), ("hbird %s\n" % version, "", 0))
    for words, parts in (("illtyped", ["IllTyped\n", "stop IllTyped 7:13 Operand 6:44"]),
                         ("Unbound", ["stop Unbound", "stop IllTyped"]),
                         ("expected", ["Words: Expected end, Expected then"]), ("'Expected )'", ["Expected )\n"]),
                         ("IllTyped Operand", ["stop IllTyped 7:13", "stop IllTyped 5:13 Operand"]),
                         ("own expected end", ["own\n", "Expected end\n"]),
                         ("", ["\nStops\n\n  NilValue            An operator", "  done                The script ran"]),
                         ("--words", ["BadByte\n", "TooMany calls\n", "Worn\n", "\nown\n"])):
        out, _, status = room.run("explain " + words)
        room.expect("hb explain " + words, ([part for part in parts if part not in out], status), ([], 0))
    out, _, status = room.run("explain IllTyped Unbound")
    room.expect("a reason behind IllTyped", ("stop Unbound" in out, status), (False, 0))


def try_output(room):
    _, says, status = room.run("a.hb; } | true; exit ${PIPESTATUS[0]}", REPORT, hb="{ sleep 0.3; " + HB)
    room.expect("a pipe that nobody reads", (says, status), ("", 5))
    _, says, status = room.run("a.hb", HBIRD="/nosuch")
    room.expect("no program", (says, status), ("hb: /nosuch: No such file or directory\n", 70))
    try_foreign(room)
    room.executable("killed", "#!/bin/sh\nkill -9 $$\n")
    _, says, status = room.run("a.hb", HBIRD=str(room.folder / "killed"))
    room.expect("a killed program", (says, status), ("hb: the program was ended by signal 9\n", 137))
    try_several(room)


# Ends in another way each time, by the number of the runs before it.
CHANGING = """#!/bin/sh
echo >> runs; number=$(wc -l < runs)
[ $number = 2 ] && kill -9 $$
printf 'script s\n> %d\ndone\ncalls 0 own 0 shared 0 fresh 0\n' $((number > 3)); exit $((6 * (number > 3)))
"""
CHANGED = "script s\n> %d\ndone\ncalls 0 own 0 shared 0 fresh 0\n"


def try_several(room):
    """Several runs of which one is killed, and a program that cannot be started: each is told of once."""
    program = str(room.executable("changing", CHANGING))
    out, says, status = room.run("--runs=6 a.hb", HBIRD=program)
    room.expect("runs of which one is killed", (out, says, status), (
        "6 runs gave 3 different reports\n\n==> 3 of 6 <==\n" + CHANGED % 1 + "\n==> 2 of 6 <==\n" + CHANGED % 0 +
        "\n==> 1 of 6 <==\n", "hb: the program was ended by signal 9\n", 137))
    (room.folder / "runs").unlink()
    out, _, status = room.run("--runs=3 --json a.hb", HBIRD=program)
    told = [json.loads(line) for line in out.splitlines()]
    room.expect("the objects of such runs", ([(row["status"], row["times"]) for row in told], status),
                ([(0, 2), (137, 1)], 137))
    out, says, status = room.run("--runs=9 a.hb", HBIRD=str(room.folder / "killed"))
    room.expect("runs that are all killed", (out, says, status), (
        "9 runs, and all gave one report\n\n==> 9 of 9 <==\n", "hb: the program was ended by signal 9\n", 137))
    out, says, status = room.run("--runs=9 a.hb", HBIRD="/nosuch")
    room.expect("several runs of no program", (out, says, status), ("", "hb: /nosuch: No such file or directory\n", 70))


# Programs that do not run on this machine: what stands for each.
FOREIGN = [
    ("a program for another processor", "\x7fELF and no more"),
    ("a program whose loader is not there", "#!/nosuch/loader\n"),
    ("a processor that lacks an instruction", "#!/bin/sh\nkill -ILL $$\n"),
    ("a C library that is too old", "#!/bin/sh\nexit 1\n"),
    ("a program that finds its processor too old", "#!/bin/sh\nexit 127\n"),
]


def try_foreign(room):
    for name, text in FOREIGN:
        program = str(room.executable("foreign", text))
        out, says, status = room.run("a.hb", HBIRD=program)
        due = "hb: %s: it does not run on this machine, since it needs Linux on an x86-64-v2 processor," % program
        room.expect(name, (out, says[:len(due)], says.count("\n"), status), ("", due, 1, 70))


def try_without_python(room):
    for word in ("sh", "bash", "dirname", "readlink"):
        room.executable("bare/" + word, "").unlink()
        (room.folder / "bare" / word).symlink_to(shutil.which(word))
    out, says, status = room.run("a.hb", PATH=str(room.folder / "bare"))
    room.expect("without Python", (out, says[:31], says.count("\n"), status), ("", "hb: python3 is not on the PATH,", 1, 70))


def try_building(room):
    """In a checkout where nothing is built, and with a kit that builds at once."""
    checkout = room.folder / "checkout"
    for folder in ("front", "release"):
        shutil.copytree(ROOT / folder, checkout / folder)
    (checkout / "docs").mkdir()
    for file in ("hb", "hbird", "crates.txt", "docs/ERRORS.md"):
        shutil.copy(ROOT / file, checkout / file)
    (checkout / "crates/hbird").mkdir(parents=True)
    made = room.executable("made", "#!/bin/sh\n[ $(wc -c) = 0 ] || printf '%s' \"$WRITES\"\n")
    room.executable("kit/rt", "#!/bin/sh\nmkdir -p out && cp '%s' out/hbird\necho rt: running it >&2\n" % made)
    path = "%s:%s" % (room.folder / "kit", os.environ["PATH"])
    for name, says_first in (("a first run builds", "hbird: building the program;"), ("a second one does not", "")):
        out, says, status = room.run("a.hb | cat", REPORT, hb=str(checkout / "hb"), HBIRD="", PATH=path)
        room.expect(name, (out, says[:len(says_first) or 1000], status), (REPORT, says_first, 0))


def main():
    with tempfile.TemporaryDirectory() as folder:
        room = Room(folder)
        for part in (try_table, try_json, try_pages, try_output, try_without_python, try_building):
            part(room)
        for message in room.wrong:
            print(message)
        print("hb: %d rows, %d wrong" % (room.tried, len(room.wrong)))
        return 1 if room.wrong else 0


if __name__ == "__main__":
    sys.exit(main())
