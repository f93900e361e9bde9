"""Tries hb where what is around it goes wrong: names that are no text, files that vanish, programs that are killed, full disks.

    python3 tests/rough.py PATH_TO_HBIRD [--all]

With `--all` as many runs are made at once as were tried by hand; without it a few.
"""
import os
import subprocess
import sys
import tempfile
import xml.dom.minidom

from front import HB, ROOT, Room
from turns import HELLO, ONE

sys.path.insert(0, str(ROOT / "front"))
import whole  # noqa: E402

FULL = "hb: the output cannot be written: No space left on device\n"
NO_ROOM = "File too large"
DUE = "script main\n> hi bob\ndone\n" + ONE
# So many runs at once.
ALL_RUNS, FEW_RUNS = 1000, 10

# Names of files, and how hb shows each.
NAMES = [(b"bad\xff\xfe.hb", b"bad\xff\xfe.hb"), (b"two\nlines.hb", b"two?lines.hb"), (b"red\x1b[31m.hb", b"red?[31m.hb"),
         (b"tab\t.hb", b"tab?.hb"), (b"\xe2\x80\xaeright.hb", b"?right.hb"), ("é日.hb".encode(), "é日.hb".encode()),
         (b"a" * 251 + b".hb", b"a" * 251 + b".hb")]
# With these each command is tried.
SOME = [name for name, _ in NAMES[:2]]

KILLED = "#!/bin/sh\nkill -9 $$\n"
CUT = "#!/bin/sh\nprintf 'script s\\n> 1'\nkill -SEGV $$\n"
OTHER = "#!/bin/sh\ncat >/dev/null\nprintf '\\377 stop\\n\\001'\nexit 6\n"
VANISHES = "#!/bin/sh\nrm -f second.hb\nprintf 'done\\n'\n"
DEAF = "#!/bin/sh\nexec <&-\nprintf 'done\\n'\n"

# The words, the program, what hb writes, its status, and all that it says.
PROGRAMS = [
    *[(words, KILLED, b"", 137, b"hb: the program was ended by signal 9\n") for words in (
        "a.hb", "derive a.hb", "verify a.hb", "trace a.hb -o a.svg", "--trace a.hb")],
    *[(words, CUT, b"script s\n> 1", 139, b"hb: the program was ended by signal 11\n") for words in (
        "a.hb", "derive a.hb", "verify a.hb", "--trace a.hb")],
    ("trace a.hb -o a.svg", CUT, b"", 139, b"hb: the program was ended by signal 11\nhb: script s\nhb: > 1\n"),
    *[(words, OTHER, b"\xff stop\n\x01", 6, b"") for words in ("a.hb", "derive a.hb", "verify a.hb")],
    ("trace a.hb -o a.svg", OTHER, b"", 70, b"hb: the program wrote no trace, so nothing is drawn\n"),
    ("a.hb second.hb a.hb", VANISHES, b"==> a.hb <==\ndone\n\n==> second.hb <==\n\n==> a.hb <==\ndone\n", 4,
     b"hb: second.hb: No such file or directory\n"),
    ("long.hb", DEAF, b"done\n", 0, b""),
    ("--json a.hb", "#!/bin/sh\nexit 3\n", b'{"file": "a.hb", "status": 3, "fault": null, "sections": [], "trace": null, "other": []}\n', 3,
     b"hb: the program ended with status 3: memory ran out\n"),
]

# Words for the program itself, with what hb writes on a full device, its status, and all that it says.
STREAMS = [(words, 5, FULL) for words in (
    "main.hb", "--json main.hb", "--runs=3 main.hb", "derive main.hb", "verify main.hb", "watch main.hb", "fmt - < main.hb",
    "trace main.hb", "main.hb main.hb", "explain Busy")] + [("trace main.hb -o /dev/full", 5, "hb: /dev/full: No space left on device\n")]

# Where no file may grow, what hb says, and the files that are there then with their texts.
FLAT = "script s\nif 1 then\n2\nend\nend\n"
FILES = [
    ("fmt flat.hb", "flat.hb: %s", {"flat.hb": FLAT}), ("new fresh", "fresh.hb: %s", {"fresh.hb": None}),
    ("trace main.hb -o old.svg", "old.svg: %s", {"old.svg": "old"}), ("trace main.hb -o none.html", "none.html: %s", {"none.html": None}),
]


def ran(room, words, program, **more):
    """What hb writes, its status, and what it says, as bytes."""
    env = dict(os.environ, HBIRD=str(program), **more)
    done = subprocess.run([os.fsencode(HB), *words], cwd=room.folder, env=env, timeout=60, stdin=subprocess.DEVNULL,
                          stdout=subprocess.PIPE, stderr=subprocess.PIPE)
    return done.stdout, done.returncode, done.stderr


def try_names(room, program):
    """A file of each name is run, some are drawn and indented, and of what is not there is told, each on one line."""
    folder = os.fsencode(room.folder)
    for name, shown in NAMES:
        with open(os.path.join(folder, name), "wb") as file:
            file.write(b"script s\nx\nend\n")
        out, status, says = ran(room, [name], program)
        room.expect("a run of %r" % name, (out.splitlines()[1], status, says), (b"stop Unbound %s:2:1" % shown, 6, b""))
        room.expect("a picture of %r" % name, ran(room, [b"trace", name, b"-o", b"out.svg"], program), (b"", 0, b""))
        room.expect("its text", bool(xml.dom.minidom.parse(str(room.folder / "out.svg"))), True)
        if name in SOME:
            out, status, says = ran(room, [name, name], program)
            room.expect("two runs of %r" % name, (out.splitlines()[0], status, says), (b"==> %s <==" % shown, 6, b""))
            out, status, says = ran(room, [b"trace", name], program)
            room.expect("a page of %r" % name, (out[:9], status, says), (b"<!DOCTYPE", 0, b""))
            room.expect("hb fmt of %r" % name, ran(room, [b"fmt", name], program), (b"", 0, b""))
        os.unlink(os.path.join(folder, name))
        for command in ([], [b"derive"], [b"trace"], [b"fmt"], [b"verify"])[:None if name in SOME else 1]:
            room.expect("%s of no %r" % (command, name), ran(room, [*command, name], program),
                        (b"", 4, b"hb: %s: No such file or directory\n" % shown))
    for words in ([b"--order=\xff", b"main.hb"], [b"--bad\xff", b"main.hb"]):
        room.expect("words that are no text", ran(room, words, program),
                    (b"", 7, b"hb: the program ended with status 7: the process could not get its words\n"))


def try_programs(room):
    (room.folder / "long.hb").write_bytes(b"#" * 1048576)
    for words, text, out, status, says in PROGRAMS:
        (room.folder / "second.hb").write_text("")
        program = room.executable("stands", text)
        room.expect("hb %s with %r" % (words, text), ran(room, [word.encode() for word in words.split()], program), (out, status, says))


def try_full(room, program):
    for words, status, says in STREAMS:
        found = room.run(words + " >/dev/full", HBIRD=program)
        room.expect("hb %s on a full device" % words, found, ("", says, status))
    for words, says, texts in FILES:
        for name, text in texts.items():
            if text is not None:
                (room.folder / name).write_text(text)
        # What is said goes through a pipe, since no file may grow.
        found = room.run(words, hb="ulimit -f 0; " + HB, HBIRD=program)
        room.expect("hb %s on a full disk" % words, found, ("", "hb: %s\n" % (says % NO_ROOM), 5))
        for name, text in texts.items():
            path = room.folder / name
            room.expect("%s behind that" % name, path.read_text() if path.exists() else None, text)
    room.expect("what is left over", [path.name for path in room.folder.glob(".hb-*")], [])


def try_files(room, program):
    """Files and folders that are gone by the time, and what hb leaves of a file's mode."""
    gone = room.folder / "gone.hb"
    try:
        whole.replace(str(gone), b"x")
    except OSError as error:
        room.expect("a file that vanished before it is written", (error.strerror, gone.exists()), ("No such file or directory", False))
    else:
        room.expect("a file that vanished before it is written", "it was written", "no file")
    found = room.run("%s; exit $?" % (room.folder / "main.hb"), hb="mkdir lost && cd lost && rmdir ../lost && " + HB, HBIRD=program)
    # The shell that looks for Python may say that it finds no folder.
    room.expect("a folder that is gone", (found[0], found[2]), (DUE, 0))
    for mode in (0o600, 0o640):
        picture = room.folder / ("mode%o.svg" % mode)
        picture.write_text("old")
        picture.chmod(mode)
        room.run("trace main.hb -o %s" % picture.name, HBIRD=program)
        room.expect("the mode of a picture", (picture.stat().st_mode & 0o777, picture.read_text()[:4]), (mode, "<svg"))
    found = room.run("trace main.hb -o new.svg && stat -c %a new.svg", hb="umask 027; " + HB, HBIRD=program)
    room.expect("the mode of a new picture", found, ("640\n", "", 0))
    found = room.run("trace main.hb -o /dev/stdout | head -c 4", HBIRD=program)
    room.expect("a picture to a pipe", found[0], "<!DO")


def try_many(room, program, count):
    """So many runs at once, each with its report."""
    env = dict(os.environ, HBIRD=program)
    started = [subprocess.Popen([HB, "main.hb"], cwd=room.folder, env=env, stdin=subprocess.DEVNULL, stdout=subprocess.PIPE,
                                stderr=subprocess.STDOUT) for _ in range(count)]
    for process in started:
        out, _ = process.communicate(timeout=600)
        room.expect("one of %d runs at once" % count, (out.decode(), process.returncode), (DUE, 0))


def main():
    program, count = os.path.abspath(sys.argv[1]), ALL_RUNS if "--all" in sys.argv[2:] else FEW_RUNS
    with tempfile.TemporaryDirectory() as folder:
        room = Room(folder)
        (room.folder / "main.hb").write_text(HELLO)
        try_names(room, program)
        try_programs(room)
        try_full(room, program)
        try_files(room, program)
        try_many(room, program, count)
        for message in room.wrong:
            print(message)
        print("hb where things go wrong: %d rows, %d wrong" % (room.tried, len(room.wrong)))
        return 1 if room.wrong else 0


if __name__ == "__main__":
    sys.exit(main())
