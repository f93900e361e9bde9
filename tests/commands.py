"""Tries the commands of hb by a table: run, watch, new and fmt, and what is said of wrong words.

    python3 tests/commands.py [PROGRAM]

A row has the words for hb, what it writes, its status, and what it says on
standard error. In place of hbird stands a program that refuses each option
but one --steps=N, and else writes its words and how long its input is.
"""
import os
import pty
import re
import select
import signal
import subprocess
import sys
import tempfile
import threading
import time

from front import HB, ROOT, Room

sys.path.insert(0, str(ROOT / "front"))
import new  # noqa: E402
import watch  # noqa: E402

PICKY = """#!/bin/sh
input=$(wc -c)
case "$*" in *--steps*--steps*) echo "words refused"; exit 2 ;; esac
for word; do
    case $word in run | --steps=*) ;; *) echo "words refused"; exit 2 ;; esac
done
echo "$* ($input)"
"""

FILES = {
    "a.hb": b"class A\nscript s\nA.new.f(1)\nend\n", "-dash.hb": b"x\n", "-dash": b"x\n", "run": b"x\n",
    "flat.hb": b"script s\nif 1 then\n2 # two\n\nend\nend\n", "open.hb": b"script s\nif 1 then\nend\n",
    "text.hb": b'script s\nx = "a\nend\n', "long.hb": b" " * 1048577, "my flat.hb": b"script s\n x\nend\n",
}
INDENTED = "script s\nif 1 then\n  2 # two\n\nend\nend\n"
WRITTEN = "%s is written; hb %s runs it, and hb watch %s runs it again on each save\n"

ROWS = [
    # run
    ("run a.hb", "run (32)\n", 0, ""), ("run --steps=3 a.hb", "run --steps=3 (32)\n", 0, ""),
    ("run - < a.hb", "run (32)\n", 0, ""), ("run run", "run (2)\n", 0, ""), ("-- run", "run (2)\n", 0, ""),
    ("run nosuch.hb", "", 4, "nosuch.hb: No such file or directory\n"),
    ("run", "", 2, "no file is named; hb help tells what hb does\n"),
    ("run --json a.hb", '{"file": "a.hb", "status": 0, "fault": null, "sections": [], "trace": null, "other": ["run (32)"]}\n', 0, ""),
    # several runs
    ("--runs=3 a.hb", "3 runs, and all gave one report\n\n==> 3 of 3 <==\nrun (32)\n", 0, ""),
    ("--runs=2 --json --steps=3 a.hb", '{"file": "a.hb", "status": 0, "fault": null, "sections": [], "trace": null, '
     '"other": ["run --steps=3 (32)"], "times": 2}\n', 0, ""),
    ("--runs=2 nosuch.hb", "", 4, "nosuch.hb: No such file or directory\n"),
    *[("--runs=%s a.hb" % value, "", 2, "--runs=%s: the value of --runs is 2 to 10,000\n" % value)
      for value in ("0", "1", "10001", "9999999999", "12345678901", "-2", "+2", "2.5", "x", "", "\u0663")],
    ("--runs=0000000002 a.hb", "2 runs, and all gave one report\n\n==> 2 of 2 <==\nrun (32)\n", 0, ""),
    ("--runs=2 --runs=2 a.hb", "", 2, "--runs stands once, and not as --runs=2 --runs=2\n"),
    ("--runs=3 --quick a.hb", "words refused\n", 2, "there is no option --quick; hb help tells what there is\n"),
    ("--runs=2 a.hb run", "==> a.hb <==\n2 runs, and all gave one report\n\n==> 2 of 2 <==\nrun (32)\n\n==> run <==\n"
     "2 runs, and all gave one report\n\n==> 2 of 2 <==\nrun (2)\n", 0, ""),
    ("--runs=3 a.hb | true; exit ${PIPESTATUS[0]}", "", 5, ""),
    ("--runs=3 a.hb >&-", "", 5, "the output cannot be written: Bad file descriptor\n"),
    ("--runs=3 a.hb > /dev/full", "", 5, "the output cannot be written: No space left on device\n"),
    ("--runs a.hb", "", 2, "--runs wants its value behind a =, as in --runs=..: 2 to 10,000\n"),
    ("--run=3 a.hb", "words refused\n", 2, "there is no option --run=3; is it --runs?\n"),
    # a wrong option
    ("--order=h a.hb", "words refused\n", 2,
     "--order=h: the value of --order is 1 to 10,000 characters, each one of 1 to 9 and a to g\n"),
    ("--versions a.hb", "words refused\n", 2, "--versions wants its value behind a =, as in --versions=..: "
     "1 to 16,777,215, which is what holds without the option\n"),
    ("--trace=1 a.hb", "words refused\n", 2, "--trace takes no value\n"),
    ("--oder=12 a.hb", "words refused\n", 2, "there is no option --oder=12; is it --order?\n"),
    ("--steps=3 a.hb --steps=4", "words refused\n", 2, "hbird refuses these options together: --steps=3 --steps=4; each "
     "stands once, and with --order or --trace there are at most 100,000 steps\n"),
    ("--jsno a.hb", "words refused\n", 2, "there is no option --jsno; is it --json?\n"),
    ("run a.hb -json", "words refused\n", 2, "there is no option -json; is it --json?\n"),
    ("--steps=3 a.hb --quick", "words refused\n", 2, "there is no option --quick; hb help tells what there is\n"),
    ("--slow a.hb --quick", "words refused\n", 2, "there is no option --slow; hb help tells what there is\n"
     "hb: there is no option --quick; hb help tells what there is\n"),
    ("--slow a.hb run", "==> a.hb <==\nwords refused\n", 2, "there is no option --slow; hb help tells what there is\n"),
    ("-q", "", 2, "no file is named; hb help tells what hb does\n"),
    ("fmt --chek a.hb", "", 2, "there is no option --chek; is it --check?\n"),
    ("new --check a", "", 2, "there is no option --check; hb help tells what there is\n"),
    ("lsp --now", "", 2, "there is no option --now; hb help tells what there is\n"),
    # a file that begins with a dash
    ("-dash.hb", "", 2, "-dash.hb begins with a dash, so it is taken for an option; as a file it is named by "
     "hb -- -dash.hb\n"),
    ("run a.hb -dash", "", 2, "-dash begins with a dash, so it is taken for an option; as a file it is named by "
     "hb -- -dash\n"),
    ("'-no such.hb'", "", 2, "-no such.hb begins with a dash, so it is taken for an option; as a file it is named by "
     "hb -- '-no such.hb'\n"),
    ("fmt -dash.hb", "", 2, "-dash.hb begins with a dash, so it is taken for an option; as a file it is named by "
     "hb fmt -- -dash.hb\n"),
    ("-- -dash.hb", "run (2)\n", 0, ""), ("fmt -- -dash.hb", "", 0, ""),
    # a command that is misspelt, and a file that is not there
    ("wach a.hb", "", 2, "there is no file wach; is it hb watch?\n"),
    ("exlain Busy", "", 2, "there is no file exlain; is it hb explain?\n"),
    ("qqq", "", 4, "qqq: No such file or directory\n"),
    # new
    ("new first && cat first.hb", new.PROGRAM.decode(), 0, WRITTEN % ("first.hb", "first.hb", "first.hb")),
    ("new first.hb", "", 5, "first.hb is there already, and stays as it is\n"),
    ("new a; cat a.hb", FILES["a.hb"].decode(), 0, "a.hb is there already, and stays as it is\n"),
    ("new 'my first'", "", 0, WRITTEN % ("my first.hb", "'my first.hb'", "'my first.hb'")),
    ("new -- -first", "", 0, WRITTEN % ("-first.hb", "-- -first.hb", "-- -first.hb")),
    ("new no/such", "", 5, "no/such.hb: No such file or directory\n"),
    ("new", "", 2, "hb new takes one name, that of the program to write\n"),
    ("new folder/", "", 2, "hb new takes one name, that of the program to write\n"),
    ("new a b", "", 2, "hb new takes one name, that of the program to write\n"),
    # fmt
    ("fmt --check flat.hb; cat flat.hb", FILES["flat.hb"].decode(), 0, "flat.hb:3: hb fmt would change this line\n"),
    ("fmt --check a.hb flat.hb run", "", 1, "flat.hb:3: hb fmt would change this line\n"),
    ("fmt - < flat.hb", INDENTED, 0, ""), ("fmt --check - < flat.hb", "", 1, "-:3: hb fmt would change this line\n"),
    ("fmt flat.hb && cat flat.hb", INDENTED, 0, ""), ("fmt --check flat.hb", "", 0, ""),
    ("fmt 'my flat.hb' a.hb && cat my\\ flat.hb", "script s\nx\nend\n", 0, ""),
    ("fmt open.hb; cat open.hb", FILES["open.hb"].decode(), 0,
     "open.hb:1:1: this script is not closed, so nothing is indented\n"),
    ("fmt text.hb", "", 1, "text.hb:2:5: this is no token, so nothing is indented\n"),
    ("fmt long.hb", "", 1, "long.hb: the text has more than 1,048,576 bytes, so nothing is indented\n"),
    ("fmt nosuch.hb a.hb", "", 4, "nosuch.hb: No such file or directory\n"), ("fmt .", "", 4, ".: Is a directory\n"),
    ("fmt", "", 2, "hb fmt takes the files to indent\n"),
    ("fmt - < flat.hb > /dev/full", "", 5, "the output cannot be written: No space left on device\n"),
    # watch, but for what it does on a save
    ("watch", "", 2, "hb watch takes one file\n"), ("watch a.hb run", "", 2, "hb watch takes one file\n"),
    ("watch - < a.hb", "", 2, "hb watch takes one file\n"),
    ("watch --json nosuch.hb | cat; exit ${PIPESTATUS[0]}",
     '{"file": "nosuch.hb", "status": 4, "fault": null, "sections": [], "trace": null, "other": []}\n', 4,
     "nosuch.hb: No such file or directory\n"),
]


def try_rows(room):
    for words, out, status, says in ROWS:
        due = out, "hb: " * bool(says) + says, status
        room.expect("hb " + words, room.run(words), due)


def try_fmt_files(room):
    """A link stays a link, and a file keeps its mode. One that may not be written stays as it is."""
    file, link = room.folder / "flat.hb", room.folder / "link.hb"
    file.write_bytes(FILES["flat.hb"])
    file.chmod(0o640)
    link.symlink_to(file.name)
    room.run("fmt link.hb")
    room.expect("hb fmt of a link", (link.is_symlink(), file.read_text(), file.stat().st_mode & 0o777),
                (True, INDENTED, 0o640))
    room.expect("hb fmt leaves nothing else", [path.name for path in room.folder.glob(".hb-*")], [])


def replaced(path, text):
    """Saves a file as many editors do: written beside it, and put in its place."""
    beside = path.with_name(path.name + "~")
    beside.write_text(text)
    os.replace(beside, path)


def saved(path, text):
    path.write_text(text)


def awaited(terminal, wanted, most=20):
    """What comes to a terminal until it has the wanted part, or until so many seconds are over."""
    found, until = "", time.monotonic() + most
    while wanted not in found and time.monotonic() < until:
        if select.select([terminal], [], [], 0.2)[0]:
            found += os.read(terminal, 4096).decode()
    return found


def try_watch(room):
    """On a terminal: one run at the start and one after each save, each on a screen that was cleared."""
    file = room.folder / "my watched.hb"
    file.write_text("1")
    ours, theirs = pty.openpty()
    env = dict(os.environ, HBIRD=str(room.program), TERM="xterm")
    process = subprocess.Popen([HB, "watch", "--steps=3", file.name], cwd=room.folder, env=env, stdout=theirs,
                               stderr=theirs, stdin=subprocess.DEVNULL)
    screens = awaited(ours, "run --steps=3 (1)\r\n")
    for save, size in ((saved, 2), (replaced, 3), (saved, 4)):
        save(file, "#" * size)
        screens += awaited(ours, "(%d)\r\n" % size)
    (room.folder / "other.hb").write_text("another file")
    screens += awaited(ours, "nothing", 0.5)
    process.send_signal(signal.SIGINT)
    status = process.wait(20)
    os.close(theirs)
    os.close(ours)
    shown = [re.sub("at .{8};", "at TIME;", screen) for screen in screens.split(watch.CLEAR)]
    due = ["==> my watched.hb at TIME; Ctrl-C ends <==\r\nrun --steps=3 (%d)\r\n" % size for size in (1, 2, 3, 4)]
    room.expect("hb watch", (shown, status), ([""] + due, 130))


def try_waiting(room):
    """Both ways to learn of a save, and that a change of the folder is told by the first."""
    if isinstance(watch.saves(room.folder / "a.hb"), watch.Stamps):
        print("check: skipped: this system does not tell what was saved")
        return
    for kind in (watch.Notices, watch.Stamps):
        for save in (saved, replaced):
            folder = room.folder / kind.__name__ / save.__name__
            folder.mkdir(parents=True)
            (folder / "w.hb").write_text("1")
            told = kind(folder / "w.hb")
            waits = threading.Thread(target=told.wait, daemon=True)
            waits.start()
            (folder / "other.hb").write_text("2")
            waits.join(0.3)
            room.expect("%s of another file" % kind.__name__, waits.is_alive(), True)
            save(folder / "w.hb", "22")
            waits.join(20)
            room.expect("%s, when it was %s" % (kind.__name__, save.__name__), waits.is_alive(), False)
    told = watch.Notices(folder / "w.hb")
    folder.rename(room.folder / "away")
    try:
        room.expect("Notices of a folder that went away", told.wait(), "an error")
    except OSError:
        pass
    room.expect("without the system's notices", type(watch.saves(folder / "w.hb")), watch.Stamps)


def try_first_program(room):
    """What hb new writes runs, and hb fmt has nothing to change in it."""
    room.expect("hb fmt of what hb new wrote", room.run("fmt --check first.hb"), ("", "", 0))
    if len(sys.argv) > 1 and os.access(sys.argv[1], os.X_OK):
        room.expect("hb of what hb new wrote", room.run("first.hb", HBIRD=os.path.abspath(sys.argv[1])),
                    ("script main\n> hello, world\ndone\ncalls 1 own 0 shared 0 fresh 1\n", "", 0))


def main():
    with tempfile.TemporaryDirectory() as folder:
        room = Room(folder)
        for name, text in FILES.items():
            (room.folder / name).write_bytes(text)
        room.program = room.executable("picky", PICKY)
        for part in (try_rows, try_fmt_files, try_watch, try_waiting, try_first_program):
            part(room)
        for message in room.wrong:
            print(message)
        print("commands of hb: %d rows, %d wrong" % (room.tried, len(room.wrong)))
        return 1 if room.wrong else 0


if __name__ == "__main__":
    sys.exit(main())
