"""Tries hb where a stream is closed or full, and when it uses colours.

    python3 tests/streams.py
"""
import os
import pty
import subprocess
import sys
import tempfile

from front import HB, REPORT, Room

LOST = "hb: the output cannot be written: "
CLOSED, FULL = LOST + "Bad file descriptor\n", LOST + "No space left on device\n"
NO_FILE = "hb: nosuch.hb: No such file or directory\n"

# The words for hb behind a program that writes a report: what hb writes, its status, and all that it says.
TABLE = [
    ("a.hb <&-", REPORT, 0, ""),
    ("a.hb 2>&-", REPORT, 0, ""),
    ("a.hb <&- 2>&-", REPORT, 0, ""),
    ("- <&-", "", 4, "hb: -: Bad file descriptor\n"),
    ("- <&- >&-", "", 4, "hb: -: Bad file descriptor\n"),
    ("- <&- 2>&-", "", 4, ""),
    ("nosuch.hb 2>&-", "", 4, ""),
    ("nosuch.hb >&-", "", 4, NO_FILE),
    ("nosuch.hb 2>/dev/full", "", 4, ""),
    ("a.hb >&-", "", 5, CLOSED),
    ("a.hb <&- >&-", "", 5, CLOSED),
    ("a.hb >&- 2>&-", "", 5, ""),
    ("a.hb <&- >&- 2>&-", "", 5, ""),
    ("a.hb a.hb >&-", "", 5, CLOSED),
    ("--json a.hb >&-", "", 5, CLOSED),
    ("help >&-", "", 5, CLOSED),
    ("--version >&-", "", 5, CLOSED),
    ("explain >&-", "", 5, CLOSED),
    ("explain qqqq 2>&-", "", 2, ""),
    ("explain qqqq >&-", "", 2, "hb: nothing is known of qqqq; hb explain lists all words\n"),
    (">&-", "", 2, "hb: no file is named; hb help tells what hb does\n"),
    ("a.hb >/dev/full", "", 5, FULL),
    ("a.hb >/dev/full 2>/dev/full", "", 5, ""),
    ("help >/dev/full", "", 5, FULL),
]

# What stands around hb on a terminal, and whether it uses colours there.
COLOURS = [
    ({}, True),
    ({"NO_COLOR": ""}, True),
    ({"NO_COLOR": "1"}, False),
    ({"INSIDE_EMACS": ""}, True),
    ({"INSIDE_EMACS": "29.1,compile"}, False),
    ({"TERM": "dumb"}, False),
    ({"TERM": "dumb", "NO_COLOR": ""}, False),
]
ALWAYS = {"WRITES": "stop NilValue 3:7\ndone\n", "ENDS": "6", "TERM": "xterm"}


def environment(room, more):
    """Ours, without what speaks of colours, and with these words."""
    kept = {name: value for name, value in os.environ.items() if name not in ("NO_COLOR", "INSIDE_EMACS")}
    return dict(kept, HBIRD=str(room.program), **dict(ALWAYS, **more))


def on_terminal(room, more):
    """What hb writes to a terminal on a stop."""
    ours, theirs = pty.openpty()
    subprocess.run([HB, "a.hb"], cwd=room.folder, env=environment(room, more), stdout=theirs,
                   stdin=subprocess.DEVNULL, timeout=60)
    os.close(theirs)
    return os.read(ours, 65536).decode()


def try_streams(room):
    for words, out, status, says in TABLE:
        found = room.run(words, REPORT)
        room.expect("hb " + words, (found[0], found[2], found[1]), (out, status, says))


def try_colours(room):
    for more, due in COLOURS:
        room.expect("colours with %s" % more, on_terminal(room, more).count("\x1b[1;31m"), 2 * due)
    piped = subprocess.run([HB, "a.hb"], cwd=room.folder, env=environment(room, {}), stdout=subprocess.PIPE, check=False)
    room.expect("colours in a pipe", piped.stdout.count(b"\x1b"), 0)


def main():
    with tempfile.TemporaryDirectory() as folder:
        room = Room(folder)
        try_streams(room)
        try_colours(room)
        for message in room.wrong:
            print(message)
        print("streams: %d rows, %d wrong" % (room.tried, len(room.wrong)))
        return 1 if room.wrong else 0


if __name__ == "__main__":
    sys.exit(main())
