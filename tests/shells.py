"""Types commands into bash and zsh, each on a terminal, and sees what their completion makes of them.

    python3 tests/shells.py

A shell that is not installed is skipped, and a line says so. In place of hb
and hbird stands a command that writes its words.
"""
import os
import pty
import re
import select
import shutil
import subprocess
import sys
import tempfile
import time

from front import HB, ROOT, Room

# Writes its words; the words of a report are hb's own.
FAKE = """#!/bin/sh
[ "$1 $2" != "explain --words" ] || exec '%s' "$@"
printf 'came: '; printf '<%%s>' "$@"; printf '\\n'
""" % HB

FILES = ("my file.hb", "-dash.hb", "notes.txt", "folder/inside.hb", "Overflow/x.hb", ".hidden/x.hb", "watched.hb")

# What is typed, with a tab where the key is, and the words of which the command is made then.
ROWS = [
    ("hb explain Overf\t", "<explain><Overflow>"), ("hb explain over\t", "<explain><Overflow>"),
    ("hb explain ILLT\topera\t", "<explain><IllTyped><Operand>"),
    ("hb explain TooMany ca\t", "<explain><TooMany><calls>"), ("hb explain toomany CLA\t", "<explain><toomany><classes>"),
    ("hb explain Expected -\t", "<explain><Expected><->>"), ("hb explain fol\t", "<explain><fol>"),
    ("hb explain shar\t", "<explain><shared>"), ("hb help fol\t", "<help><fol>"), ("hb new my\t", "<new><my>"),
    ("hb expl\tover\t", "<explain><Overflow>"), ("hb wat\t", "<watch>"), ("hb watch my\t", "<watch><my file.hb>"),
    ("hb run my\t", "<run><my file.hb>"), ("hb my\t", "<my file.hb>"), ("hb my\\ f\t", "<my file.hb>"),
    ("hb my\t--js\t", "<my file.hb><--json>"), ("hb --js\tmy\t", "<--json><my file.hb>"),
    ("hb fmt --ch\tmy\t", "<fmt><--check><my file.hb>"), ("hb fmt my\t--ch\t", "<fmt><my file.hb><--check>"),
    ("hb fmt --js\t", "<fmt><--js>"), ("hb fold\tins\t", "<folder/inside.hb>"), ("hb run Over\tx\t", "<run><Overflow/x.hb>"),
    ("hb no\t", "<no>"), ("hb -- -d\t", "<--><-dash.hb>"), ("hb -- --js\t", "<--><--js>"), ("hbird r\t", "<run>"), ("hbird d\t", "<derive>"),
    ("hbird run my\t", "<run><my>"), ("hbird v\t", "<verify>"), ("hbird verify --tr\t", "<verify><--tr>"), ("hb lsp fol\t", "<lsp><fol>"),
    ("hb --ord\t12 my\t", "<--order=12><my file.hb>"), ("hb run --tr\tmy\t", "<run><--trace><my file.hb>"),
    ("hb --st\t9 --ver\t3 my\t", "<--steps=9><--versions=3><my file.hb>"), ("hbird run --or\t12", "<run><--order=12>"),
    ("hbird run --tr\t--st\t7", "<run><--trace><--steps=7>"), ("hb fmt --tr\t", "<fmt><--tr>"),
]

SHELLS = {
    "bash": (["bash", "--norc", "--noprofile", "-i"], ". '%s'" % (ROOT / "completion/hbird.bash")),
    "zsh": (["zsh", "-f", "-i"], "fpath=('%s' $fpath); autoload -Uz compinit; compinit -u -D" % (ROOT / "completion")),
}


class Terminal:
    """A shell on a terminal."""

    def __init__(self, room, words):
        self.ours, theirs = pty.openpty()
        env = dict(os.environ, PATH="%s:%s" % (room.folder / "bin", os.environ["PATH"]), HOME=str(room.folder),
                   TERM="xterm", PS1="$ ", INPUTRC="/dev/null", LC_ALL="C", ZDOTDIR=str(room.folder))
        self.process = subprocess.Popen(words, cwd=room.folder / "files", env=env, stdin=theirs, stdout=theirs,
                                        stderr=theirs, start_new_session=True)
        os.close(theirs)

    def type(self, keys):
        os.write(self.ours, keys.encode())

    def read_until(self, form, most=20):
        """What comes until a form is found in it, or until so many seconds are over."""
        found, until = "", time.monotonic() + most
        while not re.search(form, found) and time.monotonic() < until:
            if select.select([self.ours], [], [], 0.2)[0]:
                found += os.read(self.ours, 65536).decode("utf-8", "replace")
        return found

    def close(self):
        self.process.kill()
        self.process.wait()
        os.close(self.ours)


def try_shell(room, shell):
    words, prepares = SHELLS[shell]
    terminal = Terminal(room, words)
    # The mark is written in two parts, so that it is not what was typed.
    terminal.type(prepares + "; echo rea''dy\r")
    terminal.read_until(r"ready\r\n")
    for keys, due in ROWS:
        terminal.type(keys + "\r")
        told = terminal.read_until(r"came: .*\r\n")
        came = re.search(r"came: (.*)\r\n", told)
        room.expect("%s on %r" % (shell, keys), came.group(1) if came else told, due)
        if not came:
            break
    terminal.close()


def main():
    with tempfile.TemporaryDirectory() as folder:
        room = Room(folder)
        for name in FILES:
            room.executable("files/" + name, "")
        for name in ("hb", "hbird"):
            room.executable("bin/" + name, FAKE)
        for shell in SHELLS:
            if shutil.which(shell):
                try_shell(room, shell)
            else:
                print("check: skipped: %s is not installed" % shell)
        for message in room.wrong:
            print(message)
        print("completion: %d rows, %d wrong" % (room.tried, len(room.wrong)))
        return 1 if room.wrong else 0


if __name__ == "__main__":
    sys.exit(main())
