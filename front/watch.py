"""hb watch: runs a program again on each save, and keeps the screen on what is new."""
import os
import select
import struct
import sys
import time

import command
import streams

WRONG_WORDS, READ_FAILED = 2, 4

# Of the system's header <sys/inotify.h>: a file was written and closed, or was moved here; the folder is gone.
CLOSE_WRITE, MOVED_TO, DELETE_SELF, MOVE_SELF, IGNORED = 0x8, 0x80, 0x400, 0x800, 0x8000
EVENT = struct.Struct("iIII")
# Several events that come within this time, in seconds, are one save.
CALM = 0.05
# So often, in seconds, the stamp is looked at.
PACE = 0.2
CLEAR = "\x1b[H\x1b[2J"


class Notices:
    """The saves of a file as the system tells them: those of its folder, and where it is a link of its own's too."""

    def __init__(self, name):
        import ctypes
        library = ctypes.CDLL(None, use_errno=True)
        places = {os.path.split(os.path.abspath(name)), os.path.split(os.path.realpath(name))}
        self.names = {os.fsencode(file) for _, file in places}
        self.descriptor = library.inotify_init1(os.O_CLOEXEC)
        for folder, _ in places:
            wanted = CLOSE_WRITE | MOVED_TO | DELETE_SELF | MOVE_SELF
            if self.descriptor < 0 or library.inotify_add_watch(self.descriptor, os.fsencode(folder), wanted) < 0:
                raise OSError(ctypes.get_errno(), "the folder cannot be watched")

    def wait(self):
        """Comes back when the file was saved. An OSError says that the folder is gone."""
        while not self.names & self.read():
            pass
        while select.select([self.descriptor], [], [], CALM)[0]:
            self.read()

    def read(self):
        """The names of which the next events speak."""
        data, at, names = os.read(self.descriptor, 65536), 0, set()
        while at < len(data):
            _, what, _, size = EVENT.unpack_from(data, at)
            if what & (DELETE_SELF | MOVE_SELF | IGNORED):
                raise OSError("the folder is gone")
            names.add(data[at + EVENT.size:at + EVENT.size + size].rstrip(b"\0"))
            at += EVENT.size + size
        return names


class Stamps:
    """The saves of a file as its time, its size and its number tell them."""

    def __init__(self, name):
        self.name = name
        self.last = self.stamp()

    def stamp(self):
        try:
            found = os.stat(self.name)
        except OSError:
            return None
        return found.st_mtime_ns, found.st_size, found.st_ino

    def wait(self):
        """Comes back when the file is there and another than at the last time."""
        while True:
            time.sleep(PACE)
            now = self.stamp()
            if now not in (None, self.last):
                self.last = now
                return


def saves(name):
    """What tells the saves of a file: the system where it can."""
    try:
        return Notices(name)
    except (ImportError, AttributeError, OSError):
        return Stamps(name)


def main(given, say, run):
    """Runs a file as `run` does with the words, now and after each save. It ends by an interrupt alone."""
    options, names = command.parted(given)
    if len(names) != 1 or names == ["-"]:
        say("hb watch takes one file")
        return WRONG_WORDS
    told = saves(names[0])
    status = run_once(names[0], given, "--json" in options, run)
    if status in (WRONG_WORDS, READ_FAILED):
        return status
    while True:
        try:
            told.wait()
        except OSError:
            told = Stamps(names[0])
            # The folder was another one before, so the file is new as soon as it is there.
            told.last = None
            continue
        run_once(names[0], given, "--json" in options, run)


def run_once(name, given, is_bare, run):
    """One run, below a line with the time. A terminal is cleared before it."""
    if not is_bare:
        clears = sys.stdout.isatty() and os.environ.get("TERM", "dumb") != "dumb"
        line = "%s==> %s at %s; Ctrl-C ends <==\n" % (CLEAR * clears, streams.plain(name), time.strftime("%H:%M:%S"))
        sys.stdout.buffer.write(os.fsencode(line))
        sys.stdout.buffer.flush()
    return run(["run", *given])
