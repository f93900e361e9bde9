"""What stands beside the program: its version, and what it needs of a machine."""
import errno
import signal
from pathlib import Path

ROOT = Path(__file__).resolve().parent.parent
# What a loader ends with that finds no library or too old a one, and a program whose processor is too old.
LOADER_FAILED = (1, 126, 127)


def version():
    """The version, which VERSION has."""
    try:
        return (ROOT / "VERSION").read_text().strip()
    except OSError:
        return "of no version"


def papers():
    """The folder with docs/ and examples/: this one in a checkout, another where `make install` put the files."""
    return next((folder for folder in (ROOT, ROOT.parent.parent / "share/doc/hbird") if (folder / "examples").is_dir()), ROOT)


def needs():
    """What the program needs, in words."""
    try:
        told = dict(line.split() for line in (ROOT / "release/needs").read_text().splitlines())
        return "Linux on an %s processor, with glibc %s or newer" % (told["processor"], told["glibc"])
    except (OSError, ValueError, KeyError):
        return "the machine for which it was built"


def is_foreign(program, error):
    """Whether a program that could not be started is one for another machine: also where its loader is not there."""
    return error.errno == errno.ENOEXEC or error.errno == errno.ENOENT and Path(program).exists()


def did_not_start(status, out):
    """Whether a program that ended so did not run at all: none of hbird's own endings has this status without a line."""
    return status == -signal.SIGILL or status in LOADER_FAILED and not out
