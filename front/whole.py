"""Gives files new texts, each at once or not at all."""
import errno
import os
import shutil
import tempfile


def replace(name, text):
    """Gives a file that is there a new text. A link stays one, and the file keeps its mode."""
    path = os.path.realpath(name)
    if os.path.exists(path) and not os.access(path, os.W_OK):
        raise PermissionError(errno.EACCES, "it may not be written")
    written(path, text, lambda beside: shutil.copymode(path, beside))


def put(name, text):
    """Writes a file, in the place of one that is there. A device or a pipe just gets the text."""
    if os.path.isfile(name):
        replace(name, text)
    elif os.path.lexists(name):
        with open(name, "wb") as file:
            file.write(text)
    else:
        written(os.path.realpath(name), text, lambda beside: os.chmod(beside, 0o666 & ~mask()))


def mask():
    """The bits that a new file's mode does not get."""
    bits = os.umask(0o077)
    os.umask(bits)
    return bits


def written(path, text, give_mode):
    """Writes the text beside its place, where nobody looks for it, and moves it there when it is whole."""
    descriptor, beside = tempfile.mkstemp(prefix=".hb-", dir=os.path.dirname(path))
    try:
        with os.fdopen(descriptor, "wb") as file:
            file.write(text)
        give_mode(beside)
        os.replace(beside, path)
    except BaseException:
        os.unlink(beside)
        raise
