"""The three streams: also where one is closed, and whether the output shows colours."""
import os
import sys


def hold():
    """Has each stream be there. A closed one gets a file that refuses, so that no other file takes its number.

    On standard error nothing refuses: what is said there is lost, and ends nothing.
    """
    for number, mode in ((0, os.O_WRONLY), (1, os.O_RDONLY), (2, os.O_WRONLY)):
        try:
            os.fstat(number)
        except OSError:
            # The lowest number that is free is given, which is this one.
            os.open(os.devnull, mode)
    for name, number, mode in (("stdin", 0, "r"), ("stdout", 1, "w"), ("stderr", 2, "w")):
        if getattr(sys, name) is None:
            setattr(sys, name, open(number, mode, closefd=False))


def drop(number):
    """What is still to be written to this stream has nowhere to go."""
    os.dup2(os.open(os.devnull, os.O_WRONLY), number)


def plain(text):
    """A text that stays on its line and does nothing else to a terminal: a letter that is not printed is a question mark.

    A byte of a file's name that is no letter is none of these, and goes out as it came in.
    """
    return "".join(letter if letter.isprintable() or "\udc80" <= letter <= "\udcff" else "?" for letter in text)


def say(message):
    """Says one line on standard error, where that can be written."""
    try:
        sys.stderr.buffer.write(("hb: %s\n" % plain(message)).encode("utf-8", "surrogateescape"))
        sys.stderr.buffer.flush()
    except OSError:
        drop(2)


def wants_colours():
    """Whether the output is a terminal that shows colours, and nothing asks for none. Emacs shows some as they are."""
    told = os.environ.get
    return sys.stdout.isatty() and told("TERM") != "dumb" and not told("INSIDE_EMACS") and not told("NO_COLOR")
