"""hb fmt: indents a program by its blocks. Only blanks at the fronts and the ends of lines change."""
import sys

import blocks
import command
import tokens
import whole

REFUSED, WRONG_WORDS, READ_FAILED, WRITE_FAILED = 1, 2, 4, 5
STEP = 2
BLANKS = b" \t\r"
# So many bytes a program may have.
MOST = 1048576


class Unfit(Exception):
    """A text that cannot be indented: the token at which that is seen, and why."""

    def __init__(self, token, message):
        super().__init__(message)
        self.token = token


def formatted(text):
    """The text with each line indented, by the rules of docs/FORMATS.md."""
    found = tokens.tokens(text)
    bad = next((token for token in found if token.kind == "bad"), None)
    if bad:
        raise Unfit(bad, "this is no token")
    misfit = blocks.pair(found)[1]
    if misfit:
        raise Unfit(found[misfit.number], str(misfit))
    lines = [line.strip(BLANKS) for line in text.split(b"\n")]
    return b"\n".join(b" " * depth * bool(line) + line for line, depth in zip(lines, depths(found, len(lines))))


def depths(found, count):
    """How many blanks stand before each line of a text whose blocks fit."""
    of_line = [[] for _ in range(count)]
    for token in found:
        # The separator that a line feed is has no place on a line.
        if token.text not in ("", "\n"):
            of_line[token.line - 1].append(token)
    open_ones, goes_on = [], False
    for line in of_line:
        depth = depth_of(line, open_ones, goes_on)
        yield depth
        for token in line:
            word = blocks.word_of(token)
            if word in blocks.OPENERS:
                open_ones.append((word, depth))
            elif word in blocks.CLOSERS:
                open_ones.pop()
        goes_on = blocks.word_of(line[-1]) in tokens.GO_ON if line else goes_on


def depth_of(line, open_ones, goes_on):
    """The blanks before a line: what is open is a list of openers, each with the blanks before its line."""
    first = blocks.word_of(line[0]) if line else ""
    opener, depth = open_ones[-1] if open_ones else ("script", 0)
    if first in ("end", "else", ")"):
        return depth
    # What a script or a setup has inside is not indented, and a parenthesis indents once.
    return depth + STEP * (opener not in ("script", "setup")) + STEP * (goes_on and opener != "(")


def main(given, say):
    options, names = command.parted(given)
    wrong = [option for option in options if option != "--check"]
    if wrong or not names:
        say(command.of_option(wrong[0], ["--check"], "hb fmt") if wrong else "hb fmt takes the files to indent")
        return WRONG_WORDS
    status = 0
    for name in names:
        ended, message = of_file(name, "--check" in options)
        if message:
            say("%s:%s" % (name, message))
        status = status or ended
    return status


def of_file(name, checks):
    """Indents one file, or only looks whether that would change it. Gives the status, and what is to be said."""
    try:
        text = read(name)
    except OSError as error:
        return READ_FAILED, " %s" % error.strerror
    if len(text) > MOST:
        return REFUSED, " the text has more than 1,048,576 bytes, so nothing is indented"
    try:
        due = formatted(text)
    except Unfit as unfit:
        return REFUSED, "%d:%d: %s, so nothing is indented" % (*unfit.token.place, unfit)
    if due == text and name != "-":
        return 0, None
    if checks:
        pairs = zip(text.split(b"\n"), due.split(b"\n"))
        line = next((number for number, (old, new) in enumerate(pairs, 1) if old != new), None)
        return (REFUSED, "%d: hb fmt would change this line" % line) if line else (0, None)
    if name == "-":
        sys.stdout.buffer.write(due)
        return 0, None
    try:
        whole.replace(name, due)
    except OSError as error:
        return WRITE_FAILED, " %s" % error.strerror
    return 0, None


def read(name):
    """The text of a file, or so much of it as shows that it is too long."""
    if name == "-":
        return sys.stdin.buffer.read(MOST + 1)
    with open(name, "rb") as file:
        return file.read(MOST + 1)
