"""Shows a report to a reader: places with the file's name, the source lines, and what the words mean."""
import re
import shlex
import unicodedata
from typing import NamedTuple, Optional

import pages
import report


class Mark(NamedTuple):
    """What stands below a place, and its colour."""

    place: Optional[tuple]
    label: str
    kind: str


# Of a longer line only so much is shown, around the place.
WIDEST = 100


class Paint:
    """Colours, where they are wanted."""

    CODES = {"bad": "1;31", "good": "32", "dim": "34", "file": "1", "also": "36"}

    def __init__(self, wanted):
        self.wanted = wanted

    def __call__(self, kind, text):
        return "\x1b[%sm%s\x1b[0m" % (self.CODES[kind], text) if self.wanted else text


def report_shown(lines, name, source, paint, run=None):
    """The lines that stand for those of a report, and of the trace behind it."""
    ends = lines.index("trace") if "trace" in lines else len(lines)
    for line, section in report.with_sections(lines[:ends]):
        yield from shown(line, name, source, paint, section, run)
    if ends < len(lines):
        # What a run without a trace does not need is not read for it.
        import acts
        yield lines[ends]
        yield from acts.shown(lines[ends + 1:], name, source, paint)


def shown(line, name, source, paint, section=None, run=None):
    """The lines that stand for one line of a report: itself where nothing of it is known."""
    notes = report.notes_of(line)
    if line == "done":
        return [paint("good", line)]
    if not notes:
        return [line]
    # What a run without a fault does not need is not read for it.
    import advice
    more = advice.of(source, line, section, run)
    marks = [Mark(note.place, "^ " + note.word if number else "^", "bad") for number, note in enumerate(notes)]
    marks += [Mark((place.line, place.column), "^ " + place.label, "also") for place in more.places]
    return [headline(line, name, paint)] + excerpt(marks, source, paint) + meaning(notes, more.hints, paint)


def remarked(source, paint):
    """What is worth a remark in a text that runs: a `#{x}` in it, and nothing else."""
    if b"#{" not in source:
        return []
    import advice
    more = advice.remarks(source)
    marks = [Mark((place.line, place.column), "^ " + place.label, "also") for place in more.places]
    return excerpt(marks, source, paint) + hinted(more.hints, paint)


def headline(line, name, paint):
    """The line itself, with the file's name before each place."""
    first, word, rest = re.fullmatch(r"(\w+) (\w+)(.*)", line).groups()
    named = re.sub(r" (%s)" % report.PLACE, lambda found: " %s:%s" % (name, found.group(1)), rest)
    return paint("bad", "%s %s" % (first, word)) + named


def excerpt(marks, source, paint):
    """The source lines of the places, each with a mark below the place."""
    lines = source.split(b"\n")
    marks = [mark for mark in marks if mark.place and 1 <= mark.place[0] <= len(lines)]
    width = max((len(str(mark.place[0])) for mark in marks), default=0)
    found, last = [], None
    for (number, column), label, kind in marks:
        text, before = window(lines[number - 1], column)
        if number != last:
            found.append(paint("dim", "  %*d |" % (width, number)) + (" " + text).rstrip())
        found.append(paint("dim", "  %*s |" % (width, "")) + " " * (before + 1) + paint(kind, label))
        last = number
    return found


def window(line, column):
    """The part of a line around a column of bytes that a terminal can show, and how wide it is before the column."""
    before, after = clean(line[:column - 1]), clean(line[column - 1:])
    if len(before) + len(after) > WIDEST:
        if len(before) > WIDEST // 2:
            before = "..." + before[3 - WIDEST // 2:]
        if len(before) + len(after) > WIDEST:
            after = after[:WIDEST - len(before) - 3] + "..."
    return before + after, sum(map(columns, before))


def clean(line):
    """The text of a line: a tab is four blanks, and what cannot be printed is a question mark."""
    text = line.decode("utf-8", "replace").rstrip("\r").replace("\t", "    ")
    return "".join(letter if letter.isprintable() else "?" for letter in text)


def columns(letter):
    """How wide a terminal prints a letter."""
    if unicodedata.combining(letter):
        return 0
    return 2 if unicodedata.east_asian_width(letter) in "WF" else 1


def meaning(notes, hints, paint):
    """The first sentence on each word, the hints, and how to read on."""
    known = [(note.word, pages.sentence_of(note)) for note in notes]
    lines = ["  %s: %s" % (paint("file", word), sentence) for word, sentence in known if sentence]
    more = " ".join(shlex.quote(part) for word, sentence in known if sentence for part in word.split())
    return lines + hinted(hints, paint) + (["  " + paint("dim", "(hb explain %s)" % more)] if more else [])


def hinted(hints, paint):
    return ["  %s: %s" % (paint("also", "hint"), hint) for hint in hints]
