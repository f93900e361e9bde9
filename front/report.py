"""Reads what the program writes: the report of a run, or the line that refuses a text."""
import re
from typing import NamedTuple, Optional


class Note(NamedTuple):
    """A word that docs/ERRORS.md explains, the part of that page, and the place that is told with it."""

    part: str
    word: str
    place: Optional[tuple]


PLACE = r"(\d+):(\d+)"
REFUSED = re.compile(r"text ([A-Z]\w*)(?: (?!\d)(\S+))?(?: %s)?" % PLACE)
STOPPED = re.compile(r"stop ([A-Z]\w*) %s(?: ([A-Z]\w*) %s)?" % (PLACE, PLACE))
CALLS = re.compile(r"calls (\d+) own (\d+) shared (\d+) fresh (\d+)")
SECTION = re.compile(r"setup|script ([a-z_]\w*)")
ESCAPES = {"\\\\": "\\", "\\n": "\n", "\\t": "\t"}


def notes_of(line):
    """The words of a line that are explained: none of most lines, two where a body is ill typed."""
    refused, stopped = REFUSED.fullmatch(line), STOPPED.fullmatch(line)
    if refused:
        word, what, *place = refused.groups()
        return [Note("text", word + (" " + what if what else ""), place_of(place))]
    if stopped:
        word, *place, reason, line_of_reason, column = stopped.groups()
        notes = [Note("stop", word, place_of(place))]
        return notes + [Note("reason", reason, place_of([line_of_reason, column]))] if reason else notes
    return []


def with_sections(lines):
    """The lines of a report, each with the line with which its section begins, or None in front of all."""
    section = None
    for line in lines:
        if SECTION.fullmatch(line):
            section = line
        yield line, section


def place_of(texts):
    return None if texts[0] is None else tuple(int(text) for text in texts)


def as_object(file, status, lines):
    """The report as one object for JSON. Lines that are none of a report stand in `other`, as they are."""
    found = {"file": file, "status": status, "fault": None, "sections": [], "trace": None, "other": []}
    current = None
    if "trace" in lines:
        ends = lines.index("trace")
        lines, found["trace"] = lines[:ends], lines[ends + 1:]
    for line in lines:
        started, notes = SECTION.fullmatch(line), notes_of(line)
        if started:
            current = {"section": line.split()[0], "name": started.group(1), "prints": [], "end": None, "calls": None}
            found["sections"].append(current)
        elif notes and notes[0].part == "text":
            found["fault"] = told(notes[0])
        elif current is None or not belongs(current, line, notes):
            found["other"].append(line)
    return found


def belongs(section, line, notes):
    """Puts a line into its section. False where it has no place there."""
    calls = CALLS.fullmatch(line)
    if section["calls"] is not None:
        return False
    if calls and section["end"]:
        section["calls"] = dict(zip(("all", "own", "shared", "fresh"), map(int, calls.groups())))
    elif section["end"] is not None:
        return False
    elif line.startswith("> "):
        section["prints"].append(re.sub(r"\\[\\nt]", lambda found: ESCAPES[found.group()], line[2:]))
    elif line == "done":
        section["end"] = {"kind": "done"}
    elif notes:
        section["end"] = dict(told(notes[0]), reason=told(notes[1]) if len(notes) > 1 else None)
    else:
        return False
    return True


def told(note):
    line, column = note.place or (None, None)
    return {"kind": note.word, "line": line, "column": column}
