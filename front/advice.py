"""What `hb` says beside a line of a report: more places to look at, and hints what to write instead.

    advice.of(source, line, section) -> Advice(places, hints)

`source` is the text of the program as bytes, and `line` a line of the report as the program wrote it, without file
names: `text Expected end 4:1`; `section` is the line with which its section of the report begins. All is found by reading the text. Where that does not tell, nothing is said.
"""
import re
from typing import NamedTuple

import behind
import ends
import foreign
import letters
import names
import report
import spot
import stops
import tokens
import wanted


class Place(NamedTuple):
    """A place beside that of the report's line, with a few words on it."""

    line: int
    column: int
    label: str


class Advice(NamedTuple):
    """Places to look at, and hints, each a sentence or two."""

    places: list
    hints: list


NOTHING = Advice([], [])


def of(source, line, section=None, run=None):
    """The advice on a line of a report; nothing on most lines.

    With `run`, which gives the lines of the report of a text, a script is run again where reading does not tell what
    led to a stop inside of calls.
    """
    notes = report.notes_of(line)
    if not notes or notes[0].place is None:
        return NOTHING
    if notes[0].part == "text":
        return of_text(source, notes[0])
    places, hints = stops.advice(source, line, notes, section, run)
    return Advice([Place(*place) for place in places], hints)


def of_text(source, note):
    """The advice on the fault of a text that is no program."""
    at = spot.Spot(source, note.place)
    kind, _, what = note.word.partition(" ")
    if kind in letters.RULES:
        return advice([], letters.RULES[kind](at))
    if at.here is None:
        return NOTHING
    if kind in names.RULES:
        marks, hint = names.advice(at, kind)
        return advice([marked(*mark) for mark in marks], hint)
    if kind == "Expected":
        return of_ends(at, what) or advice(after_script(at, what) + open_parenthesis(at, what), wanted.hint(at, what))
    return NOTHING


def remarks(source):
    """What a text that runs may be meant otherwise: a `#{x}` in a text stands for itself."""
    for token in tokens.tokens(source):
        found = re.search(r"#\{[^}]+\}", token.text) if token.kind == "text" else None
        if found:
            place = Place(token.line, token.column + found.start(), "stands for itself")
            return Advice([place], [foreign.hint('"#{x}"', found.group())])
    return NOTHING


def advice(places, hint):
    return Advice(places, [hint] if hint else [])


def marked(token, label):
    return Place(token.line, token.column, label)


def of_ends(at, what):
    """The advice where an `end` is missing or too many, or None."""
    if what == "end" and (at.here.kind == "end" or at.here.text in ("script", "setup", "class", "else")):
        found = ends.unclosed(at) if ends.balance(at) > 0 else []
        if found:
            return advice([marked(token, "has no end") for token in found], else_if(at, found))
    if what == "item":
        token = ends.surplus(at)
        if token and token != at.here:
            return advice([marked(token, "one end too many")], behind.keyword_as_variable(at))
    return None


def after_script(at, what):
    """Where the script ended before what stands outside of it."""
    token = ends.ended(at) if what == "item" and at.here.text not in ("class", "setup") else None
    return [marked(token, "the script ends here")] if token else []


def open_parenthesis(at, what):
    """The parenthesis that is open, where it stands on a line before."""
    number = at.open_parenthesis() if what == ")" else None
    opens = number is not None and at.tokens[number].line < at.here.line
    return [marked(at.tokens[number], "opens here")] if opens else []


def else_if(at, found):
    for token in found:
        before = at.tokens[at.tokens.index(token) - 1]
        if (before.text, token.text) == ("else", "if"):
            return "An `if` behind an `else` has an `end` of its own."
    return ""
