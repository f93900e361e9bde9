"""What a trace tells, row by row: each act and why it came so, how long each type is held, and which acts belong together."""
import re
from typing import NamedTuple, Optional

import acts
import report

PLACE = re.compile(r" (%s)(?= |$)" % report.PLACE)
VERDICT = re.compile(r".*\) (.*)")


class Row(NamedTuple):
    """An act: who did what, at which method, where in the text, what came of it, and how far down it stands."""

    act: acts.Act
    place: Optional[tuple]
    verdict: str
    why: str
    level: int


class Pin(NamedTuple):
    """A call holds the type of a method, from one row on, and up to another one or to the end of the trace."""

    caller: str
    call: str
    method: str
    first: int
    last: Optional[int]


class Link(NamedTuple):
    """A row that came so because of another one: a refused change of a type because of a hold, an early free because of a body."""

    kind: str
    row: int
    cause: int


class Timeline:
    """The rows of a trace, its pins and its links. Lines that are none of a trace are left out.

    Where the scripts ran at once, the trace has the acts of each by themselves: each lane then begins behind the setup's.
    """

    def __init__(self, lines, source, has_order):
        self.names = acts.callers(source)
        self.is_one_order = has_order or len(self.names) <= 2
        lines = [line for line in lines if acts.act_of(line)]
        trace = acts.Trace(lines, self.names)
        levels = self.levels(trace.acts)
        self.rows = [Row(act, place_of(act), verdict_of(act), why, level) for act, why, level in zip(trace.acts, trace.reasons(), levels)]
        self.depth = max(levels, default=-1) + 1
        self.pins, self.links, self.open = [], [], {}
        for number, row in enumerate(self.rows):
            self.follow(number, row, trace)
        self.pins += [Pin(*key, first, None) for key, first in self.open.items()]
        self.pins.sort(key=lambda pin: pin.first)

    def levels(self, all_acts):
        """How far down each act stands: by its number, or, where the scripts ran at once, by that in its own lane."""
        if self.is_one_order:
            return list(range(len(all_acts)))
        setup = sum(act.caller == "0" for act in all_acts)
        next_in = {}
        for act in all_acts:
            next_in.setdefault(act.caller, []).append((setup if act.caller != "0" else 0) + len(next_in.get(act.caller, [])))
        waiting = {caller: iter(levels) for caller, levels in next_in.items()}
        return [next(waiting[act.caller]) for act in all_acts]

    def follow(self, number, row, trace):
        """Opens and closes pins, and links a row with its causes."""
        key = (row.act.caller, row.act.call, row.act.method)
        if row.act.word == "hold":
            self.open[key] = number
        elif row.act.word == "free":
            self.pins.append(Pin(*key, self.open.pop(key, number), number))
            body = trace.overtaking(number, key[:2]) if row.why else None
            self.links += [Link("overtaking", number, body)] * (body is not None)
        elif row.act.word == "busy":
            self.links += [Link("refusal", number, first) for (_, _, method), first in self.open.items() if method == row.act.method]

    def callers(self):
        """The numbers of the callers that did something, in their order."""
        return sorted({row.act.caller for row in self.rows}, key=int)

    def who(self, caller):
        return self.names.get(caller, "script %s" % caller)


def place_of(act):
    """The first place that a line tells: of a type's declaration or of a definition."""
    found = PLACE.search(act.line.split(act.method, 1)[1])
    return report.place_of(found.groups()[1:]) if found else None


def verdict_of(act):
    """What was decided of a call; of other acts nothing."""
    found = act.word == "call" and VERDICT.fullmatch(act.line)
    return found.group(1) if found else ""


def label(row):
    """An act in a few words."""
    act = row.act
    if act.word == "call":
        return "call %s: %s" % (act.method, row.verdict)
    if act.word == "busy":
        return "type %s: refused, it is in use" % act.method
    if act.word.startswith("worn"):
        return "%s %s: worn out" % (act.word.split()[1], act.method)
    if act.word == "free" and row.why:
        return "free %s: overtaken by a newer body" % act.method
    return "%s %s" % (act.word, act.method) + (" %d:%d" % row.place if row.place and act.word in ("type", "def") else "")


# What an act is, where the trace says no more of why it came so.
CALLS = {
    "enter own": "A check that this script made before still agrees: since then no type that it used was changed, nor this body. So the body runs at once.",
    "enter shared": "A check of another script was verified and agrees with the types that stand. So the body runs.",
    "enter fresh": "The body was checked here, against the types that stand now, and may run.",
    "NoBody": "The method has no body here.",
    "NoType": "The method has no type here.",
    "BadArgs": "The arguments are not what the method's type wants.",
}
ILL = "The body was checked here, and breaks a rule of types: it does not run."
OTHERS = {
    "hold": "The call holds the type of this method from here on: nobody changes it until it is given back.",
    "free": "The call gives the type of this method back.",
    "type": "The method has this type from here on. No call held its type.",
    "busy": "The type may not be changed, since a call holds it.",
    "def": "The method has this body from here on. Calls that are decided later take it.",
    "worn type": "The method's type was changed as often as it may be.",
    "worn def": "The method's body was changed as often as it may be.",
}


def sentence(row):
    """Why an act came as it did, in a sentence or two."""
    if row.act.word == "call":
        plain = CALLS.get(row.verdict, ILL)
    else:
        plain = OTHERS[row.act.word]
    return "%s %s." % (plain, row.why[0].upper() + row.why[1:]) if row.why else plain
