"""Reads a trace, and says why an act came as it did: who held a type, who changed what a check rested on."""
import re
from typing import NamedTuple, Optional

import report

METHOD = r"([A-Z]\w*\.[a-z_]\w*)"
# The forms of the lines behind the caller: the word, the number of the call, the method.
FORM = re.compile(r"(\d+) (hold|free|call|type|busy|def|worn type|worn def) (?:(\d+) )?%s(?: .*)?" % METHOD)
ENTERS_FRESH = " enter fresh"


class Act(NamedTuple):
    """An act of a caller at a method, in one of its calls where it belongs to one."""

    caller: str
    word: str
    call: Optional[str]
    method: str
    line: str


def act_of(line):
    found = FORM.fullmatch(line)
    return Act(*found.groups(), line) if found else None


class Kept(NamedTuple):
    """A check that a caller has made: how far the trace was then, the body, and the methods whose types it used."""

    number: int
    body: str
    uses: tuple


class Trace:
    """The acts of a trace, and behind which of them something is to be said."""

    def __init__(self, lines, sections):
        # The names of the callers: those of the sections, by the numbers of scripts.
        self.sections = sections
        self.acts = [act_of(line) for line in lines]
        # Of each call the number of the line that decides it, and the method that it calls.
        self.decided, self.called = {}, {}
        for number, act in enumerate(self.acts):
            if act and act.word == "call":
                self.decided[act.caller, act.call] = number
            elif act and act.word == "hold":
                self.called.setdefault((act.caller, act.call), act.method)
        # What is held now: the calls by method, and the methods by call. Then the checks that were made.
        self.holding, self.held, self.kept, self.retreats = {}, {}, {}, set()

    def reasons(self):
        """For each line why it came so, or an empty text."""
        for number, act in enumerate(self.acts):
            yield self.reason(number, act) if act else ""

    def reason(self, number, act):
        call = (act.caller, act.call)
        if act.word == "hold":
            self.holding.setdefault(act.method, {})[call] = True
            self.held.setdefault(call, {})[act.method] = True
        elif act.word == "free":
            self.holding.get(act.method, {}).pop(call, None)
            self.held.get(call, {}).pop(act.method, None)
            if number < self.decided.get(call, -1) and call not in self.retreats:
                return self.retreat(number, call)
        elif act.word == "busy":
            return self.busy(act)
        elif act.word == "call":
            self.retreats.discard(call)
            if act.line.endswith(ENTERS_FRESH):
                return self.fresh(number, act)
        return ""

    def who(self, caller):
        """The caller, as a reader knows it."""
        return self.sections.get(caller, "script %s" % caller)

    def of_call(self, call):
        return "call %s of %s (%s)" % (call[1], self.who(call[0]), self.called[call])

    def busy(self, act):
        """The calls that hold the type which was to be changed."""
        holding = list(self.holding.get(act.method, {}))
        told = list(map(self.of_call, holding[:3])) + ["%d more" % (len(holding) - 3)] * (len(holding) > 3)
        return "the type of %s is in use by %s" % (act.method, " and ".join(told)) if told else ""

    def retreat(self, number, call):
        """A newer body came between the first hold of a call and its decision."""
        self.retreats.add(call)
        body = self.overtaking(number, call)
        whose = " of %s" % self.who(self.acts[body].caller) if body is not None else ""
        return "a newer body%s came before %s was decided, which goes on with that" % (whose, self.of_call(call))

    def overtaking(self, number, call):
        """The line of the newest body that came to a called method between the first hold of the call and this line, or None.

        Where scripts ran at once another one's acts stand elsewhere in the trace, and it is not known which it was.
        """
        first = next(at for at in range(number) if self.acts[at] and (self.acts[at].caller, self.acts[at].call) == call)
        bodies = [at for at in range(first, number) if self.acts[at] and (self.acts[at].word, self.acts[at].method) == ("def", self.called.get(call))]
        return bodies[-1] if bodies else None

    def fresh(self, number, act):
        """What became of the check that the caller had kept of this method, if it had one."""
        key, before = (act.caller, act.method), self.kept.get((act.caller, act.method))
        now = Kept(number, act.line.split(" ")[4], tuple(self.held.get((act.caller, act.call), ())))
        self.kept[key] = now
        change = before and self.change(act, before, now)
        if not change:
            return ""
        what = "body" if change.word == "def" else "type"
        return "a check was kept and agrees no more: %s gave %s a %s" % (self.who(change.caller), change.method, what)

    def change(self, act, before, now):
        """What came between two checks that a caller made of a method, and was the cause of the second one, or None."""
        between = [other for other in self.acts[before.number + 1:now.number] if other]
        bodies = [other for other in between if (other.word, other.method) == ("def", act.method)]
        if before.body == now.body:
            bodies = [other for other in bodies if other.caller == act.caller]
        types = [other for other in between if other.word == "type" and other.method in before.uses]
        return next(iter(bodies[-1:] + types), None)


def placed(line, name):
    """The line of an act, with the file's name before its places."""
    act = act_of(line)
    if not act:
        return line
    named = len(line) - len(line.split(act.method, 1)[1])
    return line[:named] + re.sub(r" (%s)(?= |$)" % report.PLACE, lambda found: " %s:%s" % (name, found.group(1)), line[named:])


def callers(source):
    """The names of the callers of a program, by their numbers as a trace has them."""
    import tree
    program = tree.program(source)
    names = [section for section in program.sections if section != "setup"] if program else []
    return dict({str(number): name for number, name in enumerate(names, 1)}, **{"0": "the setup"})


def shown(lines, name, source, paint):
    """The lines of a trace as hb shows them: with places in the file, and below some lines why."""
    for line, why in zip(lines, Trace(lines, callers(source)).reasons()):
        yield placed(line, name)
        if why:
            yield "  %s: %s" % (paint("also", "why"), why)
