"""Reads derivations, which say what a check used and found, and shows each with the lines of the program."""
import re
from typing import NamedTuple, Optional

import report
import show

HEAD = re.compile(r"derivation (\w+) %s %s" % (report.PLACE, report.PLACE))
USE = re.compile(r"use (\w+\.\w+) %s" % report.PLACE)
STEP = re.compile(r"step %s (\w+)" % report.PLACE)
# What verify says of a derivation.
REFUSED = re.compile(r"no (step|uses) (\d+)")
LENGTH = re.compile(rb"program (\d{1,7})\n")


class Use(NamedTuple):
    """A method at whose type a check looked, and where that type is declared."""

    method: str
    place: tuple


class Step(NamedTuple):
    """An expression, and the type that it has."""

    place: tuple
    type: str


class Derivation:
    """A check of a body: the class of self, where the body and its type stand, what it used, and what each expression has."""

    def __init__(self, owner, body, declared):
        self.owner, self.body, self.declared, self.uses, self.steps = owner, body, declared, [], []


def is_bundle(out):
    """Whether this begins as a bundle does."""
    return bool(LENGTH.match(out))


def parts(bundle):
    """The text of a bundle's program, and the text behind it."""
    found = LENGTH.match(bundle)
    if not found:
        return b"", b""
    ends = found.end() + int(found.group(1))
    text = bundle[found.end():ends]
    return text, bundle[ends + (not text.endswith(b"\n")):]


def derivations(text):
    """The derivations of a text that has nothing else."""
    found = []
    for line in text.decode("utf-8", "replace").split("\n"):
        head, use, step = HEAD.fullmatch(line), USE.fullmatch(line), STEP.fullmatch(line)
        if head:
            owner, *numbers = head.groups()
            found.append(Derivation(owner, report.place_of(numbers[:2]), report.place_of(numbers[2:])))
        elif use and found:
            found[-1].uses.append(Use(use.group(1), report.place_of(use.groups()[1:])))
        elif step and found:
            found[-1].steps.append(Step(report.place_of(step.groups()[:2]), step.group(3)))
    return found


def headline(number, derivation, name, paint):
    return paint("file", "check %d" % number) + ": the body at %s:%d:%d, with self of class %s" % (
        name, *derivation.body, derivation.owner)


def shown(number, derivation, name, source, paint):
    """A derivation with the lines of the program: the type of the body, the types that it used, and the types that it found."""
    yield headline(number, derivation, name, paint)
    yield from show.excerpt([show.Mark(derivation.declared, "^ the type of the body", "also")], source, paint)
    for use in derivation.uses:
        yield from show.excerpt([show.Mark(use.place, "^ used: the type of %s" % use.method, "also")], source, paint)
    steps = [show.Mark(step.place, "^ " + step.type, "good") for step in derivation.steps]
    yield from show.excerpt(sorted(steps, key=lambda mark: mark.place[0]), source, paint)


class Stop(NamedTuple):
    """Where the walk over a body stops, and what is wrong there."""

    place: Optional[tuple]
    says: str


def stop_of(derivation, line):
    """Why verify refuses a derivation, by its line; None where it does not."""
    found = REFUSED.fullmatch(line)
    if not found:
        return None
    what, number = found.group(1), int(found.group(2))
    told = derivation.steps if what == "step" else derivation.uses
    if number < len(told):
        part = told[number]
        is_step = what == "step"
        return Stop(part.place, "step %d says %s, which the walk does not find here" % (number, part.type) if is_step
                    else "use %d, of %s, is not the one that the walk wants next" % (number, part.method))
    return Stop(derivation.body, "the walk wants a %s more, behind the %d that stand here" % ("step" if what == "step" else "use", number))


def verdict_shown(number, derivation, line, name, source, paint):
    """What verify says of a derivation; of a refused one with the place at which the walk stopped."""
    stop = stop_of(derivation, line)
    if not stop:
        yield paint("good", line) + " " + headline(number, derivation, name, paint)
        return
    yield paint("bad", line) + " " + headline(number, derivation, name, paint)
    yield from show.excerpt([show.Mark(stop.place, "^ " + stop.says, "bad")], source, paint)
