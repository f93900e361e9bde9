"""Finds by indentation which opener lacks its `end`, or which `end` is one too many.

Each opener is tried as the one that has no `end`, and each `end` as the one too many. The text is then read with
that left out, and what does not fit together is counted: an `end` that stands elsewhere than its opener's line, a
line behind a block that stands as if it were in it, and what stands outside of all scripts. The one with the least
count is the answer, where no other has the same.
"""
import copy
import math

from spot import OPENERS

# So many openers, `end`s and lines are looked at, and no more in a long text whose lines all stand alike.
MOST = 200000
MISPLACED, OUTSIDE, ONE_LINE, ELSE_IF = 4, 6, 2, 1


class TooLong(Exception):
    """More would have to be looked at."""


class Opener:
    """A block that is open: its number, its line's indentation, and whether its block begins on that line."""

    def __init__(self, number, token, indent, one_line):
        self.number, self.token, self.indent, self.one_line = number, token, indent, one_line
        # Whether a line of the block stood further right, and whether one came back to the opener's line.
        self.deeper = self.returned = False

    def sees(self, indent):
        """Takes notice of a line in the block."""
        if indent > self.indent:
            self.deeper = True
        elif indent < self.indent or self.deeper or self.one_line:
            self.returned = True


class Layout:
    """The tokens that open and close blocks or begin a line, with the indentation of their lines."""

    def __init__(self, at):
        self.tokens, self.left, self.one_lines = at.tokens, MOST, {}
        rows = at.source.decode("latin-1").expandtabs(8).split("\n")
        self.indents = [len(row) - len(row.lstrip()) for row in rows]
        self.fronts = self.first_of_lines()
        self.events = [number for number, token in enumerate(self.tokens) if number in self.fronts or
                       token.kind == "keyword" and token.text in OPENERS + ("end", "else")]

    def first_of_lines(self):
        """The numbers of the tokens that begin a line, but not those that a line before goes on with."""
        found, line, goes_on = set(), 0, False
        for number, token in enumerate(self.tokens):
            if token.line != line and token.kind not in ("separator", "end"):
                if not goes_on:
                    found.add(number)
                line = token.line
            goes_on = token.kind == "mark" and token.text != ")"
        return found

    def indent(self, token):
        return self.indents[token.line - 1]

    def head_ends(self, number):
        """The number of the last token before the block of an opener."""
        token = self.tokens[number]
        word, depth = {"if": "then", "while": "do"}.get(token.text), 0
        for place in range(number + 1, len(self.tokens)):
            other = self.tokens[place]
            if other.line != token.line:
                break
            depth += (other.text in ("(", token.text)) - (other.text == ")")
            if word and other.text == word:
                if not depth:
                    return place
                depth -= 1
            elif not word and other.text == ")" and not depth and self.tokens[place + 1].text != "(":
                return place
        return number + 1 if token.text == "script" else number

    def is_one_line(self, number):
        """Whether the block of an opener begins on its line."""
        if number not in self.one_lines:
            self.one_lines[number] = self.begins_there(number)
        return self.one_lines[number]

    def begins_there(self, number):
        ends = self.head_ends(number)
        after = self.tokens[ends + 1] if ends + 1 < len(self.tokens) else None
        return bool(after) and ends != number and after.kind not in ("separator", "end") and \
            after.line == self.tokens[number].line


class Reading:
    """The text read with some openers taken to have no `end` and some `end`s left out, and how ill it fits."""

    def __init__(self, layout, without=(), extra=()):
        self.layout, self.without, self.extra = layout, frozenset(without), frozenset(extra)
        self.stack, self.cost, self.place = [], 0, 0
        self.closed, self.ended_script = {}, None

    def copied(self):
        """A reading that goes on from here for itself."""
        other = copy.copy(self)
        other.stack, other.closed = [copy.copy(opener) for opener in self.stack], {}
        return other

    def read(self, before=math.inf, most=math.inf):
        """Reads on up to a token, or until the cost is more than that."""
        events = self.layout.events
        while self.place < len(events) and events[self.place] < before and self.cost <= most:
            number = events[self.place]
            self.place += 1
            self.layout.left -= 1
            self.take(number, self.layout.tokens[number])
        if self.layout.left < 0:
            raise TooLong
        return self

    def take(self, number, token):
        word = token.text if token.kind == "keyword" else ""
        if number in self.layout.fronts and word not in ("end", "else"):
            self.begin_line(token)
        if word == "end":
            self.end(number, token)
        elif word == "else":
            self.other_branch(number, token)
        elif word in OPENERS:
            self.open(number, token, word)
        elif not self.stack and word != "class" and not self.in_class(number):
            self.cost += OUTSIDE * (self.ended_script is not None)

    def in_class(self, number):
        return self.layout.tokens[number - 1].text == "class"

    def begin_line(self, token):
        indent = self.layout.indent(token)
        while self.stack and self.stack[-1].number in self.without and self.is_behind(self.stack[-1], indent):
            self.stack.pop()
        if self.stack and self.stack[-1].token.line < token.line:
            self.stack[-1].sees(indent)

    @staticmethod
    def is_behind(opener, indent):
        """Whether a line with this indentation is no more in the block of an opener without an `end`."""
        if opener.token.text in ("script", "setup"):
            return False
        return indent < opener.indent or indent == opener.indent and (opener.deeper or opener.one_line)

    def drop(self):
        while self.stack and self.stack[-1].number in self.without:
            self.stack.pop()

    def open(self, number, token, word):
        if word in ("script", "setup"):
            self.drop()
            self.cost += OUTSIDE * bool(self.stack)
            self.stack = []
        else:
            self.cost += OUTSIDE * (not self.stack and self.ended_script is not None)
        indent = self.layout.indent(token)
        self.stack.append(Opener(number, token, indent, self.layout.is_one_line(number)))

    def other_branch(self, number, token):
        """An `else` is that of the innermost `if`, where this is not known to have ended before."""
        fronts, indent = number in self.layout.fronts, self.layout.indent(token)
        while self.stack and self.stack[-1].number in self.without and not (
                self.stack[-1].token.text == "if" and (not fronts or indent == self.stack[-1].indent)):
            self.stack.pop()
        if not self.stack or self.stack[-1].token.text != "if":
            self.cost += OUTSIDE
        elif fronts:
            self.cost += MISPLACED * (indent != self.stack[-1].indent)
            self.stack[-1].deeper = False

    def end(self, number, token):
        if number in self.extra:
            return
        self.drop()
        if not self.stack:
            self.cost += OUTSIDE
            return
        opener = self.stack.pop()
        self.closed[opener.number] = (opener, number)
        if opener.token.text in ("script", "setup"):
            self.ended_script = number
        self.cost += self.misfit(opener, number, token)

    def misfit(self, opener, number, token):
        """How ill an `end` fits to its opener."""
        if token.line == opener.token.line:
            return 0
        cost = 0
        if opener.token.text not in ("script", "setup"):
            cost += MISPLACED * opener.returned + ONE_LINE * opener.one_line
        if number not in self.layout.fronts:
            return cost + ONE_LINE
        indent = self.layout.indent(token)
        return cost + MISPLACED * (indent not in (opener.indent, opener.token.column - 1))

    def is_closed(self, number):
        """Whether an opener has an `end` that stands where it belongs, behind a block that stands further right."""
        opener, end = self.closed.get(number, (None, None))
        if opener is None:
            return False
        token = self.layout.tokens[end]
        return not self.misfit(opener, end, token) and (opener.deeper or token.line == opener.token.line)


def balance(at):
    """How many more openers than `end`s stand in the text."""
    words = [token.text for token in at.tokens if token.kind == "keyword"]
    return sum(word in OPENERS for word in words) - words.count("end")


def best(layout, numbers, found, name):
    """The numbers of those tokens without which the text fits best together, by the name of what they are added to."""
    base, costs, least = Reading(layout, found), {}, math.inf
    for number in numbers:
        base.read(before=number)
        trial = base.copied()
        setattr(trial, name, getattr(trial, name) | {number})
        trial.cost -= ELSE_IF * is_else_if(layout, number)
        costs[number] = trial.read(most=least).cost
        least = min(least, costs[number])
    return [number for number in numbers if costs[number] == least]


def is_else_if(layout, number):
    before = layout.tokens[number - 1]
    return before.text == "else" and before.line == layout.tokens[number].line


def keywords(layout, *words):
    """The numbers of the tokens that are one of these words."""
    return [number for number in layout.events
            if layout.tokens[number].kind == "keyword" and layout.tokens[number].text in words]


def unclosed(at):
    """The tokens of the openers that lack an `end`; fewer than are lacking where it is not known which ones."""
    layout, found, lacking = Layout(at), [], balance(at)
    openers = [number for number in keywords(layout, *OPENERS) if number < at.number]
    try:
        while len(found) < min(lacking, 4):
            left = [number for number in openers if number not in found]
            likely = meant(layout, best(layout, left, found, "without"), found)
            if not 0 < len(likely) <= lacking - len(found):
                break
            found += likely
    except TooLong:
        pass
    return [layout.tokens[number] for number in sorted(found)]


def meant(layout, likely, found):
    """The openers that may be meant, of some that are equally likely: the first of each line, and none that is closed
    where it belongs.
    """
    lines = {}
    for number in likely:
        lines.setdefault(layout.tokens[number].line, number)
    likely = list(lines.values())
    if len(likely) < 2:
        return likely
    reading = Reading(layout, found + likely[:1]).read()
    return [number for number in likely if not reading.is_closed(number)]


def surplus(at):
    """The token of the `end` that is one too many, or None where it is not known which one."""
    layout = Layout(at)
    closers = [number for number in keywords(layout, "end") if number <= at.number]
    if balance(at) >= 0 or not closers:
        return None
    try:
        likely = best(layout, closers, [], "extra")
    except TooLong:
        return None
    # Of some that stand side by side the last one is as good as any.
    between = {token.kind for token in layout.tokens[likely[0]:likely[-1]] if token.text != "end"}
    return layout.tokens[likely[-1]] if between <= {"separator"} else None


def ended(at):
    """The `end` of the script that stands last before a place, or None."""
    depth, found = 0, None
    for token in at.tokens[:at.number]:
        if token.kind == "keyword" and token.text in OPENERS:
            depth += 1
        elif token.kind == "keyword" and token.text == "end" and depth:
            depth -= 1
            found = token if not depth else found
    return found
