"""Draws a timeline as SVG: a lane for each caller, time downward, a bar for each type that is held."""
from html import escape
from pathlib import Path

import timeline

ROW, TOP, MARGIN = 20, 46, 10
# The width of a row's number, of a bar, and of a letter of a label.
NUMBER, BAR, LETTER = 44, 9, 7.3
# More bars than these stand over one another in the last column.
COLUMNS = 24
STYLE = Path(__file__).with_name("picture.css")
# The mark of an act that is no call, by its word.
MARKS = {"hold": "hold", "free": "free", "type": "type", "busy": "refused", "def": "def", "worn type": "refused", "worn def": "refused"}


class Lane:
    """A caller's part of the picture, from left to right: its bars, its axis with the marks, its labels."""

    def __init__(self, name, left, bars, longest):
        self.name, self.left = name, left
        self.axis = left + MARGIN + bars * BAR + MARGIN
        self.right = self.axis + MARGIN + max(longest, len(name)) * LETTER + MARGIN

    def bar(self, column):
        return self.left + MARGIN + column * BAR


class Picture:
    """The rows of a timeline whose levels are from one on, as many as are to be shown."""

    def __init__(self, told, first, most):
        self.told, self.first = told, first
        self.end = min(first + most, told.depth)
        self.rows = [(number, row) for number, row in enumerate(told.rows) if first <= row.level < self.end]
        self.pins = [pin for pin in told.pins if self.level(pin.first) < self.end and (pin.last is None or self.level(pin.last) >= first)]
        self.columns = columns(self.pins)
        self.lanes, left = {}, NUMBER if told.is_one_order else 0
        for caller in told.callers():
            lane = self.lane(caller, left)
            self.lanes[caller], left = lane, lane.right
        self.width, self.height = left + MARGIN, TOP + ROW * (max(self.end - first, 0) + 1)

    def level(self, number):
        return self.told.rows[number].level

    def lane(self, caller, left):
        used = [self.columns[pin] + 1 for pin in self.pins if pin.caller == caller]
        longest = max((len(timeline.label(row)) for _, row in self.rows if row.act.caller == caller), default=0)
        return Lane(self.told.who(caller), left, max(used, default=0), longest)

    def height_of(self, number):
        return TOP + ROW * (self.level(number) - self.first) + ROW / 2

    def place_of(self, number):
        """Where the mark of a row stands."""
        return self.lanes[self.told.rows[number].act.caller].axis, self.height_of(number)

    def svg(self, title):
        """The picture as an SVG document."""
        parts = [self.head(title), *self.drawn_lanes(), *self.drawn_pins(), *self.drawn_links(), *self.drawn_rows(), "</svg>"]
        return "\n".join(parts) + "\n"

    def head(self, title):
        return ('<svg xmlns="http://www.w3.org/2000/svg" class="history" width="%d" height="%d" viewBox="0 0 %d %d" role="img" aria-label="%s">\n'
                "<style>\n%s</style>\n"
                '<defs><marker id="tip" viewBox="0 0 8 8" refX="7" refY="4" markerWidth="7" markerHeight="7" orient="auto">'
                '<path class="tip" d="M0 0L8 4L0 8z"/></marker></defs>\n<rect class="ground" width="100%%" height="100%%"/>'
                % (self.width, self.height, self.width, self.height, escape(title, True), STYLE.read_text(encoding="utf-8")))

    def drawn_lanes(self):
        for number, lane in enumerate(self.lanes.values()):
            yield '<rect class="lane%d" x="%.0f" y="0" width="%.0f" height="%d"/>' % (number % 2, lane.left, lane.right - lane.left, self.height)
        yield '<g class="axes">'
        for lane in self.lanes.values():
            yield '<text class="caller" x="%.0f" y="26">%s</text>' % (lane.left + MARGIN, escape(lane.name))
            yield '<line class="axis" x1="%.0f" y1="%d" x2="%.0f" y2="%d"/>' % (lane.axis, TOP, lane.axis, self.height - ROW / 2)
        yield "</g>"

    def drawn_pins(self):
        hues = {method: number % 6 for number, method in enumerate(dict.fromkeys(pin.method for pin in self.told.pins))}
        for pin in self.pins:
            top = self.height_of(pin.first) if self.level(pin.first) >= self.first else TOP
            is_open = pin.last is None or self.level(pin.last) >= self.end
            ends = self.height - ROW / 2 if is_open else self.height_of(pin.last)
            told = "call %s of %s holds the type of %s" % (pin.call, self.told.who(pin.caller), pin.method)
            yield '<rect class="pin hue%d" x="%.0f" y="%.0f" width="6" height="%.0f" rx="3"><title>%s</title></rect>' % (
                hues[pin.method], self.lanes[pin.caller].bar(self.columns[pin]), top - 5, ends - top + 10, escape(told))

    def drawn_links(self):
        for link in self.told.links:
            if self.first <= self.level(link.row) < self.end:
                yield self.refusal(link) if link.kind == "refusal" else self.overtaking(link)

    def refusal(self, link):
        """An arrow from a change of a type that was refused to the bar of a call that holds it."""
        pin = next(pin for pin in self.pins if pin.first == link.cause)
        x, y = self.place_of(link.row)
        bar = self.lanes[pin.caller].bar(self.columns[pin])
        return '<path class="refusal" d="M%.0f %.0fL%.0f %.0f" marker-end="url(#tip)"/>' % (x, y, bar + 7 if bar < x else bar - 1, y)

    def overtaking(self, link):
        """An arrow from a body to the call that it came before, whose decision goes on with it."""
        if self.level(link.cause) < self.first:
            return ""
        (x1, y1), (x2, y2) = self.place_of(link.cause), self.place_of(link.row)
        middle = (x1 + x2) / 2
        return '<path class="overtaking" d="M%.0f %.0fC%.0f %.0f %.0f %.0f %.0f %.0f" marker-end="url(#tip)"/>' % (
            x1, y1, middle, y1, middle, y2, x2, y2)

    def drawn_rows(self):
        for number, row in self.rows:
            x, y = self.place_of(number)
            yield '<g class="row" id="row%d"><title>%s</title>' % (number, escape(timeline.sentence(row)))
            if self.told.is_one_order:
                yield '<text class="number" x="%d" y="%.0f">%d</text>' % (NUMBER - 8, y + 4, number + 1)
            yield mark(row, x, y)
            yield '<text class="label %s" x="%.0f" y="%.0f">%s</text></g>' % (kind(row), x + MARGIN, y + 4, escape(timeline.label(row)))


def columns(pins):
    """A column for each pin: the first of its caller's that no other pin has at the time."""
    found, until = {}, {}
    for pin in pins:
        ends = until.setdefault(pin.caller, [])
        free = [column for column, end in enumerate(ends) if end is not None and end < pin.first]
        column = free[0] if free else min(len(ends), COLUMNS - 1)
        ends[column:column + 1] = [pin.last]
        found[pin] = column
    return found


def kind(row):
    """What kind of an act it is, as the style has it."""
    if row.act.word == "call":
        return row.verdict.split()[1] if row.verdict.startswith("enter ") else "refused"
    return "overtaken" if row.act.word == "free" and row.why else MARKS[row.act.word]


def mark(row, x, y):
    """The mark of an act, whose form tells its kind also where no colour is seen."""
    name = kind(row)
    if name in ("hold", "free"):
        return '<circle class="mark %s" cx="%.0f" cy="%.0f" r="2.5"/>' % (name, x, y)
    if name in ("own", "shared", "fresh"):
        return '<circle class="mark %s" cx="%.0f" cy="%.0f" r="5"/>' % (name, x, y)
    if name == "type":
        return '<rect class="mark type" x="%.1f" y="%.1f" width="9" height="9"/>' % (x - 4.5, y - 4.5)
    if name == "def":
        return '<path class="mark def" d="M%.1f %.1fl5 9h-10z"/>' % (x, y - 5)
    if name == "overtaken":
        return '<path class="mark overtaken" d="M%.1f %.1fl5 5l-5 5l-5 -5z"/>' % (x, y - 5)
    return '<path class="mark refused" d="M%.1f %.1fl8 8m0 -8l-8 8"/>' % (x - 4, y - 4)
