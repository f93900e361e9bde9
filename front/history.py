"""hb trace: draws the history of a run, as SVG, or as a page on which one goes from act to act."""
import json
import os
import re
import sys
from html import escape
from pathlib import Path

import command
import picture
import show
import timeline
import whole

WRONG_WORDS, READ_FAILED, WRITE_FAILED, STOPPED, NOT_BUILT = 2, 4, 5, 6, 70
HERE = Path(__file__).resolve().parent
# More acts than these are not drawn at once.
MOST = 2000
# The options that are handed on, and those of the picture; each has a value.
HANDED, OWN = ("--order", "--steps", "--versions"), ("--from", "-o")


class Wrong(Exception):
    """Words that ask for nothing; its text says why."""


class Asked:
    """What the words ask for: the file, the options of its run, where to draw, and the first act to be drawn."""

    def __init__(self, words):
        self.options, self.output, self.first, files = [], None, 0, []
        waiting = list(words)
        while waiting:
            word = waiting.pop(0)
            if word == "--":
                files += waiting
                break
            if word.startswith("-") and word != "-":
                name, _, value = word.partition("=")
                self.option(name, value or (waiting.pop(0) if waiting and name in HANDED + OWN else ""))
            else:
                files.append(word)
        if len(files) != 1:
            raise Wrong("hb trace takes one file, that of the program; hb help tells more")
        self.file = files[0]

    def option(self, name, value):
        if name not in HANDED + OWN:
            raise Wrong(command.of_option(name, HANDED + OWN, "hb trace"))
        if not value:
            raise Wrong("%s wants a value" % name)
        if name in HANDED:
            self.options.append("%s=%s" % (name, value))
        elif name == "-o":
            self.output = value
        elif value.isdecimal() and int(value) > 0:
            self.first = int(value) - 1
        else:
            raise Wrong("--from wants the number of an act, the first of which is 1")

    def has_order(self):
        return any(option.startswith("--order=") for option in self.options)

    def is_page(self):
        """Whether a page is wanted and not the bare picture."""
        return not (self.output or "").endswith(".svg")


def window(told):
    """How many levels are drawn: fewer where the acts of several scripts stand beside one another."""
    return MOST if told.is_one_order else MOST // max(len(told.callers()), 1)


def heading(asked, told):
    """What stands above the picture: the file, how its scripts ran, and which acts are shown."""
    order = next((option.partition("=")[2] for option in asked.options if option.startswith("--order=")), None)
    if order is not None:
        ran = "turns %s, then one script after the other" % (order if len(order) <= 40 else order[:37] + "...")
    else:
        ran = "one script" if told.is_one_order else "scripts at once, each by itself"
    first, end = asked.first, min(told.depth, asked.first + window(told))
    part = "acts %d to %d; --from=N begins at another one" % (min(first + 1, end), end)
    return "%s: %s; %d acts%s" % (show.clean(os.fsencode(os.path.basename(asked.file))), ran, len(told.rows), "" if (first, end) == (0, told.depth) else ", shown are " + part)


def data(told, source, first):
    """What the page knows of the acts: those that are drawn, and those before them, on which the tables rest."""
    end = first + window(told)
    rows = [{"id": number, "drawn": row.level >= first, "who": told.who(row.act.caller), "word": row.act.word, "call": row.act.call,
             "method": row.act.method, "place": row.place, "label": timeline.label(row), "why": timeline.sentence(row)}
            for number, row in enumerate(told.rows) if row.level < end]
    lines = [line.decode("utf-8", "replace") for line in source.split(b"\n")]
    # Within a script of a page nothing may look like its end.
    return json.dumps({"isOneOrder": told.is_one_order, "rows": rows, "lines": lines}).replace("<", "\\u003c")


def page(title, svg, told, source, first):
    """The page: the picture, what it needs to be gone through, and nothing from elsewhere."""
    parts = {"TITLE": escape(title), "STYLE": (HERE / "history.css").read_text(encoding="utf-8"), "PICTURE": svg,
             "DATA": data(told, source, first), "SCRIPT": (HERE / "history.js").read_text(encoding="utf-8")}
    return re.sub("{([A-Z]+)}", lambda found: parts[found.group(1)], (HERE / "history.html").read_text(encoding="utf-8"))


def put(text, output):
    if output in (None, "-"):
        sys.stdout.write(text)
        sys.stdout.flush()
    else:
        whole.put(output, text.encode("utf-8"))


def main(words, say):
    import hb
    try:
        asked = Asked(words)
        if asked.output is None and sys.stdout.isatty():
            raise Wrong("a picture is nothing for a terminal: -o FILE names a file for it, with .html or .svg")
    except Wrong as wrong:
        say(str(wrong))
        return WRONG_WORDS
    source = hb.read(asked.file)
    if source is None:
        return READ_FAILED
    out, status = hb.run(source, ["--trace"] + asked.options)
    if status not in (0, STOPPED):
        return refused(asked, source, out, status, say)
    lines = hb.lines_of(out)
    if "trace" not in lines:
        say("the program wrote no trace, so nothing is drawn")
        return NOT_BUILT
    told = timeline.Timeline(lines[lines.index("trace") + 1:], source, asked.has_order())
    title = heading(asked, told)
    svg = picture.Picture(told, asked.first, window(told)).svg(title)
    try:
        put(page(title, svg, told, source, asked.first) if asked.is_page() else svg, asked.output)
    except OSError as error:
        if asked.output in (None, "-"):
            raise
        say("%s: %s" % (asked.output, error.strerror))
        return WRITE_FAILED
    return 0


def refused(asked, source, out, status, say):
    """What comes of a text that is no program, or of options that the program refuses: no picture."""
    import hb
    if status == WRONG_WORDS:
        hb.name_refused(asked.options)
    else:
        *lines, cut = hb.lines_of(out)
        for line in show.report_shown(lines + [cut] * bool(cut), asked.file, source, show.Paint(False)):
            say(line)
    return status
