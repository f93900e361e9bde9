"""Tries what hb says beside a report: hints, second places, and silence where nothing is known.

    python3 tests/hints.py PATH_TO_HBIRD

The rows stand in tests/hint_rows.py. Each text is run, and each line of its
report that tells a fault or a stop is asked for advice. The tables of the
papers from which hints are read are tried too: what they say to write runs.
"""
import os
import re
import subprocess
import sys

import faults
from hint_rows import ANSWERS, IN_FULL, RIGHT, SCAFFOLD, WRONG
from markdown import ROOT

sys.path.insert(0, str(ROOT / "front"))
import advice  # noqa: E402
import foreign  # noqa: E402
import report  # noqa: E402
import tokens  # noqa: E402
import tree  # noqa: E402

PROGRAM = os.path.abspath(sys.argv[-1])
# The lines that tell a place, without it.
LINES = [("text ", "BadByte BadEscape OpenText UnknownClass TwiceParam"),
         ("text Expected ", "end then do ) expression name type classname ( . : -> new item"),
         ("stop ", "NilValue BadOperand NoBody NoType BadArgs Busy Steps Unbound NoSelf"),
         ("stop IllTyped 1:1 ", "Unbound NoType Receiver Count Argument Operand Loop Result")]
OPENERS = ("script", "setup", "def", "if", "while")


def run(text, *options):
    """The lines of the report on a text. Of several scripts the first one goes first, so that there is one report."""
    ordered = any(option.startswith("--order") for option in options)
    order = ["--order=1"] if text.count(b"\nscript ") > 1 and not ordered else []
    done = subprocess.run([PROGRAM, "run", *order, *options], input=text, stdout=subprocess.PIPE)
    return done.stdout.decode("utf-8", "surrogateescape").splitlines()


def advised(text):
    """All places and hints on a text, each place as `LINE:COLUMN label`."""
    found = [advice.of(text, line, section, run) for line, section in report.with_sections(run(text))]
    found.append(advice.remarks(text))
    places = ["%d:%d %s" % place for one in found for place in one.places]
    return places, [hint for one in found for hint in one.hints]


def rows_are_met():
    for text, places, words in WRONG:
        found, hints = advised(text)
        missing = [word for word in words if not any(word in hint for hint in hints)]
        if found != places or missing or bool(hints) != bool(words):
            yield "%r: %s and %s are due, and %s and %s came" % (text, places, words, found, hints)
        if any("\n" in hint or hint[-1:] not in (".", "?") for hint in hints):
            yield "%r: a hint is no line of whole sentences: %s" % (text, hints)


def right_ones_get_none():
    for text, places in RIGHT:
        found, hints = advised(text)
        if hints or found != places:
            yield "%r: no hint and %s are due, and %s and %s came" % (text, places, found, hints)
    for file in sorted((ROOT / "examples").glob("*.hb")):
        stops = file.with_suffix(".status").exists() or file.with_suffix(".words").exists()
        if not stops and advised(file.read_bytes()) != ([], []):
            yield "%s runs, and yet %s came" % (file.name, advised(file.read_bytes()))


def shown_in_full():
    """What hb writes, line for line."""
    for text, due in IN_FULL:
        done = subprocess.run([str(ROOT / "hb"), "-"], input=text, stdout=subprocess.PIPE,
                              env=dict(os.environ, HBIRD=PROGRAM))
        if done.stdout.decode() != due:
            yield "%r: hb writes %r" % (text, done.stdout.decode())


def keywords(text):
    """The words that open and close blocks, as pairs of an opener and its `end`."""
    waiting, found = [], []
    for token in tokens.tokens(text):
        if token.kind == "keyword" and token.text in OPENERS:
            waiting.append(token)
        elif token.kind == "keyword" and token.text == "end":
            found.append((waiting.pop(), token))
    return found


def missing_ends_are_found():
    """Without one of its `end`s a text is told that one's opener, or none; of all examples most are told."""
    told = tried = 0
    for file in sorted((ROOT / "examples").glob("*.hb")):
        text = file.read_bytes()
        for opener, end in keywords(text):
            places, _ = advised(text[:end.start] + text[end.stop:])
            tried, told = tried + 1, told + bool(places)
            if places and [place for place in places if not place.startswith("%d:" % opener.line)]:
                yield "%s without the end of line %d: %s" % (file.name, end.line, places)
    if told < tried * 9 // 10:
        yield "of %d missing ends only %d are told" % (tried, told)


def surplus_ends_are_found():
    """With an `end` twice a text is told the second one, or none."""
    told = tried = 0
    for file in sorted((ROOT / "examples").glob("*.hb")):
        text = file.read_bytes()
        for opener, end in keywords(text):
            if opener.text in ("script", "setup"):
                continue
            before = text[text.rfind(b"\n", 0, end.start) + 1:end.start]
            alone = not before.strip()
            places, _ = advised(text[:end.stop] + (b"\n" + before if alone else b" ") + b"end" + text[end.stop:])
            tried, told = tried + 1, told + bool(places)
            if places and not places[0].startswith("%d:" % (end.line + alone)):
                yield "%s with the end of line %d twice: %s" % (file.name, end.line, places)
    if told < tried * 9 // 10:
        yield "of %d ends too many only %d are told" % (tried, told)


def nothing_fails():
    """Advice is given on texts that lack a token, and on lines that do not belong to a text."""
    words = [front + word for front, list_of_words in LINES for word in list_of_words.split()]
    for number, file in enumerate(sorted((ROOT / "examples").glob("*.hb"))):
        text = file.read_bytes()
        # Each word meets each kind of token in one text or another.
        for token in tokens.tokens(text)[number % 7::17]:
            for word in words:
                advice.of(text[:token.start] + text[token.stop:], "%s %d:%d" % (word, *token.place))
                advice.of(text, "%s %d:%d" % (word, *token.place))
    return []


def texts_read_alike():
    """What reads as a program for hb does so for the program, and its tokens have the same first fault."""
    for text, answer in faults.TABLE:
        word, place = (answer.split() + [""])[1], answer.split()[-1]
        nests = len(re.findall(r"\(|\b(?:if|while|def|not|print)\b", text)) > 100
        if len(text) > 5000 or nests or word.startswith(("Too", "Big", "Long", "Unknown", "Twice")):
            continue
        source = text.encode("latin-1")
        reads = tree.program(source) is not None
        bad = next(("%d:%d" % token.place for token in tokens.tokens(source) if token.kind == "bad"), None)
        if reads != (answer == "ok"):
            yield "%r: %s is due, and hb reads %s" % (text[:80], answer, "a program" if reads else "none")
        if word == "BadByte" and '"' not in text and place != bad:
            yield "%r: %s is due, and the first bad token is at %s" % (text[:80], answer, bad)


def tables_run():
    """What the tables of the papers say to write runs, where it is code."""
    forms = {**foreign.words(), **foreign.marks()}
    for form, told in forms.items():
        code = re.match(r"`([^`]+)`", told)
        if code and code.group(1) not in SCAFFOLD.alone and not code.group(1).startswith("#"):
            text = SCAFFOLD.around(code.group(1))
            lines = run(text.encode())
            if "done" not in lines:
                yield "%s: %r does not run: %s" % (form, code.group(1), lines)
    if len(forms) < 150:
        yield "the tables have only %d forms" % len(forms)


def answers_are_true():
    """The answers of docs/LANGUAGE.md: what stands there came of the example when it was changed so."""
    paper = (ROOT / "docs/LANGUAGE.md").read_text()
    answers = paper[paper.index("## Answers to what to try"):]
    for name, old, new, line, *options in ANSWERS:
        text = (ROOT / "examples" / name).read_text()
        lines = run(text.replace(old, new).encode(), *options)
        if old not in text or line not in lines or line.replace("> ", "") not in answers:
            yield "%s: %r is not told or did not come: %s" % (name, line, lines[-3:])


PARTS = [rows_are_met, right_ones_get_none, texts_read_alike, shown_in_full, missing_ends_are_found,
         surplus_ends_are_found, nothing_fails, tables_run, answers_are_true]


def main():
    wrong = [message for part in PARTS for message in part()]
    for message in wrong:
        print(message)
    print("%d wrong texts with hints, %d right ones, %d wrong" % (len(WRONG), len(RIGHT), len(wrong)))
    return 1 if wrong else 0


if __name__ == "__main__":
    sys.exit(main())
