"""hb: runs hbird on files, and shows where and why a program stopped."""
import difflib
import importlib
import json
import os
import subprocess
import sys
from pathlib import Path
from typing import NamedTuple, Optional

import command
import pages
import release
import report
import several
import show
import streams
from streams import say

HELP = """\
hb runs programs of hbird from files, and shows where and why one stopped.

  hb [run] FILE..      runs each program; the file - is the standard input
  hb --order=12 FILE.. lets the scripts take turns, here one of the first and
                       one of the second; behind the script 9 comes a
  hb --trace FILE..    shows behind the report each act at the tables, and why
  hb --runs=100 FILE.. runs each program so often, and shows each report that
                       came: scripts that no order gives turns run at once
  hb trace FILE -o OUT draws the history of its run: OUT is a page for a browser,
                       or with .svg a picture; it takes --order=12 too
  hb derive FILE       shows each check of a run, with what it used and found
  hb verify BUNDLE     shows which derivations of a bundle are good
  hb --json FILE..     gives each report as a JSON object on a line of its own
  hb watch FILE        runs it again on each save
  hb new NAME          writes a first program, and never over a file
  hb fmt FILE..        indents programs by their blocks
  hb fmt --check ..    writes nothing, and ends with 1 where it would change one
  hb lsp               is a server for editors, as editors/README.md tells
  hb explain [WORD..]  explains words of a report; without a word, lists all
  hb help              this page
  hb --version         the version

Programs to try stand in examples/, and docs/LANGUAGE.md teaches the language.
The options of hbird are handed to it: --order and --trace, --steps=N, which
gives each script so many steps, and --versions=N, by which each type and each
body may change so often. The status is that of hbird, of several runs the
greatest, and of several files the first that is not 0. Colours come only on a
terminal, and never where NO_COLOR or INSIDE_EMACS says something, or TERM says
dumb. HBIRD names another program to run.

Statuses
"""

STATUSES = [
    (0, "the setup and each script ran to its end"),
    (1, "the text is too long or no program"),
    (2, "the words ask for nothing"),
    (3, "memory ran out"),
    (4, "a read failed"),
    (5, "a write failed"),
    (6, "the setup or a script stopped"),
    (7, "the process could not get its words"),
    (70, "there is no program that runs here, or hb finds no Python"),
]
WRONG_WORDS, READ_FAILED, WRITE_FAILED, STOPPED, NOT_BUILT = 2, 4, 5, 6, 70
# With these the program ends without a word.
SILENT = (3, 4, 5, 7)

LAUNCHER = Path(__file__).resolve().parent.parent / "hbird"
# The program reads at most one byte more than a text may have, so no more is read for it.
MOST = 1048577


def write(lines):
    """Writes lines as they came: bytes that are no letters go out as they came in."""
    sys.stdout.buffer.write("".join(line + "\n" for line in lines).encode("utf-8", "surrogateescape"))
    sys.stdout.buffer.flush()


def help_text():
    told = "This is hbird %s. Its docs/ and examples/ stand in %s." % (release.version(), release.papers())
    return HELP.splitlines() + ["  %-4d %s" % row for row in STATUSES] + ["", told]


def explain(words):
    """Explains words of a report, or lists all where none is given; `--words` lists the bare words."""
    if not words or words == ["--words"]:
        write(pages.words() if words else pages.overview())
        return 0
    found, unknown = pages.explained(words)
    if unknown is not None:
        near = difflib.get_close_matches(unknown.lower(), [known.lower() for known in pages.words()], 1)
        likely = [known for known in pages.words() if known.lower() in near]
        more = "is it %s?" % likely[0] if likely else "hb explain lists all words"
        say("nothing is known of %s; %s" % (unknown, more))
        return WRONG_WORDS
    for number, section in enumerate(found):
        write(([""] if number else []) + pages.as_text(section))
    return 0


def read(name, most=MOST):
    """The text of a file, or None where it cannot be read, which is told."""
    try:
        if name == "-":
            return sys.stdin.buffer.read(most)
        with open(name, "rb") as file:
            return file.read(most)
    except OSError as error:
        say("%s: %s" % (name, error.strerror))
        return None


def needed():
    return "it does not run on this machine, since it needs " + release.needs()


class Outcome(NamedTuple):
    """What the program wrote on a text, its status, and what is to be said of it beside that, if anything."""

    out: bytes
    status: int
    says: Optional[str] = None


def outcome(text, options, job="run"):
    """What comes of a run, or of another job of the program. What the program says on standard error goes on to ours."""
    program = os.environ.get("HBIRD") or str(LAUNCHER)
    try:
        done = subprocess.run([program, job, *options], input=text, stdout=subprocess.PIPE)
    except OSError as error:
        why = needed() if release.is_foreign(program, error) else error.strerror
        return Outcome(b"", NOT_BUILT, "%s: %s" % (program, why))
    if release.did_not_start(done.returncode, done.stdout):
        return Outcome(b"", NOT_BUILT, "%s: %s" % (program, needed()))
    if done.returncode < 0:
        return Outcome(done.stdout, 128 - done.returncode, "the program was ended by signal %d" % -done.returncode)
    if done.returncode in SILENT:
        return Outcome(done.stdout, done.returncode, "the program ended with status %d: %s" % (
            done.returncode, dict(STATUSES)[done.returncode]))
    return Outcome(done.stdout, done.returncode)


def run(text, options, job="run"):
    """What the program writes on a text, and its status."""
    out, status, says = outcome(text, options, job)
    if says:
        say(says)
    return out, status


def lines_of(out):
    """The lines of an output, as text; the last one has no line feed."""
    return out.decode("utf-8", "surrogateescape").split("\n")


def run_file(name, options, as_json, paint, count=None):
    """Runs one file and shows the report, or each that came of several runs. Gives the status, of several the greatest."""
    text = read(name)
    if text is None:
        show_report(name, None, b"", READ_FAILED, options, as_json, paint)
        return READ_FAILED
    found = several.counted(count or 1, lambda: outcome(text, options))
    runs = sum(times for _, times in found)
    # Where one run tells all, there was no other.
    has_heads = runs > 1 and not as_json
    if has_heads:
        write([paint("file", several.headline(runs, len(found)))])
    for (out, status, says), times in found:
        if has_heads:
            write(["", paint("file", "==> %d of %d <==" % (times, runs))])
        if says:
            say(says)
        show_report(name, text, out, status, options, as_json, paint, times if count else None)
    return max(status for (_, status, _), _ in found)


def show_report(name, text, out, status, options, as_json, paint, times=None):
    """Shows what a run wrote, which came so many times where that was counted."""
    lines = lines_of(out)
    cut = lines.pop()
    if as_json:
        found = report.as_object(name, status, lines + [cut] * bool(cut))
        write([json.dumps(found if times is None else dict(found, times=times))])
    elif text is not None:
        again = None if command.has_order(options) else lambda part: lines_of(run(part, options)[0])
        write(show.report_shown(lines, streams.plain(name), text, paint, again))
        # A last line without an end is not whole, and no line of a report.
        sys.stdout.buffer.write(cut.encode("utf-8", "surrogateescape"))
        write(show.remarked(text, paint) if status in (0, STOPPED) and not cut else [])


def main(words):
    if words[:1] in (["help"], ["--help"], ["-h"]):
        write(help_text())
        return 0
    if words[:1] == ["--version"]:
        write(["hbird " + release.version()])
        return 0
    if words[:1] == ["explain"]:
        return explain(words[1:])
    # The file of each of these is read where it is wanted.
    if words[:1] == ["watch"]:
        return importlib.import_module("watch").main(words[1:], say, main)
    if words[:1] == ["trace"]:
        return importlib.import_module("history").main(words[1:], say)
    if words[:1] in (["derive"], ["verify"], ["new"], ["fmt"], ["lsp"]):
        return importlib.import_module(words[0]).main(words[1:], say)
    return run_files(words[1:] if words[:1] == ["run"] else words)


def run_files(words):
    options, files = command.parted(words)
    asked, options = several.parted(options)
    fault = command.fault(options, files) or several.fault(asked)
    if fault:
        say(fault)
        return WRONG_WORDS
    count = several.count_of(asked[0]) if asked else None
    handed = [option for option in options if option != "--json"]
    as_json = "--json" in options
    paint = show.Paint(streams.wants_colours())
    status = 0
    for number, name in enumerate(files):
        if len(files) > 1 and not as_json:
            write([""] * bool(number) + [paint("file", "==> %s <==" % streams.plain(name))])
        ended = run_file(name, handed, as_json, paint, count)
        status = status or ended
        if ended == WRONG_WORDS and handed:
            name_refused(handed)
            break
    return status


def name_refused(options):
    """Names the options that the program refuses each for itself, as on the empty text; else says that all are."""
    alone, values = [option for option in options if run(b"", [option])[1] == WRONG_WORDS], command.values()
    for option in alone:
        value = values.get(option.partition("=")[0])
        say(command.of_value(option, value) if value else command.of_option(option, ["--json", several.OPTION, *values]))
    if not alone:
        say("hbird refuses these options together: %s; each stands once, and with --order or --trace there are at most "
            "100,000 steps" % " ".join(options))


def guarded(words):
    """Runs main, and ends without a trace where the output cannot be written or the user breaks off."""
    streams.hold()
    try:
        status = main(words)
        sys.stdout.flush()
        return status
    except KeyboardInterrupt:
        return 130
    except OSError as error:
        if not isinstance(error, BrokenPipeError):
            say("the output cannot be written: %s" % error.strerror)
        streams.drop(1)
        return WRITE_FAILED


if __name__ == "__main__":
    sys.exit(guarded(sys.argv[1:]))
