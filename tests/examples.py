"""Runs each example and each recording of a terminal, and compares what is written.

    python3 tests/examples.py [--write] PATH_TO_HBIRD

Beside examples/NAME.hb stands its report, NAME.out, or only the last lines of
a long one, NAME.tail; NAME.status where the status is not 0; and NAME.words
with the options of its run where it has some. Where scripts run at once and
several reports may come, NAME.reports has them all, each behind a line with
the reason. A recording is a block `console` of README.md, with commands behind
`$ `. With --write the reports are written anew, to be read as a diff.
"""
import os
import subprocess
import sys

from markdown import ROOT, sections

# Where a program stands that was handed in, `./hb` runs it too.
PROGRAM = os.path.abspath(sys.argv[-1])
# So many of a report's last lines are kept of one that is longer than this.
TAIL, LONG = 2, 65536
# A text with several reports is run so often. Which of them come is left open.
OFTEN = 30


def options(text):
    """The options with which an example is run."""
    words = text.with_suffix(".words")
    return words.read_text().split() if words.exists() else []


def run(text):
    done = subprocess.run([PROGRAM, "run", *options(text)], stdin=text.open(), stdout=subprocess.PIPE)
    return done.stdout.decode(), done.returncode


def kept(text):
    """What the files beside an example say of its report and status."""
    status = text.with_suffix(".status")
    files = [text.with_suffix(".out"), text.with_suffix(".tail")]
    report = next((file.read_text() for file in files if file.exists()), "")
    return report, int(status.read_text()) if status.exists() else 0


def due(text):
    """What these files must say: the report, or its last lines where it is long, and the status."""
    report, status = run(text)
    return report if len(report) < LONG else "".join(report.splitlines(keepends=True)[-TAIL:]), status


def write(text):
    report, status = due(text)
    is_long = len(run(text)[0]) >= LONG
    for suffix, wanted, content in ((".out", not is_long, report), (".tail", is_long, report),
                                    (".status", status != 0, "%d\n" % status)):
        file = text.with_suffix(suffix)
        if wanted:
            file.write_text(content)
        elif file.exists():
            file.unlink()


def reports(text):
    """The reports of a text that may come, or none where it has one alone."""
    file = text.with_suffix(".reports")
    parts = file.read_text().split("== ")[1:] if file.exists() else []
    return [part.partition("\n")[2] for part in parts]


def one_of_several(text):
    """A report of the text that may not come, or None."""
    came = (run(text)[0] for _ in range(OFTEN))
    return next((report for report in came if report not in reports(text)), None)


def examples_are_kept(writes):
    for text in sorted((ROOT / "examples").glob("**/*.hb")):
        if reports(text):
            other = one_of_several(text)
            if other is not None:
                yield "%s: %r came" % (text.relative_to(ROOT), other)
            continue
        if writes:
            write(text)
        if due(text) != kept(text):
            yield "%s: %r is due, and %r came" % (text.relative_to(ROOT), kept(text), due(text))


def played(recording):
    """The recording as it comes out when its commands are run."""
    lines = []
    for line in recording.splitlines(keepends=True):
        if line.startswith("$ "):
            done = subprocess.run(["bash", "-c", line[2:]], cwd=ROOT, env=dict(os.environ, HBIRD=PROGRAM),
                                  stdout=subprocess.PIPE, stderr=subprocess.STDOUT)
            lines += [line, done.stdout.decode()]
    return "".join(lines)


def recordings_are_true(writes):
    paper = ROOT / "README.md"
    for section in sections(paper):
        for block in section.blocks:
            if block.language == "console" and played(block.text) != block.text:
                if writes:
                    paper.write_text(paper.read_text().replace(block.text, played(block.text)))
                else:
                    yield "README.md: line %d: the recording is another:\n%s" % (block.number, played(block.text))


def main():
    writes = "--write" in sys.argv
    wrong = [*examples_are_kept(writes), *recordings_are_true(writes)]
    for message in wrong:
        print(message)
    print("%d examples, %d wrong" % (len([*(ROOT / "examples").glob("**/*.hb")]), len(wrong)))
    return 1 if wrong else 0


if __name__ == "__main__":
    sys.exit(main())
