"""Programs whose scripts run at once: what each writes is one of the reports that may come.

    python3 tests/at_once.py PATH_TO_HBIRD [--all]

Which of them come, and how often, is left open. Of the programs of the table what may come was found by hand, from the
rules. Of those that are made each report must fit itself and its status, and where the scripts share no method it is the
one that an order gives. With `--all` each that is made is run as often as was tried by hand; without it a few times.
"""
import concurrent.futures
import os
import re
import subprocess
import sys
from collections import Counter
from typing import NamedTuple, Optional

from scripts import made
from turns import (BEFORE, BOTH_DONE, BUSY, CALLS, CROSSED, ENTERS, FIRST_STOPS, FREE, HELD, NOTHING, SECOND_STOPS,
                   SETUP_STOPS, NONE)

# So often each text of the table is run, and each that is made: all times, and as the gate does.
RUNS, ALL_TIMES, FEW_TIMES = 100, 20, 5
# So many texts are made, with so many steps for each script: without an order it might have more.
MADE, STEPS = 300, "--steps 50000"
# A run that takes more seconds is taken for one that never ends.
SECONDS = 60

# All names that may be: two scripts give bodies to them, in opposite orders, and then to one more.
FULL = "class A\n" + "".join("""script %s
i = 0
while i < 1024 do
def A.("m" ++ str(%s))() 0 end
i = i + 1
end
def A.m0() 1 end
def A.%s() 1 end
end
""" % row for row in (("one", "i", "n"), ("two", "1023 - i", "o")))
FULL_REPORT = "script one\nstop Full 9:1\n" + NOTHING + "script two\nstop Full 18:1\n" + NOTHING

# The type may be changed once, and the body too, whoever comes first. Who asks for a type anew finds the change worn.
WORN = """class A
script one
type A.g : () -> Int
end
script two
type A.g : () -> Int
end
"""
WORN_FIRST = "script one\nstop Worn 3:1\n" + NOTHING + "script two\ndone\n" + NOTHING
WORN_SECOND = "script one\ndone\n" + NOTHING + "script two\nstop Worn 6:1\n" + NOTHING

# The options, the text, and each report that may come with its status.
TABLE = [
    ("", HELD, [(FREE, 0), (BUSY, 0)]),
    ("", CROSSED, [(BOTH_DONE, 0), (FIRST_STOPS, 6), (SECOND_STOPS, 6)]),
    ("", SETUP_STOPS, [("setup\nstop NoBody 4:7\n" + NONE, 6)]),
    # The trace goes caller by caller, so it does not tell when the type was changed, but for what each found
    ("--trace", HELD, [(FREE + BEFORE + ENTERS + CALLS + "2 type A.g 12:7\n", 0),
                       (FREE + BEFORE + (ENTERS + CALLS).replace("A.g 3:1 1", "A.g 12:7 2") + "2 type A.g 12:7\n", 0),
                       (BUSY + BEFORE + ENTERS + CALLS + "2 busy A.g 1\n", 0),
                       (BUSY + BEFORE + ENTERS + CALLS + "2 busy A.g 2\n", 0)]),
    ("", "script a\nend\nscript b\nend\n", [("script a\ndone\n" + NOTHING + "script b\ndone\n" + NOTHING, 0)]),
    ("", FULL, [(FULL_REPORT, 6)]),
    ("--versions 1", WORN, [(WORN_FIRST, 6), (WORN_SECOND, 6)]),
]


class Section(NamedTuple):
    """A section of a report: whose it is, the kind of its stop, and its numbers of calls."""

    name: str
    stop: Optional[str]
    calls: int
    own: int
    shared: int
    fresh: int


NAME = re.compile(r"setup|script [a-z]\w*")
END = re.compile(r"done|stop ([A-Z][A-Za-z]*) \d+:\d+(?: [A-Z][a-z]+[A-Za-z]* \d+:\d+)?")
COUNTS = re.compile(r"calls (\d+) own (\d+) shared (\d+) fresh (\d+)")
# The stops that answer a decided call. A script has one stop at most, so at most one call that was decided and not entered.
REFUSALS = {"NoBody", "NoType", "BadArgs", "IllTyped"}


def sections_of(report):
    """The sections of a report, or None where it is none."""
    lines = [line for line in report.splitlines() if not line.startswith("> ")]
    found = []
    for name, end, counts in zip(*[iter(lines)] * 3):
        ended, counted = END.fullmatch(end), COUNTS.fullmatch(counts)
        if not (NAME.fullmatch(name) and ended and counted):
            return None
        found.append(Section(name, ended.group(1), *map(int, counted.groups())))
    return found if len(lines) == 3 * len(found) and report.endswith("\n") else None


def fault_of_report(text, report, status):
    """What is wrong with a report and its status, or None."""
    sections = sections_of(report)
    if sections is None:
        return "it is no report"
    due = [line for line in text.splitlines() if NAME.fullmatch(line)]
    setup_stops = due[0] == "setup" and sections[:1] and sections[0].stop
    if [section.name for section in sections] != due[:1 if setup_stops else None]:
        return "other sections are due: %r" % due
    if status != (6 if any(section.stop for section in sections) else 0):
        return "the status does not fit the sections"
    for section in sections:
        if section.calls != section.own + section.shared + section.fresh + (section.stop in REFUSALS):
            return "the calls do not add up: %r" % (section,)
    return None


def fault_of_trace(report, trace):
    """What is wrong with the acts of a trace beside the report's sections, or None."""
    sections = sections_of(report)
    callers = [*range(0 if sections[0].name == "setup" else 1, 17)]
    for caller, section in zip(callers, sections):
        acts = [line.split() for line in trace if line.startswith("%d " % caller)]
        verdicts = Counter(" ".join(act[6:]) for act in acts if act[1] == "call")
        if (sum(verdicts.values()), verdicts["enter own"], verdicts["enter fresh"]) != (
                section.calls, section.own, section.fresh):
            return "caller %d has other calls than its section: %r" % (caller, verdicts)
        held = Counter(tuple(act[2:4]) for act in acts if act[1] == "hold")
        if held != Counter(tuple(act[2:4]) for act in acts if act[1] == "free"):
            return "caller %d holds something at its end, or gave back what it did not hold" % caller
    return None


def written(program, options, text):
    """What the program writes on a text, and its status; a run that does not end has none."""
    try:
        done = subprocess.run([program, "run", *options.split()], input=text.encode(), stdout=subprocess.PIPE,
                              timeout=SECONDS)
    except subprocess.TimeoutExpired:
        return "no end came in %d seconds" % SECONDS, None
    return done.stdout.decode(), done.returncode


def wrong_of_row(program, options, text, due):
    for _ in range(RUNS):
        found = written(program, options, text)
        if found not in due:
            return "%s: %r came, of %r" % (options, found, text)
    return None


def wrong_of_made(program, number, times):
    """What is wrong with the runs of a text that is made, or None; and how many different reports came."""
    text, shares = made(number)
    by_turns = None if shares else written(program, STEPS + " --order 1", text)
    reports = set()
    for _ in range(times):
        found = written(program, STEPS, text)
        reports.add(found)
        fault = fault_of_report(text, *found)
        if fault is None and by_turns and found != by_turns:
            fault = "by turns %r comes" % (by_turns,)
        if fault:
            return "the text of the number %d: %s: %r" % (number, fault, found), len(reports)
    return wrong_of_traced(program, number, text), len(reports)


def wrong_of_traced(program, number, text):
    out, status = written(program, STEPS + " --trace", text)
    report, mark, trace = out.partition("trace\n")
    fault = fault_of_report(text, report, status) or (fault_of_trace(report, trace.splitlines()) if mark else "no trace")
    return "the text of the number %d, traced: %s: %r" % (number, fault, report) if fault else None


def main():
    program, times = sys.argv[1], ALL_TIMES if "--all" in sys.argv[2:] else FEW_TIMES
    with concurrent.futures.ThreadPoolExecutor(os.cpu_count()) as workers:
        rows = list(workers.map(lambda row: wrong_of_row(program, *row), TABLE))
        texts = list(workers.map(lambda number: wrong_of_made(program, number, times), range(MADE)))
    wrong = [message for message in rows + [message for message, _ in texts] if message]
    for message in wrong:
        print(message)
    print("%d programs at once, %d wrong; of %d that are made, %d runs each, %d came to more than one report" % (
        len(TABLE) + MADE, len(wrong), MADE, times, sum(reports > 1 for _, reports in texts)))
    return 1 if wrong else 0


if __name__ == "__main__":
    sys.exit(main())
