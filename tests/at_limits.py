"""Scripts that run at once and share what is limited: all names that there may be, and the changes of one method.

    python3 tests/at_limits.py PATH_TO_HBIRD

Who comes first is left open, and how many do is not: so many names have a place, and so many changes are made.
"""
import concurrent.futures
import os
import sys

from at_once import SECONDS, fault_of_report, fault_of_trace, sections_of, written

# So often each text is run, each time with its trace.
TIMES = 5
NAMES, SCRIPTS = 1024, 16


def scripts(*lines):
    """As many scripts as there may be, each with these lines, in which `N` is its number from 0."""
    return "class A\n" + "".join("script s%d\n%s\nend\n" % (number, "\n".join(lines).replace("N", str(number)))
                                 for number in range(SCRIPTS))


def of_names(count, name):
    return scripts("i = 0", "while i < %d do" % count, "def A.(%s)() i end" % name, "i = i + 1", "end")


GIVEN, BODY, CALLED = "type? A.m : (Int) -> Int", "def A.m(x) x end", "A.new.m(1)"
CHANGES = scripts(GIVEN, BODY)
CALLS = scripts(GIVEN.replace("?", ""), BODY, "i = 0", "while i < 500 do", CALLED, "i = i + 1", "end")


def made_acts(acts, word):
    """The methods of the acts of one kind, in their order."""
    return [line.split(" ")[2] for line in acts if line.split(" ")[1] == word]


def names_of(acts):
    """The methods that any act names."""
    found = set()
    for line in acts:
        words = line.split(" ")
        found.add(words[3] if words[1] in ("hold", "free", "call", "worn") else words[2])
    return found


def all_named(stops, acts):
    """Each name has a place, and nobody stops."""
    if stops:
        return "these stop: %s" % stops
    return None if len(names_of(acts)) == NAMES else "%d names have a place" % len(names_of(acts))


def too_many_named(stops, acts):
    """Each place has a name for which somebody made an act, and who found none stops with Full."""
    if not stops or set(stops) != {"Full"}:
        return "the stops are %s" % stops
    return None if len(names_of(acts)) == NAMES else "%d names have a place" % len(names_of(acts))


def changed(count, stop_words=("Worn",)):
    """So many types and so many bodies were given, and each script that was too late stops."""
    def rule(stops, acts):
        given = len(made_acts(acts, "type")), len(made_acts(acts, "def"))
        if given != (count, count):
            return "%d types and %d bodies were given" % given
        return None if len(stops) == SCRIPTS - count and set(stops) <= set(stop_words) else "the stops are %s" % stops
    return rule


# The options, the text, and what is said of each run.
TABLE = [
    ("", of_names(NAMES // SCRIPTS, '"mN_" ++ str(i)'), all_named),
    ("", of_names(NAMES, '"m" ++ str(i)'), all_named),
    ("", of_names(NAMES // SCRIPTS + 1, '"mN_" ++ str(i)'), too_many_named),
    ("", of_names(NAMES + 1, '"m" ++ str(i)'), too_many_named),
    ("", of_names(NAMES // 8, '"mN_" ++ str(i)'), too_many_named),
    ("--versions 1", CHANGES, changed(1)),
    ("--versions 2", CHANGES, changed(2)),
    # The one that was first calls its method meanwhile, and holds its type now and then
    ("--versions 1", CALLS, changed(1, ("Worn", "Busy"))),
]


def wrong_of_row(program, options, text, rule):
    for _ in range(TIMES):
        out, status = written(program, options + " --trace", text)
        report, mark, trace = out.partition("trace\n")
        acts = trace.splitlines()
        fault = fault_of_report(text, report, status) or (fault_of_trace(report, acts) if mark else "no trace")
        if not fault:
            fault = rule([section.stop for section in sections_of(report) if section.stop], acts)
        if fault:
            return "%s: %s: %r came, of %r" % (options, fault, report[:1000], text[:200])
    return None


def main():
    with concurrent.futures.ThreadPoolExecutor(os.cpu_count()) as workers:
        wrong = [message for message in workers.map(lambda row: wrong_of_row(sys.argv[1], *row), TABLE) if message]
    for message in wrong:
        print(message)
    print("%d programs that share what is limited, %d wrong" % (len(TABLE), len(wrong)))
    return 1 if wrong else 0


if __name__ == "__main__":
    sys.exit(main())
