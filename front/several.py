"""hb --runs=N: runs one text so often, and shows each report that came with how often it came."""
import re

import command

OPTION, LEAST, MOST = "--runs", 2, 10000
VALUE = "2 to 10,000"
# With these endings the words, the text or the program are at fault, and another run would end so too.
ENDS_ALIKE = (1, 2, 70)


def parted(options):
    """The options that say how often is to be run, and the other ones."""
    asked = [option for option in options if option.partition("=")[0] == OPTION]
    return asked, [option for option in options if option not in asked]


def fault(asked):
    """What is wrong with the options that say how often is to be run, or None."""
    if len(asked) > 1:
        return "%s stands once, and not as %s" % (OPTION, " ".join(asked))
    return command.of_value(asked[0], VALUE) if asked and count_of(asked[0]) is None else None


def count_of(option):
    """The number of runs, or None where the option has none."""
    value = option.partition("=")[2]
    number = int(value) if re.fullmatch(r"[0-9]{1,10}", value) else 0
    return number if LEAST <= number <= MOST else None


def counted(count, run):
    """What so many runs came to, each with how often it came: the most frequent first, and of two the one that came first.

    Where a run says that each other one would end as it did, it is the last one.
    """
    found = {}
    for _ in range(count):
        came = run()
        found[came] = found.get(came, 0) + 1
        if came.status in ENDS_ALIKE:
            break
    return sorted(found.items(), key=lambda item: -item[1])


def headline(count, different):
    if different == 1:
        return "%d runs, and all gave one report" % count
    return "%d runs gave %d different reports" % (count, different)
