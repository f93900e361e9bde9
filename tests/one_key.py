"""Two to four scripts round one method, in orders of their turns: what each comes to.

    python3 tests/one_key.py PATH_TO_HBIRD

What is due was found by hand, from the rules: a call is decided in the turn of its last part, the receiver or an argument, and
holds the method's type from then on to the end of the turn in which its body ends.
"""
import sys

from turns import NOTHING, SET_UP, written

HEAD = "class A\nsetup\ntype A.m : (Int) -> Int\ndef A.m(x) x end\nend\n"
# Ten turns: in the fourth and ninth one a call is decided, and in the next one it ends.
CALLS = "script one\nprint A.new.m(1)\nprint A.new.m(2)\nend\n"


def text_of(*scripts):
    """Behind the setup and the calls, the other scripts with one line each: it is line 11 of the text, then 14, then 17."""
    return HEAD + CALLS + "".join("script %s\n%s\nend\n" % row for row in zip(("two", "three", "four"), scripts))


BODY, ASKED, GIVEN = "def A.m(x) x + 10 end", "print type? A.m : (Int) -> Int", "type A.m : (Int) -> Int"
OTHER_RESULT, OTHER_ARGUMENT = "type A.m : (Int) -> Str", "type A.m : (Str) -> Int"

# A body that calls itself. In the fourth turn its first frame begins, and nine turns later each inner one, until all end.
NESTED = """class A
setup
type A.m : (Int) -> Int
def A.m(x) if x == 0 then 0 else self.m(x - 1) end end
end
script one
print A.new.m(2)
end
script two
print type? A.m : (Int) -> Int
end
"""
# Who gives the type, who a body, who calls, and who gives another body.
PARTED = """class A
script one
type A.m : (Int) -> Int
end
script two
def A.m(x) x end
end
script three
print A.new.m(1)
end
script four
def A.m(x) x * 2 end
end
"""
NAMES = "one two three four".split()


def section(name, end, prints=(), own=0, fresh=0, refused=0):
    """The section of a script whose calls were entered so often, and refused so often."""
    lines = "".join("> %s\n" % line for line in prints)
    return "script %s\n%s%s\ncalls %d own %d shared 0 fresh %d\n" % (name, lines, end, own + fresh + refused, own, fresh)


def called(prints, own, fresh, end="done"):
    """The section of the script that calls. A stop is at a call that is refused."""
    return SET_UP + section("one", end, prints, own, fresh, refused=end != "done")


def other(name="two", end="done", prints=()):
    return section(name, end, prints)


def parted(three):
    return "".join(three if name == "three" else section(name, "done") for name in NAMES)


ALONE = called([1, 2], 1, 1)
AGAIN = called([1, 2], 0, 2)
ILL_FIRST = called([], 0, 0, "stop IllTyped 7:13 Result 4:14")
ILL_SECOND = called([1], 0, 1, "stop IllTyped 8:13 Result 4:14")
BAD_FIRST = called([], 0, 0, "stop BadArgs 7:13")
BAD_SECOND = called([1], 0, 1, "stop BadArgs 8:13")
TRUE, FALSE = other(prints=["true"]), other(prints=["false"])
NO_BODY = parted(section("three", "stop NoBody 9:13", refused=1))
NO_TYPE = parted(section("three", "stop NoType 9:13", refused=1))
ENTERS = [parted(section("three", "done", [value], fresh=1)) for value in (1, 2)]
NESTED_DUE = SET_UP + section("one", "done", [0], own=2, fresh=1)
# The turns in which the frames begin, and the one in which they end.
BEGIN, ALL_TURNS = (4, 13, 22), 27

# The options, the text, and what is written.
TABLE = [
    # Another body: a call that was decided goes on with the one it had
    ("--order 2", text_of(BODY), called([11, 12], 1, 1) + other()),
    ("--order 1112", text_of(BODY), called([11, 12], 1, 1) + other()),
    ("--order 11112", text_of(BODY), called([1, 12], 0, 2) + other()),
    ("--order 111111112", text_of(BODY), called([1, 12], 0, 2) + other()),
    ("--order 1111111112", text_of(BODY), ALONE + other()),
    # The same type anew is a change, where no call holds it
    ("--order 22", text_of(ASKED), ALONE + TRUE),
    ("--order 111122", text_of(ASKED), ALONE + FALSE),
    ("--order 1111122", text_of(ASKED), AGAIN + TRUE),
    ("--order 1111212", text_of(ASKED), AGAIN + TRUE),
    ("--order 11111111122", text_of(ASKED), ALONE + FALSE),
    ("--order 11112", text_of(GIVEN), ALONE + other(end="stop Busy 11:1")),
    ("--order 111112", text_of(GIVEN), AGAIN + other()),
    # Another type, with which the body or the argument no longer goes
    ("--order 2", text_of(OTHER_RESULT), ILL_FIRST + other()),
    ("--order 11112", text_of(OTHER_RESULT), ALONE + other(end="stop Busy 11:1")),
    ("--order 111112", text_of(OTHER_RESULT), ILL_SECOND + other()),
    ("--order 2", text_of(OTHER_ARGUMENT), BAD_FIRST + other()),
    ("--order 1111111112", text_of(OTHER_ARGUMENT), ALONE + other(end="stop Busy 11:1")),
    ("--order 111111112", text_of(OTHER_ARGUMENT), BAD_SECOND + other()),
    # Each may be changed once: it is worn where no call holds it, and else busy; a body is never busy
    ("--versions 1 --order 2", text_of(GIVEN), ALONE + other(end="stop Worn 11:1")),
    ("--versions 1 --order 11112", text_of(GIVEN), ALONE + other(end="stop Busy 11:1")),
    ("--versions 1 --order 11112", text_of(BODY), ALONE + other(end="stop Worn 11:1")),
    # Three and four scripts
    ("--order 1111233", text_of(BODY, ASKED), called([1, 12], 0, 2) + other() + other("three", prints=["false"])),
    ("--order 1111133211112", text_of(BODY, ASKED), called([1, 12], 0, 2) + other() + other("three", prints=["true"])),
    ("--order 11113211112", text_of(ASKED, OTHER_RESULT), AGAIN + TRUE + other("three", "stop Busy 14:1")),
    ("--order 111132111112", text_of(ASKED, OTHER_RESULT), ALONE + FALSE + other("three", "stop Busy 14:1")),
    ("--order 432", text_of(BODY, GIVEN, OTHER_ARGUMENT), called([11, 12], 1, 1) + other() + other("three") + other("four")),
    ("--order 342", text_of(BODY, GIVEN, OTHER_ARGUMENT), BAD_FIRST + other() + other("three") + other("four")),
    ("--order 111124311", text_of(BODY, GIVEN, OTHER_ARGUMENT), called([1, 12], 0, 2) + other() +
     other("three", "stop Busy 14:1") + other("four", "stop Busy 17:1")),
    ("--order 1111124311", text_of(BODY, GIVEN, OTHER_ARGUMENT), called([1, 12], 0, 2) + other() + other("three") + other("four")),
    ("--order 1", PARTED, ENTERS[0]),
    ("--order 124", PARTED, ENTERS[1]),
    ("--order 412", PARTED, ENTERS[0]),
    ("--order 233313", PARTED, ENTERS[0]),
    ("--order 1233334", PARTED, ENTERS[0]),
    ("--order 123334", PARTED, ENTERS[1]),
    ("--order 3333", PARTED, NO_BODY),
    ("--order 13333", PARTED, NO_BODY),
    ("--order 43333", PARTED, NO_TYPE),
    ("--order 243333", PARTED, NO_TYPE),
]


def wrong_nested(program):
    """What another script finds behind each turn of the frames: how many of them hold the type."""
    for turns in range(ALL_TURNS + 1):
        frames = 0 if turns == ALL_TURNS else sum(turns >= begins for begins in BEGIN)
        found, status = written(program, "--order %s --trace" % ("1" * turns + "22"), NESTED)
        report, _, trace = found.partition("trace\n")
        act = "2 busy A.m %d" % frames if frames else "2 type A.m 10:7"
        if (report, status) != (NESTED_DUE + (FALSE if frames else TRUE), 0) or act not in trace.splitlines():
            yield "behind turn %d %s is due, and %r came" % (turns, act, found)


def main():
    program, wrong = sys.argv[1], []
    for options, text, report in TABLE:
        due = report, 6 if "\nstop " in report else 0
        found = written(program, options, text)
        if found != due:
            wrong.append("%s: %r is due, and %r came, of %r" % (options, due, found, text))
    wrong += wrong_nested(program)
    for message in wrong:
        print(message)
    print("%d orders round one method, %d wrong" % (len(TABLE) + ALL_TURNS + 1, len(wrong)))
    return 1 if wrong else 0


if __name__ == "__main__":
    sys.exit(main())
