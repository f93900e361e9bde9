"""Programs of one script: without an order they write what each order gives.

    python3 tests/alone.py PATH_TO_HBIRD

What is due was found by hand, from the rules.
"""
import sys

from turns import ACCESSORS, HELLO, IN_BODY, NOTHING, ONE, SET_UP, SETUP_STOPS, NONE, written

ORDERS = ["", "--order 1", "--order 11111", "--order 1g9f1"]

# A method, another that calls it, and a call of that, whose line may be left out with what stands behind it.
TYPE_OF_G, BODY_OF_G, TYPE_OF_F, BODY_OF_F = "type A.g : () -> Int", "def A.g() 1 end", "type A.f : () -> Int", "def A.f() self.g end"
CALL, CHANGE = "print A.new.f", "type A.g : () -> Str"
OF_NIL = """class A
class B
script main
type A.f : (B) -> Int
def A.f(x) x.m end
type B.m : () -> Int
print A.new.f(nil)
end
"""
ALL_NAMES = """class A
script main
i = 0
while i < 1024 do
def A.("m" ++ str(i))() 0 end
i = i + 1
end
def A.m0() 1 end
def A.n() 1 end
end
"""
GREETS = "type A.hi : (Str) -> Str\n", 'print A.new.hi("bob")\n'


def main_of(*lines):
    return "class A\nscript main\n" + "\n".join(lines) + "\nend\n"


def section(end, *counts, prints=()):
    return "script main\n%s%s\ncalls %d own %d shared 0 fresh %d\n" % ("".join("> %s\n" % line for line in prints), end, *counts)


# The text, what is written and the status.
TABLE = [
    ("", "", 0),
    (" " * 1048576, "", 0),
    (HELLO, section("done", 1, 0, 1, prints=["hi bob"]), 0),
    # A check is kept, until a type changes
    (HELLO.replace(GREETS[1], GREETS[1] * 2), section("done", 2, 1, 1, prints=["hi bob"] * 2), 0),
    (HELLO.replace(GREETS[1], GREETS[1] + "".join(GREETS)), section("done", 2, 0, 2, prints=["hi bob"] * 2), 0),
    (main_of(TYPE_OF_G, BODY_OF_G, TYPE_OF_F, BODY_OF_F, CALL, CHANGE, CALL),
     section("stop IllTyped 9:13 Result 6:18", 3, 0, 2, prints=["1"]), 6),
    # A frame holds the types on which its check rests
    (IN_BODY, section("stop Busy 6:11", 1, 0, 1), 6),
    (main_of(TYPE_OF_G, BODY_OF_G, TYPE_OF_F, "def A.f() print type? A.g : () -> Str; self.g end", CALL),
     section("done", 2, 0, 2, prints=["false", "1"]), 0),
    # Calls that are refused
    (OF_NIL, section("stop NilValue 5:14", 1, 0, 1), 6),
    (main_of(TYPE_OF_G, TYPE_OF_F, BODY_OF_F, CALL), section("stop NoBody 5:16", 2, 0, 1), 6),
    (HELLO.replace('"bob"', "3"), section("stop BadArgs 5:13", 1, 0, 0), 6),
    (HELLO.replace(GREETS[0], ""), section("stop NoType 4:13", 1, 0, 0), 6),
    (main_of("A.new.hi(3)"), section("stop NoBody 3:7", 1, 0, 0), 6),
    # A setup in front of it
    (ACCESSORS, SET_UP + "script main\n> 7\ndone\n" + ONE, 0),
    (SETUP_STOPS, "setup\nstop NoBody 4:7\n" + NONE, 6),
    # Names of methods: what is none, and one too many
    (main_of('type A.("") : () -> Int'), section("stop BadName 3:1", 0, 0, 0), 6),
    (main_of('type A.("9x") : () -> Int'), section("stop BadName 3:1", 0, 0, 0), 6),
    (main_of('type A.("end") : () -> Int'), section("stop BadName 3:1", 0, 0, 0), 6),
    (ALL_NAMES, "script main\nstop Full 9:1\n" + NOTHING, 6),
]


def main():
    program, wrong = sys.argv[1], []
    for text, report, status in TABLE:
        for order in ORDERS:
            found = written(program, order, text)
            if found != (report, status):
                wrong.append("%s: %r is due, and %r came" % (order or "no order", (report, status), found))
    for message in wrong:
        print(message)
    print("%d programs of one script, %d wrong" % (len(TABLE), len(wrong)))
    return 1 if wrong else 0


if __name__ == "__main__":
    sys.exit(main())
