"""Programs of several scripts with an order of their turns, and the whole of what each writes.

    python3 tests/turns.py PATH_TO_HBIRD

What is due was found by hand, from the rules.
"""
import itertools
import subprocess
import sys

NOTHING = "calls 0 own 0 shared 0 fresh 0\n"

ACCESSORS = """class A
setup
i = 1
while i < 4 do
type A.("get_" ++ str(i)) : () -> Int
def A.("get_" ++ str(i))() 7 end
i = i + 1
end
end
script main
print A.new.get_2
end
"""
SET_UP = "setup\ndone\n" + NOTHING

HELD = """class A
setup
type A.g : () -> Int
def A.g() 1 end
type A.f : () -> Int
def A.f() self.g end
end
script one
print A.new.f
end
script two
print type? A.g : () -> Int
end
"""
HELD_ONE = SET_UP + "script one\n> 1\ndone\ncalls 2 own 0 shared 0 fresh 2\nscript two\n"
BUSY, FREE = HELD_ONE + "> false\ndone\n" + NOTHING, HELD_ONE + "> true\ndone\n" + NOTHING
BEFORE = """trace
0 type A.g 3:1
0 def A.g 4:1
0 type A.f 5:1
0 def A.f 6:1
"""
CALLS = """1 hold 2 A.g 3:1 1
1 call 2 A.g 4:1 () enter fresh
1 free 2 A.g
1 free 1 A.f
1 free 1 A.g
"""
ENTERS = """1 hold 1 A.f 5:1 1
1 hold 1 A.g 3:1 1
1 call 1 A.f 6:1 () enter fresh
"""

CROSSED = """class A
setup
type A.a : () -> Int
type A.b : () -> Int
end
script one
def A.a() 1 end
A.new.b
end
script two
def A.b() 2 end
A.new.a
end
"""
ONE = "calls 1 own 0 shared 0 fresh 1\n"
NONE = "calls 1 own 0 shared 0 fresh 0\n"
BOTH_DONE = SET_UP + "script one\ndone\n" + ONE + "script two\ndone\n" + ONE
FIRST_STOPS = SET_UP + "script one\nstop NoBody 8:7\n" + NONE + "script two\ndone\n" + ONE
SECOND_STOPS = SET_UP + "script one\ndone\n" + ONE + "script two\nstop NoBody 12:7\n" + NONE

TYPES = "class A\nscript main\ntype A.g : () -> Int\ntype A.g : () -> Int\nend\n"
IN_BODY = """class A
script main
type A.g : () -> Int
def A.g() 1 end
type A.f : () -> Int
def A.f() type A.g : () -> Str; self.g end
print A.new.f
end
"""
HELLO = """class A
script main
type A.hi : (Str) -> Str
def A.hi(x) "hi " ++ x end
print A.new.hi("bob")
end
"""
SKIPS = """class A
script one
end
script two
print 1
print 2
end
script three
type A.m : () -> Int
type A.m : () -> Int
end
"""
SKIPPED = "script one\ndone\n" + NOTHING + "script two\n> 1\n> 2\ndone\n" + NOTHING + "script three\n%s" + NOTHING
LATE = """class A
setup
type A.m : (Int) -> Int
def A.m(x) 1 end
end
script one
print A.new.m(0)
end
script two
def A.m(x) 2 end
end
"""
LATER = SET_UP + "script one\n> %d\ndone\n" + ONE + "script two\ndone\n" + NOTHING
SPENT = """class A
script one
nil; nil; nil
end
script two
print type? A.m : () -> Int
end
"""
SETUP_STOPS = "class A\nsetup\ntype A.m : () -> Int\nA.new.m\nend\nscript one\nprint 1\nend\n"
SIXTEEN = "class A\n" + "".join("script s%d\ntype A.m : () -> Int\nend\n" % number for number in range(1, 17))
GIVEN = ["%d type A.m %d:1\n" % (number, 3 * number) for number in range(17)]

# The options, the text, what is written and the status.
TABLE = [
    # Accessors that a setup makes
    ("", ACCESSORS, SET_UP + "script main\n> 7\ndone\n" + ONE, 0),
    ("--order 1", ACCESSORS, SET_UP + "script main\n> 7\ndone\n" + ONE, 0),
    # A type is in use from the turn in which the call is decided to the end of the call
    ("--order 11122", HELD, BUSY, 0),
    ("--order 11111122", HELD, FREE, 0),
    ("--order 1112", HELD, FREE, 0),
    ("--order 1122", HELD, FREE, 0),
    ("--order 11122 --trace", HELD, BUSY + BEFORE + ENTERS + "2 busy A.g 1\n" + CALLS, 0),
    ("--order 22 --trace", HELD, FREE + BEFORE + "2 type A.g 12:7\n" + (ENTERS + CALLS).replace("A.g 3:1 1", "A.g 12:7 2"), 0),
    # Each calls what the other defines
    ("--order 12", CROSSED, BOTH_DONE, 0),
    ("--order 21", CROSSED, BOTH_DONE, 0),
    ("--order 1122", CROSSED, BOTH_DONE, 0),
    ("--order 1212", CROSSED, BOTH_DONE, 0),
    ("--order 111", CROSSED, FIRST_STOPS, 6),
    ("--order 222", CROSSED, SECOND_STOPS, 6),
    # Limits that options set
    ("--versions 1", TYPES, "script main\nstop Worn 4:1\n" + NOTHING, 6),
    ("--versions 2", TYPES, "script main\ndone\n" + NOTHING, 0),
    ("--versions 1", IN_BODY, "script main\nstop Busy 6:11\n" + ONE, 6),
    ("--steps 9", HELLO, "script main\n> hi bob\ndone\n" + ONE, 0),
    ("--steps 8", HELLO, "script main\nstop Steps 4:22\n" + ONE, 6),
    ("--versions 1 --trace", TYPES, "script main\nstop Worn 4:1\n" + NOTHING +
     "trace\n1 type A.g 3:1\n1 worn type A.g\n", 6),
    # Turns that are skipped, and turns that are not
    ("--order 12233 --trace", SKIPS, SKIPPED % "done\n" + "trace\n3 type A.m 9:1\n3 type A.m 10:1\n", 0),
    ("--order 1111111g9f32", SKIPS, SKIPPED % "done\n", 0),
    ("--order 3 --versions 1", SKIPS, SKIPPED % "stop Worn 10:1\n", 6),
    ("--order 1112", LATE, LATER % 2, 0),
    ("--order 11112", LATE, LATER % 1, 0),
    ("--order 9g1119g2", LATE, LATER % 2, 0),
    ("--steps 2 --order 1112", SPENT, "script one\nstop Steps 3:11\n" + NOTHING +
     "script two\n> true\ndone\n" + NOTHING, 6),
    # A setup that stops
    ("--order 1", SETUP_STOPS, "setup\nstop NoBody 4:7\n" + NONE, 6),
    ("--trace", SETUP_STOPS, "setup\nstop NoBody 4:7\n" + NONE +
     "trace\n0 type A.m 3:1\n0 hold 1 A.m 3:1 1\n0 call 1 A.m none () NoBody\n0 free 1 A.m\n", 6),
    # All sixteen
    ("--order gfedcba987654321 --trace", SIXTEEN,
     "".join("script s%d\ndone\n" % number + NOTHING for number in range(1, 17)) + "trace\n" + "".join(GIVEN[:0:-1]), 0),
    ("--order h", HELD, "words refused\n", 2),
]


def written(program, options, text):
    done = subprocess.run([program, "run", *options.split()], input=text.encode(), stdout=subprocess.PIPE)
    return done.stdout.decode(), done.returncode


def crossed_wrongly(program):
    """The orders of up to six turns by which both scripts call too soon: there is none."""
    for length in range(1, 7):
        for order in map("".join, itertools.product("12", repeat=length)):
            report, status = written(program, "--order " + order, CROSSED)
            if (report, status) not in ((BOTH_DONE, 0), (FIRST_STOPS, 6), (SECOND_STOPS, 6)):
                yield "--order %s: %r" % (order, report)


def main():
    program, wrong = sys.argv[1], []
    for options, text, report, status in TABLE:
        found = written(program, options, text)
        if found != (report, status):
            wrong.append("%s: %r is due, and %r came" % (options, (report, status), found))
    wrong += crossed_wrongly(program)
    for message in wrong:
        print(message)
    print("%d runs by turns, %d wrong" % (len(TABLE) + 126, len(wrong)))
    return 1 if wrong else 0


if __name__ == "__main__":
    sys.exit(main())
