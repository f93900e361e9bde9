"""A script that begins one expression in a turn and one that plays out write the same.

    python3 tests/leaps.py PATH_TO_HBIRD

A script that plays out begins several expressions at once where they are read where they
stand: numbers, texts, variables that have one, and operators, choices, loops and assignments
over these. Here each text runs by an order of its own turns, one expression in each, and played
out, with each number of steps up to its end. So fuel ends in each place of a leap; and in
each place stands a number, what has none, and what stops.
"""
import sys

from turns import written

SET = {"a": "a = 3", "z": "z = 0", "big": "big = 9223372036854775807", "none": "none = nil", "text": 'text = "x"',
       "long": 'long = "%s"' % ("x" * 1000)}
# Two operands: numbers, what is none, what is not there, and an operator in place of either.
OPERANDS = [("a", "2"), ("7", "a"), ("a", "a"), ("none", "a"), ("a", "none"), ("text", "1"), ("2", "text"), ("lost", "a"), ("a", "lost"),
            ("big", "a"), ("(a + 1)", "2"), ("2", "(a * 2)"), ("(a - z)", "(z - a)"), ("(big + 1)", "a"), ("a", "(none + 1)"),
            ("text", '"y"'), ('"y"', "text"), ('""', '"z"'), ("long", "text"), ("long", "long"), ("text", "none"), ("lost", "text"), ("text", "(text ++ text)")]
OPERATORS = ["+", "-", "*", "<", "==", "++"]
USES = ["print %s", "b = %s\nprint b", "if %s then print 1 else print 2 end", "print not (%s)", "(%s).m"]
LOOPS = [
    "i = 0\nwhile i < a do i = i + 1 end\nprint i",
    "i = a\nwhile z < i do\nif i == 2 then print i else i = i - 0 end\ni = i - 1\nend",
    "while a < 1 do print a end\nprint while a == 4 do a = 1 end",
    "i = 0\nwhile i < text do i = i + 1 end",
    "while not (a < 1) do a = a - 1 end\nprint a",
    "i = 1\nwhile 0 < i do i = i * 4611686018427387904 end",
    "while a do a = none end\nprint a",
    "print if a < 4 then a + 1 else z - 1 end + 2",
    'while not (text == "xyyy") do text = text ++ "y" end\nprint text',
    "while 0 < a do long = long ++ long; a = a - 1 end",
]


def in_script(lines):
    return "class A\nscript main\n%s\n%s\nend\n" % ("\n".join(SET.values()), lines)


def in_body(lines):
    return "class A\nscript main\ntype A.f : () -> Any\ndef A.f()\n%s\n%s\nend\nA.new.f\nend\n" % ("\n".join(SET.values()), lines)


def texts():
    """Each operator on each two operands in one use, the uses in turn; and each loop in a script and in a body."""
    count = 0
    for left, right in OPERANDS:
        for operator in OPERATORS:
            use = USES[count % len(USES)]
            yield in_script(use % ("%s %s %s" % (left, operator, right)))
            count += 1
    for lines in LOOPS:
        yield in_script(lines)
        yield in_body(lines)


def turns_of(program, text):
    """How many expressions begin, at most so many."""
    low, high = 1, 400
    while low < high:
        steps = (low + high) // 2
        report, _ = written(program, "--steps %d" % steps, text)
        low, high = (steps + 1, high) if "stop Steps" in report else (low, steps)
    return low


def differing(program, text):
    """Where the two ways differ, and how often both were run."""
    turns = turns_of(program, text)
    first = max(1, turns - 14)
    wrong, runs = [], 0
    for steps in range(first, turns + 2):
        words = "--steps %d --order " % steps
        alone, played = written(program, words + "1" * (turns + 2), text), written(program, words + "1", text)
        runs += 1
        if alone != played:
            wrong.append("--steps %d: %r one by one, and %r played out, of\n%s" % (steps, alone, played, text))
    return wrong, runs


def main():
    program, wrong, runs = sys.argv[1], [], 0
    for text in texts():
        more, ran = differing(program, text)
        wrong += more
        runs += ran
    for message in wrong:
        print(message)
    print("%d runs with each number of steps, %d differ" % (runs, len(wrong)))
    return 1 if wrong or not runs else 0


if __name__ == "__main__":
    sys.exit(main())
