"""Lists of words behind the program's name, each with its answer: refused, which run it asks for, or what is written, with its status.

    python3 tests/words.py PATH_TO_HBIRD

Each text here tells one thing of a run: whether its scripts took turns, and by
which order; whether there is a trace; how many steps were allowed; and how
often a type may change. A row names what it asks for, and all else is as it is
without options.
"""
import subprocess
import sys

REFUSED = None
USUAL = {"order": False, "trace": False, "steps": 1000000, "versions": 16777215}


def run(**told):
    """What a run is asked for, where these differ from what is usual."""
    seen = dict(steps=100000) if told.get("order") or told.get("trace") else {}
    return dict(USUAL, **dict(seen, **told))


def generated(size):
    """The generated program of a size, written here once more from what docs/FORMATS.md says."""
    scripts = range(1, min(size, 4) + 1)
    lines = ["class C%d" % i for i in range(1, size + 1)]
    for script in scripts:
        blocks = [BLOCK.replace("I", str(i)).replace("@", "I") for i in range(1, size + 1) if i % 4 == script % 4]
        lines += ["script s%d" % script, *blocks, "end"]
    return "".join(line + "\n" for line in lines)


# The two methods of a class, where `I` is its number and `@` an `I`.
BLOCK = """type CI.add : (@nt, @nt) -> @nt
def CI.add(a, b) a + b end
type CI.sum : (@nt) -> @nt
def CI.sum(n) t = 0; while 0 < n do t = self.add(t, n); n = n - 1 end; t end
print CI.new.sum(I)"""

# Where the second script's turn comes first, the method has a body as the first one calls it.
TURNS = """class A
script one
A.new.m
end
script two
def A.m() 1 end
type A.m : () -> Int
end
"""

TABLE = [
    # The command
    ([], REFUSED),
    (["run"], run()),
    (["--"], REFUSED),
    (["-- run"], REFUSED),
    (["--", "run"], run()),
    (["run", "--"], run()),
    (["run", "--trace", "--"], run(trace=True)),
    (["--", "--", "run"], REFUSED),
    ([""], REFUSED),
    (["-"], REFUSED),
    (["help"], REFUSED),
    (["Run"], REFUSED),
    (["run "], REFUSED),
    (["r\u00fcn"], REFUSED),
    (["run", "run"], REFUSED),
    (["run", "5"], REFUSED),
    (["run", "-"], REFUSED),
    (["run", ""], REFUSED),
    (["run", "a", "b"], REFUSED),
    (["run", "--", "--trace"], REFUSED),
    # Bundles
    (["derive"], ("program 83\n" + TURNS, 6)),
    (["--", "derive"], ("program 83\n" + TURNS, 6)),
    (["derive", "5"], REFUSED),
    (["derive", "derive"], REFUSED),
    (["derive", "--trace"], REFUSED),
    (["derive", "--order=1"], REFUSED),
    (["derive", "--steps", "9"], REFUSED),
    (["derive", "--versions=9"], REFUSED),
    (["verify"], ("text BadBundle 1:1\n", 1)),
    (["verify", "--"], ("text BadBundle 1:1\n", 1)),
    (["verify", "5"], REFUSED),
    (["verify", "derive"], REFUSED),
    (["--trace", "verify"], REFUSED),
    (["verify", "--order=1"], REFUSED),
    (["--steps=9", "verify"], REFUSED),
    (["verify", "--versions", "9"], REFUSED),
    (["Verify"], REFUSED),
    (["verif"], REFUSED),
    # Generated programs
    (["gen", "1"], (generated(1), 0)),
    (["gen", "--", "0000000200"], (generated(200), 0)),
    (["gen"], REFUSED),
    (["gen", "0"], REFUSED),
    (["gen", "201"], REFUSED),
    (["gen", "5", "5"], REFUSED),
    (["gen", "--", "-5"], REFUSED),
    (["gen", "5", "--trace"], REFUSED),
    (["gen", "5", "--steps=9"], REFUSED),
    (["work", "1"], ("work 1 scripts 1 calls 2 own 0 shared 0 fresh 2\n", 0)),
    (["work", "5"], ("work 5 scripts 4 calls 20 own 10 shared 0 fresh 10\n", 0)),
    (["work", "200"], ("work 200 scripts 4 calls 20300 own 19900 shared 0 fresh 400\n", 0)),
    (["work"], REFUSED),
    (["work", "201"], REFUSED),
    (["work", "five"], REFUSED),
    (["work", "5", "--order=1"], REFUSED),
    (["work", "5", "--versions=9"], REFUSED),
    (["--trace"], REFUSED),
    # Steps
    (["run", "--steps", "9"], run(steps=9)),
    (["run", "--steps=9"], run(steps=9)),
    (["--steps", "9", "run"], run(steps=9)),
    (["--steps=9", "run"], run(steps=9)),
    (["run", "--steps", "0000000009"], run(steps=9)),
    (["run", "--steps", "00000000009"], REFUSED),
    (["run", "--steps", "0"], REFUSED),
    (["run", "--steps", "2000000"], run(steps=2000000)),
    (["run", "--steps", "2000001"], REFUSED),
    (["run", "--steps", "4294967297"], REFUSED),
    (["run", "--steps", "9999999999"], REFUSED),
    (["run", "--steps", "+9"], REFUSED),
    (["run", "--steps", " 9"], REFUSED),
    (["run", "--steps", "1e3"], REFUSED),
    (["run", "--steps", "-5"], REFUSED),
    (["run", "--steps", "-"], REFUSED),
    (["run", "--steps", ""], REFUSED),
    (["run", "--steps="], REFUSED),
    (["run", "--steps==9"], REFUSED),
    (["run", "--steps"], REFUSED),
    (["run", "--steps", "--trace"], REFUSED),
    (["run", "--steps", "--", "9"], REFUSED),
    (["--steps", "run"], REFUSED),
    (["run", "--steps", "9", "--steps", "9"], REFUSED),
    (["run", "--step=9"], REFUSED),
    (["run", "--STEPS=9"], REFUSED),
    (["run", "-steps", "9"], REFUSED),
    (["run", "---steps", "9"], REFUSED),
    (["run", "--steps", "100000", "--trace"], run(steps=100000, trace=True)),
    (["run", "--steps", "100001", "--trace"], REFUSED),
    (["run", "--trace", "--steps", "1"], run(steps=1, trace=True)),
    (["run", "--steps=100001", "--order=21"], REFUSED),
    (["run", "--order=21", "--steps=100000"], run(order=True, steps=100000)),
    # Changes
    (["run", "--versions", "1"], run(versions=1)),
    (["run", "--versions=003"], run(versions=3)),
    (["run", "--versions", "16777215"], run(versions=16777215)),
    (["run", "--versions", "16777216"], REFUSED),
    (["run", "--versions", "0"], REFUSED),
    (["run", "--versions=1", "--versions=1"], REFUSED),
    (["run", "--version"], REFUSED),
    # Orders
    (["run", "--order", "21"], run(order=True)),
    (["--order=21", "run"], run(order=True)),
    (["run", "--order", "2" * 9999 + "1"], run(order=True)),
    (["run", "--order", "2" * 10001], REFUSED),
    (["run", "--order", ""], REFUSED),
    (["run", "--order="], REFUSED),
    (["run", "--order"], REFUSED),
    (["run", "--order", "--", "21"], REFUSED),
    (["run", "--order", "2", "1"], REFUSED),
    (["run", "--order", "h"], REFUSED),
    (["run", "--order", "21h"], REFUSED),
    (["run", "--order", "2abcdefg"], run(order=True)),
    (["run", "--order", "20"], REFUSED),
    (["run", "--order", "2A"], REFUSED),
    (["run", "--order", "2,1"], REFUSED),
    (["run", "--order=2=1"], REFUSED),
    (["run", "--order", "\u00e9"], REFUSED),
    (["run", "--order=21", "--order=21"], REFUSED),
    # The trace, and what there is not
    (["run", "--trace"], run(trace=True)),
    (["--trace", "run"], run(trace=True)),
    (["run", "--trace=true"], REFUSED),
    (["run", "--trace="], REFUSED),
    (["run", "--trace", "--trace"], REFUSED),
    (["run", "--tra"], REFUSED),
    (["--trace", "x", "run"], REFUSED),
    (["run", "--help"], REFUSED),
    (["-h"], REFUSED),
    (["run", "-V"], REFUSED),
    (["run", "-x"], REFUSED),
    (["run", "--unknown=1"], REFUSED),
    (["run", "--=9"], REFUSED),
    (["--versions=3", "--trace", "--steps=50", "--order=21", "run"],
     run(versions=3, trace=True, steps=50, order=True)),
    (["run", "--order", "21", "--steps", "50", "--trace", "--versions", "3"],
     run(versions=3, trace=True, steps=50, order=True)),
]

CHANGES = b"class A script s i = 0; while i < %d do type A.m : () -> Int; i = i + 1 end end"
# It takes 6 steps, and 7 more for each turn.
LOOP = b"script s i = 0; while i < %d do i = i + 1 end"


def answer(program, words, text):
    done = subprocess.run([program, *words], input=text, stdout=subprocess.PIPE)
    return done.stdout, done.returncode


def wrongs(program, words, due):
    """What is wrong with the answer to these words, each as one line."""
    found = answer(program, words, TURNS.encode())
    if due is REFUSED:
        if found != (b"words refused\n", 2):
            yield "refused is due, and %r came" % (found,)
        return
    if isinstance(due, tuple):
        if found != (due[0].encode(), due[1]):
            yield "%.60r is due, and %.60r came" % (due, found)
        return
    report, _, trace = found[0].partition(b"trace\n")
    if found[1] not in (0, 6) or not report.startswith(b"script one\n"):
        yield "a run is due, and %r came" % (found,)
        return
    if bool(trace) != due["trace"]:
        yield "the trace: %r" % found[0]
    # Without an order the scripts run at once, and either may come first.
    if due["steps"] > 2 and due["order"] and b"NoBody" in report:
        yield "the order: %r" % report
    yield from wrong_steps(program, words, due)
    yield from wrong_changes(program, words, due)


def takes(steps):
    """A program that takes just so many steps."""
    turns, more = divmod(steps - 6, 7)
    return b"script s" + b" nil;" * steps + b" end" if turns < 0 else LOOP % turns + b"; nil" * more + b" end"


def wrong_steps(program, words, due):
    """So many steps are allowed, and not one more."""
    if answer(program, words, takes(due["steps"]))[1] != 0:
        yield "fewer than %d steps are allowed" % due["steps"]
    if b"stop Steps" not in answer(program, words, takes(due["steps"] + 1))[0]:
        yield "more than %d steps are allowed" % due["steps"]


def wrong_changes(program, words, due):
    """So many changes of a type are allowed, and not one more, where a run has the steps to tell."""
    if due["versions"] > 3 or due["steps"] < 40:
        return
    if answer(program, words, CHANGES % due["versions"])[1] != 0:
        yield "fewer than %d changes are allowed" % due["versions"]
    if b"stop Worn" not in answer(program, words, CHANGES % (due["versions"] + 1))[0]:
        yield "more than %d changes are allowed" % due["versions"]


def main():
    wrong = 0
    for words, due in TABLE:
        for message in wrongs(sys.argv[1], words, due):
            wrong += 1
            print("%s: %s" % ([word[:40] for word in words], message))
    print("%d lists of words, %d wrong" % (len(TABLE), wrong))
    return 1 if wrong else 0


if __name__ == "__main__":
    sys.exit(main())
