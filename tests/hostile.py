"""Texts at the limits and bytes at random, in little memory: each run has a status and what is due with it, and no signal.

    python3 tests/hostile.py PATH_TO_HBIRD [--all]

Each text and each input is made from its number. With `--all` there are as many as were tried by hand, and without it a
thousandth of them. The limits are one of the address space and one of the stack.
"""
import random
import re
import resource
import subprocess
import sys
import time
from collections import Counter

import made as by_grammar
from at_once import fault_of_report
from scripts import made as made_scripts

# So many texts and inputs there are with `--all`. Else each of so many is tried, so that ten kinds of texts come.
TEXTS, INPUTS = 10000, 100000
EACH_TEXT, EACH_INPUT = 1002, 1001
ADDRESSES, STACK = 512 << 20, 1 << 20
# A run that takes more seconds is taken for one that never ends.
SECONDS = 120
LINE = re.compile(rb"text (TooLong|[A-Z][A-Za-z]*( \S+)? [1-9]\d*:[1-9]\d*)\n")
VERDICTS = re.compile(rb"(ok\n|no (uses|step) (0|[1-9]\d*)\n)*")
HEAD = "class A\nscript s\n"
FRAMES = "type A.f : (Int) -> Int\n%send\n"
WORDS = ("class A B setup script s t type type? def end if then else while do nil true false self new not print str Nil Int "
         "Str Any ( ) , : . = == < + - * ++ -> ; \n \" 1 007 \"a\" x m # \\ ? @").split(" ")
OPTIONS = [["run"], ["verify"], ["derive"], ["run", "--trace"], ["run", "--order", "12g"], ["run", "--steps", "99"],
           ["run", "--versions", "1"], ["run", "--order=11", "--trace", "--steps=7", "--versions=2"]]


class Maker:
    """Makes a text from a number, with whether it is a program, or None where that is left open."""

    def __init__(self, number):
        self.choose = random.Random(number)
        kinds = [self.deep, self.high, self.nodes, self.types, self.body, self.scripts, self.variables, self.names, self.texts,
                 self.calls, self.classes, self.lists, self.size, self.output, self.frames, self.methods, self.mixed,
                 self.by_grammar, self.broken, self.together]
        self.make = kinds[number % len(kinds)]

    def one(self, *choices):
        return self.choose.choice(choices)

    def near(self, limit):
        """A number at a limit or next to it, and whether it is within."""
        number = limit + self.one(-1, 0, 0, 1)
        return number, number <= limit

    def deep(self):
        depth, reads = self.near(256)
        return HEAD + "(" * depth + "1" + ")" * depth + "\nend\n", reads

    def high(self):
        front, back, limit = self.one(("", " + 1", 254), ("", ' ++ ""', 254), ("print ", "", 254), ("not ", "", 254),
                                      ("x = ", "", 254), ("if 1 then ", " end", 127), ("while nil do ", " end", 127))
        height, reads = self.near(limit)
        first = '""' if "++" in back else "1"
        return HEAD + front * height + first + back * height + "\nend\n", reads

    def nodes(self):
        items, reads = self.near(65534)
        return HEAD + self.one("1;", "nil;", "A.new;", "x;").replace("x", "true") * items + "end\n", reads

    def types(self):
        count, reads = self.near(65534)
        return HEAD + "type A.m:()->A;" * count + "end\n", reads

    def body(self):
        count, reads = self.near(4095)
        return HEAD + "type A.m : () -> Int\ndef A.m() " + "1;" * count + "end\nprint A.new.m\nend\n", reads

    def scripts(self):
        count, reads = self.near(16)
        parts = [self.part() for _ in range(count)]
        return "class A\n" + "".join("script s%d\n%send\n" % row for row in enumerate(parts)), reads

    def variables(self):
        count, reads = self.near(32)
        items = "".join("v%d = %d; " % (number, number) for number in range(count))
        inside = self.one("%s", "type A.m : () -> Int; def A.m() %s1 end; print A.new.m")
        return HEAD + inside % items + "\nend\n", reads

    def names(self):
        length, reads = self.near(64)
        name = "".join(self.choose.choices("abz_09", k=length - 1))
        kind = self.one("m%s", "A%s", '"m%s"')
        if kind == "A%s":
            return "class A%s\nscript s\nprint A%s.new\nend\n" % (name, name), reads
        method, called = ("m" + name,) * 2 if kind == "m%s" else ('("m%s")' % name, "m")
        lines = "type A.%s : () -> Int\ndef A.%s() 1 end\nprint A.new.%s\n" % (method, method, called)
        return HEAD + lines + "end\n", reads or kind == '"m%s"'

    def texts(self):
        length, reads = self.near(1024)
        text = "".join(self.choose.choices(["a", " ", "~", "\\n", '\\"', "\\\\"], k=length))
        if self.one(True, False):
            return HEAD + 'print "%s"\nend\n' % text, reads
        lines = 's = "a"\nwhile not s == "%s" do s = s ++ "a" end\nprint s ++ ""\n' % ("a" * min(length, 1024))
        return HEAD + lines + 's ++ "a"\n' + "end\n", True

    def calls(self):
        count, reads = self.near(32)
        return HEAD + "type A.n : () -> A\ndef A.n() self end\ntype A.m : () -> A\ndef A.m() self" + ".n" * count + \
            " end\nprint A.new.m\nend\n", reads

    def classes(self):
        count, reads = self.near(256)
        lines = "".join("type C%d.m : () -> Any\ndef C%d.m() C%d.new.m end\n" % (at, at, (at + 1) % count) for at in range(count))
        return "".join("class C%d\n" % at for at in range(count)) + "script s\n" + lines + "C0.new.m\nend\n", reads

    def lists(self):
        count, reads = self.near(4)
        names, kinds, values = "a b c d e".split()[:count], ["Int"] * count, ["1"] * count
        return HEAD + "type A.m : (%s) -> Int\ndef A.m(%s) a end\nprint A.new.m(%s)\nend\n" % (
            ", ".join(kinds), ", ".join(names), ", ".join(values)), reads

    def size(self):
        length, reads = self.near(1048576)
        text = HEAD + self.part() + "end\n"
        return text + self.one(" ", "\n", "#", ";") * (length - len(text)), reads

    def output(self):
        lines, length = self.one(1, 1000, 1030, 40000), self.one(1, 500, 1021, 1024)
        part = 's = "%s"\ni = 0\nwhile i < %d do print s; i = i + 1 end\n' % (self.one("a", "\\n", "\\\\") * length, lines)
        return "class A\n" + "".join("script s%d\n%send\n" % (at, part) for at in range(self.one(1, 4, 16))), True

    def frames(self):
        """Frames as many as there may be, each with work that waits for the inner one, in up to 16 threads."""
        depth, width = self.near(4096)[0], self.one(0, 10, 100, 200)
        sums = "1 + (" * width + "self.f(n - 1)" + ")" * width
        own = "".join("v%d = n; " % at for at in range(self.one(0, 31)))
        body = "def A.f(n) %sif n == 0 then 0 else %s end end\n" % (own, sums)
        count = self.one(1, 4, 16, 16)
        return "class A\nsetup\n" + FRAMES % body + "".join(
            "script s%d\nprint A.new.f(%d)\nend\n" % (at, depth - 1) for at in range(count)), True

    def methods(self):
        count, scripts = self.near(1024)[0], self.one(1, 2, 16)
        return "class A\n" + "".join("""script s%d
i = 0
while i < %d do type A.("m" ++ str(i)) : () -> Int; def A.("m" ++ str(i))() 0 end; i = i + 1 end
A.new.m0; A.new.m%d
end
""" % (at, count, count - 1) for at in range(scripts)), True

    def part(self):
        """The items of one script, which reads whatever it does."""
        return self.one(
            'type A.m : (Int) -> Int\ndef A.m(n) if n == 0 then 0 else self.m(n - 1) end end\nprint A.new.m(%d)\n' % (
                self.near(4095)[0]),
            'i = 0\nwhile i < 3000 do type? A.m : (Int) -> Int; def A.m(n) n end; print A.new.m(i); i = i + 1 end\n',
            's = "ab"\nwhile true do print s; s = s ++ s end\n',
            "i = 9223372036854775800\nwhile true do i = i + 1 end\n",
            "while true do end\n",
            'i = 0\nwhile i < 1030 do def A.("k" ++ str(i))() i end; i = i + 1 end\n',
            "print " + "(" * 250 + "1" + ")" * 250 + "\n",
            "x\n", "self\n", "nil + 1\n", 'print 1 + "a"\n', "A.new.nobody\n", 'def A.("9x")() 1 end\n', "")

    def mixed(self):
        setup = "setup\n%send\n" % self.part() if self.one(True, False) else ""
        parts = [self.part() for _ in range(self.one(2, 8, 16))]
        return "class A\n" + setup + "".join("script s%d\n%send\n" % row for row in enumerate(parts)), True

    def by_grammar(self):
        return by_grammar.programs(1, self.choose.random())[0].decode("latin-1"), True

    def broken(self):
        return by_grammar.broken(1, self.choose.random())[0].decode("latin-1"), None

    def together(self):
        return made_scripts(self.choose.randrange(10 ** 9))[0], True

    def words(self):
        return self.one(["run"], ["run"], ["run"], ["run", "--order", "".join(self.choose.choices("123456789abcdefg", k=50))])


def made_input(number):
    """Words for the program and short bytes, from a number."""
    choose = random.Random(number)
    kind, length = number % 4, choose.randrange(65)
    if kind == 0:
        data = choose.randbytes(length)
    elif kind == 1:
        data = " ".join(choose.choices(WORDS, k=length // choose.choice([1, 8]))).encode()
        data = choose.choice([b"%s", HEAD.encode() + b"%s\nend\n"]) % data
    elif kind == 2:
        data = bytes(choose.choices(b"ABabs0 \"\\\n;.()#=+-<>?:", k=length))
    else:
        text = (HEAD + "type A.f : () -> Int\ndef A.f() 1 end\nend\n").encode()
        lines = b"derivation A 4:1 3:1\nstep 4:11 Int\nend\n"
        whole = bytearray(b"program %d\n" % len(text) + text + lines)
        for _ in range(choose.randrange(4)):
            whole[choose.randrange(len(whole))] = choose.randrange(256)
        data = bytes(whole[:choose.choice([len(whole), choose.randrange(len(whole))])])
    words = OPTIONS[number // 4 % len(OPTIONS)]
    if choose.random() < 0.1:
        # A value of an option is of such bytes too; a word has no byte 0.
        words = ["run", choose.choice(["--steps=", "--versions=", "--order=", "--"]).encode() + data.replace(b"\0", b"")]
    return words, data


def is_text(word):
    """Whether a word can be had: one that is given as bytes might be no UTF-8."""
    try:
        return isinstance(word, str) or word.decode() is not None
    except UnicodeDecodeError:
        return False


def fault_of(words, text, reads, out, status):
    """What is wrong with an answer, or None."""
    if status is None or status < 0:
        return "it was ended" if status else "no end came"
    if (status == 7) != (not is_text(words[-1])):
        return "it got its words" if status == 7 else "it could not get its words"
    if status == 7:
        return "something is written" if out else None
    if status == 3:
        return "something is written" if out else None
    if status == 2:
        # Only words with a value that is made may be refused.
        return None if out == b"words refused\n" and isinstance(words[-1], bytes) else "the words are refused"
    if status == 1:
        return "it is a program" if reads else None if LINE.fullmatch(out) else "it is no line of a fault"
    if status not in (0, 6):
        return "no such status is due"
    if reads is False:
        return "it is no program"
    return fault_of_text(words, text, out, status)


def fault_of_text(words, text, out, status):
    """What is wrong with the text of a job that was done."""
    if words[0] == "verify":
        return None if VERDICTS.fullmatch(out) else "these are no verdicts"
    if words[0] == "derive":
        return None if out.startswith(b"program %d\n" % len(text)) else "it is no bundle"
    report = out.decode("latin-1").partition("trace\n")[0]
    # Names of sections are told from the lines of a text that is laid out; a text on one line has other ones.
    if not report or not text.startswith(b"class A\ns"):
        return None
    return fault_of_report(text.decode("latin-1"), report, status)


def answered(program, words, text):
    """What the program writes, its status, and how many seconds it took."""
    began = time.monotonic()
    try:
        done = subprocess.run([program, *words], input=text, stdout=subprocess.PIPE, stderr=subprocess.DEVNULL, timeout=SECONDS)
    except subprocess.TimeoutExpired:
        return b"", None, SECONDS
    return done.stdout, done.returncode, time.monotonic() - began


def tried(program, cases):
    """How often each status came, the longest time, and what was wrong."""
    statuses, longest, wrong = Counter(), 0.0, []
    for name, words, text, reads in cases:
        out, status, seconds = answered(program, words, text)
        statuses[status] += 1
        longest = max(longest, seconds)
        fault = fault_of(words, text, reads, out, status)
        if fault:
            wrong.append("%s: %s: %s: status %s, %r, of %r" % (name, words, fault, status, out[:200], text[:200]))
    return statuses, longest, wrong


def texts(numbers):
    for number in numbers:
        maker = Maker(number)
        text, reads = maker.make()
        yield "the text of the number %d" % number, maker.words(), text.encode("latin-1"), reads


def inputs(numbers):
    for number in numbers:
        words, data = made_input(number)
        yield "the input of the number %d" % number, words, data, None


def main():
    program, has_all = sys.argv[1], "--all" in sys.argv[2:]
    resource.setrlimit(resource.RLIMIT_AS, (ADDRESSES, ADDRESSES))
    resource.setrlimit(resource.RLIMIT_STACK, (STACK, STACK))
    broken = []
    for name, cases in (("texts", texts(range(0, TEXTS, 1 if has_all else EACH_TEXT))),
                        ("inputs", inputs(range(0, INPUTS, 1 if has_all else EACH_INPUT)))):
        statuses, longest, wrong = tried(program, cases)
        broken += wrong
        print("%d hostile %s, %d wrong; of the statuses %s; the longest took %.1f seconds" % (
            sum(statuses.values()), name, len(wrong),
            ", ".join("%s %d" % row for row in sorted(statuses.items(), key=str)), longest))
    for message in broken[:20]:
        print(message)
    if has_all:
        print("at most %d KiB stood in memory" % resource.getrusage(resource.RUSAGE_CHILDREN).ru_maxrss)
    return 1 if broken else 0


if __name__ == "__main__":
    sys.exit(main())
