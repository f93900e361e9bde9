"""Makes programs of two to four scripts, from a number: of three, two share their methods, and one shares none.

Scripts that share methods call them, and give types and bodies to them, also from bodies whose frames hold them. Some stop.
A method calls none that stands before it in its list, so that no program runs without end.
"""
import random

# What a method's type is most often, and what it may be else: then some calls and bodies no longer fit.
PLAIN, ODD = "(Int) -> Int", ["(Int) -> Any", "(Any) -> Int", "(Int) -> Str", "(Str) -> Int"]
# What stops a script by itself, or does where nobody gave a type or a body.
STOPS = ["x", "self", "nil + 1", "9223372036854775807 + 1", 'A.new.m0("one")', "A.new.nobody(1)", 'def A.("9x")() 1 end',
         "nil.m0(1)", 'def A.bodies(x) "a" end; type A.bodies : (Int) -> Int; A.new.bodies(1)']
# So many methods a list has, and so often a loop is run.
METHODS, TURNS = (2, 5), (1, 200)


class Method:
    """A method, and those that its bodies may call."""

    def __init__(self, class_name, name, later):
        self.class_name, self.name, self.later = class_name, name, later

    def __str__(self):
        return "%s.%s" % (self.class_name, self.name)

    def call(self, argument):
        return "%s.new.%s(%s)" % (self.class_name, self.name, argument)


class Maker:
    def __init__(self, number):
        self.choose = random.Random(number)
        self.shares = number % 3 > 0
        self.has_setup = self.chance(0.8 if self.shares else 0.3)

    def chance(self, part):
        return self.choose.random() < part

    def one(self, *choices):
        return self.choose.choice(choices)

    def program(self):
        count = self.choose.randint(2, 4)
        lists = [self.methods("m%d")] * count if self.shares else [self.methods("m%d_" % at + "%d") for at in range(count)]
        lines = ["class A", "class B"]
        if self.has_setup:
            given = lists[:1] if self.shares else lists
            lines += ["setup", *[line for methods in given for line in self.givings(methods)], "end"]
        for number, methods in enumerate(lists, 1):
            lines += ["script s%d" % number, *self.script(methods), "end"]
        return "\n".join(lines) + "\n"

    def methods(self, names):
        found = []
        for number in reversed(range(self.choose.randint(*METHODS))):
            found = [Method(self.one("A", "B"), names % number, found)] + found
        return found

    def script(self, methods):
        lines = []
        # Where no setup gave types and bodies, most scripts do
        if not self.has_setup and self.chance(0.9):
            lines += self.givings(methods)
        for _ in range(self.choose.randint(2, 7)):
            lines += self.item(self.choose.choice(methods))
        return lines

    def givings(self, methods):
        return [line for method in methods for line in (self.type_of(method), self.body_of(method))]

    def type_of(self, method, word="type"):
        return "%s %s : %s" % (word, method, self.one(*ODD) if self.chance(0.01) else PLAIN)

    def body_of(self, method):
        return "def %s(x) %s end" % (method, self.body(method))

    def body(self, method):
        """An expression that is a number for most of the types."""
        plain = "x + %d" % self.choose.randint(0, 9)
        if self.chance(0.01):
            return '"a"'
        if not method.later:
            return self.one(plain, "if %s then 1 else x end" % self.type_of(method, "type?"))
        other = self.one(*method.later)
        return self.one(
            plain,
            other.call("x"),
            "%s + %s" % (other.call("x"), self.one(*method.later).call("1")),
            "%s; %s" % (self.type_of(other, "type?"), other.call("x")),
            "t = %s; if %s then t else 0 end" % (other.call("x"), self.type_of(method, "type?")),
            "%s; %s" % (self.body_of(other), other.call("x")),
            "t = 0; while t < %d do %s; t = t + 1 end; t" % (self.choose.randint(1, 4), other.call("t")))

    def item(self, method):
        if self.chance(0.02):
            return [self.one(*STOPS)]
        return self.one(self.one_act, self.some_calls, self.some_acts)(method)

    def one_act(self, method):
        return [self.one("print " + method.call(self.choose.randint(0, 9)), "print " + self.type_of(method, "type?"),
                         self.type_of(method), self.body_of(method))]

    def some_calls(self, method):
        return self.loop([method.call("i")])

    def some_acts(self, method):
        return self.loop([self.one(self.type_of(method, "type?"), self.body_of(method)), method.call("i")])

    def loop(self, lines):
        return ["i = 0", "while i < %d do" % self.choose.randint(*TURNS), *lines, "i = i + 1", "end"]


def made(number):
    """The program of this number, and whether its scripts share methods."""
    maker = Maker(number)
    return maker.program(), maker.shares
