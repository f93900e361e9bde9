"""Texts, each with the answer that `hbird run` owes it.

    python3 tests/faults.py PATH_TO_HBIRD

A text either reads (`ok`), or the program writes one line that names the
first fault and its place, with status 1. A text that reads has some report: this
table asks what is a fault, not what a run does.
"""
import subprocess
import sys

TABLE = []


def ok(*texts):
    TABLE.extend((text, "ok") for text in texts)


def fault(kind, front, rest=""):
    """The place is the one behind `front`, so that no place is counted by hand."""
    line, column = front.count("\n") + 1, len(front) - front.rfind("\n")
    TABLE.append((front + rest, "text %s %d:%d" % (kind, line, column)))


HEAD = "class A\nscript s\n"


def ok_in(*texts):
    ok(*(HEAD + text + " end" for text in texts))


def fault_in(kind, front, rest=""):
    fault(kind, HEAD + front, rest)


def marked(kind, *texts):
    """In each text a `^` stands before the place of the fault."""
    for text in texts:
        fault_in(kind, *text.split("^"))


# These three give their lines in full: they check the counting of places too.
TABLE += [("class A\nscript main", "text Expected end 2:12"), ("class A\nclass A", "text TwiceClass 2:7"),
          ("class A\nscript main\ntype A.f : () -> Int\ndef A.f() 9223372036854775808 + 1 end\n"
           "print A.new.f\nend\n", "text BigNumber 4:11")]

# Whole texts.
ok("", " " * 1048576, "\n;;\n;", "\n# no line feed ends this comment")
TABLE += [(first + " " * 1048576, "text TooLong") for first in " @"]
ok("class A class B setup end script s end script t end",
   ";class A;class B;setup;;end;script s;;end;script t;1;;2;end;",
   "class A\r\nscript s\r\n\tx = 1\r\nend\r\n",
   "# \0\x80\xff \" \\ @\nclass A # A\nscript s\n1 # 2 )\n# 3\nend")
ok_in("x = # the mark stands before this line feed\n 1")
ok_in("type? A.m : (Nil, Bool, Int, Str) -> Any; type?A.m : () -> A",
      "def A.(\"m\")(a, b) if a then b; a else end; while b do end end.m; A.new.m(1, nil).m()",
      "x = print y = not not true == 2 - 3 ++ \"\" * str(self).m")
marked("Expected end", "9^x end", "1 # 2^", "1 == 2 ^== 3 end", "1 < 2 ^== 3 end")

# Tokens. A comment holds any byte, so a bad one is tried outside and in a text.
for byte in "?@!\\$%&'/>[]^`{|}~\0\x0b\x7f\x80\xff":
    fault_in("BadByte", "x = 1 ", byte + " end")
for byte in "\r\t\0\x1f\x7f\x80\xff":
    fault_in("BadByte", 'x = "a', byte + '" end')
    fault_in("BadEscape", 'x = "a', "\\" + byte + '" end')
for byte in "'?qN0 ":
    fault_in("BadEscape", 'x = "a', "\\" + byte + '" end')
ok_in('x = "\\"\\\\\\n\\t # ~"')
marked("BadByte", "type ^? A.m : () -> Int end", "types^? A.m : () -> Int end", "def^? A.m() end end",
       'x = "a^\r\n" end', 'x = "a^\0\\q"', 'x = "a^\0\n')
marked("OpenText", 'x = ^"a\n" end', 'x = ^"a', 'x = ^"', 'x = ^"a\\\nb" end', 'x = ^"a\\', 'x = ^"a\\"',
       'x = ^"a\n\\q\0', 'x = ^"' + "a" * 1025)
marked("BadEscape", 'x = "a^\\q\0"', 'x = "a^\\q', 'x = "%s^\\q"' % ("a" * 1025))
ok_in('x = "%s"; y = "%s"' % ("a" * 1024, "\\n" * 1024))
marked("LongLiteral", 'x = ^"%s" end' % ("a" * 1025), 'x = ^"%s" end' % ("\\n" * 1025))
ok_in("x = 9223372036854775807 + %s9223372036854775807 + 007" % ("0" * 5000))
for number in ("9223372036854775808", "10000000000000000000", "09223372036854775808", "1" * 5000):
    fault_in("BigNumber", "x = ", number + " end")
ok("class A%s script s x%s = 1 end" % ("y" * 63, "y" * 63))
fault("LongName", "class ", "A%s" % ("y" * 64))
# The first bad token decides, and it comes before every fault of the grammar.
marked("LongName", "^x%s = 1 end" % ("y" * 64), ") ^x%s %s" % ("y" * 64, "9" * 20))
marked("BigNumber", "Z ) ^%s x%s" % ("9" * 20, "y" * 64))
fault("OpenText", "class A class A script s Z ) ", '"')

# Line feeds. At each `|` one gives no separator, because of what stands before it.
for text in ("(|1)", "x.m(|1)", "x.m(1,|2)", "type A.m :|() -> Int", "type A.m : (|Int,|Int) ->|Int", "x.|m",
             "A.|new", "x =|1", "x ==|1", "x <|1", "x +|1", "x -|1", "x *|1", "x ++|1", "not|x", "print|x",
             "def A.|m(|a,|b) end", "x =| # a comment|\t\r|1"):
    ok_in(text.replace("|", "\n"))
# Here one gives a separator, or stands behind one, where a separator may stand,
for text in ("1;|2", "1|;|2", "if 1 then|else|end", "while 1 do|end", "def A.m()|1|end", "x.m|(1)",
             "nil||1|true|false|self|A.new|x|\"\"|(1)|if 1 then end|2",
             *("type A.m : () -> %s|1" % word for word in ("Nil", "Bool", "Int", "Str", "Any", "A"))):
    ok_in(text.replace("|", "\n"))
# and here one gives a separator that goes nowhere.
for kind, text in ((")", "(1|)"), (")", "x.m(1|, 2)"), ("then", "if x|then end"), ("do", "while x|do end"),
                   ("expression", "if|x then end"), ("(", "str|(1)"), ("classname", "def|A.m() end"),
                   (".", "type A|.m : () -> Int"), (":", "type A.m|: () -> Int"), ("->", "type A.m : ()|-> Int"),
                   ("(", "def A.m|() end"), (")", "def A.m(a|) end"), (")", "type A.m : (Int|) -> Int"),
                   ("classname", "type|A.m : () -> Int"), ("expression", "while|x do end"), (".", "A|.new")):
    marked("Expected " + kind, text.replace("|", "^\n") + " end")
marked("Expected end", "x\n^+ 1 end", "x;^.m end")
fault("Expected classname", "class # A", "\nA")
fault("Expected name", "script", "\ns end")

# What is expected: each word of the list, at a token and at the end of the text.
EXPECTED = [
    ("end", ["", "1", "1;", "if 1 then", "if 1 then 1 else 2", "while 1 do ", "def A.m() 1", "x", "x.m",
             "if 1 then else"]),
    ("then", ["if 1", "if x.m(1)", "if if 1 then else end"]), ("do", ["while 1", "while A.new"]),
    (")", ["(1", "x.m(", "x.m(1", "str(1", "def A.m(", "def A.m(a", "type A.m : (", "type A.m : (A", "def A.(1",
           "x.m(1, 2"]),
    ("expression", ["print", "not", "x =", "1 +", "1 *", "1 <", "1 ==", "1 ++", "1 -", "(", "x.m(1,", "if", "while",
                    "str(", "type A.(", "def A.("]),
    ("name", ["x.", "type A.", "type? A.", "def A.", "def A.m(a,", "A.new."]),
    ("type", ["type A.m : () ->", "type A.m : (Int,", "type A.m : (A, Int,"]),
    ("classname", ["type", "type?", "def"]), ("(", ["str", "type A.m :", "def A.m", "def A.(1)"]),
    (".", ["A", "type A", "def A", "1 + A"]), (":", ["type A.m", "type? A.(1)"]),
    ("->", ["type A.m : ()", "type A.m : (Int, A)"]), ("new", ["A.", "1 + A.", "not A."]),
]
for kind, fronts in EXPECTED:
    for front in fronts:
        fault_in("Expected " + kind, front)
        fault_in("Expected " + kind, front + " ", ": )" if kind != ":" else ", )")
marked("Expected expression", "1 + ^print 1 end", "not ^type A.m : () -> Int end", "1 * ^print 1 end", "1 < ^type? A.m")
marked("Expected end", "1 + x ^= 2 end", "x.m ^= 2 end", "(x) ^= 2 end", "1 ^2 end", "1 ^else end", "x.m(1)^(2) end",
       "print 1 ^print 2 end", "self ^A.new end", "x ^Z.new end", "1 ^then end")
for front, rest in (("", "1"), ("class A ", "A"), ("class A ", "5"), ("setup end ", "setup end"), ("", "end"),
                    ("setup end ", "class A"), ("script s end ", "class A"), ("script s end ", "setup end"),
                    ("script s end ", "end"), ("class A ", "< A"), ("class A\n", "x = 1")):
    fault("Expected item", front, rest)
for rest in ("", "Int", "5", "A end", "end"):
    fault("Expected classname", "class A class ", rest.replace("A", "a"))
    fault("Expected name", "script ", rest)

# Names of classes, scripts and parameters, and what is one too many in a list.
marked("UnknownClass", "x = ^B.new end", "^B", "type ^B.m : () -> Int end", "type? ^B", "def ^B.m() end end",
       "type A.m : (^B) -> Int end", "type A.m : () -> ^B", "x.m(A.new, ^B)")
fault("UnknownClass", "script s ", "A.new end class A")
fault("TwiceClass", "class A class B;class ", "A )")
fault("TwiceScript", "script a end script b end script ", "a Z.new )")
ok("class A script s a = 1; s = 2; def A.s(s) end end script a end")
ok_in("type A.m : (Int, Int, A, A) -> A; x.m(1, 2, 3, 4); def A.m(a, b, c, d) def A.m(a, b) end end")
marked("TwiceParam", "def A.m(a, b, ^a) end end", "def A.m(a, b, c, d, ^d) end end", "def A.m(a, ^a, c, d, e) end end")
marked("TooMany parameters", "def A.m(a, b, c, d, ^e) end end", "type A.m : (Int, Int, A, A, ^A) -> Int end")
marked("UnknownClass", "type A.m : (Int, Int, A, A, ^B) -> Int end", "x.m(1, 2, 3, 4, ^B.new) end")
marked("TooMany arguments", *("x.m(1, 2, 3, 4, ^%s) end" % first for first in (
    "1", "x", "x = 2", "A.new", "(1)", "print 1", "type A.m : () -> A", "not 1", "def A.m() end", '""', "self")))
marked("Expected type", "type A.m : () -> ^5", "type A.m : (Int, Int, A, A, ^) -> Int end")
marked("Expected name", "def A.m(a, ^A) end end", "def A.m(a, b, c, d, ^) end end")
marked("Expected )", "def A.m(^A) end end", "x.m(1, 2, 3, 4 ^5) end")
marked("Expected expression", "x.m(1, 2, 3, 4, ^) end")

# Counts.
CLASSES = "".join("class C%d\n" % number for number in range(256))
SCRIPTS = "".join("script s%d end\n" % number for number in range(16))
ok(CLASSES + SCRIPTS)
fault("TooMany classes", CLASSES + "class ", "D")
fault("TwiceClass", CLASSES + "class ", "C255")
fault("TooMany scripts", SCRIPTS + "script ", "t end")
fault("TwiceScript", SCRIPTS + "script ", "s15 end")

# The script's own block is a node, and it is complete behind all of its items.
for rest in ("end", "1 end", "1 )"):
    fault("TooMany nodes", "script s " + "1;" * 65535, rest)
fault("TooMany nodes", "script s " + "1;" * 65534 + "x ", "= 1 )")
ok("script s " + "1;" * 65534 + "end", "setup " + "1;" * 65533 + "end script s end")
fault("TooMany nodes", "setup " + "1;" * 65534 + "end script s ", "end")

# A type is counted at its word, so the last one may be no node yet.
TYPE = "type A.m:()->A;"
ok("class A script s " + TYPE * 65534 + "end")
for rest in ("type A.m:()->A end", "type? )"):
    fault("TooMany types", "class A script s " + TYPE * 65534, rest)
# Only types stand before this argument, since any other node would be one too many.
for kind, count in (("types", 65529), ("arguments", 65528)):
    inner = TYPE[:-1]
    front = "class A script s " + TYPE * count + "(%s).m(%s," % (inner, ",".join([inner] * 4))
    fault("TooMany " + kind, front, inner + ") end")


def body(kind, count, front, rest):
    """A body with `count` leaves before the rest."""
    text = "def A.m() " + "1;" * count + front
    if kind == "ok":
        ok_in(text + rest)
    else:
        fault_in(kind, text, rest + " end")


MANY = "TooMany body"
for kind, count, front, rest in (
        ("ok", 4095, "", "end"), (MANY, 4096, "", "end"), (MANY, 4096, "", "1 end"), (MANY, 4095, "x ", "= 1 end"),
        (MANY, 4096, "print ", "1 end"), (MANY, 4094, "1 ", "+ 1 end"), (MANY, 4096, "", "1 ) end"),
        # an absent `else` is a block, which ends where the `if` does
        ("ok", 4091, "", "if 1 then end end"), (MANY, 4092, "if 1 then end ", "end"),
        (MANY, 4093, "", "if 1 then end end"), (MANY, 4094, "if 1 then ", "end end"),
        (MANY, 4095, "if 1 then ", "else end end"), (MANY, 4096, "if ", "1 then end end"),
        (MANY, 4094, "if 1 then else ", "end end"), ("ok", 4092, "", "while 1 do end end"),
        (MANY, 4094, "", "while 1 do end end"), (MANY, 4095, "while 1 do ", "end end"),
        # a definition inside counts as one node, and so does each node of its name
        ("ok", 4094, "", "def A.n() %send end" % ("1;" * 4095)), (MANY, 4095, "def A.n() end ", "end"),
        (MANY, 4096, "", "def A.n() end end"), (MANY, 4096, "def A.(", "x)() end end"),
        (MANY, 0, "def A.n() " + "1;" * 4096, "end end"), ("ok", 4093, "", "def A.(x)() end end")):
    body(kind, count, front, rest)
# One node can pass both counts, and then the count of all nodes is named.
fault_in("TooMany nodes", "1;" * 61439 + "def A.m() " + "1;" * 4096, "1 end end")
fault_in(MANY, "1;" * 61438 + "def A.m() " + "1;" * 4096, "1 end end")

CALLS = "x.m;" * 32
ok("setup " + CALLS * 2 + "end")
for text in (CALLS + "x.^m", "x" + ".m(1)" * 32 + ".^m", CALLS[4:] + "x.m(x.^m)", CALLS + "x.^m )",
             CALLS[4:] + "def A.(x.m)() end; x.^m", CALLS + "def A.(x.^m)() end"):
    marked("TooMany calls", "def A.m() %s end end" % text)
ok_in(CALLS * 2 + "def A.m() " + CALLS + "def A.n() " + CALLS + "end end")

NAMES = "".join("v%d = 1;" % number for number in range(32))
FEWER = NAMES[:NAMES.index("v28")]
ok("class A setup " + NAMES + "v0 = 1 end script s " + NAMES + "def A.m() " + NAMES + "v31 = 1 end; v1 = 1; " +
   "def A.m(a, b, c, d) " + FEWER + "a = x end end")
for front in (NAMES, "def A.m() " + NAMES, "def A.m() v = 1 end; " + NAMES, NAMES + "def A.(", NAMES + "x.m(v0 = 1, ",
              "def A.m(a, b, c, d) " + FEWER):
    fault_in("TooMany variables", front + "v ", "= Z end")
fault("TooMany variables", "setup " + NAMES + "v ", "= )")

# Depth. Each construct is tried at the limit, inside parentheses, and one past it.
for within, front, rest in (
        (255, "", "(1)"), (255, "", "if 1 then end"), (255, "", "while 1 do end"), (255, "", "not 1"),
        (255, "", "print 1"), (255, "x ", "= 1"), (255, "x.m", "(1)"), (255, "x.m", "()"), (255, "str", "(1)"),
        (255, "type A.m : ", "() -> Int"), (255, "type A.", "(1) : () -> Int"), (254, "def A.m", "() end"),
        (254, "def A.", "(1)() end"), (255, "1 + ", "(1)"), (255, "1 * ", "not 1"),
        (254, "if ", "(1) then end"), (254, "if 1 then ", "(1) end"), (254, "if 1 then else ", "(1) end"),
        (254, "while ", "(1) do end"), (254, "while 1 do ", "(1) end"), (254, "x.m(1, ", "(1))"), (254, "x = ", "(1)")):
    ok_in("(" * within + front + rest + ")" * within)
    fault_in("TooDeep", "(" * (within + 1) + front, rest + ")" * (within + 1) + " end")
# What has ended is open no more.
ok_in("(" * 255 + "not 1 + (1).m(2) * not 1 == str(1)" + ")" * 255,
      "if (1) then end; while 1 do not 1 end; print x = 1; def A.(str(1))(a) end; x.m(); type A.(1) : () -> Int; " * 300)
fault_in("TooDeep", "(" * 256, "def A.m() end" + ")" * 256 + " end")
fault_in("TooDeep", "(" * 256, "(B")
fault_in("Expected expression", "(" * 256, ")")
fault_in("TooDeep", "(" * 255 + "x.m(1, 2, 3, 4, ", "(1)")
fault_in("TooMany arguments", "(" * 254 + "x.m(1, 2, 3, 4, ", "(1)")
fault_in("TooDeep", NAMES + "(" * 256 + "v ", "= 1")
fault_in("TooMany variables", NAMES + "(" * 255 + "v ", "= 1")

# Height. A script's block is one higher than its highest item.
for one, step in (("1", " + 1"), ("x", ".m"), ("x", " * x"), ('""', ' ++ ""'), ("x", ".m(1, 2)")):
    ok_in(one + step * 254)
    fault_in("TooDeep", one + step * 255 + " ", "end")
    fault_in("TooDeep", one + step * 255 + step[:1], step[1:] + " end")
    # a height is found at the next token, before what that token lacks
    fault_in("TooDeep", one + step * 255 + step[:1], step[1:] + " )")
    fault_in("TooDeep", one + step * 255 + step[:1], step[1:])
    fault_in("Expected end", one + step * 255 + " ", ")")
# but a call is complete only behind its arguments
marked("Expected )", "x" + ".m" * 256 + "(^* end")
for word in ("print ", "not ", "x = "):
    place = word.index("=") if "=" in word else 0
    ok_in(word * 254 + "1")
    fault_in("TooDeep", word * 255 + "1 ", "end")
    fault_in("TooDeep", word[:place], (word * 256)[place:] + "1 end")
    fault_in("TooDeep", word * 256 + word[:place], word[place:] + "1 end")
# An `if` inside an `if` is two higher: the block between them counts.
ok_in("if 1 then " * 127 + "end " * 127)
fault_in("TooDeep", "if 1 then " * 128 + "end " * 128, "end")
fault_in("TooDeep", "if 1 then " * 129 + "end " * 128, "end end")
fault_in("TooDeep", "if 1 then else " * 129 + "end " * 128, "end end")
ok_in("def A.m() 1" + " + 1" * 252 + " end")
marked("TooDeep", "def A.m() 1%s end ^end" % (" + 1" * 253), "^def A.m() 1%s end end" % (" + 1" * 254),
       "def A.m() 1%s ^end end" % (" + 1" * 255), "if 1 then 1%s ^else end end" % (" + 1" * 255))
# Where several nodes end at one token the inner one is named; of one node its height.
SUM = "1" + " + 1" * 255 + " "
marked("TooDeep", "1;" * 65023 + SUM + "^+ 1 )", "def A.m() " + "1;" * 3584 + SUM + "^+ 1 )")
marked("TooMany nodes", "1;" * 65024 + SUM + "+ ^1 )")
marked(MANY, "def A.m() " + "1;" * 3585 + SUM + "+ ^1 )")


def main():
    wrong = 0
    for number, (text, answer) in enumerate(TABLE):
        done = subprocess.run([sys.argv[1], "run"], input=text.encode("latin-1"), stdout=subprocess.PIPE)
        out, status = done.stdout, done.returncode
        if answer == "ok":
            good = status in (0, 6) and not out.startswith(b"text ")
        else:
            good = (out, status) == (answer.encode() + b"\n", 1)
        if not good:
            wrong += 1
            short = text if len(text) < 80 else text[:40] + " ... " + text[-40:]
            print("%d %r: %s is due, %r came with status %d" % (number, short, answer, out[:80], status))
    print("%d texts, %d wrong" % (len(TABLE), wrong))
    return 1 if wrong else 0


if __name__ == "__main__":
    sys.exit(main())
