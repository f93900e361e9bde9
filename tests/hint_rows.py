"""The rows of tests/hints.py: wrong texts with what is to be said of them, and right ones with nothing to say."""

WRONG, RIGHT, IN_FULL = [], [], []


def script(text):
    """A program whose script has these lines, from line 3 on."""
    return "class A\nscript main\n%s\nend\n" % text


def wrong(text, *words, places=()):
    """A text, parts of the hints that are due, and the places that are due beside that of the fault."""
    WRONG.append((text if isinstance(text, bytes) else text.encode(), list(places), list(words)))


def in_script(text, *words, places=()):
    wrong(script(text), *words, places=places)


def right(text, *places):
    """A text that gets no hint, and the places that are shown all the same."""
    RIGHT.append((text.encode(), list(places)))


class Scaffold:
    """A program around a piece of code of the papers' tables."""

    # Pieces that are no whole expression.
    alone = ("end", "->", '"', "-", "\\t", "+", "==")

    @staticmethod
    def around(code):
        if code in ("Nil", "Bool", "Int", "Str", "Any"):
            return script("type A.t : (%s) -> %s" % (code, code))
        if code.startswith("class "):
            return "%s\nscript main\nend\n" % code
        if code == "self":
            return script("def A.me() self end")
        if code.startswith("else"):
            code = "if a then x %s end" % code
        value = "A.new" if "x.m" in code else "1"
        given = "type A.m : (Int) -> Int; def A.m(x) x end"
        return script("%s; x = %s; y = 2; a = 1; b = 2; c = true; i = 0; n = 7; m = 3\n%s" % (given, value, code))


SCAFFOLD = Scaffold()

# Words of other languages.
in_script('puts "hi"', "no `puts`", "`print x`")
in_script("puts(1)", "no `puts`", "`print x`")
in_script("p 1", "no `p`", "`print x`")
in_script("puts", "no `puts`", "`print x`")
in_script("type A.f : (Int) -> Int\ndef A.f(n)\n  return n + 1\nend", "no `return`", "last expression")
in_script("return", "no `return`", "last expression")
in_script("x = 1\nif x == 1 then 1 elsif x == 2 then 2 end", "no `elsif`", "`else if ")
in_script("if true then\n  1\nelsif false\n  2\nend", "no `elsif`", "`end` of its own")
in_script("if true then 1 elif false then 2 end", "no `elif`", "`else if ")
in_script("unless true\nend", "no `unless`", "`if not c then x end`")
in_script("x = 1\nprint x unless x == 1", "no `unless`", "`if not c then x end`")
in_script("until true do end", "no `until`", "`while not c do x end`")
in_script("for i in 3 do end", "no `for`", "`while i < 3 do print i; i = i + 1 end`")
in_script("loop do\nend", "no `loop`", "`while ")
in_script("3.times do\nend", "no `times`", "`while ")
in_script("x = 1\nx.each do |y|\nend", "no `each`", "`while ")
in_script("case 1\nwhen 1 then 2\nend", "no `case`", "`if x == 1 then ")
in_script("while true do break end", "no `break`", "its condition fails")
in_script('raise "x"', "no `raise`", "nothing catches it")
in_script("print 1 and 2", "no `and`", "`if a then b else false end`")
in_script("if true or false then 1 end", "no `or`", "`if a then true else b end`")
in_script("let x = 1", "no `let`", "`x = 1`")
in_script("function f(x) x end", "no `function`", "`def A.m(x) x end`")
in_script("x = null", "no `null`", "`nil`")
in_script("this.f", "no `this`", "`self`")
in_script("print None", "no `None`", "`nil`")
in_script("print True", "no `True`", "`true`")
in_script("attr_accessor :x", "no `attr_accessor`", "no fields")
in_script("yield", "no `yield`", "no blocks")
wrong('require "set"\nscript main\nend\n', "no `require`", "one text")
wrong("module M\nend\n", "no `module`", "no parents")
in_script("x = 3\nprint x.to_s", "no `to_s`", "`str(x)`")
in_script('print "abc".length', "no `length`", "no methods")
in_script('type A.f : (Str) -> Int\ndef A.f(s) s.size end\nprint A.new.f("a")', "no `size`", "no methods")

# Marks of other languages.
in_script("print 1 > 2", "no `>`", "`b < a` for `a > b`")
in_script("print 1 >= 2", "no `>=`", "`not (a < b)`")
in_script("print 1 <= 2", "no `<=`", "`not (y < x)`")
in_script("print 1 != 2", "no `!=`", "`not (a == b)`")
in_script("print 1!=2", "no `!=`", "`not (a == b)`")
in_script("print !true", "no `!`", "`not a`")
in_script("!true", "no `!`", "`not a`")
in_script("print 1 && 2", "no `&&`", "`if a then b else false end`")
in_script("print 1 || 2", "no `||`", "`if a then true else b end`")
in_script("print 7 / 2", "no `/`", "loop that subtracts")
in_script("print 7 % 2", "no `%`", "`while not (n < m) do n = n - m end`")
in_script("print 'a'", "no `'`", "double quotes")
in_script("x = [1, 2]", "no `[`", "no lists")
in_script("@x = 1", "no `@`", "no fields")
in_script("$x = 1", "no `$`", "argument")
in_script("x = {}", "no `{`", "no hashes")
in_script("x = 1\nprint x ? 1 : 2", "no `?`", "`if c then a else b end`")
in_script("x = 1\nprint x.nil?", "no `nil?`", "`x == nil`")
in_script("def A.empty?() true end", "no `empty?`", "letters, digits and `_` alone")
in_script("type A.f : () -> Int?", "no `Int?`", "nil fits every type")
in_script("type A.f : () -> Int | Nil", "no `Int |`", "nil fits every type")
in_script("type A.f : () => Int", "no `=>`", "`->`")
in_script("x = 1\nx += 1", "no `+=`", "`x = x + y`")
in_script("i = 1\ni++\nprint i", "no `i++`", "`i = i + 1`")
in_script("x = 2 ** 3", "no `**`", "`x * x`")
in_script("x := 1", "no `:=`", "`=`")
in_script("print :name", "no `:name`", '`"name"`')
in_script("x = 1.5", "no `1.5`", "whole")
in_script("x = 1..3", "no `..`", "`while ")
in_script("// what it does", "no `//`", "`#` before a comment")
in_script("-- what it does", "no `--`", "`#` before a comment")
in_script("x, y = 1, 2", "no `x, y = ..`", "`x = 1; y = 2`")
in_script("x = A::B", "no `::`", "no constants")

# Bytes.
wrong(b"\xef\xbb\xbfscript main\nend\n", "byte order mark", "UTF-8 without")
wrong("script main\nend\n".encode("utf-16"), "byte order mark")
in_script('print "a\tb"', "a tab in a text", "`\\t`")
wrong(b'script main\r\nprint "a\r\nend\r\n', "a carriage return in a text", "end of its line")
in_script('print "caf\u00e9"', "The byte C3 begins the letter `\u00e9`", "ASCII")
in_script("gr\u00f6\u00dfe = 1", "The byte C3 begins the letter `\u00f6`", "ASCII")
wrong(script('print "caf\u00e9"').encode("latin-1"), "The byte E9", "`\u00e9` in Latin-1")
in_script("print \u201chi\u201d", "The byte E2", "left double quotation mark", '`"`')
in_script("print 1 \u2013 2", "en dash", "`-`")
in_script("print\u00a01", "no-break space", "blank")
in_script("print 1 \u2264 2", "less-than or equal to", "`not (y < x)`")
in_script('print "C:\\dir"', "written twice", "`\\\\d`")
in_script('print "it\\\'s"', "`'` needs no backslash")

# Calls, classes and names.
in_script("foo(1)", "A call names its object", "`A.new.foo(..)`")
in_script("type A.f : (Int) -> Int\ndef A.f(n) if n < 2 then 1 else n * f(n - 1) end end", "`self.f(..)`")
in_script("type A.f : () -> Int\ndef A.f() 1 end\nprint f", "A call names its object", "`A.new.f`")
in_script("A.new(3)", "`A.new` takes no arguments", "no fields")
in_script("print A.new()", "`A.new` takes no arguments")
in_script("x = new A", "`A.new`")
in_script("x = A", "`A` is a class, and no value", "`A.new`")
in_script("print A.hi", "called of an object", "`A.new.hi`")
in_script("A.new.x = 3", "Only a variable can be assigned", "no fields")
in_script("A.new.add 1", "in parentheses", "`.add(1)`")
in_script("Count = 3", "begins with a small letter", "`count = ..`")
in_script("A = 3", "begins with a small letter", "`a = ..`")
in_script("str = 3", "`str` is a word of the language")
in_script("end = 3", "`end` is a word of the language", places=["3:1 one end too many"])
in_script("def print(x) x end", "`print` is a word of the language")
in_script("x = A.nwe", "Is it `new`?")
wrong("class Int\nscript main\nend\n", "`Int` is one of the five type words")
wrong("class shop\nscript main\nend\n", "begins with a capital letter", "`Shop`")
in_script("type A.print : () -> Int", "`print` is a word of the language")
in_script("def A.class() 1 end", "`class` is a word of the language")
in_script("def hi(x) x end", "A method belongs to a class", "`A.hi`")
in_script("def self.hi() 1 end", "names the class", "`A`")
in_script("def a.hi() 1 end", "begins with a capital letter", "`A`")
wrong("class Account\nscript main\nprint Acount.new\nend\n", "Is it `Account`?")
wrong("script main\nprint Shop.new\nend\n", "`class Shop` before the script")
in_script("type A.f : (Integer) -> Int", "no `Integer`", "`Int`")
in_script("type A.f : () -> String", "no `String`", "`Str`")
in_script("type A.f : () -> Strr", "Is it `Str`?")
in_script("type A.f : (int) -> Int", "no type `int`", "`Int`")
in_script("type A.f : () -> str", "no type `str`", "`Str`")
in_script("type A.f : () -> void", "no `void`", "`Nil`")
in_script("count = 1\nprint coutn", "Is it `count`?")
in_script("type A.f : (Int) -> Int\ndef A.f(count) cuont + 1 end\nprint A.new.f(1)", "Is it `count`?")
in_script("pirnt 1", "Is it `print`?")
in_script("whlie true do end", "Is it `while`?")
in_script("Print 1", "written small", "`print`")
in_script("print x\nx = 1", places=["4:3 has not run yet"])
in_script("x = 3\ntype A.f : () -> Int\ndef A.f() x end\nprint A.new.f", "does not see the variables of the script",
          places=["3:3 a variable of the script"])
# Of several scripts each has its own variables, and what another one did is not read off the text.
wrong("script one\nx = 1\nend\nscript two\nprint x\nend\n", "variables of their own", places=["2:3 a variable of another script"])
wrong("setup\nx = 1\nend\nscript two\nprint x\nend\n", "variables of their own", places=["2:3 a variable of the setup"])
wrong("class A\nscript one\nA.new.f\nend\nscript two\ndef A.f() 1 end\nend\n", "line 6 stands in another script",
      places=["6:1 has not run yet"])
wrong("class A\nsetup\nA.new.f\nend\nscript two\ndef A.f() 1 end\nend\n", "in a script, and the setup runs before",
      places=["6:1 has not run yet"])
TWO_TYPES = "class A\n%s\ntype A.f : (Int) -> Int\ndef A.f(x) x end\nend\nscript two\ntype A.f : (Str) -> Str\nprint A.new.f(1)\nend\n"
wrong(TWO_TYPES % "script one")
wrong(TWO_TYPES % "setup", "The first argument is an Int, and a Str is due", places=["7:12 the type of f"])
wrong("class A\nsetup\ntype A.f : (Int) -> Int\ndef A.f(n) if n == 2 then nil else 1 end + 1 end\nend\nscript one\nA.new.f(1)\n"
      "A.new.f(2)\nend\nscript two\nA.new.f(1)\nA.new.f(1)\nA.new.f(2)\nend\n", places=["8:7 led there", "13:7 led there"])
wrong("class A\nscript main\nend\nclass A\n", "Classes stand before")
wrong("class A\nclass B\nclass A\n", places=["1:7 the first one"])
in_script("def A.f(a, b, a) 1 end", places=["3:9 the first one"])

# Where lines and expressions end.
in_script("x = 1 y = 2", "need a `;` between")
in_script("print 1 print 2", "need a `;` between")
in_script("print 1 < 2 < 3", "A comparison has two sides", "`if a < b then b < c else false end`")
in_script("print 1 == 2 == 3", "A comparison has two sides")
in_script("x = 1\n  + 2", "A line's end separates", "`+` at the end of line 3")
in_script("A.new\n  .f", "A line's end separates", "`.` at the end of line 3")
in_script("x = 1\n-2", "A line's end separates", "`0 - 2`")
in_script("print -1", "no sign before a value", "`0 - 1`")
in_script("x = 1 +", "Line 3 ends with `+`")
in_script('print "a", "b"', "`print` takes one value", "`print a ++ b`")
in_script('print "a" "b"', "joined by `++`")
in_script('x = 1\nprint "x is " x', "joined by `++`", "`str(x)`")
in_script('x = "a" y = "b"', "need a `;` between")
in_script('print "say "no""', 'written `\\"`')
in_script("x = 1\nprint 2 if x", "`if` stands before", "`if c then x end`")
in_script("x = 1\nif x == 1\n  print 1\nend", "`then` stands behind it")
in_script("x = 1\nwhile x < 3\n  print 1\nend", "`do` stands behind it")
in_script("x = 1\nif x do 1 end", "Behind `if` stands `then`")
in_script("x = 1\nwhile x then 1 end", "Behind `while` stands `do`")
in_script("if (1 < 2 then 1 end", "A `)` is missing before `then`")
in_script("x = (1 +\n  2\nprint x", "parenthesis open", places=["3:5 opens here"])
in_script("x = (1 + 2\nprint x", "parenthesis open")
in_script("x = 1 + 2)", "No parenthesis is open")
in_script("A.new.f(1 2)", "A comma stands between two arguments")
in_script("A.new.f(x: 1)", "Arguments have no names")
in_script("def A.f(x: Int) 1 end", "A parameter is a name alone")
in_script("def A.f(x = 1) x end", "no value of its own")
in_script("def A.f(x) -> Int x end", "They stand in a `type`")
in_script("def A.f\n  1\nend", "parentheses, also none", "`A.f()`")
in_script("def A.f x\n  x\nend", "parentheses, also none", "`A.f(x)`")
in_script('def A.("f")\n  1\nend', "parentheses, also none")
in_script("type A.f : Int -> Int", "in parentheses, also none")
in_script("type A.f () -> Int", "A colon stands between")
in_script("type A.f : (x : Int) -> Int", "not their names")
in_script("x = 0xff", "digits alone")
wrong('print "hi"\n', "stands in a script", "`script main`")
wrong("class A\n  def hi(x)\n    x\n  end\nend\n", "name alone", "`def A.m`")
wrong("class A\nend\nscript main\nend\n", "has no `end`")
wrong("class A < B\nscript main\nend\n", "no parents")
wrong("script Main\nend\n", "small letter", "`main`")
wrong("script main\nprint 1\nend\nprint 2\n", "inside of the script", places=["3:1 the script ends here"])

# Which `end`.
in_script("def A.f(x)\n  if x then\n    1\n  else\n    2\nend\nprint 1", places=["4:3 has no end"])
in_script("def A.f(x)\n  while x do\n    x = nil\n  x\nend\nprint 1", places=["4:3 has no end"])
in_script("def A.f(x)\n  if x then\n    1\n  end\nprint 1", places=["3:1 has no end"])
in_script("def A.f(x) if x then 1 else 2 end\nprint 1", places=["3:1 has no end"])
in_script("if true then print 1\nprint 2", places=["3:1 has no end"])
in_script("x = if true then 1 else 2", places=["3:5 has no end"])
in_script("if true then\n  1\nelse if false then\n  2\nelse\n  3\nend", "`end` of its own", places=["5:6 has no end"])
in_script("def A.f(x)\n  if x then\n    1\nprint 1", places=["3:1 has no end", "4:3 has no end"])
wrong("script main\nif true then\n  print 1\nend\nprint 2\n", places=["1:1 has no end"])
wrong("script a\nprint 1\nscript b\nprint 2\nend\n", places=["1:1 has no end"])
in_script("def A.f(x)\n  if x then\n    1\n  end\n  end\nend\nprint 1", places=["7:3 one end too many"])
in_script("if true then print 1 end end\nprint 2", places=["3:26 one end too many"])
wrong(script("print 1") + "end\n", "one too many", places=["4:1 the script ends here"])
in_script("if true then 1 end\nelse\n  2\nend", "waits for an `else`")

# Types, and what led to a stop.
in_script("type A.f : (Int, Int) -> Int\ndef A.f(a, b) a + b end\nprint A.new.f(1)", "takes 2 arguments, and here is 1",
          places=["3:12 the type of f"])
in_script("type A.f : (Int) -> Int\ndef A.f(a) a end\ntype A.f : (Str) -> Int\nprint A.new.f(1)",
          "first argument is an Int, and a Str is due", places=["5:12 the type of f"])
in_script("type A.f : (Int, Str) -> Int\ndef A.f(a, b) a end\nx = A.new\nprint x.f(1, true)",
          "second argument is a Bool, and a Str is due", places=["3:12 the type of f"])
in_script('type A.g : (Int) -> Int\ndef A.g(n) n end\ntype A.f : () -> Int\ndef A.f() self.g("x") end\nprint A.new.f',
          "first argument is a Str, and an Int is due", places=["3:12 the type of g"])
in_script("type A.f : (Int) -> Str\ndef A.f(n) n end\nprint A.new.f(1)", "gives an Int, and a Str is due",
          places=["3:21 the type of f"])
in_script("type A.f : (Int) -> Int\ndef A.f()\n  1\nend\nprint A.new.f(1)", "has 0 parameters, and the `type` has 1",
          places=["3:12 the type of f", "4:1 its def"])
in_script("def A.f() 1 end\nprint A.new.f\ntype A.f : () -> Int", "line 5 stands behind the call",
          places=["5:1 has not run yet"])
in_script("def A.f(n) n end\nprint A.new.f(1)", "no `type` of `f`", "`type A.f : (Any) -> Any`")
in_script("type A.g : () -> Int\ndef A.g() 1 end\ntype A.f : () -> Int\n"
          "def A.f() type A.g : () -> Str; self.g end\nA.new.f", places=["3:12 the type of g", "7:7 led there"])
in_script("type A.total : () -> Int\ndef A.total() 1 end\nprint A.new.totl", "no `def` of `totl`", "Is it `total`?",
          places=["4:7 total"])
wrong("class A\nclass B\nscript main\ntype A.f : () -> Int\ndef A.f() 1 end\nprint B.new.f\nend\n", "of the class B",
      places=["5:5 this one is of A"])
in_script("type A.f : () -> Int\nprint A.new.f\ndef A.f() 1 end", "line 5 stands behind the call",
          places=["5:1 has not run yet"])
in_script('print "a" + 1', "left side of `+` is a Str", "joined by `++`")
in_script('print "a" ++ 1', "right side of `++` is an Int", "`str(1)`")
in_script("print not 1 < 2", "`not (.. < ..)`")
in_script('type A.g : () -> Str\ndef A.g() "a" end\ntype A.f : () -> Int\ndef A.f() 1 + self.g end\nprint A.new.f',
          "right side of `+` is a Str", places=["3:18 the type of g"])
in_script("type A.f : (Any) -> Int\ndef A.f(x) x + 1 end\nprint A.new.f(1)", "known only as Any")
in_script("print (print 1) + 1", "A `print` gives nil")
in_script("type A.f : () -> Int\ndef A.f()\n  while false do end\nend\nprint A.new.f + 1", "that of a `while` is nil",
          places=["4:1 gives nil"])
in_script("i = 0\nwhile i < 3 do print i end", "Nothing in the loop changes `i`", places=["4:1 this loop"])
in_script('type A.f : () -> Any\ndef A.f() n = 0; while n == 0 do n = "a" end; n end\nA.new.f',
          "Before the loop `n` is an Int, and here it gets a Str", places=["4:36 another type"])
in_script("type A.f : () -> Int\ndef A.f() n = 0; while n < 2 do 1 end end\nA.new.f", "Nothing in the loop changes `n`",
          places=["4:18 this loop", "5:7 led there"])
in_script("type A.f : (Int) -> Int\ndef A.f(n) 6 - n * nil end\nprint A.new.f(1)\nprint A.new.f(2)",
          places=["5:13 led there"])
in_script("type A.f : (Int) -> Int\ndef A.f(n) if n == 2 then nil else 1 end + 1 end\n"
          "print A.new.f(1)\nprint A.new.f(2)", places=["6:13 led there"])
in_script("print self", "no object of its own", "`A.new`")
in_script('name = "bob"\nprint "hi #{name}"', "no `#{name}`", "++ str(x)", places=["4:11 stands for itself"])

# Nothing is said of these, though they go wrong: no hint is right, or it cannot be known.
for number in ("9223372036854775807 + 1", "0 - 9223372036854775807 - 2"):
    right(script("print %s" % number))
right(script('type A.("9x") : () -> Int'))
right(script('i = 0\nwhile i < 1024 do def A.("m" ++ str(i))() 0 end; i = i + 1 end\ndef A.n() 1 end'))
right(script('x = "0123456789abcdef"\nwhile true do x = x ++ x end'))
right(script("type A.f : () -> Int\ndef A.f() self.f end\nA.new.f"), "5:7 led there")
right(script("type A.f : (A) -> Int\ndef A.f(x) x.g end\ntype A.g : () -> Int\nA.new.f(nil)"), "6:7 led there")
# The name is computed, so the type of f may be any of two.
right(script('type A.f : (Int) -> Int\ntype A.("f" ++ "") : (Str) -> Int\ndef A.f(x) 1 end\nA.new.f(1)'))
# Which type stands hangs on a condition, and the call on which led there is not told.
right(script("type A.f : (Int) -> Int\nif 1 < 2 then type A.f : (Str) -> Int end\ndef A.f(x) 1 end\nA.new.f(1)"))
# Nothing stands further right than anything else, so each opener may be meant.
right("script main\nif true then\nprint 1\nprint 2\nend\n")
# And these run.
right("")
right(script("# puts 1 > 2 && 'a'\nprint \"puts 1 > 2 && 'a' # {x}\""))
right(script("puts = 1\nreturn_ = puts\nprint puts\np = 2\nprint p"))
right(script("type A.puts : (Int) -> Int\ndef A.puts(x) x end\nprint A.new.puts(1)"))
right(script("x = 1 +\n  2\nprint x *\n  3"))
right(script("if true then print 1 else if false then print 2 else print 3 end end"))
right(script("print 0 - 1; print not (1 < 2)"))

IN_FULL += [(script("puts 1").encode(), """\
text Expected end -:3:6
  3 | puts 1
    |      ^
  Expected end: An end is missing, or something stands here that cannot go on.
  hint: There is no `puts`. Instead: `print x`.
  (hb explain Expected end)
"""), (script("def A.f(x)\n  if x then\n    1\nend").encode(), """\
text Expected end -:8:1
  8 |
    | ^
  4 |   if x then
    |   ^ has no end
  Expected end: An end is missing, or something stands here that cannot go on.
  (hb explain Expected end)
"""), (script("type A.f : (Int) -> Int\ndef A.f(n) n + nil end\nprint A.new.f(1)").encode(), """\
script main
stop NilValue -:4:14
  4 | def A.f(n) n + nil end
    |              ^
  5 | print A.new.f(1)
    |             ^ led there
  NilValue: An operator or a call got nil where it needs a value.
  (hb explain NilValue)
calls 1 own 0 shared 0 fresh 1
"""), (script('x = 1\nprint "#{x}"').encode(), """\
script main
> #{x}
done
calls 0 own 0 shared 0 fresh 0
  4 | print "#{x}"
    |        ^ stands for itself
  hint: There is no `#{x}`. Instead: `"x is " ++ str(x)`.
""")]

# Of the questions of docs/LANGUAGE.md: an example, what stands there, what is written instead, a line that comes, and
# the option of the run.
ANSWERS = [
    ("types.hb", "print box.is_small(21)", 'print box.is_small("21")', "stop BadArgs 20:11"),
    ("nil.hb", 'if name then "called " ++ name else "not called" end', '"called " ++ name', "> called tom"),
    ("nil.hb", 'if name then "called " ++ name else "not called" end', '"called " ++ name', "stop NilValue 8:32"),
    ("recursion.hb", "fact(20)", "fact(21)", "stop Overflow 8:41"),
    ("rechecked.hb", "type Shop.price : () -> Str\n", "", "stop IllTyped 11:16 Result 10:25"),
    ("makes.hb", "(polite)\n", "(polite)\n  def Parrot.learn(polite) nil end\n", "> squawk"),
    ("makes.hb", "(polite)\n", "(polite)\n  type Parrot.learn : (Bool) -> Bool\n", "stop Busy 7:3"),
    ("turns.hb", "", "", "stop NoBody 10:13", "--order=1111"),
    ("in_use.hb", "", "", "> true", "--order=1122"),
    ("in_use.hb", "", "", "stop IllTyped 11:13 Result 8:18", "--order=1122"),
]
