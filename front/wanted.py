"""Hints for `Expected`: for each thing that is wanted the rules that look at what stands there instead."""
import behind
import foreign
import near
import tokens
from behind import ALWAYS, comma, first, keyword_as_variable, misspelt, symbol

# The words that are no names but may be meant so.
WORDS = tokens.KEYWORDS | set(tokens.TYPE_WORDS)
# Behind these stands a method that is given something.
GIVE = ("def", "type", "type?")


def small(word):
    """A class's name as the name of something else."""
    return word[:1].lower() + word[1:]


def large(word):
    return word.lstrip("_")[:1].upper() + word.lstrip("_")[1:]


def a_class(at):
    return (at.classes() or ["A"])[0]


# -- then and do

def head(at, word):
    """What stands between the condition of an `if` or a `while` and its block."""
    other = {"then": "do", "do": "then"}[word]
    opener = {"then": "if", "do": "while"}[word]
    if at.here.text == other:
        return "Behind `%s` stands `%s` and no `%s`." % (opener, word, other)
    if at.here.text == ":":
        return "There is no `:` here. Instead: `%s`." % word
    if at.here.kind in ("separator", "end"):
        return "The condition ends with its line. `%s` stands behind it, on the same line." % word
    return "`%s` is missing before this." % word if at.begins_expression() else ""


def then(at):
    return head(at, "then")


def do(at):
    return head(at, "do")


# -- closing parentheses

def around(at):
    """What the open parenthesis is of: `def`, `type`, `call`, or `group` for all others."""
    number = at.open_parenthesis()
    if number is None:
        return "group"
    texts = [token.text for token in at.tokens[max(0, number - 5):number]]
    if texts[-1:] == [":"]:
        return "type"
    if len(texts) > 3 and texts[-2] == "." and texts[-4] == "def":
        return "def"
    name = at.tokens[number - 1]
    return "call" if name.kind == "name" and texts[-2:-1] == ["."] else "group"


def in_parameters(at):
    if around(at) != "def":
        return ""
    if at.here.kind in ("type", "class") or at.here.text == ":":
        return "A parameter is a name alone. Its type stands in the `type` of the method."
    if at.here.text == "=":
        return "A parameter has no value of its own: each call gives all arguments."
    if at.here.text == "*":
        return "The parameters are fixed: none takes the rest of the arguments."
    if at.here.kind == "name":
        return "A comma stands between two parameters."
    if at.here.kind == "keyword":
        return "`%s` is a word of the language, and no name of a parameter." % at.here.text
    return "A parameter is a name." if at.here.kind in ("number", "text") else ""


def in_signature(at):
    if around(at) != "type":
        return ""
    if at.here.kind == "name" and at.after().text == ":":
        return "A `type` has the types of the parameters, and not their names."
    if at.here.kind in ("type", "class") and at.before().text != "(":
        return "A comma stands between two types."
    return type_of(at)


def in_arguments(at):
    if around(at) != "call":
        return ""
    if at.here.text in (":", "="):
        return "Arguments have no names: they stand in the order of the parameters."
    if at.here.text == ",":
        return "There is a comma too many."
    if at.begins_expression() and not at.fronts:
        return "A comma stands between two arguments."
    return line_ends(at)


def in_group(at):
    return comma(at) if around(at) == "group" else ""


def line_ends(at):
    if at.open_parenthesis() is None:
        return ""
    if at.here.kind == "keyword" and at.here.text in ("then", "do", "else", "end"):
        return "A `)` is missing before `%s`." % at.here.text
    if at.here.kind in ("separator", "end"):
        return "The line ends with the parenthesis open. It goes on only behind a comma or an operator."
    return ""


# -- expressions

def no_mark(at):
    """A mark of another language that falls into two marks here."""
    if not at.touches:
        return ""
    both = at.before().text + at.here.text
    if both == "<-" and at.after().start != at.here.stop:
        return "There is no `<-`. Instead: `=`."
    told = {"<=": "x <= y", "===": "x === y", "**": "x ** 2", "<<": 'x << "more"', "+=": "x += y", "-=": "x -= y",
            "*=": "x *= y"}.get(both)
    return foreign.hint(told, both) if told else ""


def counted_up(at):
    """`i++` and `i--`."""
    if at.here.text == at.before().text == "-" and at.touches and at.before(2).kind == "name":
        return foreign.hint("i--")
    joined = at.before().text == "++" and at.before(2).kind == "name" and at.before(2).stop == at.before().start
    return foreign.hint("i++") if joined and not at.touches else ""


def signed(at):
    if at.here.text == "-":
        number = at.after().text if at.after().kind == "number" else "n"
        return "There is no sign before a value. Instead: `0 - %s`." % number
    return "There is no sign before a value." if at.here.text in ("+", "++") else ""


def goes_on(at):
    """The line before ends with what wants more."""
    if at.fronts and at.before().kind in ("mark", "keyword") and at.before().text in tokens.GO_ON:
        return "Line %d ends with `%s`, so it goes on here." % (at.before().line, at.before().text)
    return ""


def no_value(at):
    """What is there in the language, and is no value."""
    if at.here.text == "new":
        return "An object is made by `%s.new`." % (at.after().text if at.after().kind == "class" else "A")
    if at.here.kind == "type":
        return "`%s` is a type, and no value." % at.here.text
    if at.here.text in ("print", "type", "type?"):
        return "`%s` stands alone or in parentheses, and not behind `%s`." % (at.here.text, at.before().text)
    if at.here.text in (")", ",") and at.before().text == ",":
        return "There is a comma too many."
    if at.here.text == "=" == at.before().text:
        return "There is no `= =`. Instead: `==`, in one piece."
    if at.here.text == ")" and at.before(3).text == "script":
        return "A script has no parameters. Instead: `script %s` alone." % at.before(2).text
    if at.here.text == ")" and at.before().text == "(":
        return "These parentheses have nothing in them."
    if at.here.text == "." and at.after().kind == "number":
        return foreign.hint("1.5")
    if at.here.text == ":":
        return symbol(at)
    if at.here.text in ("then", "do"):
        return "The condition is missing."
    if at.before().text in ("if", "while") and at.here.kind == "separator":
        return "The condition stands on the line of its `%s`." % at.before().text
    return ""


# -- names

def named(at):
    """A name that is none, wherever one is due."""
    if goes_on(at):
        return goes_on(at)
    if at.before().text == "." and at.here.kind == "number" and at.before(2).kind == "number":
        return foreign.hint("1.5")
    if at.before().text == "." == at.here.text:
        return foreign.hint("1..9", "..")
    if at.here.text == "(" and at.before().text == ".":
        return "A call names its method: only `def` and `type` compute names."
    if at.before().text == "." and at.here.text in ("nil", "class") and at.before(3).text not in GIVE:
        return foreign.hint("." + at.here.text)
    if at.here.text == "new":
        return "`new` makes an object of a class, as `A.new`, and is no name of a method."
    if at.here.kind == "class":
        return "A name begins with a small letter. Instead: `%s`." % small(at.here.text)
    if at.here.text in WORDS:
        return "`%s` is a word of the language, and no name." % at.here.text
    if at.before().text == "script":
        return "A script has a name. Instead: `script main`."
    if at.here.text in (")", ",") and at.before().text == ",":
        return "There is a comma too many."
    if at.before().text == "." and at.before(3).text in GIVE and at.here.kind == "mark":
        return "Operators are those of the language: no class can give its own."
    return ""


def class_named(at):
    if at.before().text == "class":
        return named_class(at)
    if at.here.kind == "type":
        return "`%s` is one of the five type words, and has no methods." % at.here.text
    if at.here.text == "self":
        return "A `def` names the class of the objects that get the method. Instead: `%s`." % a_class(at)
    if at.here.kind == "name" and at.after().text == ".":
        found = near.nearest(at.here.text, at.classes())
        return "A class's name begins with a capital letter. Instead: `%s`." % (found or [large(at.here.text)])[0]
    if at.here.kind == "name":
        return "A method belongs to a class. Instead: `%s.%s`." % (at.home() or a_class(at), at.here.text)
    return "`%s` is a word of the language, and no name of a method." % at.here.text if at.here.text in WORDS else ""


def named_class(at):
    if at.here.kind == "type":
        return "`%s` is one of the five type words, and cannot be a class." % at.here.text
    if at.here.kind == "name":
        return "A class's name begins with a capital letter. Instead: `%s`." % large(at.here.text)
    if at.here.text in WORDS:
        return "`%s` is a word of the language, and no name." % at.here.text
    return ""


# -- types

def type_of(at):
    """A type that is written in another way."""
    if at.here.text == "nil":
        return foreign.sentence("There is no type `nil`", "`Nil`")
    if at.here.text in (")", ",") and at.before().text == ",":
        return "There is a comma too many."
    if at.here.kind != "name" and at.here.text != "str":
        return "A type stands without parentheses." if at.here.text == "(" else ""
    known = list(tokens.TYPE_WORDS) + at.classes()
    exact = [name for name in known if name.lower() == at.here.text.lower()]
    if exact:
        return foreign.sentence("There is no type `%s`" % at.here.text, "`%s`" % exact[0])
    return foreign.hint(at.here.text) or near.question(at.here.text, known) or "A type begins with a capital letter."


# -- the marks of a method

def open_parenthesis(at):
    if at.before().text == "str":
        return "`str` has its value in parentheses. Instead: `str(x)`."
    if at.before().text == ":":
        return "There is no `::` here. Instead: `:`." if at.here.text == ":" else \
            "The types of the parameters stand in parentheses, also none: `() -> Int`."
    if at.here.text == "=":
        return "Only a variable can be assigned: objects have no fields."
    told = "The parameters stand in parentheses, also none."
    if at.before().kind != "name":
        return told
    parameter = at.here.text if at.here.kind == "name" else ""
    return "%s Instead: `%s.%s(%s)`." % (told, at.before(3).text, at.before().text, parameter)


def dot(at):
    owner, word = at.before().text, at.before(2).text
    if word in GIVE:
        return "A `%s` names a class and a method. Instead: `%s.m`." % (word, owner)
    if at.here.text == "=":
        return variable_of(owner)
    if at.here.text == ":":
        return foreign.hint("A::B", "::")
    return "`%s` is a class, and no value. Instead: `%s.new`." % (owner, owner)


def variable_of(word):
    return "The name of a variable begins with a small letter. Instead: `%s = ..`." % small(word)


def a_colon(at):
    if at.here.text not in ("(", "=", "->"):
        return ""
    method = "%s.%s" % (at.before(3).text, at.before().text) if at.before().kind == "name" else "A.m"
    return "A colon stands between a method and its types: `type %s : () -> Int`." % method


def an_arrow(at):
    if at.here.text == ":":
        return "There is no `:` here. Instead: `->`."
    return "The type of the result is missing. Instead: `-> Nil` where nothing of use is given." \
        if at.here.kind in ("separator", "end") else ""


def new(at):
    owner = at.before(2).text
    if at.here.text.lower() == "new" or near.nearest(at.here.text, ["new"]):
        return "Is it `new`?"
    if at.here.kind == "name":
        return "A method is called of an object. Instead: `%s.new.%s`." % (owner, at.here.text)
    return "A class stands in no other one." if at.here.kind == "class" else ""


# -- outside of scripts

def outside(at):
    if at.here.kind == "class" and at.here.text.lower() in tokens.KEYWORDS:
        return "Keywords are written small. Instead: `%s`." % at.here.text.lower()
    if at.before().kind == "class" and at.before(2).text == "class":
        found = in_class(at)
        if found:
            return found
    if has_script(at):
        return behind_script(at)
    return foreign.hint(at.here.text) if at.here.text in ("module", "require", "require_relative", "import", "from",
                                                          "using", "package", "namespace", "use", "struct") else ""


def has_script(at):
    return any(token.text in ("script", "setup") for token in at.tokens[:at.number])


def in_class(at):
    """What stands behind the name of a class as if it were in it."""
    owner = at.before().text
    if at.here.text == "<":
        return "Classes have no parents."
    if at.here.text == "end":
        return "A `class` is its name alone, and has no `end`."
    if at.here.text in ("def", "type"):
        return "A `class` is its name alone. Its methods stand in the script, as `%s %s.m`." % (at.here.text, owner)
    return "A `class` is its name alone." if at.here.text in ("(", ":", "then", "do") else ""


def behind_script(at):
    if at.here.text == "class":
        return "Classes stand before the setup and the scripts."
    if at.here.text == "setup":
        return "The setup stands before the scripts."
    if at.here.text == "end":
        return "This `end` is one too many: nothing is open here."
    return ""


def before_script(at):
    if has_script(at):
        return "What runs stands inside of the script, before its `end`."
    return "What runs stands in a script: `script main` before it, and `end` behind it."


RULES = {
    "end": behind.AT_END,
    "then": ALWAYS + (misspelt, then),
    "do": ALWAYS + (misspelt, do),
    ")": (in_parameters, in_signature) + ALWAYS[:-1] + (in_arguments, in_group, misspelt, line_ends),
    "expression": (keyword_as_variable, no_mark, counted_up, signed, goes_on, no_value),
    "name": (named,),
    "type": (type_of, goes_on),
    "classname": (keyword_as_variable, class_named),
    "(": (keyword_as_variable, open_parenthesis),
    ".": (dot,),
    ":": (a_colon,),
    "->": (an_arrow,),
    "new": (new,),
    "item": (keyword_as_variable, outside, misspelt, before_script),
}


def hint(at, wanted):
    """What to write where something is wanted, or nothing."""
    return first(RULES.get(wanted, ()), at) if at.here else ""
