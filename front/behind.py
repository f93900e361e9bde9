"""Hints where an expression is complete and what comes next does not go on: a table of rules, the first that fits."""
import foreign
import near
import spot
import tokens

KEYWORDS = sorted(word for word in tokens.KEYWORDS if len(word) > 2)
OPERATORS = ("<", "==", "+", "-", "*", "++", ".")


def foreign_word(at):
    """A word of another language stands here, or right before."""
    for token, other in ((at.here, at.before()), (at.before(), at.before(2))):
        if token.line == at.here.line and at.is_word(token):
            found = foreign.hint("." * (other.text == ".") + token.text)
            if found:
                return found
    return ""


def modifier(at):
    """`x if c`, as Ruby has it."""
    heads = [token.text for token in at.tokens[at.number:] if token.line == at.here.line]
    if at.here.text in ("if", "while") and not at.fronts and not {"then", "do"} & set(heads):
        return "`%s` stands before what it decides. Instead: `%s`." % (
            at.here.text, {"if": "if c then x end", "while": "while c do x end"}[at.here.text])
    return ""


def arguments_of_new(at):
    if at.here.text == "(" and at.before().text == "new":
        return "`%s.new` takes no arguments and has no parentheses: objects have no fields." % at.before(3).text
    return ""


def without_receiver(at):
    """A call that names no object."""
    if at.here.text != "(" or at.before().kind != "name" or at.before(2).text == ".":
        return ""
    return call_of(at, at.before().text, "..")


def call_of(at, name, arguments):
    owner = at.owner_of(name)
    if at.home() and owner in (None, at.home()):
        return "A call names its object. Instead: `self.%s(%s)`." % (name, arguments)
    owner = owner or (at.classes() or ["A"])[0]
    return "A call names its object. Instead: `%s.new.%s(%s)`." % (owner, name, arguments)


def without_parenthesis(at):
    """Arguments that stand behind a method's name alone."""
    if not at.begins_expression() or at.fronts or at.before().kind != "name":
        return ""
    if at.before(2).text == ".":
        return "Arguments stand in parentheses. Instead: `.%s(%s)`." % (at.before().text, at.here.text)
    return call_of(at, at.before().text, at.here.text) if at.is_word(at.before()) else ""


def without_dot(at):
    if at.before().text == "new" and at.here.kind == "name" and at.is_method(at.here):
        return "A call has a dot before the method's name. Instead: `%s.new.%s`." % (at.before(3).text, at.here.text)
    return ""


def glued(at):
    """A number that goes on with letters."""
    if at.before().kind == "number" and at.here.kind in ("name", "class") and at.touches:
        return "A number has digits alone, and a name begins with a letter or `_`."
    return ""


def texts(at):
    """A text beside another value, or with a quote in it."""
    kinds, values = (at.before().kind, at.here.kind), ("text", "number", "name")
    if "text" not in kinds or at.fronts:
        return ""
    if at.touches and kinds[0] == "text" and at.here.text != "(" and at.begins_expression():
        return "A quote inside of a text is written `\\\"`."
    if kinds == ("text", "text"):
        return "Texts are joined by `++`."
    if set(kinds) <= set(values) and at.after().text != "=" and not at.is_word(at.before()):
        return "Texts are joined by `++`, and `str(x)` makes a text of a value."
    return ""


def comparison(at):
    told = {"<": "`if a < b then b < c else false end`",
            "==": "`(a == b) == c`, or `if a == b then b == c else false end`"}.get(at.here.text)
    return "A comparison has two sides. Instead: %s." % told if told and not at.fronts else ""


def operator_in_front(at):
    """A line that begins with an operator."""
    if at.here.kind != "mark" or at.here.text not in OPERATORS or not at.fronts:
        return ""
    if at.here.text == "-" and at.after().text == "-" and at.after().start == at.here.stop:
        return "There is no `--`. Instead: `#` before a comment."
    if at.before().text in spot.BLOCK_BEGINS or at.before(2).text == "script":
        return "`%s` has nothing on its left." % at.here.text
    told = "A line's end separates. Instead: `%s` at the end of line %d." % (at.here.text, at.before().line)
    negative = at.here.text == "-" and at.after().kind == "number" and at.after().start == at.here.stop
    return told + " A number below 0 is `0 - %s`." % at.after().text if negative else told


def closes_head(at):
    """Whether the token before is the parenthesis behind the parameters of a `def`."""
    if at.before().text != ")":
        return False
    depth = 0
    for number in range(at.number - 1, 3, -1):
        token = at.tokens[number]
        depth += (token.text == ")") - (token.text == "(")
        if depth == 0 and token.text == "(":
            return at.tokens[number - 4].text == "def"
    return False


def types_apart(at):
    return "A `def` has no types. They stand in a `type`, as `type %s.m : (Int) -> Int`." % (at.classes() or ["A"])[0]


def keyword_as_variable(at):
    """A word of the language that is assigned to."""
    for token, other in ((at.before(), at.here), (at.here, at.after())):
        if token.kind == "keyword" and other.text == "=" and token.text not in ("nil", "true", "false", "self"):
            return "`%s` is a word of the language, and no name of a variable." % token.text
    return ""


def script_begins(at):
    """A word or mark behind the name of a script."""
    if at.before(2).text == "script" and not at.fronts and at.here.text in ("do", "then", ":", "=", ","):
        return "What a script does begins behind its name, without a word or a mark between."
    return ""


def assigned(at):
    """An `=` behind what is no variable, or not at the front."""
    if at.here.text != "=":
        return ""
    if at.fronts and at.after().text in ("begin", "end"):
        return foreign.hint("=begin", "=" + at.after().text)
    if closes_head(at):
        return "A body stands right behind the parameters, without an `=`, and ends with `end`."
    if at.before(2).text == "." or at.before().text == ")":
        return "Only a variable can be assigned: objects have no fields."
    if at.before().kind == "name":
        return "An assignment stands alone or in parentheses: `(%s = 1)`." % at.before().text
    return "On the left of `=` stands the name of a variable."


def comma(at):
    if at.here.text != ",":
        return ""
    if at.before().kind == at.after().kind == "number" and at.touches:
        return "A number has digits alone."
    if at.before().kind in ("type", "class"):
        return "A method gives one value."
    opening = at.open_parenthesis()
    if at.first_of_line().text == "print" and (opening is None or at.tokens[opening - 1].text == "print"):
        return "`print` takes one value. Instead: `print a ++ b`, or a `print` for each."
    if at.before().kind == "name":
        return foreign.hint("x, y = 1, 2", "x, y = ..")
    return "A comma stands only between arguments, parameters and types."


def colon(at):
    if at.here.text != ":":
        return ""
    if at.after().text == "=":
        return "There is no `:=`. Instead: `=`."
    if closes_head(at):
        return types_apart(at)
    if at.touches and at.before().kind == "name":
        return "A variable has no type of its own: only methods have, in a `type`."
    return symbol(at)


def symbol(at):
    """`:name`, as Ruby has it."""
    if at.after().kind != "name":
        return foreign.hint(":name")
    return foreign.sentence("There is no `:%s`" % at.after().text, '`"%s"`' % at.after().text)


def arrow(at):
    """Types behind the parameters of a `def`."""
    return types_apart(at) if at.here.text == "->" else ""


def stray(at):
    """A word or mark that nothing waits for."""
    if at.here.text == "new":
        return "An object is made by `%s.new`." % (at.after().text if at.after().kind == "class" else "A")
    told = {"do": "`do` belongs to a `while`. There are no blocks to hand over.",
            "else": "No `if` is open here that waits for an `else`.",
            "then": "No `if` waits for a `then` here.", ")": "No parenthesis is open here.",
            "class": "Classes stand before the script, each as `class B` alone.",
            "setup": "The setup stands before the scripts, and not in one.",
            "script": "A script stands behind the `end` of the one before, and not in it."}
    return told.get(at.here.text, "")


def misspelt(at):
    """A word that is nearly a keyword."""
    for token, other in ((at.before(), at.before(2)), (at.here, at.before())):
        if at.is_word(token) and other.text != "." and token.line == at.here.line:
            found = near.question(token.text, KEYWORDS)
            if found:
                return "Nothing is known of `%s`. %s" % (token.text, found)
    return ""


def two(at):
    if at.begins_expression() and not at.fronts and (at.before().text, at.here.text) != (")", "("):
        return "Two expressions on a line need a `;` between them."
    return ""


# Of the first ones each is sure where it fits; those behind are for the end of an item alone.
ALWAYS = (keyword_as_variable, script_begins, foreign_word, modifier, arguments_of_new, without_receiver, glued,
          without_dot, texts, comparison, operator_in_front, assigned)
AT_END = ALWAYS + (comma, colon, arrow, stray, misspelt, without_parenthesis, two)


def first(rules, at):
    """What the first rule says that fits, or nothing."""
    return next((told for told in (rule(at) for rule in rules) if told), "")
