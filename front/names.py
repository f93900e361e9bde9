"""Hints and places for names of classes, scripts and parameters that are unknown or stand there twice."""
import foreign
import near
import tokens
from wanted import small, variable_of


def is_type(at):
    """Whether a type is due at a place: it stands in the types of a `type`."""
    for number in range(at.number - 1, -1, -1):
        token = at.tokens[number]
        if token.text in ("type", "type?"):
            return ":" in [other.text for other in at.tokens[number:at.number]]
        if token.kind not in ("type", "class", "name", "mark"):
            return False
    return False


def unknown_class(at):
    """A class that is not declared before: the place where it is declared, and what may be meant."""
    word = at.here.text
    if at.after().text == "=":
        return [], variable_of(word)
    late = [token for token in at.behind("class") if token.text == word]
    if late:
        return [(late[0], "declared here")], "Classes stand before the setup and the scripts."
    if word.lower() in tokens.KEYWORDS and not is_type(at) and not foreign.hint(word):
        return [], "Keywords are written small. Instead: `%s`." % word.lower()
    known = at.classes() + (list(tokens.TYPE_WORDS) if is_type(at) else [])
    return [], foreign.hint(word) or near.question(word, known) or nearly_foreign(word) or declared(at)


def nearly_foreign(word):
    """A misspelt word of another language."""
    found = near.nearest(word, [form for form in foreign.words() if form.isalpha() and form.istitle()])
    return foreign.hint(found[0], word) if found else ""


def declared(at):
    """How a class would be declared, or what else is meant where it is none."""
    if at.after().text == "." or is_type(at):
        return "`class %s` before the script declares it." % at.here.text
    return "What begins with a capital letter is a class. Instead: `%s` for a variable." % small(at.here.text)


def twice_class(at):
    return first_of([token for token in at.behind("class") if token.text == at.here.text])


def twice_script(at):
    return first_of([token for token in at.behind("script") if token.text == at.here.text])


def twice_parameter(at):
    opening = at.open_parenthesis() or 0
    return first_of([token for token in at.tokens[opening:at.number] if token.text == at.here.text])


def first_of(found):
    return ([(found[0], "the first one")] if found else []), ""


RULES = {"UnknownClass": unknown_class, "TwiceClass": twice_class, "TwiceScript": twice_script,
         "TwiceParam": twice_parameter}


def advice(at, kind):
    """The tokens to look at, each with a label, and the hint."""
    return RULES[kind](at)
