"""What is not in the language, with what to write instead: reads the tables of docs/LANGUAGE.md and docs/ERRORS.md."""
import functools
import re

import pages

# Where the tables stand: the page and the heading above them.
WORDS, MARKS = (pages.LANGUAGE, "Coming from Ruby"), (pages.PAGE, "BadByte")


def forms(cell):
    """The forms that a cell shows between marks of code; where it begins with a word, all of it without the marks."""
    if not cell.startswith("`"):
        return [cell.replace("`", "")]
    return re.findall(r"`([^`]+)`", cell)


def key(form):
    """The word by which a form is known, or its method, as `puts` of `puts x` and `.each` of `x.each`."""
    method = re.fullmatch(r"x(\.\w+)\??", form)
    word = re.match(r"(?:[a-z] )?([a-zA-Z]\w+)", form)
    return method.group(1) if method else word.group(1) if word else form


@functools.lru_cache(maxsize=None)
def words():
    """What to write instead, by the forms of the table of words and by their keys. Of two rows the first counts."""
    found = {}
    for left, right in pages.rows(*WORDS):
        for form in forms(left):
            found.setdefault(form, right)
            found.setdefault(key(form), right)
            # `p` is the one word of a single letter.
            if form == "p x":
                found.setdefault("p", right)
    return found


@functools.lru_cache(maxsize=None)
def marks():
    """What to write instead, by the marks of the table of bytes and by what else stands there."""
    return {form: right for left, right in pages.rows(*MARKS) for form in forms(left)}


def sentence(what, told):
    """Says of something what the right column of a table says: code to write, or how it is here."""
    return "%s%s %s." % (what, ". Instead:" if told.startswith("`") else ":", told) if told else what + "."


def hint(word, shown=None):
    """What to write in place of a word, of a form or, with a dot before it, of a method; empty where none is known."""
    told = words().get(word)
    return sentence("There is no `%s`" % (shown or word.lstrip(".")), told) if told else ""
