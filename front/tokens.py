"""Cuts a text into tokens as docs/FORMATS.md says, and goes on behind what is none."""
import re
from typing import NamedTuple

KEYWORDS = frozenset("class setup script type type? def end if then else while do nil true false self new not print "
                     "str".split())
TYPE_WORDS = ("Nil", "Bool", "Int", "Str", "Any")
# Behind these a line feed does not separate.
GO_ON = frozenset(["(", ",", ":", ".", "=", "==", "<", "+", "-", "*", "++", "->", "not", "print"])

FORM = re.compile(r"""(?P<blank>[ \t\r]+|\#[^\n]*) | (?P<feed>\n) | (?P<separator>;) | (?P<word>type\?|[A-Za-z_]\w*)
    | (?P<number>\d+) | (?P<text>"(?:[ !\#-\[\]-~]|\\["\\nt])*") | (?P<mark>\+\+|->|==|[(),:.=<+*-])
    | (?P<bad>"[^\n]*|.)""", re.VERBOSE | re.ASCII | re.DOTALL)


class Token(NamedTuple):
    """A token and where it stands. Its text has one letter for each byte, so that columns count bytes.

    Its kind is keyword, type, class, name, number, text, mark, separator, bad (a byte or a text that begins no
    token) or end (the end of the text).
    """

    kind: str
    text: str
    line: int
    column: int
    start: int

    @property
    def place(self):
        return self.line, self.column

    @property
    def stop(self):
        return self.start + len(self.text)


def kind_of(word):
    if word in KEYWORDS:
        return "keyword"
    if word in TYPE_WORDS:
        return "type"
    return "class" if word[0].isupper() else "name"


def tokens(source):
    """The tokens of a text of bytes. The last one is the end of the text, and has the kind `end`."""
    text, found, line, begins = source.decode("latin-1"), [], 1, 0
    for match in FORM.finditer(text):
        kind, word, start = match.lastgroup, match.group(), match.start()
        token = Token(kind_of(word) if kind == "word" else kind, word, line, start - begins + 1, start)
        if kind == "feed":
            if found and found[-1].kind != "separator" and found[-1].text not in GO_ON:
                found.append(token._replace(kind="separator"))
            line, begins = line + 1, match.end()
        elif kind != "blank":
            found.append(token)
    return found + [Token("end", "", line, len(text) - begins + 1, len(text))]


def at(found, place):
    """The number of the token at a place, or None."""
    return next((number for number, token in enumerate(found) if token.place == place), None)
