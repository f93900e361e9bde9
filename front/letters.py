"""Hints for the faults of tokens: what to write in place of a byte that the language does not use."""
import re
import unicodedata

import foreign

CURLY_QUOTES = "\u2018\u2019\u201a\u201c\u201d\u201e\u00ab\u00bb\u00b4"
DASHES = "\u2010\u2011\u2012\u2013\u2014\u2015\u2212"
BLANKS = "\u00a0\u2007\u2009\u202f\u200b\u3000"
# The rows of the table for kinds of letters.
KINDS = (("a curly quote", CURLY_QUOTES), ("a dash", DASHES), ("a blank that is none of ASCII", BLANKS))
# Marks of mathematics, with what stands for them in other languages.
SIGNS = {"\u2264": "<=", "\u2265": ">=", "\u2260": "!=", "\u00d7": "*", "\u00b7": "*", "\u2192": "->", "\u00f7": "/",
         "\u21d2": "=>"}
# As UTF-8 and UTF-16 write it.
MARKS_OF_ORDER = (b"\xef\xbb\xbf", b"\xff\xfe", b"\xfe\xff")


def instead(row, what):
    """Says of a thing that has no form what its row of the table says."""
    return foreign.sentence(what, foreign.marks().get(row, ""))


def offset(at):
    line, column = at.place
    return sum(len(row) + 1 for row in at.source.split(b"\n")[:line - 1]) + column - 1


def letter_at(source, start):
    """The letter of UTF-8 that begins at a byte, or None."""
    for size in (2, 3, 4):
        try:
            return source[start:start + size].decode("utf-8")
        except UnicodeDecodeError:
            pass
    return None


def wide(source, start):
    """A byte outside of ASCII, with the letter that it begins."""
    letter = letter_at(source, start)
    if letter is None:
        what = "The byte %02X begins no letter of UTF-8" % source[start]
        latin = chr(source[start])
        if latin.isprintable():
            what += ", and is `%s` in Latin-1" % latin
        return instead("a letter beyond ASCII", what)
    name = unicodedata.name(letter, "").lower() or "U+%04X" % ord(letter)
    what = "The byte %02X begins the letter `%s` (%s)" % (source[start], letter, name)
    if not letter.isprintable():
        what = "The byte %02X begins a letter that is not printed (%s)" % (source[start], name)
    for row, letters in KINDS:
        if letter in letters:
            return instead(row, what)
    if letter in SIGNS:
        sign = SIGNS[letter]
        told = foreign.marks().get(sign) or foreign.words().get("x %s y" % sign)
        return foreign.sentence(what, told or "`%s`" % sign)
    return instead("a letter beyond ASCII", what)


def mark(source, start):
    """A byte of ASCII: the longest mark of the table that has this byte where it stands."""
    found = [form for form in foreign.marks() for before in range(len(form))
             if start >= before and source.startswith(form.encode(), start - before)]
    longest = max(found, key=len, default="")
    return foreign.sentence("There is no `%s`" % longest, foreign.marks()[longest]) if found else ""


def in_name(source, start):
    """A `!` or a `?` right behind a name, as Ruby has it."""
    word = re.search(rb"(\.?)([A-Za-z_]\w*)\Z", source[max(start - 70, 0):start])
    if not word or source[start:start + 1] not in b"!?" or source[start:start + 2] == b"!=":
        return ""
    name, sign = word.group(2).decode(), chr(source[start])
    if name[0].isupper() and sign == "?":
        return instead("a ? behind a type", "There is no `%s?`" % name)
    told = foreign.hint("." + name, name + sign) if word.group(1) else ""
    return told or instead("a ! or ? in a name", "There is no `%s%s`" % (name, sign))


def unseen(at, byte):
    """A byte that stands for no letter that is printed."""
    if byte == b"\0":
        return instead("a byte 0", "The byte 00 stands here")
    row = {b"\t": "a tab in a text", b"\r": "a carriage return in a text"}.get(byte)
    if row:
        return instead(row, "Here is " + row)
    return "The byte %02X is not printed, and stands only in comments." % byte[0]


def bad_byte(at):
    start = offset(at)
    byte = at.source[start:start + 1]
    if at.source.startswith(MARKS_OF_ORDER) and start == 0:
        return instead("a byte order mark", "The text begins with a byte order mark")
    if byte < b" " or byte == b"\x7f":
        return unseen(at, byte) if byte else ""
    if byte >= b"\x80":
        return wide(at.source, start)
    if byte == b"`":
        return instead("a back quote", "There is no back quote")
    return behind_word(at, byte) or in_name(at.source, start) or mark(at.source, start)


def behind_word(at, byte):
    """A bar behind a type, or a block of Ruby behind a method."""
    before = [token for token in at.tokens if token.place < at.place][-3:]
    texts = [token.text for token in before]
    if byte == b"|" and before and before[-1].kind in ("type", "class"):
        return instead("a | behind a type", "There is no `%s |`" % texts[-1])
    if byte == b"|" and texts[-1:] == ["do"]:
        before = [token for token in at.tokens if token.place < at.place][-4:-1]
        texts = [token.text for token in before]
    if byte in b"|{" and len(texts) == 3 and texts[1] == ".":
        return foreign.hint("." + texts[2])
    return ""


def bad_escape(at):
    start = offset(at) + 1
    letter = at.source[start:start + 1].decode("latin-1")
    if letter in "rabefv0xuUNs":
        return "No escape stands for another byte than a quote, a backslash, a line feed and a tab."
    if letter.isascii() and letter.isprintable() and not letter.isalnum():
        return "`%s` needs no backslash before it." % letter if letter != "`" else "A back quote needs no backslash."
    return "A backslash itself is written twice: `\\\\%s`." % letter if letter.isascii() and letter.isalnum() else ""


def open_text(at):
    """A text whose last quote is escaped, or that is closed by another quote."""
    start = offset(at)
    line = at.source[start:].split(b"\n")[0].rstrip(b"\r")
    if line.endswith(b'\\"'):
        return "The last quote of the line has a backslash before it, which makes it a part of the text."
    if line.endswith(b"'"):
        return "The text begins with a double quote, and ends with one too."
    return ""


RULES = {"BadByte": bad_byte, "BadEscape": bad_escape, "OpenText": open_text}
