"""A text as an editor has it, with its places as an editor counts them."""
import functools

import outline
import tokens


class Document:
    """One state of a text. A place is a line and a column of bytes, both from 1, as in a report.

    A position is what an editor counts: from 0, in bytes where that was agreed, and else in units of UTF-16.
    """

    def __init__(self, uri, text, in_bytes):
        self.uri, self.in_bytes = uri, in_bytes
        self.source = text.encode("utf-8", "surrogatepass")
        self.lines = self.source.split(b"\n")
        # What is known of faults: the line, its columns from and to which it goes, and what an editor shows.
        self.explained = []

    @functools.cached_property
    def outline(self):
        return outline.Outline(self.source)

    def position(self, line, column):
        before = self.lines[line - 1][:column - 1]
        return {"line": line - 1, "character": len(before) if self.in_bytes else len(units(before)) // 2}

    def place(self, position):
        """The place of a position. One behind a line's end or behind the text is that of the end."""
        line, character = position["line"], position["character"]
        if line < 0 or character < 0:
            raise ValueError("a position is below 0")
        if line >= len(self.lines):
            return len(self.lines), len(self.lines[-1]) + 1
        whole = self.lines[line]
        before = whole if self.in_bytes else units(whole)[:2 * character].decode("utf-16-le", "ignore").encode()
        return line + 1, min(character if self.in_bytes else len(before), len(whole)) + 1

    def range(self, line, start, stop):
        return {"start": self.position(line, start), "end": self.position(line, stop)}

    def range_of(self, first, last):
        """The range from one token to another, by their numbers."""
        start, stop = self.outline.tokens[first], self.outline.tokens[last]
        return {"start": self.position(*start.place), "end": self.position(stop.line, stop.column + len(stop.text))}

    def stretch(self, line, column):
        """The line, and the columns from and to which the token at a place goes; else one byte, where there is one."""
        line = min(line, len(self.lines))
        number = tokens.at(self.outline.tokens, (line, column))
        text = self.outline.tokens[number].text.strip() if number is not None else " "
        return line, column, max(column, min(column + len(text), len(self.lines[line - 1]) + 1))


def units(source):
    return source.decode("utf-8", "ignore").encode("utf-16-le")
