"""What a text declares and where: its classes, scripts, defs and types. The text may be wrong in places."""
import bisect
from typing import NamedTuple, Optional

import blocks
import tokens


class Entry(NamedTuple):
    """A thing that is declared: by which word, of which class, with which name, and the numbers of its tokens."""

    word: str
    owner: Optional[str]
    name: Optional[str]  # None where it is computed, and `named` is the parenthesis then
    first: int
    named: int
    last: int


class Outline:
    def __init__(self, source):
        self.tokens = tokens.tokens(source)
        self.pairs = blocks.pair(self.tokens)[0]
        self.entries = [entry for number in range(len(self.tokens)) for entry in self.declared(number)]

    def is_at(self, number, *forms):
        """Whether tokens of these forms stand from here on: a word or a mark, or `a name` and such for a kind."""
        here = self.tokens[max(number, 0):number + len(forms)]
        return [form if form == "a " + token.kind else blocks.word_of(token)
                for token, form in zip(here, forms)] == list(forms)

    def declared(self, number):
        """The entry that begins with this token, if one does."""
        word = blocks.word_of(self.tokens[number])
        if word == "setup":
            yield Entry(word, None, word, number, number, self.pairs[number])
        elif word in ("class", "script") and self.is_at(number + 1, "a class" if word == "class" else "a name"):
            last = self.pairs.get(number, number + 1)
            yield Entry(word, None, self.tokens[number + 1].text, number, number + 1, last)
        elif word in ("def", "type", "type?") and self.is_at(number + 1, "a class", "."):
            named, owner = number + 3, self.tokens[number + 1].text
            if self.is_at(named, "a name") or self.is_at(named, "("):
                last = self.pairs[number] if word == "def" else self.end_of_head(named)
                name = self.tokens[named].text if self.is_at(named, "a name") else None
                yield Entry(word, owner, name, number, named, last)

    def end_of_head(self, named):
        """The last token of a `type` or of the front of a `def`, as far as it is there."""
        number = self.pairs.get(named, named)
        begins = number + 1 + self.is_at(number + 1, ":")
        if self.is_at(begins, "("):
            number = self.pairs[begins]
        gives = self.is_at(number + 1, "->", "a type") or self.is_at(number + 1, "->", "a class")
        return number + 2 * gives

    def text_of(self, first, last):
        """Tokens on one line, with a blank where they stood apart."""
        text, stop = "", self.tokens[first].start
        for token in self.tokens[first:last + 1]:
            text, stop = text + " " * (token.start > stop) + token.text.strip(), token.stop
        return text

    def number_at(self, place):
        """The number of the token that holds a place; of a word and a mark that meet there, the word's. Else None."""
        number = bisect.bisect_right([token.place for token in self.tokens], place) - 1
        near = [number for number in (number, number - 1) if self.holds(self.tokens[max(number, 0)], place)]
        return next((number for number in near if self.tokens[number].kind != "mark"), near[0] if near else None)

    def holds(self, token, place):
        return token.kind not in ("separator", "end") and token.line == place[0] and (
            token.column <= place[1] <= token.column + len(token.text))

    def meant(self, number):
        """The method that a token names: its name, and its class where the text tells it. None of other tokens."""
        if not self.is_at(number - 1, ".", "a name"):
            return None
        name, receiver = self.tokens[number].text, self.tokens[number - 2]
        if self.is_at(number - 2, "self"):
            homes = [entry.owner for entry in self.entries if entry.word == "def" and
                     self.pairs.get(entry.named, entry.named) < number < entry.last]
            return name, homes[-1] if homes else None
        if self.is_at(number - 4, "a class", ".", "new"):
            receiver = self.tokens[number - 4]
        return name, receiver.text if receiver.kind == "class" else None

    def of_method(self, meant, *words):
        """The entries that give a method something, by these words; of all classes where the class is not known."""
        return [entry for entry in self.entries
                if entry.word in words and entry.name == meant[0] and meant[1] in (None, entry.owner)]
