"""A place in a text, with what stands around it: what reading the tokens tells of a text that is no program."""
import functools

import tokens

OPENERS = ("script", "setup", "def", "if", "while")
# With these words and marks an expression begins; with a number, a text, a name and a class it does too.
BEGINS = frozenset("nil true false self not print str if while def type type? (".split())
# Behind these words a block begins, so an operator that comes next has nothing on its left.
BLOCK_BEGINS = ("then", "do", "else", "setup", ";")


class Spot:
    """The token at a place and its neighbours. Separators are left out where the neighbours are looked for."""

    def __init__(self, source, place):
        self.source, self.place, self.tokens = source, place, tokens.tokens(source)
        self.number = tokens.at(self.tokens, place)
        self.here = self.tokens[self.number] if self.number is not None else None

    def neighbour(self, step, count):
        number = self.number
        while count and 0 <= number + step < len(self.tokens):
            number += step
            count -= self.tokens[number].kind != "separator"
        return self.tokens[number] if not count else tokens.Token("end", "", 0, 0, 0)

    def before(self, count=1):
        """The token so many before this place."""
        return self.neighbour(-1, count)

    def after(self, count=1):
        return self.neighbour(1, count)

    @property
    def fronts(self):
        """Whether the token is the first of its line."""
        return self.before().line < self.here.line

    @property
    def touches(self):
        """Whether nothing stands between this token and the one before."""
        return self.before().stop == self.here.start

    def begins_expression(self):
        return self.here.kind in ("number", "text", "name", "class") or self.here.text in BEGINS

    def behind(self, *words):
        """The tokens that stand right behind one of these keywords."""
        pairs = zip(self.tokens, self.tokens[1:])
        return [second for first, second in pairs if first.kind == "keyword" and first.text in words]

    def classes(self):
        return [token.text for token in self.behind("class") if token.kind == "class"]

    def given(self, *words):
        """The classes and names of methods that a `def` or a `type` gives something, as pairs of tokens."""
        found = []
        for first, owner, dot, name in zip(self.tokens, self.tokens[1:], self.tokens[2:], self.tokens[3:]):
            if first.kind == "keyword" and first.text in words and dot.text == "." and name.kind == "name":
                found.append((owner, name))
        return found

    def owner_of(self, method):
        """The class that has a body for a method, or None where none or more than one has."""
        owners = {owner.text for owner, name in self.given("def") if name.text == method}
        return owners.pop() if len(owners) == 1 else None

    @functools.cached_property
    def variables(self):
        """The names that are assigned or are parameters, wherever."""
        found = {first.text for first, second in zip(self.tokens, self.tokens[1:])
                 if first.kind == "name" and second.text == "="}
        for start, token in enumerate(self.tokens):
            if token.kind == "keyword" and token.text == "def":
                found.update(self.parameters(start))
        return found

    def parameters(self, start):
        """The names between the parentheses of the `def` that begins at a token."""
        found = []
        for token in self.tokens[start + 4:start + 16]:
            if token.text == ")":
                break
            if token.kind == "name":
                found.append(token.text)
        return found

    def open_blocks(self):
        """The numbers of the openers before this place that no `end` closes, by counting alone."""
        found = []
        for number, token in enumerate(self.tokens[:self.number]):
            if token.kind == "keyword" and token.text in OPENERS:
                found.append(number)
            elif token.kind == "keyword" and token.text == "end" and found:
                found.pop()
        return found

    def home(self):
        """The class whose method's body this place is in, or None in a script."""
        for number in reversed(self.open_blocks()):
            if self.tokens[number].text == "def" and self.tokens[number + 1].kind == "class":
                return self.tokens[number + 1].text
        return None

    def open_parenthesis(self):
        """The number of the innermost parenthesis that is open here, or None."""
        depth = 0
        for number in range(self.number - 1, -1, -1):
            token = self.tokens[number]
            depth += (token.text == ")") - (token.text == "(")
            if depth < 0:
                return number
        return None

    def first_of_line(self):
        """The first token on the line of the token before."""
        line = self.before().line
        return next(token for token in self.tokens if token.line == line and token.kind != "separator")

    def is_method(self, token):
        return any(name.text == token.text for _, name in self.given("def"))

    def is_word(self, token):
        """Whether a token is a name of nothing in this text, so that it may be a word of another language."""
        return token.kind == "name" and token.text not in self.variables and not self.is_method(token)
