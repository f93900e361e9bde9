"""Makes programs by the grammar, from a seed, with blanks, comments and line feeds wherever they may stand."""
import random

# Where a block's item may end, and what a line may begin with: an item's end is one of the first, or a `;`.
FEEDS = ["\n", "\n\n", "\n   \n", " # end ) \" def A.(\n", "\t\r\n", "\n# if 1 then (\n", "\n\t # \xff\xe9 \" else\n  \n"]
FRONTS = ["", "", "  ", "\t", "      ", " \r "]
TEXTS = ['""', '"end"', '"# no comment ("', '"a \\"end\\" \\\\"', '"def\\n\\tif"', '")"', '"then"']
TYPES = ["Nil", "Bool", "Int", "Str", "Any", "A", "B"]
NAMES = ["x", "y", "end_", "_if", "def1", "n", "typed"]
# Behind these a line feed does not separate.
GO_ON = "( , : . = == < + - * ++ -> not print".split()
# A separator that must stand, and one that may.
MUST, MAY = "must", "may"


class Maker:
    def __init__(self, seed):
        self.random = random.Random(seed)

    def one(self, *choices):
        return self.random.choice(choices)

    def some(self, make, most, between):
        """Up to so many parts, with something between them."""
        parts = [make() for _ in range(self.random.randrange(most + 1))]
        return [token for part in parts for token in between + part][len(between):]

    def program(self):
        tokens = [MAY, "class", "A", MAY, "class", "B", MAY]
        if self.random.random() < 0.1:
            tokens += ["setup", *self.block(3), "end", MAY]
        for name in ("main", "other")[:self.one(*[1] * 9, 2)]:
            tokens += ["script", name, *self.block(3), "end", MAY]
        return tokens

    def block(self, depth):
        items = self.some(lambda: self.item(depth), 4 if depth > 2 else 2, [MUST])
        return [MAY, *items, MAY]

    def item(self, depth):
        kind = self.random.randrange(6)
        if kind == 0:
            return [self.one(*NAMES), "=", *self.item(depth - 1)]
        if kind == 1:
            return ["print", *self.item(depth - 1)]
        if kind == 2:
            return [self.one("type", "type?"), *self.method(depth), ":", "(",
                    *self.some(lambda: [self.one(*TYPES)], 4, [","]), ")", "->", self.one(*TYPES)]
        return self.comparison(depth)

    def method(self, depth):
        name = [self.one("m", "f", "go")] if depth < 2 or self.random.random() < 0.8 else ["(", *self.item(1), ")"]
        return [self.one("A", "B"), ".", *name]

    def comparison(self, depth):
        sides = self.one(1, 1, 1, 2)
        return [token for side in range(sides) for token in [self.one("<", "==")] + self.sum(depth)][1:]

    def sum(self, depth):
        count = self.one(1, 1, 1, 2, 3)
        return [token for part in range(count)
                for token in [self.one("+", "-", "++", "*")] + self.unary(depth)][1:]

    def unary(self, depth):
        tokens = ["not"] * (self.random.random() < 0.1) + self.primary(depth)
        while self.random.random() < 0.2:
            tokens += [".", self.one("m", "f", "go")]
            if self.random.random() < 0.5:
                tokens += ["(", *self.some(lambda: self.item(depth - 1), 4 if depth > 2 else 1, [","]), ")"]
        return tokens

    def primary(self, depth):
        kind = self.random.randrange(9 if depth > 0 else 4)
        if kind < 4:
            return [[self.one("0", "7", "007")], [self.one(*TEXTS)],
                    [self.one("nil", "true", "false", "self", *NAMES)], [self.one("A", "B"), ".", "new"]][kind]
        if kind == 4:
            return [*self.one([], ["str"]), "(", *self.item(depth - 1), ")"]
        if kind == 5:
            return ["while", *self.item(depth - 1), "do", *self.block(depth - 1), "end"]
        if kind == 6:
            parameters = self.random.sample(NAMES, self.random.randrange(4))
            names = [token for name in parameters for token in (",", name)][1:]
            return ["def", *self.method(depth), "(", *names, ")", *self.block(depth - 1), "end"]
        behind = ["else", *self.block(depth - 1)] if self.random.random() < 0.5 else []
        return ["if", *self.item(depth - 1), "then", *self.block(depth - 1), *behind, "end"]

    def separator(self, must):
        if not must and self.random.random() < 0.5:
            return " "
        front = self.one(*FRONTS)
        return self.one(";", "; ", *FEEDS) + front + self.one("", "", "", ";", "\n" + front)

    def text(self, tokens):
        """The tokens as a text, with blanks of all kinds."""
        written, before = [], ""
        for token in tokens:
            if token in (MUST, MAY):
                written.append(self.separator(token == MUST))
            else:
                glued = before in ("(", ".", ",") or token in (")", ".", ",") or token == "(" and before not in GO_ON
                written.append("" if glued and self.random.random() < 0.7 else self.one(" ", " ", "  ", "\t"))
                if before in GO_ON and self.random.random() < 0.1:
                    written.append(self.one(*FEEDS) + self.one(*FRONTS))
                written.append(token)
            before = token
        return "".join(written).encode("latin-1")


def programs(count, seed=17):
    """So many texts that are programs."""
    maker = Maker(seed)
    return [maker.text(maker.program()) for _ in range(count)]


def broken(count, seed=18):
    """So many texts that lack a piece of a program, or have it twice."""
    maker, texts = Maker(seed), []
    for _ in range(count):
        tokens = [token for token in maker.program() if token != MAY]
        tokens = [maker.one(";", "\n") if token == MUST else token for token in tokens]
        at = maker.random.randrange(len(tokens))
        tokens[at:at + 1] = maker.one([], [tokens[at]] * 2, ["end"], [")"], ['"'], ["?"], ["\\"])
        texts.append(" ".join(tokens).encode("latin-1"))
    return texts
