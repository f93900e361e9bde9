"""Reads a program into a tree, by the grammar of docs/FORMATS.md. Of a text that is no program there is none."""
import tokens

# The operators of each level, the loosest first. Of the first level there may be one alone.
LEVELS = (("<", "=="), ("+", "-", "++"), ("*",))


class NoProgram(Exception):
    """The tokens begin no program."""


class Node:
    """An expression or a block.

    Its kind is number, text, word (nil, true, false), variable, self, new, assign, operation, not, print, str, call,
    if, while, def, type or block. `token` is its own token, whose place a report tells, and `parts` are the nodes in
    it, in the order in which they run: of a call the receiver and the arguments, of a `def` or a `type` with a
    computed name that expression. `first` and `last` are the numbers of its outermost tokens.
    """

    def __init__(self, kind, token, parts=(), name=None, owner=None, takes=(), gives=None, body=None):
        self.kind, self.token, self.parts = kind, token, list(parts)
        # Of an assignment the variable; of a `def` and a `type` the method's name, or None where it is computed.
        self.name = name
        # Of a `def`, a `type` and a `new`: the token of the class.
        self.owner = owner
        # Of a `def` the parameters, and of a `type` the types, as tokens; of a `type` that of its result.
        self.takes, self.gives = takes, gives
        self.body = body
        self.parent = None
        self.first = self.last = 0
        for part in self.parts + [body] * (body is not None):
            part.parent = self

    def walk(self):
        """This node and all nodes in it, in the order of the text's beginnings of them."""
        waiting = [self]
        while waiting:
            node = waiting.pop()
            yield node
            waiting += [node.body] * (node.body is not None) + node.parts[::-1]

    def above(self):
        """The nodes around it, from the inside out."""
        node = self.parent
        while node is not None:
            yield node
            node = node.parent


class Program:
    """The tokens of a program, the tokens of its classes' names, and the blocks of its setup and scripts.

    `sections` has the line with which each one's part of a report begins.
    """

    def __init__(self, found, classes, blocks, sections):
        self.tokens, self.classes, self.blocks, self.sections = found, classes, blocks, sections

    def nodes(self):
        return (node for block in self.blocks for node in block.walk())

    def block(self, section):
        """The block of the section of a report; None where there is none, and of one script alone its own."""
        found = [block for block, name in zip(self.blocks, self.sections) if name == section]
        return found[0] if found else self.blocks[0] if len(self.blocks) == 1 else None

    def setup(self):
        return self.block("setup") if self.sections[:1] == ["setup"] else None


class Reader:
    """Goes through the tokens of a program from left to right."""

    def __init__(self, found):
        self.tokens, self.number = found, 0

    def sees(self, *texts):
        token = self.tokens[self.number]
        return token.kind in ("keyword", "mark") and token.text in texts

    def take(self, *kinds):
        """The next token, which has one of these kinds."""
        token = self.tokens[self.number]
        if token.kind not in kinds:
            raise NoProgram
        self.number += 1
        return token

    def due(self, *texts):
        if not self.sees(*texts):
            raise NoProgram
        return self.take("keyword", "mark")

    def separators(self):
        """How many separators stand here."""
        start = self.number
        while self.tokens[self.number].kind == "separator":
            self.number += 1
        return self.number - start

    def made(self, first, *words, **more):
        """A node of the tokens from `first` up to here."""
        node = Node(*words, **more)
        node.first, node.last = first, self.number - 1
        return node

    def program(self):
        classes, blocks, sections = [], [], []
        self.separators()
        while self.sees("class"):
            self.due("class")
            classes.append(self.take("class"))
            self.separators()
        while self.sees("script") or self.sees("setup") and not blocks:
            is_script = self.due("setup", "script").text == "script"
            sections.append("script " + self.take("name").text if is_script else "setup")
            blocks.append(self.block("end"))
            self.due("end")
            self.separators()
        self.take("end")
        return Program(self.tokens, classes, blocks, sections)

    def block(self, *ends):
        """A block up to its own token, which is left."""
        first, items = self.number, []
        self.separators()
        while not self.sees(*ends):
            items.append(self.expression())
            if not self.separators() and not self.sees(*ends):
                raise NoProgram
        return self.made(first, "block", self.tokens[self.number], items)

    def expression(self):
        first, token = self.number, self.tokens[self.number]
        follows = self.tokens[min(first + 1, len(self.tokens) - 1)]
        if token.kind == "name" and (follows.kind, follows.text) == ("mark", "="):
            self.number += 2
            return self.made_later(first, "assign", follows, name=token)
        if self.sees("print"):
            self.due("print")
            return self.made_later(first, "print", token)
        if self.sees("type", "type?"):
            return self.type()
        return self.operation(0)

    def made_later(self, first, kind, token, **more):
        part = self.expression()
        return self.made(first, kind, token, [part], **more)

    def method(self):
        """The class, the name and the expression of it of a method that is given something."""
        owner = self.take("class")
        self.due(".")
        if not self.sees("("):
            return owner, self.take("name"), []
        return owner, None, [self.parenthesis()]

    def parenthesis(self):
        self.due("(")
        inner = self.expression()
        self.due(")")
        return inner

    def listed(self, one):
        """What stands between parentheses and commas, each read by `one`."""
        self.due("(")
        found = [] if self.sees(")") else [one()]
        while self.sees(","):
            self.due(",")
            found.append(one())
        self.due(")")
        return found

    def type(self):
        first, token = self.number, self.due("type", "type?")
        owner, name, parts = self.method()
        self.due(":")
        takes = self.listed(lambda: self.take("type", "class"))
        self.due("->")
        gives = self.take("type", "class")
        return self.made(first, "type", token, parts, name=name, owner=owner, takes=takes, gives=gives)

    def definition(self):
        first, token = self.number, self.due("def")
        owner, name, parts = self.method()
        takes = self.listed(lambda: self.take("name"))
        body = self.block("end")
        self.due("end")
        return self.made(first, "def", token, parts, name=name, owner=owner, takes=takes, body=body)

    def operation(self, level):
        if level == len(LEVELS):
            return self.unary()
        first, left = self.number, self.operation(level + 1)
        while self.sees(*LEVELS[level]):
            token = self.due(*LEVELS[level])
            right = self.operation(level + 1)
            left = self.made(first, "operation", token, [left, right])
            if level == 0:
                break
        return left

    def unary(self):
        first = self.number
        if self.sees("not"):
            token = self.due("not")
            part = self.unary()
            return self.made(first, "not", token, [part])
        node = self.primary()
        while self.sees("."):
            self.due(".")
            token = self.take("name")
            arguments = self.listed(self.expression) if self.sees("(") else []
            node = self.made(first, "call", token, [node] + arguments)
        return node

    def primary(self):
        first, token = self.number, self.tokens[self.number]
        if token.kind in ("number", "text", "name"):
            self.number += 1
            return self.made(first, "variable" if token.kind == "name" else token.kind, token)
        if self.sees("nil", "true", "false", "self"):
            self.number += 1
            return self.made(first, "self" if token.text == "self" else "word", token)
        if token.kind == "class":
            self.number += 1
            self.due(".")
            self.due("new")
            return self.made(first, "new", token, owner=token)
        if self.sees("("):
            return self.parenthesis()
        if self.sees("def"):
            return self.definition()
        return self.worded(first, self.due("str", "if", "while"))

    def worded(self, first, token):
        """The rest of a `str`, an `if` or a `while`, behind its word."""
        if token.text == "str":
            part = self.parenthesis()
            return self.made(first, "str", token, [part])
        condition = self.expression()
        self.due("then" if token.text == "if" else "do")
        blocks = [self.block("end", "else") if token.text == "if" else self.block("end")]
        if self.due("else", "end").text == "else":
            blocks.append(self.block("end"))
            self.due("end")
        return self.made(first, token.text, token, [condition] + blocks)


def program(source):
    """The program that a text of bytes is, or None. One whose parts nest very deep counts as none here."""
    try:
        return Reader(tokens.tokens(source)).program()
    except (NoProgram, RecursionError):
        return None
