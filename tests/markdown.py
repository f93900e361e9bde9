"""Reads the documents: their sections, and the blocks of code in them."""
import re
from pathlib import Path

ROOT = Path(__file__).resolve().parent.parent
FENCE = "```"


class Section:
    """A heading with its depth, the blocks below it, and the lines below it that are in no block."""

    def __init__(self, depth, title):
        self.depth, self.title, self.blocks, self.lines = depth, title, [], []


class Block:
    """A block of code: the word behind its fence, the file that is named there, its first line's number, its text."""

    def __init__(self, info, number):
        self.language, _, self.file = info.partition(" ")
        self.number, self.text = number, ""


def sections(path):
    """The sections of a document, in order. What stands before the first heading has a section without a title."""
    found, block = [Section(0, "")], None
    for number, line in enumerate(path.read_text().splitlines(keepends=True), 1):
        if line.startswith(FENCE) and block is None:
            block = Block(line[len(FENCE):].strip(), number + 1)
        elif line.startswith(FENCE):
            found[-1].blocks.append(block)
            block = None
        elif block is not None:
            block.text += line
        elif re.match("#+ ", line):
            marks, _, title = line.strip().partition(" ")
            found.append(Section(len(marks), title))
        else:
            found[-1].lines.append(line)
    return found


def anchors(path):
    """What a link into a document may name, by the rule of the usual renderers."""
    names = set()
    for section in sections(path):
        name = again = re.sub(r"[^\w\- ]", "", section.title.lower()).replace(" ", "-")
        count = 0
        while again in names:
            count += 1
            again = "%s-%d" % (name, count)
        names.add(again)
    return names
