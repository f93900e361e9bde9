"""Reads docs/ERRORS.md, which has a section for each word of a report, and tables of the other papers."""
import functools
import re
import textwrap
from pathlib import Path

DOCS = Path(__file__).resolve().parent.parent / "docs"
PAGE, LANGUAGE, FORMATS = DOCS / "ERRORS.md", DOCS / "LANGUAGE.md", DOCS / "FORMATS.md"
# The parts of the page that speak of stops, of reasons and of a report's other words; all others speak of texts.
PARTS = {"Stops": "stop", "Reasons": "reason", "The report": "report"}


class Section:
    """A heading of the page with the lines below it, and the part of the page in which it stands.

    A word of a report has a heading of its own below that of its part.
    """

    def __init__(self, part, title, is_word):
        self.part, self.title, self.is_word, self.lines = part, title, is_word, []

    def first_sentence(self):
        """The first sentence below the heading, without marks of code."""
        text = " ".join("".join(line + "\n" for line in self.lines).strip().split("\n\n")[0].split())
        return re.split(r"(?<=\.) (?=[A-Z])", text.replace("`", ""))[0]


@functools.lru_cache(maxsize=None)
def sections(page=PAGE):
    """The sections of a page, in its order; none where the page is not there."""
    try:
        lines = page.read_text(encoding="utf-8").splitlines()
    except OSError:
        return []
    found, part, in_block = [], "text", False
    for line in lines:
        in_block ^= line.startswith("```")
        heading = not in_block and re.fullmatch("(##+) (.*)", line)
        if heading:
            if heading.group(1) == "##":
                part = PARTS.get(heading.group(2), "text")
            found.append(Section(part, heading.group(2), heading.group(1) == "###"))
        elif found:
            found[-1].lines.append(line)
    return found


def cells(line):
    """The cells of a line of a table; none of another line. A mark of code may hold a bar with a backslash."""
    if not re.fullmatch(r"\|.*\|", line) or re.fullmatch(r"[|:\- ]+", line):
        return []
    return [cell.strip().replace("\\|", "|") for cell in re.split(r"(?<!\\)\|", line)[1:-1]]


def rows(page, title):
    """The rows of the tables below a heading, without the heads of the tables."""
    lines = [line for section in sections(page) if section.title == title for line in section.lines]
    return [cells(line) for before, line in zip([""] + lines, lines) if cells(line) and before.startswith("|")]


def sentence_of(note):
    """What the page says first of a word, or None where it has no section of it."""
    for section in sections():
        if (section.part, section.title) == (note.part, note.word):
            return section.first_sentence()
    return None


def explained(words):
    """The sections of words that stand one after the other, and the first part of them that is not known, or None.

    Some words have two parts, as `Expected end`. Capitals are all one. Behind IllTyped a word is that of a reason.
    """
    found, place = [], 0
    while place < len(words):
        for count in (2, 1):
            told = titled(" ".join(words[place:place + count]).lower())
            if told:
                break
        if not told:
            return found, words[place]
        reasons = [section for section in told if section.part == "reason"]
        found += reasons if reasons and any(section.title == "IllTyped" for section in found) else told
        place += count
    return found, None


def titled(title):
    return [section for section in sections() if section.title.lower() == title]


def words():
    """All words that have a section, each once."""
    return list(dict.fromkeys(section.title for section in sections() if section.is_word))


def overview():
    """All words in their groups, with a sentence on each, as lines."""
    lines = []
    for section in sections():
        if section.is_word:
            lines += hung(section.title, section.first_sentence())
        elif section.lines:
            lines += [""] * bool(lines) + [section.title, ""]
    return lines


def hung(word, text):
    """A text beside a word, folded. Beside a word that is too wide it begins on the next line."""
    rows = [" " * 22 + row for row in textwrap.wrap(text, 56)]
    if len(word) > 19 or not rows:
        return ["  " + word] + rows
    return ["  %-19s %s" % (word, rows[0].strip())] + rows[1:]


def as_text(section):
    """The section for a terminal: blocks are indented, links are their words, and lines and tables are folded."""
    lines, in_block = [section.title, ""], False
    for line in "\n".join(section.lines).strip().split("\n"):
        if line.startswith("```"):
            in_block = not in_block
        elif in_block:
            lines.append("    " + line)
        elif line.startswith("|"):
            row = [cell.replace("`", "") for cell in cells(line)]
            lines += hung(*row) if len(row) == 2 else []
        else:
            plain = re.sub(r"\[([^]]*)\]\([^)]*\)", r"\1", line).replace("`", "")
            lines.extend(textwrap.wrap(plain, 78) or [""])
    below = [word for word in words() if word.startswith(section.title + " ")]
    return lines + [""] + textwrap.wrap("Words: " + ", ".join(below), 78) if below else lines
