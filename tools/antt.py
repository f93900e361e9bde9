"""Reads the definitions in specs/: the text of each, what its comment says, and which others it names."""
import re
from pathlib import Path

ROOT = Path(__file__).resolve().parent.parent
CRATES = ROOT / "crates"
KEYWORDS = ("abbrev", "unfoldable", "opaque", "pub", "record", "data")
# A word with the words behind its dots, and an operator, as `◌>>=◌`, where it is named in a list of imports.
WORD = re.compile(r"[A-Za-z_][\w'-]*(?:\.[A-Za-z_][\w'-]*)*")
USE = re.compile(r"(?:ghost |pub )*use (\S+?)(?:\.\{(.*)\}| as (\S+))?;?$")


class Definition:
    """A definition: its crate, its file, its name, the lines of its comment, and its own lines."""

    def __init__(self, file, name, comment):
        self.file, self.name, self.comment, self.lines = file, name, comment, []
        self.crate = file.relative_to(CRATES).parts[0]

    def size(self):
        return len(self.comment) + len(self.lines)

    def place(self):
        return "%s/specs/%s" % (self.crate, self.file.name)

    def sentence(self):
        """The first sentence of the comment, or nothing."""
        said = " ".join(line.strip().lstrip("-").strip() for line in self.comment)
        return said.partition(". ")[0].rstrip(".")


class Module:
    """A file of specs/: its definitions by name, and what the names in it mean."""

    def __init__(self, file):
        self.file = file
        self.definitions, self.constructors = {}, {}
        self.imports, self.aliases = {}, {}


def add_import(module, line):
    """Notes what one `use` brings: names from a module, or a module under its last word or another one."""
    path, names, other = USE.match(line).groups()
    if names is None:
        module.aliases[other or path.rpartition(".")[2]] = path
        return
    for item in filter(None, (item.strip() for item in names.split(","))):
        there, _, here = item.partition(" as ")
        inner, _, name = there.strip().rpartition(".")
        module.imports[here.strip() or name] = (path + "." + inner if inner else path, name)


def whole_uses(lines):
    """The lines, with each `use` on one line."""
    whole = []
    for line in lines:
        if whole and "use " in whole[-1] and whole[-1].count("{") > whole[-1].count("}"):
            whole[-1] += " " + line.strip()
        else:
            whole.append(line)
    return whole


def name_that_begins(line):
    """The name of the definition that begins on this line, or nothing where the line goes on with another one."""
    words = line.split()
    count = 0
    while count < len(words) and words[count] in KEYWORDS:
        count += 1
    begins = count > 0 or (len(words) > 1 and words[1] == ":")
    return words[count].rstrip(":") if begins and count < len(words) else None


def read(file):
    """The module of a file. A comment right above a definition is its own; what stands right above a block is the first one's."""
    module, current, comment, depth = Module(file), None, [], 0
    for line in whole_uses(file.read_text().splitlines()):
        text, indent = line.strip(), len(line) - len(line.lstrip())
        if not text:
            comment = []
        elif text.startswith("--"):
            comment.append(line)
        elif USE.match(text):
            add_import(module, text)
            comment = []
        elif re.match(r"(abbrev |unfoldable )?mutual$|module .* where$", text):
            current, depth = None, indent + 2
        elif text.startswith("infix"):
            comment.append(line)
        else:
            depth = min(depth, indent)
            name = name_that_begins(text) if indent == depth else None
            if name is not None:
                current = module.definitions.setdefault(name, Definition(file, name, comment))
                current.is_data = "data" in text.split(name)[0].split()
                comment = []
            if current is not None:
                current.lines += comment + [line]
                note_constructor(module, current, text, indent > depth)
            comment = []
    return module


def note_constructor(module, definition, text, inside):
    if definition.is_data and inside and " : " in text:
        module.constructors[text.split()[0]] = definition.name


def modules():
    """Each module of specs/, by the path under which a `use` knows it."""
    found = {}
    for file in sorted(CRATES.glob("*/specs/*.antt")):
        found["Rattle.%s.specs.%s" % (file.relative_to(CRATES).parts[0], file.stem)] = read(file)
    return found


def names_in(module, lines, itself=None):
    """What these lines name, as pairs of a module's path and a name; a module's own names have no path."""
    code = " ".join(line for line in lines if not line.strip().startswith("--"))
    known = {**{name: ("", name) for name in module.definitions}, **module.imports}
    known.update({name: ("", owner) for name, owner in module.constructors.items()})
    found = set()
    for word in WORD.findall(code):
        first, _, rest = word.partition(".")
        if first in known:
            found.add(known[first])
        elif first in module.aliases and rest:
            found.add((module.aliases[first], rest.partition(".")[0]))
    spaced = " %s " % code
    for name in known:
        marks = [mark for mark in name.split("◌") if mark]
        if "◌" in name and all(" %s " % mark in spaced for mark in marks):
            found.add(known[name])
    return found - {("", itself)}
