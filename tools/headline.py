#!/usr/bin/env python3
"""Writes docs/HEADLINE.md: the contract of the top call, and all definitions that it rests on.

    tools/headline.py [--write]

Without a word it prints the page. tests/papers.py holds the file to it, and the number of lines to the ceiling.
"""
import re
import sys

import antt

PAGE = antt.ROOT / "docs/HEADLINE.md"
TOP, CALL = antt.CRATES / "hb_top/src/top.rt", "hbird"
# So many lines of definitions, at most, must be read to know what the contract says. A change that needs more says so here.
CEILING = 3750

HEAD = """# The headline, and all that it rests on

`main` makes one call, `hbird`. This is its contract, with the function's head:

```
%(contract)s
```

%(records)s
**How to read this page.** In plain words the headline stands in [PROOFS.md](PROOFS.md#the-promise-of-the-whole-program). What each name of it means stands below. A definition of depth 1 is named by the contract itself, one of depth 2 by one of depth 1 and by nothing before, and so on: read down the tables as far as you want to know. Behind each name is its file below `crates/`, the number of its lines with its comment, and the first sentence of that comment.

What is not in a table, the contract does not rest on: no other definition need be read, and no proof. Besides these there are types and constants of the code, which are listed at the end, and the kit's own words. `S.left`, `S.faults`, `K.held` and `K.faults` are what a source and a sink tell: see the two traits in `hb_io/src/device.rt`.

There are %(count)d definitions with %(lines)s lines, and `tests/papers.py` fails above %(ceiling)s. `tools/headline.py --write` makes this page anew.
"""


def contract():
    """The lines of the top call from its comment to its body, and the module of names that it uses."""
    lines = antt.whole_uses(TOP.read_text().splitlines())
    module = antt.Module(TOP)
    for line in lines:
        if line.startswith("ghost use "):
            antt.add_import(module, line)
    first = next(number for number, line in enumerate(lines) if re.match(r"pub fn %s\b" % CALL, line))
    last = lines.index("{", first)
    while lines[first - 1].startswith("///"):
        first -= 1
    return module, lines[first:last]


def resolved(modules, path, name):
    """A definition of specs/ by this path and name, or nothing where it is of the code or of the kit."""
    module = modules.get(path)
    if module is None:
        return None
    return module.definitions.get(module.constructors.get(name, name))


def closure():
    """The definitions by depth, and the paths and names of what stands in the code."""
    modules = antt.modules()
    module, lines = contract()
    clause = lines[next(number for number, line in enumerate(lines) if "ensures" in line):]
    wanted, depths, seen, code = antt.names_in(module, clause), [], set(), set()
    while wanted:
        found = {pair: resolved(modules, *pair) for pair in wanted}
        code |= {pair for pair in wanted if ".specs.declared" in pair[0]}
        depth = {definition for definition in found.values() if definition is not None} - seen
        seen |= depth
        wanted = set()
        for definition in depth:
            path = "Rattle.%s.specs.%s" % (definition.crate, definition.file.stem)
            named = antt.names_in(modules[path], definition.lines, definition.name)
            wanted |= {(there or path, name) for there, name in named}
        if depth:
            depths.append(sorted(depth, key=lambda one: (one.crate, one.file, one.name)))
    return depths, code


def row(definition):
    return "| `%s` | `%s` | %d | %s |" % (definition.name, definition.place(), definition.size(), definition.sentence().replace("|", "\\|"))


def whole(definitions, name):
    definition = next(one for one in definitions if one.name == name)
    text = "\n".join(definition.comment + definition.lines)
    return "This is `%s`, of `%s`:\n\n```\n%s\n```\n" % (name, definition.place(), text)


def by_crate(definitions):
    crates = sorted({one.crate for one in definitions})
    for crate in crates:
        sizes = [one.size() for one in definitions if one.crate == crate]
        yield "| `%s` | %d | %d |" % (crate, len(sizes), sum(sizes))


def of_the_code(code):
    """The types and constants of the code, by file. A variant counts as its type, since its path goes through it."""
    files = {}
    for path, name in code:
        crate, _, inner = path.removeprefix("Rattle.").partition(".specs.declared")
        parts = inner.strip(".").split(".")
        if (antt.CRATES / crate).is_dir():
            item = parts[1] if parts[-1] == "TheVariants" else name
            files.setdefault("%s/src/%s.rt" % (crate, parts[0]), set()).add(item)
    return sorted(files.items())


def page(depths, code):
    definitions = [one for depth in depths for one in depth]
    yield HEAD % {
        "contract": "\n".join(contract()[1]),
        "records": "\n".join(whole(definitions, name) for name in ("Answers", "IsReported", "Ran")),
        "count": len(definitions),
        "lines": "{:,}".format(sum(one.size() for one in definitions)),
        "ceiling": "{:,}".format(CEILING),
    }
    yield "## By crates\n\n| crate | definitions | lines |\n|---|---:|---:|"
    yield from by_crate(definitions)
    for number, depth in enumerate(depths, 1):
        yield "\n## Depth %d\n\n| definition | file | lines | it says |\n|---|---|---:|---|" % number
        yield from map(row, depth)
    yield "\n## Of the code\n\nWhat these definitions name of the code itself: its types and constants.\n\n| file | names |\n|---|---|"
    for file, items in of_the_code(code):
        yield "| `%s` | %s |" % (file, ", ".join("`%s`" % item for item in sorted(items)))


def text():
    return "\n".join(page(*closure())) + "\n"


def faults():
    """What is wrong with the page, and with how much it lists."""
    depths, _ = closure()
    lines = sum(one.size() for depth in depths for one in depth)
    if lines > CEILING:
        yield "the headline rests on %d lines of definitions, above the ceiling of %d in tools/headline.py" % (lines, CEILING)
    if not PAGE.is_file() or PAGE.read_text() != text():
        yield "docs/HEADLINE.md is not what tools/headline.py prints; tools/headline.py --write writes it"


def unsaid():
    """The definitions whose comment says nothing."""
    return [one for depth in closure()[0] for one in depth if not one.sentence()]


def main():
    if sys.argv[1:] == ["--write"]:
        PAGE.write_text(text())
    else:
        sys.stdout.write(text())


if __name__ == "__main__":
    main()
