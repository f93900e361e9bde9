"""Finds the item of a script, or of the setup, that was running when a stop came inside of calls.

What calls of the script can lead to a body is read off the names of methods. Where several items can, and a way to run
a text is given, the script is run again up to one of them and no further, behind the scripts before it: a program does
the same each time, so it stops in the same way exactly where the item that led there is among those that are left.
"""
import report
from known import home, item_of, method_of, root


def reaching(program, target):
    """The names of the methods whose calls may lead to the body of a `def`; None where any may, as one is computed."""
    bodies = [node for node in program.nodes() if node.kind == "def"]
    if any(method_of(node) is None for node in bodies):
        return None
    calls = [(method_of(home(node)), node.token.text) for node in program.nodes() if node.kind == "call" and home(node)]
    found, before = {method_of(target)}, set()
    while found != before:
        before = set(found)
        found |= {caller for caller, called in calls if called in before}
    return found


def calls_to(program, target, block):
    """The calls in the block of a script that may lead to the body of a `def`."""
    names = reaching(program, target)
    return [node for node in block.walk() if node.kind == "call" and not home(node)
            and (names is None or node.token.text in names)]


def first_that_stops(program, source, items, line, run):
    """The first of some items up to which the script stops as the line says; None where it does not come out."""
    low, high = 0, len(items) - 1
    while low < high:
        middle = (low + high) // 2
        told = ends(run(front(program, source, items[middle])), program.sections[program.blocks.index(root(items[0]))])
        if line in told:
            high = middle
        elif "done" in told:
            low = middle + 1
        else:
            return None
    return items[low]


def ends(lines, section):
    """The lines of a report that tell how a script ended."""
    return [line for line, name in report.with_sections(lines) if name == section and not line.startswith("> ")]


def front(program, source, item):
    """The text of a program up to an item of its script."""
    return source[:program.tokens[item.last].stop] + b"\nend\n"


def item(program, source, node, line, block, run=None):
    """The item of a script's block during which a node was met in a body, or None where that is not known."""
    calls = calls_to(program, home(node), block)
    items = list(dict.fromkeys(map(item_of, calls)))
    if len(items) > 1 and run:
        return first_that_stops(program, source, items, line, run)
    return items[0] if len(items) == 1 else None


def token(program, node, led):
    """The name of the one call in an item that can lead to a node in a body; else the item's first token."""
    calls = [other for other in calls_to(program, home(node), root(led)) if item_of(other) is led]
    return calls[0].token if len(calls) == 1 else program.tokens[led.first]
