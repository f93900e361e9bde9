"""Advice on a stop: the `type` lines on which it hangs, what has not run yet, what was meant, and what led there."""
import foreign
import known
import led
import near
import tokens
import tree

NUMBERS = ("first", "second", "third", "fourth")
# The value of these is never nil.
NEVER_NIL = ("number", "text", "str", "not", "operation", "new", "self")
WORDS = sorted(word for word in tokens.KEYWORDS if len(word) > 2)


class Stop:
    """A node at which something went wrong, and the advice on it so far."""

    def __init__(self, source, facts, node, block):
        self.source, self.facts, self.node = source, facts, node
        # That of the script, or the setup, which stopped; None where that is not known.
        self.block = block
        self.places, self.hints = [], []

    def mark(self, token, label):
        if token.place not in [place[:2] for place in self.places]:
            self.places.append((token.line, token.column, label))

    def say(self, *sentences):
        told = " ".join(sentence for sentence in sentences if sentence)
        if told:
            self.hints.append(told)

    def mark_type(self, given, token=None):
        """Marks the types in a `type`, or one of them."""
        if given:
            before = 2 * len(given.takes) - 1 if given.takes else 0
            opening = self.facts.program.tokens[given.last - 3 - before]
            self.mark(token or opening, "the type of %s" % (known.method_of(given) or "it"))

    def text(self, node):
        """The source of a node, where it is short."""
        found = self.facts.program.tokens
        text = self.source[found[node.first].start:found[node.last].stop].decode("latin-1")
        return text if len(text) < 40 and text.isascii() and text.isprintable() else ""


def article(word):
    return "nil" if word == "Nil" else "%s %s" % ("an" if word[0] in "AEIOU" else "a", word)


def is_or_are(count, what):
    return "%d %s%s" % (count, what, "" if count == 1 else "s")


# -- calls

def owner_of(stop):
    """The class of the object that a call is made of: the one that is known, or the only one that there is."""
    classes = stop.facts.classes()
    return stop.facts.receiver(stop.node) or (classes[0] if len(classes) == 1 else None)


def type_of_call(stop):
    """The `type` of the method that is called, which is known to have one."""
    call, facts = stop.node, stop.facts
    owner = owner_of(stop)
    if owner:
        return facts.in_force(owner, call.token.text, facts.while_runs(call))
    given = [node for node in facts.types if known.may_name(node, call.token.text)]
    return given[0] if len(given) == 1 and known.method_of(given[0]) else None


def arguments(stop):
    """The arguments of a call do not fit the type of the method."""
    given = type_of_call(stop)
    if given is None:
        return
    stop.mark_type(given)
    found, due = stop.node.parts[1:], [token.text for token in given.takes]
    if len(found) != len(due):
        stop.say("`%s` takes %s, and here %s %s." % (stop.node.token.text, is_or_are(len(due), "argument"),
                                                     "is" if len(found) == 1 else "are", len(found) or "none"))
        return
    types = [stop.facts.type_of(node) for node in found]
    doubtful = [place for place, kind in enumerate(types) if kind is None or not known.fits(kind, due[place])]
    for place in doubtful:
        sure = len(doubtful) == 1 or known.home(stop.node) or found[place].kind in NEVER_NIL
        if sure and types[place] not in (None, "Any"):
            stop.say("The %s argument is %s, and %s is due." % (
                NUMBERS[place], article(types[place]), article(due[place])))
            return


def receiver(stop):
    """A body calls a method of what is no object, as far as is known."""
    kind = stop.facts.type_of(stop.node.parts[0])
    no_object(stop, kind)


def no_object(stop, kind):
    told = foreign.hint("." + stop.node.token.text)
    if kind == "Any":
        told = "Of an Any nothing is known: a parameter that gets an object has its class for a type."
    elif kind:
        told = told or "%s has no methods." % (article(kind)[0].upper() + article(kind)[1:])
    stop.say(told)


# -- what has not run

def missing(stop, nodes, word):
    """A method has no body or no type."""
    method, owner = stop.node.token.text, owner_of(stop)
    exact = [node for node in nodes if known.method_of(node) == method]
    if any(known.method_of(node) is None and known.may_name(node, method) for node in nodes
           if owner in (None, node.owner.text)):
        exact = [node for node in exact if node.owner.text == owner]
        if not exact:
            return
    own = [node for node in exact if node.owner.text == owner]
    if own:
        stop.mark(own[0].token, "has not run yet")
        stop.say("The `%s` of line %d stands %s." % (word, own[0].token.line, where_it_is(stop, own[0]))
                 if where_it_is(stop, own[0]) else "")
    elif exact and owner:
        stop.mark(exact[0].owner, "this one is of %s" % exact[0].owner.text)
        stop.say("The object is of the class %s." % owner)
    elif not exact:
        unknown(stop, [node for node in nodes if owner in (None, node.owner.text)], word)


def where_it_is(stop, node):
    """Where a node stands that has not run yet, if that says why: in another script, or behind the call."""
    if not known.runs_once(node) or stop.block is None:
        return ""
    if stop.block is stop.facts.program.setup() is not known.root(node):
        return "in a script, and the setup runs before all scripts"
    if known.root(node) is not stop.block:
        return "in another script, which has not come to it"
    return "behind the call" if known.home(stop.node) is None and node.first > stop.node.last else ""


def unknown(stop, nodes, word):
    """No `def` or `type` has the name of the method that is called."""
    method = stop.node.token.text
    found = near.nearest(method, [known.method_of(node) for node in nodes if known.method_of(node)])
    told = foreign.hint("." + method) or foreign.hint(method)
    if found:
        stop.say("There is no `%s` of `%s`. %s" % (word, method, near.question(method, found)))
        for node in nodes:
            if known.method_of(node) == found[0]:
                return stop.mark(node.name or node.token, found[0])
    elif told:
        stop.say(told)
    else:
        names = list(dict.fromkeys("`%s`" % known.method_of(node) for node in nodes if known.method_of(node)))
        only = ", only of %s" % " and ".join(names) if 0 < len(names) < 4 else ""
        stop.say("There is no `%s` of `%s`%s." % (word, method, only), untyped(stop) if word == "type" else "")


def untyped(stop):
    """A `type` that would do for a method that has a body alone."""
    owner, method = owner_of(stop), stop.node.token.text
    bodies = stop.facts.of_method(stop.facts.bodies, owner, method) if owner else []
    if not bodies or known.method_of(bodies[0]) is None:
        return ""
    takes = ", ".join("Any" for _ in bodies[0].takes)
    return "One runs before the call, as `type %s.%s : (%s) -> Any`." % (owner, method, takes)


def no_body(stop):
    missing(stop, stop.facts.bodies, "def")


def no_type(stop):
    missing(stop, stop.facts.types, "type")


# -- bodies

def count(stop):
    """A call has too many or too few arguments, or a `def` has other parameters than its `type`."""
    if stop.node.kind == "call":
        return arguments(stop)
    given = stop.facts.own_type(stop.node)
    if given:
        stop.mark_type(given)
        if stop.node.token.line != stop.node.body.token.line:
            stop.mark(stop.node.token, "its def")
        stop.say("The `def` has %s, and the `type` has %d." % (
            is_or_are(len(stop.node.takes), "parameter"), len(given.takes)))


def result(stop):
    """A body gives a value that its method's type does not allow."""
    given = stop.facts.own_type(stop.node)
    if given:
        stop.mark_type(given, given.gives)
        kind = stop.facts.type_of(stop.node.body)
        if kind and not known.fits(kind, given.gives.text):
            stop.say("The body gives %s, and %s is due." % (
                "what is known only as Any" if kind == "Any" else article(kind), article(given.gives.text)))


# -- operators

def operand(stop):
    """An operator has a side of a wrong type, or a call has no object."""
    if stop.node.kind == "call":
        return no_object(stop, stop.facts.type_of(stop.node.parts[0]))
    due = "Str" if stop.node.token.text == "++" else "Int"
    sides = [(part, stop.facts.type_of(part)) for part in stop.node.parts]
    for (part, kind), side in zip(sides, ("left", "right")):
        if kind and not known.fits(kind, due) and (kind != "Any" or known.home(stop.node)):
            if part.kind == "call":
                given = stop.facts.type_of_call(part)
                stop.mark_type(given, given and given.gives)
            what = "known only as Any" if kind == "Any" else article(kind)
            return stop.say("The %s side of `%s` is %s, and %s is due." % (
                side, stop.node.token.text, what, article(due)), other_operator(stop, part, sides))
    return None


def other_operator(stop, part, sides):
    """What may be meant by an operator with a side of a wrong type."""
    kinds = [kind for _, kind in sides]
    if stop.node.token.text == "++":
        text = stop.text(part)
        return "Instead: `str(%s)`." % text if text else "`str(..)` makes a text of it."
    if part.kind == "not" and part is stop.node.parts[0]:
        return "`not` is of what stands right behind it. Instead: `not (.. %s ..)`." % stop.node.token.text
    if stop.node.token.text == "+" and "Str" in kinds:
        return "Texts are joined by `++`."
    return "Texts have no order." if stop.node.token.text == "<" and kinds == ["Str", "Str"] else ""


def nil_value(stop):
    """A side of an operator, or what a call is made of, is nil wherever it runs."""
    for part in stop.node.parts[:1 if stop.node.kind == "call" else 2]:
        if part.kind in ("print", "while", "def") or part.kind == "type" and part.token.text == "type":
            return stop.say("A `%s` gives nil." % part.token.text)
        if part.kind == "if" and len(part.parts) == 2 and known.home(stop.node) is None:
            return stop.say("An `if` without `else` gives nil where its condition fails.")
        if part.kind == "call" and gives_nil(stop, part):
            return None
    return None


def gives_nil(stop, call):
    """Marks the one body of a method that is called, where it gives nil each time."""
    owner = stop.facts.receiver(call)
    bodies = stop.facts.of_method(stop.facts.bodies, owner, call.token.text) if owner else []
    if len(bodies) != 1 or known.method_of(bodies[0]) is None or stop.facts.type_of(bodies[0].body) != "Nil":
        return False
    items, told = bodies[0].body.parts, "this one is nil"
    if not items:
        told = "an empty body gives nil"
    elif items[-1].kind in ("print", "while", "def", "type"):
        told = "that of a `%s` is nil" % items[-1].token.text
    stop.mark(bodies[0].token, "gives nil")
    stop.say("The last expression of a body is its value, and %s." % told)
    return True


# -- variables

def unbound(stop):
    """A variable has no value."""
    name, scope, facts = stop.node.token.text, known.home(stop.node), stop.facts
    same = [node for node in facts.assigned if node.name.text == name]
    own = [node for node in same if known.scope(node) is known.scope(stop.node)]
    methods = [node for node in facts.bodies + facts.types if known.method_of(node) == name]
    outside = [node for node in same if known.home(node) is None]
    if own:
        stop.mark(own[0].token, "may not run" if scope else "has not run yet")
    elif scope and outside:
        stop.mark(outside[0].token, "a variable of the script")
        stop.say("A body does not see the variables of the script. Instead: a parameter, and an argument for it.")
    elif outside:
        whose = "the setup" if known.root(outside[0]) is facts.program.setup() else "another script"
        stop.mark(outside[0].token, "a variable of " + whose)
        stop.say("The setup and each script have variables of their own. Instead: a method that gives the value.")
    elif methods and scope and methods[0].owner.text == scope.owner.text:
        stop.say("A call names its object. Instead: `self.%s`." % name)
    elif methods:
        stop.say("A call names its object. Instead: `%s.new.%s`." % (methods[0].owner.text, name))
    else:
        names = [node.name.text for node in facts.assigned if known.scope(node) is known.scope(stop.node)]
        names += [token.text for token in scope.takes] if scope else []
        stop.say(foreign.hint(name) or near.question(name, names + WORDS))


# -- loops

def steps(stop):
    """A loop whose condition nothing in it can change."""
    around = [stop.node] + [node for node in stop.node.above() if known.home(node) is known.home(stop.node)]
    for loop in around:
        if loop.kind != "while":
            continue
        used = {node.token.text for node in loop.parts[0].walk() if node.kind == "variable"}
        changed = {node.name.text for node in loop.walk() if node.kind == "assign" and
                   known.home(node) is known.home(loop)}
        if used and not used & changed and not any(node.kind in ("call", "type") for node in loop.parts[0].walk()):
            names = " and ".join("`%s`" % name for name in sorted(used))
            stop.mark(loop.token, "this loop")
            return stop.say("Nothing in the loop changes %s." % names)
    return None


def loop(stop):
    """A loop gives a variable another type than it had before."""
    facts, scope = stop.facts, known.home(stop.node)
    for node in facts.assigned:
        if not known.contains(stop.node, node) or known.home(node) is not scope:
            continue
        before = {facts.type_of(other.parts[0]) for other in facts.assigned if other.name.text == node.name.text
                  and known.home(other) is scope and not known.contains(stop.node, other)}
        kind = facts.type_of(node.parts[0])
        if len(before) == 1 and None not in before | {kind} and not known.fits(kind, *before):
            stop.mark(node.token, "another type")
            return stop.say("Before the loop `%s` is %s, and here it gets %s." % (
                node.name.text, article(before.pop()), article(kind)))
    return None


def no_self(stop):
    classes = stop.facts.classes()
    if len(classes) == 1:
        stop.say("A script has no object of its own. Instead: `%s.new`." % classes[0])


def busy(stop):
    """The `type` of the method that is in use, where no other one can have run since."""
    facts, node = stop.facts, stop.node
    method = known.method_of(node)
    scope = known.home(node)
    if scope is None:
        # What a script itself does it does with none of its calls open.
        others = len(facts.program.blocks) > 1
        return stop.say("A call of another script uses the type, and `--trace` shows which." if others else "")
    if method is None or stop.block is None:
        return None
    others = [other for other in facts.of_method(facts.types, node.owner.text, method) if other is not node]
    if any(known.root(other) not in (stop.block, facts.program.setup()) for other in others):
        return None
    calls = led.calls_to(facts.program, scope, stop.block)
    first = calls and known.item_of(calls[0])
    alone = first is facts.item and sum(known.item_of(call) is first for call in calls) == 1
    if len(others) == 1 and known.method_of(others[0]) and known.runs_once(others[0]) and alone and \
            others[0].first < first.first and not any(part.kind == "while" for part in first.walk()):
        stop.mark_type(others[0])
    return None


CALL, VARIABLE, EVERY = ("call",), ("variable",), ()
# For each word the kinds of nodes of which it is told, and the rule.
RULES = {
    ("stop", "BadArgs"): (CALL, arguments),
    ("stop", "NoBody"): (CALL, no_body),
    ("stop", "NoType"): (CALL, no_type),
    ("stop", "BadOperand"): (("call", "operation"), operand),
    ("stop", "NilValue"): (("call", "operation"), nil_value),
    ("stop", "Unbound"): (VARIABLE, unbound),
    ("stop", "NoSelf"): (("self",), no_self),
    ("stop", "Steps"): (EVERY, steps),
    ("stop", "Busy"): (("type",), busy),
    ("reason", "NoType"): (CALL, no_type),
    ("reason", "Unbound"): (VARIABLE, unbound),
    ("reason", "Receiver"): (CALL, receiver),
    ("reason", "Count"): (("call", "def"), count),
    ("reason", "Argument"): (CALL, arguments),
    ("reason", "Operand"): (("operation",), operand),
    ("reason", "Loop"): (("while",), loop),
    ("reason", "Result"): (("def",), result),
}


def node_at(program, place):
    """The node of a place; the `def` where it is the `end` of a body."""
    for node in program.nodes():
        if node.kind == "block" and node.parent is not None and node.parent.kind == "def" and node.token.place == place:
            return node.parent
        if node.kind != "block" and node.token.place == place:
            return node
    return None


def advice(source, line, notes, section=None, run=None):
    """The places, as lines, columns and labels, and the hints on a stop that stands in this section of a report."""
    program = tree.program(source)
    node = program and node_at(program, notes[0].place)
    if not node:
        return [], []
    inside = known.home(node) is not None
    block = program.block(section) if inside else known.root(node)
    item = block and led.item(program, source, node, line, block, run) if inside else known.item_of(node)
    stop = Stop(source, known.Known(program, item), node, block)
    for note in notes:
        at = node_at(program, note.place)
        kinds, rule = RULES.get((note.part, note.word), ((), None))
        if at and rule and (kinds is EVERY or at.kind in kinds):
            stop.node = at
            rule(stop)
    if inside and item:
        stop.mark(led.token(program, node, item), "led there")
    return stop.places, stop.hints
