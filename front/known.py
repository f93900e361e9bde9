"""What a program says of its methods and expressions, as far as reading it tells. None stands for what it does not."""
import functools

RESULTS = {"number": "Int", "text": "Str", "print": "Nil", "while": "Nil", "def": "Nil", "str": "Str", "not": "Bool",
           "<": "Bool", "==": "Bool", "+": "Int", "-": "Int", "*": "Int", "++": "Str", "true": "Bool", "false": "Bool",
           "nil": "Nil", "type": "Nil", "type?": "Bool"}


def method_of(node):
    """The name of the method that a `def` or a `type` gives something; None where it is computed."""
    if node.name is not None:
        return node.name.text
    computed = node.parts[0]
    return computed.token.text[1:-1] if computed.kind == "text" else None


def may_name(node, method):
    """Whether a `def` or a `type` may be one of this method. A computed name begins as its first text does."""
    if method_of(node) is not None:
        return method_of(node) == method
    first = node.parts[0]
    while first.kind == "operation" and first.token.text == "++":
        first = first.parts[0]
    return first.kind != "text" or method.startswith(first.token.text[1:-1])


def home(node):
    """The `def` in whose body a node stands, or None in a script."""
    inner = node
    for outer in node.above():
        if outer.kind == "def" and inner is outer.body:
            return outer
        inner = outer
    return None


def root(node):
    """The block of the setup or of the script in which a node stands."""
    for outer in node.above():
        node = outer
    return node


def scope(node):
    """What has the variables of a node: the `def` in whose body it stands, or the block of its script or setup."""
    return home(node) or root(node)


def item_of(node):
    """The item of a script in which a node stands."""
    for outer in node.above():
        if outer.parent is None:
            return node
        node = outer
    return node


def runs_once(node):
    """Whether a node runs exactly once when its script runs past it: it is in no body, branch or loop."""
    return all(outer.kind not in ("while", "if", "def") for outer in node.above())


def contains(outer, node):
    return outer.first <= node.first and node.last <= outer.last


class Known:
    """A program, and the item of the script during which something happened."""

    def __init__(self, program, item=None):
        self.program, self.item = program, item
        nodes = list(program.nodes())
        self.types = [node for node in nodes if node.kind == "type"]
        self.bodies = [node for node in nodes if node.kind == "def"]
        self.assigned = [node for node in nodes if node.kind == "assign"]
        self.asked = set()
        self.type_of = functools.lru_cache(maxsize=None)(self.look)

    def classes(self):
        return [token.text for token in self.program.classes]

    def of_method(self, nodes, owner, method):
        return [node for node in nodes if node.owner.text == owner and may_name(node, method)]

    def in_force(self, owner, method, item):
        """The `type` that a method has while an item of the script runs, where it has one, as far as is known."""
        given = self.of_method(self.types, owner, method)
        if not given or any(method_of(node) is None for node in given):
            return None
        if len(given) == 1:
            return given[0]
        given = self.seen_by(item, given)
        if not given or not all(map(runs_once, given)) or any(contains(item, node) for node in given):
            return None
        before = [node for node in given if node.first < item.first]
        return before[-1] if before else None

    def seen_by(self, item, given):
        """Those that can have run before an item, which are of its own script or of the setup; None where that is not
        known, as another script may have come before or not."""
        if item is None:
            return None
        own, setup = root(item), self.program.setup()
        if own is setup:
            return [node for node in given if root(node) is setup]
        return given if all(root(node) in (own, setup) for node in given) else None

    def while_runs(self, node):
        """The item that runs when a node does: its own in a script, and else the one that led to this place."""
        return self.item if home(node) else item_of(node)

    def look(self, node):
        """The type of a node by the rules of the checker. In a script its value has this type, or is nil."""
        if node.kind in ("new", "self"):
            owner = node.owner or (home(node) and home(node).owner)
            return owner.text if owner else None
        if node.kind == "assign":
            return self.type_of(node.parts[0])
        if node.kind == "block":
            return self.type_of(node.parts[-1]) if node.parts else "Nil"
        if node.kind == "if":
            blocks = [self.type_of(block) for block in node.parts[1:]]
            return join(*(blocks if len(blocks) == 2 else blocks + ["Nil"]))
        if node.kind == "call":
            given = self.type_of_call(node)
            return given.gives.text if given else None
        if node.kind == "variable":
            return self.type_of_variable(node)
        return RESULTS.get(node.kind) or RESULTS.get(node.token.text)

    def receiver(self, call):
        """The class of the object that a call is made of."""
        known = self.type_of(call.parts[0])
        return known if known in self.classes() else None

    def type_of_call(self, call):
        """The `type` that the method of a call has when the call runs."""
        owner = self.receiver(call)
        return self.in_force(owner, call.token.text, self.while_runs(call)) if owner else None

    def own_type(self, body):
        """The `type` that the method of a `def` has when its body is checked."""
        method = method_of(body)
        return self.in_force(body.owner.text, method, self.item) if method else None

    def type_of_variable(self, node):
        """The one type of all that is put into a variable; None where it has more than one."""
        owner, name = scope(node), node.token.text
        if (owner, name) in self.asked:
            return None
        self.asked.add((owner, name))
        found = {self.type_of(other.parts[0]) for other in self.assigned
                 if other.name.text == name and scope(other) is owner}
        for place, token in enumerate(owner.takes):
            if token.text == name:
                own = self.own_type(owner)
                found.add(own.takes[place].text if own and len(own.takes) == len(owner.takes) else None)
        self.asked.discard((owner, name))
        return found.pop() if len(found) == 1 else None


def join(one, other):
    if None in (one, other):
        return None
    if one == other or other == "Nil":
        return one
    return other if one == "Nil" else "Any"


def fits(known, due):
    """Whether a type is below another one."""
    return known in (due, "Nil") or due == "Any"
