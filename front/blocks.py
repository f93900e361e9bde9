"""Pairs what opens a block or a parenthesis with what closes it."""

OPENERS = ("setup", "script", "def", "if", "while", "(")
CLOSERS = ("end", ")")
# These stand outside of all blocks.
OUTER = ("class", "setup", "script")


def word_of(token):
    """The token's text where it is a word or a mark of the language, and else nothing."""
    return token.text if token.kind in ("keyword", "mark") else ""


class Misfit(Exception):
    """A token that opens or closes and has no partner: its number, and what is to be said of it."""

    def __init__(self, number, message):
        super().__init__(message)
        self.number = number


def pair(found):
    """The number of the closing token for each opening one, and the misfit that is found first, or None.

    Behind a misfit it goes on: what was not closed ends where the block around it does, or with the text.
    """
    pairs, open_ones, misfits = {}, [], []

    def top():
        return word_of(found[open_ones[-1]]) if open_ones else ""

    def close(number):
        pairs[open_ones.pop()] = number

    def leave(number, wanted):
        """Ends what lies above the nearest opener that is wanted."""
        while open_ones and not wanted(top()):
            misfits.append(Misfit(open_ones[-1], "this %s is not closed" % top()))
            close(number)

    for number, token in enumerate(found):
        word = word_of(token)
        if word in OUTER or token.kind == "end":
            leave(number, lambda opener: False)
        if word in ("end", "else"):
            leave(number, lambda opener: opener != "(")
        if word in OPENERS:
            open_ones.append(number)
        elif word in CLOSERS and (not open_ones or (word == ")") != (top() == "(")):
            misfits.append(Misfit(number, "nothing is open that this %s could close" % word))
        elif word in CLOSERS:
            close(number)
        elif word == "else" and top() != "if":
            misfits.append(Misfit(number, "this else belongs to no if"))
    return pairs, misfits[0] if misfits else None
