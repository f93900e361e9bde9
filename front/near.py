"""Finds the names that are nearest to a word that nobody knows."""


def distance(one, other):
    """How many letters must be put in, left out, changed, or swapped with the next one."""
    before, last = [], list(range(len(other) + 1))
    for row, letter in enumerate(one, 1):
        line = [row]
        for column, second in enumerate(other, 1):
            cost = min(last[column] + 1, line[-1] + 1, last[column - 1] + (letter != second))
            if row > 1 and column > 1 and letter == other[column - 2] and second == one[row - 2]:
                cost = min(cost, before[column - 2] + 1)
            line.append(cost)
        before, last = last, line
    return last[-1]


def plain(word):
    """A word without what is easily mistaken: capitals and underscores."""
    return word.lower().replace("_", "")


def nearest(word, names):
    """The names at the least distance from a word, where that is at most a third of its letters; at most two."""
    ranked = [(distance(plain(word), plain(name)), name) for name in dict.fromkeys(names) if name != word]
    least = min(ranked, default=(1, ""))[0]
    if least > len(plain(word)) // 3:
        return []
    found = [name for rank, name in ranked if rank == least]
    return found if len(found) < 3 else []


def question(word, names):
    """Asks whether one of the nearest names is meant; empty where none is near."""
    found = nearest(word, names)
    return "Is it %s?" % " or ".join("`%s`" % name for name in found) if found else ""
