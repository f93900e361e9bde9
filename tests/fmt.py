"""Indents the programs of the repository and made ones by hb fmt, and sees that nothing else of them changes.

    python3 tests/fmt.py [PROGRAM]

Made texts come from a fixed seed, so each run tries the same. With a program
that is built, each one also runs before and after, and its report stays the
same but for the columns that moved.
"""
import os
import re
import subprocess
import sys
from concurrent.futures import ThreadPoolExecutor

import made
from markdown import ROOT

sys.path.insert(0, str(ROOT / "front"))
import fmt  # noqa: E402
import tokens  # noqa: E402

COUNT = 1000

# A text and what it becomes; where one text stands alone, it stays as it is.
ROWS = [
    ("",), ("\n\n",), (" \n", "\n"), ("  # a comment  \n\t\n# one more", "# a comment\n\n# one more"),
    ("class A\r\nscript s\r\n  x\r\nend\r\n", "class A\nscript s\nx\nend\n"),
    # a script and a setup do not indent; def, if and while do
    ("setup\n x\nend\nscript s\n x\nend", "setup\nx\nend\nscript s\nx\nend"),
    ("script s\nif a then\nb\nelse\nwhile c do\nd\nend\nend\nend\n",
     "script s\nif a then\n  b\nelse\n  while c do\n    d\n  end\nend\nend\n"),
    ("script s\ndef A.m(x)\n# why\n\ny\n\n# at its end\nend\nend\n",
     "script s\ndef A.m(x)\n  # why\n\n  y\n\n  # at its end\nend\nend\n"),
    # several that open on a line indent once
    ("script s\nif a then while b do\nc\nend end\nd\nend", "script s\nif a then while b do\n  c\nend end\nd\nend"),
    ("script s\nx.m(if a then\nb\nelse\nc\nend)\nend", "script s\nx.m(if a then\n  b\nelse\n  c\nend)\nend"),
    ("script s\nif a then b end; while c do\nd\nend\nend", "script s\nif a then b end; while c do\n  d\nend\nend"),
    # a line that goes on
    ("script s\nx = 1 +\n2 +\n# three\n\n3\ny\nend", "script s\nx = 1 +\n  2 +\n  # three\n\n  3\ny\nend"),
    ("script s\ndef A.m() print\nnot\na; b\nend\nend", "script s\ndef A.m() print\n    not\n    a; b\nend\nend"),
    ("script s\nx =\nif a <\nb then\nc\nend\nend", "script s\nx =\n  if a <\n      b then\n    c\n  end\nend"),
    ("script s\nx.m(\n1,\n2 +\n3\n)\nend", "script s\nx.m(\n  1,\n  2 +\n  3\n)\nend"),
    # blanks inside of a line stay, and words in texts and comments open nothing
    ("script s\n x  =\t1 ;  y\nend", "script s\nx  =\t1 ;  y\nend"),
    ('script s\nx = "if ("\ny = 1 # def A.m()\nz # x +\nend',),
]

# A text that stays as it is, since it cannot be indented: the place, and why.
REFUSED = [
    ("script s\nx = \"a\n  end", (2, 5), "this is no token"), ("script s\n?\nend", (2, 1), "this is no token"),
    ("script s\nend\nend", (3, 1), "nothing is open that this end could close"),
    ("script s\nx)\nend", (2, 2), "nothing is open that this ) could close"),
    ("script s\n(x\nend", (2, 1), "this ( is not closed"), ("script s\nx", (1, 1), "this script is not closed"),
    ("script s\nif a then\nscript t\nend", (2, 1), "this if is not closed"),
    ("script s\nwhile a do else end\nend", (2, 12), "this else belongs to no if"),
    ("script s\nx.m(if a then 1 ) end\nend", (2, 17), "nothing is open that this ) could close"),
]

PLACE = re.compile(rb"(?<= )(\d+):(\d+)")


def said(found):
    """The tokens without their places."""
    return [(token.kind, token.text) for token in found]


def rows_are_right():
    for text, *due in ROWS:
        came = fmt.formatted(text.encode()).decode()
        if came != (due or [text])[0]:
            yield "%r: %r is due, and %r came" % (text, (due or [text])[0], came)
    for text, place, why in REFUSED:
        try:
            yield "%r: no refusal came, but %r" % (text, fmt.formatted(text.encode()))
        except fmt.Unfit as unfit:
            if (unfit.token.place, str(unfit)) != (place, why):
                yield "%r: %r came at %s" % (text, str(unfit), unfit.token.place)


def repository_is_indented():
    for file in sorted(ROOT.glob("**/*.hb")):
        if fmt.formatted(file.read_bytes()) != file.read_bytes():
            yield "%s: hb fmt would change it" % file.relative_to(ROOT)


def is_kept(text, due):
    """What of a text is not kept: its tokens, its lines but for the blanks around them, and what is indented already."""
    if said(tokens.tokens(due)) != said(tokens.tokens(text)):
        yield "%r: its tokens change" % text
    if [line.strip(b" \t\r") for line in text.split(b"\n")] != [line.lstrip(b" ") for line in due.split(b"\n")]:
        yield "%r: more changes than blanks around lines" % text
    if fmt.formatted(due) != due:
        yield "%r: what was indented is indented anew" % text


def answer(program, text):
    """What the program answers, with each column counted from the first byte of its line that is no blank."""
    lines = text.split(b"\n")

    def bare(found):
        line = lines[int(found[1]) - 1]
        return b"%s:%d" % (found[1], int(found[2]) - (len(line) - len(line.lstrip(b" \t\r"))))
    done = subprocess.run([program, "run"], input=text, stdout=subprocess.PIPE)
    ends = re.compile(rb"^(?:stop|text) .*$", re.M)
    return ends.sub(lambda line: PLACE.sub(bare, line[0]), done.stdout), done.returncode


def runs_alike(program, text, due):
    before, after = answer(program, text), answer(program, due)
    if before != after:
        return "%r: its report %r becomes %r" % (text, before, after)
    # A text that is no program would say little; a few pass a limit.
    return None if before[1] in (0, 6) or before[0].startswith(b"text TooMany") else (
        "%r: the program says %r" % (text, before))


def is_refused_rightly(program, text):
    """No program is refused, and a token that is none is seen where the program sees it."""
    told = answer(program, text)[0]
    try:
        fmt.formatted(text)
    except fmt.Unfit as unfit:
        if not told.startswith(b"text "):
            return "%r: %s, and the program says %r" % (text, unfit, told)
        return None
    return "%r: %r is not seen" % (text, told) if re.match(b"text (BadByte|BadEscape|OpenText)", told) else None


def main():
    texts = made.programs(COUNT)
    due = [fmt.formatted(text) for text in texts]
    wrong = [*rows_are_right(), *repository_is_indented()]
    wrong += [message for pair in zip(texts, due) for message in is_kept(*pair)]
    program = sys.argv[1] if len(sys.argv) > 1 else None
    if program and os.access(program, os.X_OK):
        with ThreadPoolExecutor() as pool:
            wrong += filter(None, pool.map(lambda pair: runs_alike(program, *pair), zip(texts, due)))
            wrong += filter(None, pool.map(lambda text: is_refused_rightly(program, text), made.broken(COUNT)))
    for message in wrong[:20]:
        print(message[:2000])
    print("hb fmt: %d made texts, %d wrong" % (len(texts), len(wrong)))
    return 1 if wrong else 0


if __name__ == "__main__":
    sys.exit(main())
