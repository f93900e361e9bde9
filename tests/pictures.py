"""Draws each example on several scripts, tries the words of hb trace, and goes through its page where a browser is installed.

    python3 tests/pictures.py [--write] PATH_TO_HBIRD

The pictures stand in docs/pictures. With --write they are drawn anew, to be looked at. Of the programs whose scripts may
come to several reports each is drawn by one order.
"""
import os
import re
import subprocess
import sys
import tempfile
from pathlib import Path

import browser
from examples import options
from markdown import ROOT

PICTURES = ROOT / "docs/pictures"
PROGRAM = os.path.abspath(sys.argv[-1])
HB = str(ROOT / "hb")
# A type that is refused twice, since a call of the first script holds it.
IN_USE = ROOT / "examples/in_use.hb"
ORDER = "--order=111222"
# The order by which scripts are drawn that run at once.
AT_ONCE = "--order=12"
LOOP = b"class A\nscript main\ntype A.f : () -> Int\ndef A.f() 1 end\ni = 0\nwhile i < 1000 do A.new.f; i = i + 1 end\nend\n"
ENDED = b"class A\nscript one\ntype A.f : () -> Int\nA.new.f\nend\n"

WORDS = [
    # the words, the status, and what is said on standard error
    (["a.hb"], 0, ""), (["a.hb", "-o", "a.svg"], 0, ""), (["-o", "a.html", "a.hb"], 0, ""), (["--", "a.hb"], 0, ""),
    (["a.hb", "--order", "1", "--steps=9"], 0, ""), (["a.hb", "--from=2"], 0, ""), (["a.hb", "--from", "99999"], 0, ""),
    ([], 2, "hb: hb trace takes one file, that of the program; hb help tells more\n"),
    (["a.hb", "b.hb"], 2, "hb: hb trace takes one file, that of the program; hb help tells more\n"),
    (["a.hb", "--form=1"], 2, "hb: there is no option --form; is it --from?\n"),
    (["a.hb", "--from=0"], 2, "hb: --from wants the number of an act, the first of which is 1\n"),
    (["a.hb", "-o"], 2, "hb: -o wants a value\n"),
    (["a.hb", "-o", "no/such.svg"], 5, "hb: no/such.svg: No such file or directory\n"),
    (["nosuch.hb"], 4, "hb: nosuch.hb: No such file or directory\n"),
    (["a.hb", "--order=h"], 2, "hb: --order=h: the value of --order is 1 to 10,000 characters, each one of 1 to 9 and a to g\n"),
]


def trace(words, folder=ROOT):
    done = subprocess.run([HB, "trace", *words], cwd=folder, capture_output=True, env=dict(os.environ, HBIRD=PROGRAM), stdin=subprocess.DEVNULL)
    return done.stdout.decode(), done.returncode, done.stderr.decode()


def has_several_scripts(text):
    return len(re.findall(rb"^script ", text.read_bytes(), re.M)) > 1


def drawn():
    """The examples on several scripts, with the pictures that are due."""
    for text in sorted((ROOT / "examples").glob("*.hb")):
        if has_several_scripts(text):
            yield text.stem, picture(text, [word for word in options(text) if word != "--trace"])
    for text in sorted((ROOT / "examples/threads").glob("*.hb")):
        yield "threads_" + text.stem, picture(text, [AT_ONCE])


def picture(text, words):
    with tempfile.TemporaryDirectory() as folder:
        file = Path(folder, "drawn.svg")
        _, status, says = trace([str(text), *words, "-o", str(file)])
        return file.read_text() if status == 0 else "status %d: %s" % (status, says)


def pictures_are_due():
    names = set()
    for name, due in drawn():
        file = PICTURES / (name + ".svg")
        names.add(file.name)
        if not file.exists() or file.read_text() != due:
            yield "%s is not what is drawn of the example; --write draws it" % file.relative_to(ROOT)
    for file in PICTURES.glob("*"):
        if file.name not in names:
            yield "%s belongs to no example" % file.name


def refusals_have_arrows():
    """Both changes of the type that the first script holds have an arrow to the bar of its call."""
    text = picture(IN_USE, [ORDER])
    arrows = re.findall(r'class="refusal" d="M(\d+) (\d+)L(\d+) (\d+)"', text)
    bars = re.findall(r'class="pin hue\d" x="(\d+)" y="(\d+)" width="6" height="(\d+)" rx="3"><title>call 1 of script one holds the type of A.g', text)
    if len(arrows) != 2 or not bars:
        yield "in_use.hb has %d arrows and %d bars" % (len(arrows), len(bars))
    for x, y, end, same in arrows:
        if y != same or not any(int(end) - int(left) == 7 and int(top) <= int(y) <= int(top) + int(height) for left, top, height in bars):
            yield "an arrow of in_use.hb does not end at a bar"


def words_are_told():
    with tempfile.TemporaryDirectory() as folder:
        Path(folder, "a.hb").write_bytes(ENDED)
        Path(folder, "bad.hb").write_bytes(b"class A\nscript main\n")
        for words, *due in WORDS:
            out, *found = trace(words, folder)
            if found != due:
                yield "hb trace %s: %r, due is %r" % (" ".join(words), found, due)
        out, status, says = trace(["bad.hb"], folder)
        if (out, status) != ("", 1) or "text Expected end bad.hb:3:1" not in says:
            yield "a text that is no program: %r" % ((out, status, says),)


def long_runs_have_a_window():
    """Of 3,002 acts 2,000 are drawn, and the page says so."""
    with tempfile.TemporaryDirectory() as folder:
        Path(folder, "loop.hb").write_bytes(LOOP)
        for first, shown in ((1, "acts 1 to 2000"), (2001, "acts 2001 to 3002")):
            out = trace(["loop.hb", "--from=%d" % first], folder)[0]
            if "3002 acts, shown are %s;" % shown not in out or len(out) > 2000000:
                yield "a long run from %d: %s, %d bytes" % (first, re.findall("<h1>.*", out), len(out))


def page_is_driven():
    """Keys, the slider, a click and the address go from act to act; the tables and the sentence are those of the act."""
    with tempfile.TemporaryDirectory() as folder, browser.page() as page:
        file = Path(folder, "drawn.html")
        trace([str(IN_USE), ORDER, "-o", str(file)])
        page.open(file.as_uri())
        act, cell = "document.querySelector('#act').textContent", "[...document.querySelectorAll('#tables tbody tr')].map(row => row.textContent)"
        steps = [("", lambda: None, "1. the setup: type A.g 5:1"),
                 ("ArrowDown", lambda: page.press("ArrowDown"), "2. the setup: def A.g 6:1"),
                 ("End", lambda: page.press("End"), "14. script one: free A.g"),
                 ("PageUp", lambda: page.press("PageUp"), "4. the setup: def A.f 8:1"),
                 ("Home", lambda: page.press("Home"), "1. the setup: type A.g 5:1"),
                 ("the slider", lambda: page.value("slider.value = 6; slider.dispatchEvent(new Event('input'))"), "7. script one: call A.f: enter fresh"),
                 ("the button", lambda: page.click("#on"), "8. script two: type A.g: refused, it is in use"),
                 ("a click", lambda: page.click("#row8 .label"), "9. script two: type A.g: refused, it is in use")]
        for name, step, due in steps:
            step()
            if page.value(act) != due:
                yield "%s: %s, due is %s" % (name, page.value(act), due)
        if page.value("location.hash") != "#9" or "in use by call 1 of script one (A.f)" not in page.value("document.querySelector('#why').textContent"):
            yield "the address or the sentence of act 9"
        if page.value(cell) != ["A.g5:116:1script one, call 1 (A.f)", "A.f7:118:1script one, call 1 (A.f)"]:
            yield "the tables at act 9: %s" % page.value(cell)


def main():
    if "--write" in sys.argv:
        PICTURES.mkdir(exist_ok=True)
        for name, due in drawn():
            (PICTURES / (name + ".svg")).write_text(due)
    parts = [pictures_are_due, refusals_have_arrows, words_are_told, long_runs_have_a_window]
    fault = browser.fault()
    if fault:
        print("check: skipped: %s: the page of hb trace" % fault)
    else:
        parts.append(page_is_driven)
    wrong = [message for part in parts for message in part()]
    for message in wrong:
        print("pictures: " + message)
    return 1 if wrong else 0


if __name__ == "__main__":
    sys.exit(main())
