"""Tries the page: its one file is made of its parts, and in a browser it does what the program does.

    python3 tests/page.py PATH_TO_HBIRD

Where Chromium is installed, programs and texts at the edges run in the page and by the program, and each status and all
that is written must be the same; the pictures of both fronts too; and typing, running, going through the picture and the
address are tried by keys and clicks.
"""
import base64
import json
import os
import subprocess
import sys
import tempfile
from pathlib import Path

import browser
from examples import options
from made import broken, programs
from markdown import ROOT

sys.path[:0] = [str(ROOT / "front"), str(ROOT / "page")]
import acts  # noqa: E402
import build  # noqa: E402
import picture  # noqa: E402
import timeline  # noqa: E402

PROGRAM = os.path.abspath(sys.argv[-1])
MOST = 307200
ORDERS = ["1", "12", "21", "112212", "2121", "12" * 40, "1111112"]
DEEP = b"script main\nprint " + b"(" * 20000 + b"1" + b")" * 20000 + b"\nend\n"
FRAMES = (b"class A\nscript main\ntype A.f : (Int) -> Int\ndef A.f(x) if x < 1 then 0 else " + b"1 + (" * 240 + b"self.f(x - 1)"
          + b")" * 240 + b" end end\nprint A.new.f(4090)\nend\n")
# Words and bytes at the edges.
EDGES = [
    (["run"], b""), (["run"], b" " * 1048576), (["run"], b" " * 1048577), (["run"], DEEP), (["run", "--order=1"], FRAMES),
    (["run"], b'script main\nprint "\xff\xfe"\nend\n'), (["run"], 'script main\nprint "ä"\nend\n'.encode()),
    (["run"], b"script main\nwhile true do 1 end\nend\n"), (["run", "--steps=2000000"], b"script main\nwhile true do 1 end\nend\n"),
    (["run", "--steps=9", "--trace"], b"class A\nscript main\ntype A.f : () -> Int\ndef A.f() 1 end\nprint A.new.f\nend\n"),
    (["run", "--versions=1"], b"class A\nscript main\ntype A.f : () -> Int\ntype A.f : () -> Int\nend\n"), (["run", "--order=h"], b""),
    (["run", "--steps=0"], b""), (["run", "5"], b""), ([], b""), (["walk"], b""), (["gen", "3"], b""), (["gen", "200"], b""), (["gen", "201"], b""),
    (["work", "1"], b""), (["derive"], b"class A\nscript main\nend"), (["verify"], b"program x"), (["verify"], b"program 0\n\n"),
]


def cases():
    """Words and bytes whose answer is the program's: with turns, or of one script."""
    found = list(EDGES)
    for folder in ("examples", "examples/stops"):
        for text in sorted((ROOT / folder).glob("*.hb")):
            words = [word for word in options(text) if not word.startswith("--order")]
            order = [word for word in options(text) if word.startswith("--order")] or ["--order=12"]
            found.append((["run", *words, *order], text.read_bytes()))
    for number, text in enumerate(programs(160, 41) + broken(40, 42)):
        found.append((["run", "--trace", "--order=" + ORDERS[number % len(ORDERS)], "--steps=%d" % (50 + 200 * (number % 9))], text))
    return found


def page_is_made():
    """The page is made of its parts, and of the module that stands beside it; and it is small."""
    if build.PAGE.read_text() != build.page():
        yield "page/hbird.html is not what page/build.py --page makes"
    if build.PAGE.stat().st_size > MOST:
        yield "the page has %d bytes" % build.PAGE.stat().st_size


def does_the_same(page):
    """Each case comes to the same in the page and by the program."""
    for words, text in cases():
        done = subprocess.run([PROGRAM, *words], input=text, stdout=subprocess.PIPE)
        script = """run(new TextEncoder().encode(%s), fromText(%s)).then(([status, out]) => {
            let letters = ""; for (let at = 0; at < out.length; at += 8192) letters += String.fromCharCode(...out.slice(at, at + 8192));
            return [status, btoa(letters)]; })""" % (json.dumps("\n".join(words)), json.dumps(base64.b64encode(text).decode()))
        found = page.value(script)
        if not found or (found[0], base64.b64decode(found[1])) != (done.returncode, done.stdout):
            yield "%s on %r..: %s, and the program ends with %d" % (" ".join(words), text[:60], found and found[0], done.returncode)


def draws_the_same(page):
    """A picture that the page draws is the one that hb draws."""
    for text in sorted((ROOT / "examples").glob("*.hb")):
        source = text.read_bytes()
        out = subprocess.run([PROGRAM, "run", "--trace", "--order=1212121"], input=source, stdout=subprocess.PIPE).stdout.decode()
        lines = out.split("\n")[out.split("\n").index("trace") + 1:]
        due = picture.Picture(timeline.Timeline(lines, source, True), 0, 2000).svg("history")
        drawn = page.value("new Picture(new Timeline(%s, %s, true, sentences), 0, MOST, pictureStyle).svg('history')"
                           % (json.dumps(lines), json.dumps(acts.callers(source))))
        if drawn != due:
            yield "%s: the pictures differ" % text.name


def is_driven(page):
    """Typing, running, stepping through the picture, the mark of a wrong text, and the address."""
    report, act = "document.querySelector('#report').innerText", "document.querySelector('#act').textContent"
    page.value("document.querySelector('#program').focus(); document.querySelector('#program').select()")
    page.call("Input.insertText", text="class A\nscript main\ntype A.f : () -> Int\ndef A.f() 1 end\nprint A.new.f\n")
    page.value("runAndShow()")
    if "text Expected end 6:1" not in page.value(report) or "   6 | \n     | ^" not in page.value(report):
        yield "a wrong text: %r" % page.value(report)
    page.call("Input.insertText", text="end\n")
    page.click("#run")
    page.value("runAndShow()")
    if page.value(report).strip() != "script main\n> 1\ndone\ncalls 1 own 0 shared 0 fresh 1":
        yield "a text that was typed: %r" % page.value(report)
    page.value("document.querySelector('#picture').focus()")
    found = [page.value(act)]
    for key in ("ArrowDown", "End", "Home"):
        page.press(key)
        found.append(page.value(act))
    if found != ["1. script main: type A.f 3:1", "2. script main: def A.f 4:1", "5. script main: free A.f", "1. script main: type A.f 3:1"]:
        yield "keys: %s" % found
    # The address alone brings the text and its options back.
    page.value("document.querySelector('#order').value = '11'; runAndShow()")
    address = page.value("location.href")
    page.open("about:blank")
    page.open(address)
    page.value("ready")
    if page.value("document.querySelector('#program').value.split('\\n').length") != 7 or page.value("document.querySelector('#order').value") != "11":
        yield "the address"


def main():
    wrong = list(page_is_made())
    fault = browser.fault()
    if fault:
        print("check: skipped: %s: the page in a browser" % fault)
    else:
        with browser.page() as page, tempfile.TemporaryDirectory() as folder:
            copy = Path(folder, "page.html")
            copy.write_bytes(build.PAGE.read_bytes())
            page.open(copy.as_uri())
            page.value("ready")
            for part in (does_the_same, draws_the_same, is_driven):
                wrong += part(page)
    for message in wrong:
        print("page: " + message)
    print("the page: %d cases, %d wrong" % (len(cases()), len(wrong)))
    return 1 if wrong else 0


if __name__ == "__main__":
    sys.exit(main())
