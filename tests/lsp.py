"""Tries hb lsp by a client that speaks its protocol, with a program that answers what a text asks of it.

    python3 tests/lsp.py [PROGRAM]

With a program that is built, the examples are opened too, and what is shown of
each is what stands in its report.
"""
import json
import os
import random
import re
import signal
import subprocess
import sys
import tempfile
import threading
import time
from pathlib import Path

import made
from front import HB, ROOT, Room

sys.path.insert(0, str(ROOT / "front"))
import fmt  # noqa: E402

# The program does what the first line of a text says behind its `#`, in the shell.
FAKE = """#!/bin/sh
case $2 in --steps=*) case $TAKES in steps) ;; *) echo "words refused"; exit 2 ;; esac ;; esac
IFS= read -r line
eval "${line#?}"
"""

TEXT = """\
# echo 'stop IllTyped 9:16 Operand 7:39'; exit 6
class Shop
class Other
script main
type Shop.price : () -> Int
type Shop.total :
    (Int) -> Int; def Shop.total(n) n * self.price end
type Other.total : () -> Int
print Shop.new.total(3)
shop.total(4)
def Shop.price() 5
  def Other.("x" ++ str(self.total(1)))(a, b) 1 end
end
end
"""


# A server that gives a run more time: on a machine that does much else a second may be short.
PATIENT = [sys.executable, "-B", "-c", "import sys; sys.path.insert(0, %r); import hb, runs; runs.SECONDS = 20; "
           "sys.exit(hb.guarded(['lsp']))" % str(ROOT / "front")]


class Client:
    """A client with its server. What the server says on standard error is kept in a file."""

    def __init__(self, room, server=PATIENT, **env):
        self.errors = tempfile.TemporaryFile()
        env = {**os.environ, "HBIRD": str(room.program), **env}
        self.process = subprocess.Popen(server, stdin=subprocess.PIPE, stdout=subprocess.PIPE,
                                        stderr=self.errors, cwd=room.folder, env=env)
        self.number, self.notices = 0, []
        # A server that hangs is ended, so that its input ends.
        self.timer = threading.Timer(60, self.process.kill)
        self.timer.daemon = True
        self.timer.start()

    def send(self, message):
        self.send_raw(json.dumps(dict(message, jsonrpc="2.0")).encode())

    def send_raw(self, body):
        self.process.stdin.write(b"Content-Length: %d\r\n\r\n" % len(body) + body)
        self.process.stdin.flush()

    def read(self):
        length = None
        for line in iter(self.process.stdout.readline, b"\r\n"):
            if not line:
                raise EOFError("the server has ended")
            length = int(line.split(b":")[1])
        return json.loads(self.process.stdout.read(length))

    def answer(self):
        """The next message that is an answer; what is only told before it is kept."""
        while True:
            message = self.read()
            if "method" not in message:
                return message
            self.notices.append(message)

    def ask(self, method, **params):
        self.number += 1
        self.send({"id": self.number, "method": method, "params": params})
        answer = self.answer()
        assert answer["id"] == self.number, answer
        return answer.get("result") if "error" not in answer else answer["error"]["code"]

    def tell(self, method, **params):
        self.send({"method": method, "params": params})

    def start(self, **capabilities):
        found = self.ask("initialize", capabilities=capabilities, processId=None, rootUri=None)
        self.tell("initialized")
        return found

    def open(self, text, uri="file:///a.hb"):
        """What the server shows of a text that is opened."""
        self.tell("textDocument/didOpen", textDocument={"uri": uri, "languageId": "hbird", "version": 1, "text": text})
        return self.shown()

    def shown(self):
        message = self.notices.pop(0) if self.notices else self.read()
        assert message["method"] == "textDocument/publishDiagnostics", message
        return message["params"]["diagnostics"]

    def at(self, what, line, character, uri="file:///a.hb"):
        return self.ask("textDocument/" + what, textDocument={"uri": uri},
                        position={"line": line, "character": character})

    def end(self, politely=True):
        """How the server ends, and what it said on standard error."""
        if politely and self.process.poll() is None:
            self.ask("shutdown")
            self.tell("exit")
        self.process.stdin.close()
        status = self.process.wait(20)
        self.timer.cancel()
        self.process.stdout.close()
        self.errors.seek(0)
        return status, self.errors.read().decode()


def places(ranges):
    """Ranges as line, first and last column; and the last line where it is another."""
    found = []
    for item in ranges:
        start, end = item["range"]["start"], item["range"]["end"]
        last = (end["line"],) if end["line"] != start["line"] else ()
        found.append((start["line"], start["character"], *last, end["character"]))
    return found


def try_start(room):
    client = Client(room)
    room.expect("a request before initialize", client.ask("textDocument/hover"), -32002)
    found = client.start()
    room.expect("initialize", (found["serverInfo"]["name"], found["capabilities"]["positionEncoding"]), ("hb", "utf-16"))
    room.expect("initialize again", client.ask("initialize", capabilities={}), -32600)
    room.expect("an unknown method", client.ask("textDocument/rename"), -32601)
    room.expect("shutdown", client.ask("shutdown"), None)
    room.expect("a request behind shutdown", client.at("hover", 0, 0), -32600)
    client.tell("exit")
    room.expect("the end", client.end(False), (0, ""))
    client = Client(room)
    found = client.start(general={"positionEncodings": ["utf-32", "utf-8", "utf-16"]})
    room.expect("positions in bytes", found["capabilities"]["positionEncoding"], "utf-8")
    room.expect("an end without shutdown", client.end(False), (1, ""))


def try_diagnostics(room):
    client = Client(room)
    client.start()
    shown = client.open(TEXT)
    room.expect("a stop with a reason", [(one["code"], one["severity"]) for one in shown], [("IllTyped", 1), ("Operand", 1)])
    room.expect("its places", places(shown), [(8, 15, 20), (6, 38, 39)])
    room.expect("its words", shown[1]["message"], "Operand: The body has an operator with an operand of a wrong type.")
    room.expect("the other place", [places([one["relatedInformation"][0]["location"]])[0] for one in shown],
                [places(shown)[1], places(shown)[0]])
    client.end()


ANSWERS = [
    # what the program writes and its status, and what is shown: the places, the word, the severity
    ("echo 'script s'; echo '> stop Busy 2:1'; echo done; echo 'calls 0 own 0 shared 0 fresh 0'", []),
    ("", []), ("echo 'stop Newer 2:7'; exit 6", [(1, 6, 9, "Newer", 1)]),
    ("echo 'text Expected end 4:1'; exit 1", [(3, 0, 0, "Expected end", 1)]),
    ("echo 'text Expected ) 2:10'; exit 1", [(1, 9, 9, "Expected )", 1)]),
    ("echo 'text TooLong'; exit 1", [(0, 0, 0, "TooLong", 1)]),
    ("echo 'stop Busy 99:1'; exit 6", [(3, 0, 0, "Busy", 1)]),
    ("exit 3", [(0, 0, 0, "hb", 3)]), ("kill -9 $$", [(0, 0, 0, "hb", 3)]),
]
# Programs that do not end by themselves, and by which words of theirs they are known.
MARK = "99.%d" % os.getpid()
ENDLESS = [form.replace("99", MARK) for form in ("sleep 99", "sleep 99 & sleep 99", "sleep 99 & exit 0")]
STOPPED = "no report came within a second, and the run was stopped"


def try_answers(room):
    for takes in ("nothing", "steps"):
        client = Client(room, TAKES=takes)
        client.start()
        for number, (does, due) in enumerate(ANSWERS):
            shown = client.open("# %s\nclass Abc\nscript s\n" % does, "file:///%d.hb" % number)
            found = [(*place, one["code"], one["severity"]) for place, one in zip(places(shown), shown)]
            room.expect("what is shown of %s" % does, found, due)
        room.expect("the end", client.end(), (0, ""))
    client = Client(room, HBIRD="/nosuch")
    client.start()
    room.expect("no program", client.open("# \n")[0]["message"], "/nosuch: No such file or directory")
    client.end()


def try_endless(room):
    """A run is stopped after a second, with all that it has started."""
    client = Client(room, [HB, "lsp"])
    client.start()
    for number, does in enumerate(ENDLESS):
        begun = time.monotonic()
        shown = client.open("# %s\n" % does, "file:///%d.hb" % number)
        took = time.monotonic() - begun
        room.expect("what is shown of %s" % does, [one["message"] for one in shown], [STOPPED])
        room.expect("%s: how long that takes" % does, 1 <= took < 5, True)
    room.expect("programs that still run", running(), 0)
    room.expect("the end", client.end(), (0, ""))


def running():
    """How many of the programs run, once all that were ended are gone."""
    found, until = 1, time.monotonic() + 10
    while found and time.monotonic() < until:
        found = 0
        for words in Path("/proc").glob("[0-9]*/cmdline"):
            try:
                found += MARK.encode() in words.read_bytes()
            except OSError:
                pass
    return found


def try_saves(room):
    """A save runs the text anew, and ends a run of it that is under way; so does the server's end."""
    client = Client(room)
    client.start()
    client.open("# echo 'text TooLong'; exit 1\n")
    item = {"uri": "file:///a.hb"}
    client.tell("textDocument/didChange", textDocument=item, contentChanges=[
        {"text": "# %s\n" % ENDLESS[1]}])
    client.tell("textDocument/didSave", textDocument=item)
    client.tell("textDocument/didChange", textDocument=item, contentChanges=[{"text": "# echo 'stop Busy 1:3'; exit 6"}])
    client.tell("textDocument/didSave", textDocument=item)
    room.expect("the newest save", [one["code"] for one in client.shown()], ["Busy"])
    client.tell("textDocument/didClose", textDocument=item)
    room.expect("a text that is closed", client.shown(), [])
    client.tell("textDocument/didSave", textDocument=item)
    client.tell("textDocument/didOpen", textDocument={"uri": "file:///b.hb", "text": "# %s\n" % ENDLESS[1]})
    time.sleep(0.3)
    room.expect("the end of a server whose program runs", client.end(), (0, ""))
    client = Client(room)
    client.start()
    client.tell("textDocument/didOpen", textDocument={"uri": "file:///b.hb", "text": "# %s\n" % ENDLESS[1]})
    time.sleep(0.3)
    client.process.send_signal(signal.SIGTERM)
    room.expect("a server that is ended", client.end(False), (143, ""))
    room.expect("programs that still run", running(), 0)


def try_places(room):
    client = Client(room)
    client.start(textDocument={"documentSymbol": {"hierarchicalDocumentSymbolSupport": True}})
    client.open(TEXT)
    # of which token, and where it goes: by its def, by its type
    for where, defs, types in (
            ("a call on A.new", [(6, 27, 32)], [(5, 10, 15)]), ("a type", [(6, 27, 32)], [(5, 10, 15)]),
            ("a def", [(6, 27, 32)], [(5, 10, 15)]), ("a call on what is not known", [(6, 27, 32)],
                                                      [(5, 10, 15), (7, 11, 16)]),
            ("a call on self", [(6, 27, 32)], [(5, 10, 15)]), ("a type without a def", [(7, 11, 16)], [(7, 11, 16)]),
            ("a variable", [], []), ("a keyword", [], []), ("a class", [(1, 6, 10)], [(1, 6, 10)])):
        line, column = {"a call on A.new": (8, 15), "a type": (5, 12), "a def": (6, 30), "a call on self": (11, 32),
                        "a call on what is not known": (9, 7), "a type without a def": (7, 13), "a variable": (9, 2),
                        "a keyword": (3, 2), "a class": (8, 8)}[where]
        room.expect("the def from " + where, places(client.at("definition", line, column)), defs)
        room.expect("the type from " + where, places(client.at("typeDefinition", line, column)), types)
        room.expect("the declaration from " + where, places(client.at("declaration", line, column)), types)
    hover = client.at("hover", 8, 15)["contents"]["value"]
    room.expect("hover over a stop", [part for part in (
        "### IllTyped\n\nThe method's body", "```hbird\n# Branches", "in the body; Reasons has a section",
        "```hbird\ntype Shop.total : (Int) -> Int  # line 6\n```") if part not in hover], [])
    room.expect("hover over a method", client.at("hover", 9, 6)["contents"]["value"],
                "```hbird\ntype Shop.total : (Int) -> Int  # line 6\ntype Other.total : () -> Int  # line 8\n```")
    for line, column in ((0, 3), (9, 1), (99, 0), (9, 99)):
        room.expect("hover over %d:%d" % (line, column), client.at("hover", line, column), None)
    room.expect("a position below 0", client.at("hover", -1, 0), -32602)
    room.expect("a text that is not open", client.at("hover", 0, 0, "file:///b.hb"), -32602)
    client.end()


def flat(symbols, depth=0):
    return [row for one in symbols for row in [(depth, one["name"], one["detail"], one["kind"]),
                                               *flat(one["children"], depth + 1)]]


def try_symbols(room):
    client = Client(room)
    client.start(textDocument={"documentSymbol": {"hierarchicalDocumentSymbolSupport": True}})
    client.open(TEXT)
    symbols = client.ask("textDocument/documentSymbol", textDocument={"uri": "file:///a.hb"})
    room.expect("the symbols", flat(symbols), [
        (0, "Shop", "", 5), (0, "Other", "", 5), (0, "main", "", 3), (1, "Shop.price", ": () -> Int", 11),
        (1, "Shop.total", ": (Int) -> Int", 11), (1, "Shop.total", "(n)", 6), (1, "Other.total", ": () -> Int", 11),
        (1, "Shop.price", "()", 6), (2, 'Other.("x" ++ str(self.total(1)))', "(a, b)", 6)])
    room.expect("their ranges", places(symbols), [(1, 0, 10), (2, 0, 11), (3, 0, 13, 3)])
    client.end()
    client = Client(room)
    client.start()
    client.open("# \nscript s\ndef A.m() 1\n")
    symbols = client.ask("textDocument/documentSymbol", textDocument={"uri": "file:///a.hb"})
    room.expect("symbols in a list", [(one["name"], places([one["location"]])) for one in symbols],
                [("s", [(1, 0, 3, 0)]), ("A.m", [(2, 0, 3, 0)])])
    client.end()


def edited(text, edits):
    lines = text.split("\n")
    for edit in edits:
        (line, first, last), = places([edit])
        lines[line] = lines[line][:first] + edit["newText"] + lines[line][last:]
    return "\n".join(lines)


def try_formatting(room):
    client = Client(room)
    client.start()
    item = {"uri": "file:///a.hb"}
    for text in (TEXT, TEXT.replace("\n", "\n   "), "# \xe9 \U0001d11e\n script s\n\tx \nend"):
        client.open(text)
        edits = client.ask("textDocument/formatting", textDocument=item, options={"tabSize": 2})
        room.expect("formatting %r" % text[:20], edited(text, edits), fmt.formatted(text.encode()).decode())
    client.open("# \r\nscript s\r\n x\r\nend\r\n")
    room.expect("formatting of lines with carriage returns", places(client.ask(
        "textDocument/formatting", textDocument=item)), [(0, 0, 2), (2, 0, 2)])
    client.open("# \nscript s\n")
    room.expect("formatting of what does not fit", client.ask("textDocument/formatting", textDocument=item), -32803)
    client.end()


def try_letters(room):
    """Positions behind letters that take more than one byte, or more than one unit."""
    text = "# echo 'text BadByte 3:1'; exit 1\ntype A.m : () -> Int\n\U0001d11e\xe9 x.m\n"
    for encodings, begins, method in ((["utf-8"], (2, 0, 1), 9), ([], (2, 0, 0), 6)):
        client = Client(room)
        client.start(general={"positionEncodings": encodings})
        room.expect("a letter outside of ASCII", places(client.open(text)), [begins])
        for column, due in ((method, [(1, 7, 8)]), (method - 3, [])):
            room.expect("a method behind letters", places(client.at("typeDefinition", 2, column)), due)
        client.end()


BAD = [
    # what the client sends, and the codes that come back
    (b"\r\n", [-32700]), (b"Content-Length: x\r\n\r\n", [-32700]), (b"Content-Length: -5\r\n\r\n", [-32700]),
    (b"hello\nthere\n\n", [-32700]), (b"Content-Length: 5\r\n\r\n{\"a\":", [-32700]),
    (b"Content-Length: 2\r\n\r\n\xff\xfe", [-32700]), (b"Content-Length: 0\r\n\r\n", [-32700]),
    (b"Content-Length: 4\r\nContent-Type: x\r\n\r\n1234", [-32600]), (b"Content-Length: 2\n\n[]", [-32600]),
    (b"content-length: 4\r\n\r\nnull", [-32600]), (b"Content-Length: 20000000\r\n\r\n" + b" " * 20000000, [-32700]),
    (b"Content-Length: 100000\r\n\r\n" + b"[" * 100000, [-32700]),
    *((b"Content-Length: %d\r\n\r\n%s" % (len(body), body), codes) for body, codes in (
        (b'{"id": 1, "method": 7}', [-32601]), (b'{"id": 1, "method": "textDocument/hover"}', [-32602]),
        (b'{"id": 1, "method": "textDocument/hover", "params": [1]}', [-32602]),
        (b'{"id": 1, "method": "textDocument/hover", "params": {"textDocument": {"uri": []}}}', [-32602]),
        (b'{"id": 1, "method": "textDocument/hover", "params": {"textDocument": {"uri": "file:///a.hb"}, '
         b'"position": {"line": "x", "character": 1e400}}}', [-32602]),
        (b'{"id": {}, "method": "textDocument/documentSymbol", "params": null}', [-32602]),
        (b'{"id": 5}', []), (b'{"method": ["x"]}', []), (b'{"method": "textDocument/didOpen"}', []), (b"{}", []),
        (b'{"method": "textDocument/didOpen", "params": {"textDocument": {"uri": "u", "text": 5}}}', []),
        (b'{"method": "textDocument/didChange", "params": {"textDocument": {"uri": "u"}, "contentChanges": []}}', []),
        (b'{"method": "textDocument/didSave", "params": {"textDocument": {"uri": "nosuch"}}}', []),
        (b'{"method": "textDocument/didClose", "params": {"textDocument": {"uri": {}}}}', []))),
]


def try_bad_messages(room):
    client = Client(room)
    client.start()
    client.open(TEXT)
    for raw, codes in BAD:
        client.process.stdin.write(raw)
        client.process.stdin.flush()
        found = [client.answer()["error"]["code"] for _ in codes]
        room.expect("the answer to %r" % raw[:60], found, codes)
        room.expect("the one behind %r" % raw[:60], len(client.ask(
            "textDocument/documentSymbol", textDocument={"uri": "file:///a.hb"})), 9)
    room.expect("the end behind bad messages", client.end(), (0, ""))
    for raw in (b"", b"Content-Length: 99\r\n\r\n{}", b"Content-Length: 9", b"\xff" * 9999):
        client = Client(room)
        client.process.stdin.write(raw)
        room.expect("an end in the middle, behind %r" % raw[:30], client.end(False), (1, ""))


def wild_message(chance, number):
    """A message that is right, with some of its bytes replaced."""
    methods = ["hover", "definition", "documentSymbol", "formatting", "didOpen", "didChange", "didSave", "didClose"]
    body = bytearray(json.dumps({"id": number, "method": "textDocument/" + chance.choice(methods), "params": {
        "textDocument": {"uri": "file:///a.hb", "text": "# \nclass A"}, "contentChanges": [{"text": TEXT}],
        "position": {"line": chance.randrange(15), "character": chance.randrange(30)}}}).encode())
    if chance.random() < 0.5:
        body = body.replace(b'"id": %d, ' % number, b"")
    for _ in range(chance.randrange(4)):
        body[chance.randrange(len(body))] = chance.choice(b'"{}[],:0159nulxe \\\xff')
    return bytes(body)


def try_wild_messages(room):
    """Whatever comes, the server stays, and answers the last message."""
    chance, client, last = random.Random(17), Client(room), []
    client.start()
    client.open(TEXT)

    def read():
        while not last or last[-1]["id"] != "last":
            last.append(client.answer())
    reader = threading.Thread(target=read, daemon=True)
    reader.start()
    for number in range(500):
        client.send_raw(wild_message(chance, number))
    client.send({"id": "last", "method": "textDocument/documentSymbol", "params": {}})
    reader.join(60)
    codes = {answer["error"]["code"] if "error" in answer else 0 for answer in last}
    room.expect("the answers to wild messages", codes, {0, -32700, -32601, -32602, -32803})
    room.expect("the end behind wild messages", client.end(), (0, ""))


def try_program(room):
    """The program itself: what is shown of each example is what its report names, and of a wrong text one fault."""
    program = sys.argv[1] if len(sys.argv) > 1 else ""
    if not os.access(program, os.X_OK):
        return
    client = Client(room, HBIRD=os.path.abspath(program))
    client.start()
    # Scripts that run at once have several reports, of which no one is kept.
    for file in (file for file in sorted((ROOT / "examples").glob("**/*.hb")) if not file.with_suffix(".reports").exists()):
        kept = file.with_suffix(".out") if file.with_suffix(".out").exists() else file.with_suffix(".tail")
        ends = re.findall(r"(?m)^(?:stop|text) .*$", kept.read_text())
        due = [(word, int(line) - 1, int(column) - 1) for end in ends
               for word, line, column in re.findall(r"([A-Z]\w*) (\d+):(\d+)", end)]
        shown = client.open(file.read_text(), "file:///%s" % file.name)
        found = [(one["code"], *places([one])[0][:2]) for one in shown]
        # Where an example has options its report is another one.
        if not file.with_suffix(".words").exists():
            room.expect("what is shown of %s" % file.name, found, due)
        item = {"uri": "file:///%s" % file.name}
        room.expect("formatting of %s" % file.name, client.ask("textDocument/formatting", textDocument=item), [])
    shown = client.open("class A\nscript main\nif 1 then\nprint 2 % 3\nend\n")
    room.expect("a hint", "hint: " in shown[0]["message"], True)
    shown = client.open("class A\nscript main\nif 1 then\n  print 2\nprint 3\nend\n")
    room.expect("which end", places(one["location"] for one in shown[0]["relatedInformation"]), [(2, 0, 2)])
    for text in made.broken(100):
        shown = client.open(text.decode("latin-1"))
        room.expect("how much is shown of %r" % text[:80], len(shown) < 3, True)
    room.expect("the end behind the program's runs", client.end(), (0, ""))


def main():
    with tempfile.TemporaryDirectory() as folder:
        room = Room(folder)
        room.program = room.executable("fake", FAKE)
        for part in (try_start, try_diagnostics, try_answers, try_endless, try_saves, try_places, try_symbols, try_formatting,
                     try_letters, try_bad_messages, try_wild_messages, try_program):
            part(room)
        for message in room.wrong[:20]:
            print(message)
        print("hb lsp: %d rows, %d wrong" % (room.tried, len(room.wrong)))
        return 1 if room.wrong else 0


if __name__ == "__main__":
    sys.exit(main())
