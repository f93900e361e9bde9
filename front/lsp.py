"""hb lsp: a server for editors. It speaks the language server protocol over standard input and output."""
import contextlib
import json
import re
import signal
import sys
import threading

import advice
import command
import document
import fmt
import pages
import report
import runs

NOT_SHUT_DOWN, WRONG_WORDS = 1, 2
# A message has at most so many bytes. A text is at most a mebibyte, and may be written with six letters for each.
MOST = 1 << 24

# Of the protocol: errors, severities, and kinds of symbols.
PARSE_ERROR, INVALID_REQUEST, NO_METHOD, INVALID_PARAMS = -32700, -32600, -32601, -32602
NOT_INITIALIZED, FAILED = -32002, -32803
ERROR, INFORMATION = 1, 3
KINDS = {"class": 5, "setup": 3, "script": 3, "def": 6, "type": 11, "type?": 11}
TYPES = ("type", "type?")
# What may be wrong with the parts of a message.
MISUSES = (TypeError, KeyError, ValueError, IndexError, AttributeError, RecursionError)


class Failure(Exception):
    """Answers a message that asks for nothing that can be done."""

    def __init__(self, code, message):
        super().__init__(message)
        self.code = code


def read_message(source):
    """The next message. An EOFError says that none comes any more, and a Failure that what came is none."""
    length = None
    for line in iter(lambda: source.readline(4096), b""):
        name, _, value = line.strip().partition(b":")
        if name.lower() == b"content-length":
            length = int(value) if re.fullmatch(rb" *\d{1,18}", value) else None
        elif not name:
            break
    else:
        raise EOFError
    if length is None:
        raise Failure(PARSE_ERROR, "a message has no Content-Length")
    if length > MOST:
        while length > 0 and source.read(min(length, 65536)):
            length -= 65536
        raise Failure(PARSE_ERROR, "a message has more than %d bytes" % MOST)
    body = source.read(length)
    if len(body) < length:
        raise EOFError
    try:
        return json.loads(body)
    except (ValueError, RecursionError):
        raise Failure(PARSE_ERROR, "a message is no JSON") from None


def asked(params, *names):
    """What stands in objects inside of one another, or None where one of them is not there."""
    for name in names:
        params = params.get(name) if isinstance(params, dict) else None
    return params


def explanation(note):
    """The section of docs/ERRORS.md on a word, as an editor shows it."""
    for section in pages.sections():
        if (section.part, section.title) == (note.part, note.word):
            text = re.sub(r"\[([^]]*)\]\([^)]*\)", r"\1", "\n".join(section.lines).strip())
            return "### %s\n\n%s" % (section.title, re.sub(r"(?m)^(```\w+) .*$", r"\1", text))


def message_of(note):
    sentence = pages.sentence_of(note)
    return "%s: %s" % (note.word, sentence) if sentence else note.word


def diagnostics(text, out, status):
    """What an editor shows of a run. What is known at its places is kept with the text."""
    found, text.explained = [], []
    lines = [] if out is None else out.decode("utf-8", "replace").split("\n")
    for line, section in report.with_sections(lines):
        notes, more = report.notes_of(line), advice.of(text.source, line, section)
        marks = [(text.stretch(*note.place) if note.place else (1, 1, 1), message_of(note)) for note in notes]
        marks += [(text.stretch(place.line, place.column), place.label) for place in more.places]
        for note, mark in zip(notes, marks):
            message = "\n".join([mark[1], *("hint: " + hint for hint in more.hints)])
            found.append(told(text, mark[0], ERROR, note.word, message))
            found[-1]["relatedInformation"] = [
                {"location": {"uri": text.uri, "range": text.range(*stretch)}, "message": label}
                for stretch, label in marks if stretch is not mark[0]]
            text.explained.append((*mark[0], explanation(note)))
    if not found and status not in (0, 6):
        message = "the run ended with status %d and no report" % status if out is not None else status
        found.append(told(text, (1, 1, 1), INFORMATION, "hb", message))
    return found


def told(text, stretch, severity, word, message):
    return {"range": text.range(*stretch), "severity": severity, "code": word, "source": "hb", "message": message}


class Server:
    """Does what an editor asks for, one message after the other. Programs run beside it."""

    def __init__(self, sink):
        self.sink, self.lock, self.runs = sink, threading.RLock(), runs.Runs()
        # Of each text its newest state, and what marks the newest run of it.
        self.texts, self.newest = {}, {}
        self.is_ready = self.is_down = self.in_bytes = self.nests = False
        self.requests = {
            "initialize": self.initialize, "shutdown": self.shut_down, "textDocument/hover": self.hover,
            "textDocument/definition": lambda params: self.declared(params, ("def",), TYPES),
            "textDocument/typeDefinition": lambda params: self.declared(params, TYPES),
            "textDocument/declaration": lambda params: self.declared(params, TYPES),
            "textDocument/documentSymbol": self.symbols, "textDocument/formatting": self.formatting}
        self.notices = {"textDocument/didOpen": self.opened, "textDocument/didChange": self.changed,
                        "textDocument/didSave": lambda params: self.check(params["textDocument"]["uri"]),
                        "textDocument/didClose": self.closed}

    def write(self, **message):
        body = json.dumps(dict(message, jsonrpc="2.0")).encode()
        with self.lock:
            self.sink.write(b"Content-Length: %d\r\n\r\n%s" % (len(body), body))
            self.sink.flush()

    def fail(self, number, failure):
        self.write(id=number, error={"code": failure.code, "message": str(failure)})

    def handle(self, message):
        """Does what a message asks for, and answers a request. What is only told is never answered."""
        if not isinstance(message, dict):
            self.fail(None, Failure(INVALID_REQUEST, "a message is no object"))
        elif "method" in message and "id" in message:
            try:
                self.write(id=message["id"], result=self.answer(message["method"], message.get("params")))
            except Failure as failure:
                self.fail(message["id"], failure)
        elif self.is_ready and not self.is_down and str(message.get("method")) in self.notices:
            with contextlib.suppress(*MISUSES):
                self.notices[message["method"]](message.get("params"))

    def answer(self, method, params):
        if not isinstance(method, str) or method not in self.requests:
            raise Failure(NO_METHOD, "there is no such method")
        if not self.is_ready and method != "initialize":
            raise Failure(NOT_INITIALIZED, "initialize comes first")
        if self.is_down or self.is_ready and method == "initialize":
            raise Failure(INVALID_REQUEST, "it is too late for this")
        try:
            return self.requests[method](params)
        except MISUSES:
            raise Failure(INVALID_PARAMS, "the params are not understood") from None

    def initialize(self, params):
        capabilities = asked(params, "capabilities")
        self.in_bytes = "utf-8" in (asked(capabilities, "general", "positionEncodings") or [])
        self.nests = asked(capabilities, "textDocument", "documentSymbol", "hierarchicalDocumentSymbolSupport")
        self.is_ready = True
        return {"serverInfo": {"name": "hb"}, "capabilities": {
            "positionEncoding": "utf-8" if self.in_bytes else "utf-16",
            "textDocumentSync": {"openClose": True, "change": 1, "save": {"includeText": False}},
            "hoverProvider": True, "definitionProvider": True, "typeDefinitionProvider": True,
            "declarationProvider": True, "documentSymbolProvider": True, "documentFormattingProvider": True}}

    def shut_down(self, _):
        self.is_down = True

    def opened(self, params):
        item = params["textDocument"]
        self.texts[item["uri"]] = document.Document(item["uri"], item["text"], self.in_bytes)
        self.check(item["uri"])

    def changed(self, params):
        uri, text = params["textDocument"]["uri"], params["contentChanges"][-1]["text"]
        self.texts[uri] = document.Document(uri, text, self.in_bytes)

    def closed(self, params):
        uri = params["textDocument"]["uri"]
        with self.lock:
            self.newest.pop(uri, None)
            if self.texts.pop(uri, None):
                self.publish(uri, [])

    def check(self, uri):
        mark = self.newest[uri] = object()
        threading.Thread(target=self.check_text, args=(self.texts[uri], mark), daemon=True).start()

    def check_text(self, text, mark):
        """Runs a text and tells what came of it, where it was not closed and no newer run has begun."""
        out, status = self.runs.run(text.uri, text.source)
        with self.lock, contextlib.suppress(OSError):
            if self.newest.get(text.uri) is mark and self.runs.is_open:
                self.publish(text.uri, diagnostics(text, out, status))

    def publish(self, uri, found):
        self.write(method="textDocument/publishDiagnostics", params={"uri": uri, "diagnostics": found})

    def pointed(self, params):
        """The text of a request, the place at which it points, and the number of the token there or None."""
        text = self.texts[params["textDocument"]["uri"]]
        place = text.place(params["position"])
        return text, place, text.outline.number_at(place)

    def hover(self, params):
        text, (line, column), number = self.pointed(params)
        shown = [words for at, start, stop, words in text.explained
                 if words and at == line and start <= column <= stop]
        meant = text.outline.meant(number) if number is not None else None
        heads = ["%s  # line %d" % (text.outline.text_of(entry.first, entry.last), text.outline.tokens[entry.first].line)
                 for entry in (text.outline.of_method(meant, *TYPES) if meant else [])]
        shown += ["```hbird\n%s\n```" % "\n".join(heads)] if heads else []
        return {"contents": {"kind": "markdown", "value": "\n\n".join(shown)}} if shown else None

    def declared(self, params, *choices):
        """Where a method is given something, by the words of the first choice that has one; or where a class is."""
        text, _, number = self.pointed(params)
        meant = text.outline.meant(number) if number is not None else None
        found = next(filter(None, (text.outline.of_method(meant, *words) for words in choices if meant)), [])
        if number is not None and text.outline.is_at(number, "a class"):
            found = [entry for entry in text.outline.entries
                     if (entry.word, entry.name) == ("class", text.outline.tokens[number].text)]
        return [{"uri": text.uri, "range": text.range_of(entry.named, entry.named)} for entry in found]

    def symbols(self, params):
        text, roots, around = self.texts[params["textDocument"]["uri"]], [], []
        for entry in text.outline.entries:
            symbol = self.symbol(text, entry)
            while around and around[-1][0].last < entry.first:
                around.pop()
            (around[-1][1]["children"] if around and self.nests else roots).append(symbol)
            around.append((entry, symbol))
        return roots if self.nests else [
            {"name": symbol["name"], "kind": symbol["kind"], "location": {"uri": text.uri, "range": symbol["range"]}}
            for symbol in roots]

    def symbol(self, text, entry):
        name, detail = entry.name, ""
        if entry.owner:
            name_ends, head_ends = text.outline.pairs.get(entry.named, entry.named), text.outline.end_of_head(entry.named)
            name = text.outline.text_of(entry.named - 2, name_ends)
            detail = text.outline.text_of(name_ends + 1, head_ends)
        return {"name": name, "detail": detail, "kind": KINDS[entry.word], "range": text.range_of(
            entry.first, entry.last), "selectionRange": text.range_of(entry.named, entry.named), "children": []}

    def formatting(self, params):
        text = self.texts[params["textDocument"]["uri"]]
        try:
            lines = fmt.formatted(text.source).split(b"\n")
        except fmt.Unfit as unfit:
            raise Failure(FAILED, "%d:%d: %s, so nothing is indented" % (*unfit.token.place, unfit)) from None
        # A carriage return at a line's end is to an editor no part of the line.
        pairs = enumerate(zip((line.rstrip(b"\r") for line in text.lines), lines), 1)
        return [{"range": text.range(number, 1, len(old) + 1), "newText": new.decode("utf-8", "replace")}
                for number, (old, new) in pairs if old != new]


def main(given, say):
    wrong = [word for word in given if word != "--stdio"]
    if wrong:
        say(command.of_option(wrong[0], ["--stdio"], "hb lsp"))
        return WRONG_WORDS
    if sys.stdin.isatty():
        say("hb lsp waits for the messages of an editor, which starts it; editors/README.md tells how")
    server = Server(sys.stdout.buffer)
    signal.signal(signal.SIGTERM, lambda *_: sys.exit(128 + signal.SIGTERM))
    try:
        return serve(server, sys.stdin.buffer)
    finally:
        server.runs.close()


def serve(server, source):
    """Goes through the messages. Gives 0 where the editor asked for the end before it came, and else 1."""
    while True:
        try:
            message = read_message(source)
        except Failure as failure:
            server.fail(None, failure)
            continue
        except (EOFError, OSError):
            break
        if isinstance(message, dict) and message.get("method") == "exit":
            break
        server.handle(message)
    return 0 if server.is_down else NOT_SHUT_DOWN
