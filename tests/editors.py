"""Opens the examples in each editor, without a window, and sees that each token gets its group.

    python3 tests/editors.py

It also sees that each editor finds the places in what `hb` writes. An editor
that is not installed is skipped, and a line says so. VS Code's grammar is
tried by the few lines of its rules that it uses.
"""
import json
import re
import shutil
import subprocess
import sys
import tempfile

from markdown import ROOT

EDITORS = ROOT / "editors"
EXAMPLES = sorted((ROOT / "examples").glob("**/*.hb"))

# The kinds of tokens, each with its form; the first that fits is taken.
KINDS = [
    ("comment", r"#.*"), ("text", r'"(?:[^"\\\n]|\\.)*"'), ("keyword", r"\btype\b\??"),
    ("keyword", r"\b(?:class|setup|script|def|end|if|then|else|while|do|new|not|print|str)\b"),
    ("constant", r"\b(?:nil|true|false|self)\b"), ("type", r"\b(?:Nil|Bool|Int|Str|Any)\b"),
    ("method", r"(?<=\.)[a-z_]\w*"), ("class", r"\b[A-Z]\w*"), ("name", r"\b[a-z_]\w*"), ("number", r"\b\d+"),
]
GROUPS = {
    "vim": dict(comment="hbirdComment", text="hbirdText", keyword="hbirdKeyword", constant="hbirdConstant",
                type="hbirdType", method="hbirdMethod", name="hbirdName", number="hbirdNumber",
                **{"class": "hbirdClass"}),
    "emacs": dict(comment="font-lock-comment-delimiter-face", text="font-lock-string-face",
                  keyword="font-lock-keyword-face", constant="font-lock-constant-face", type="font-lock-builtin-face",
                  method="font-lock-function-name-face", name="font-lock-variable-name-face", number="nil",
                  **{"class": "font-lock-type-face"}),
    "vscode": dict(comment="comment.line.number-sign.hbird", text="string.quoted.double.hbird",
                   keyword="keyword.(control|other).hbird", constant="constant.language.hbird",
                   type="support.type.hbird", method="entity.name.function.hbird", name="variable.other.hbird",
                   number="constant.numeric.hbird", **{"class": "entity.name.class.hbird"}),
}

# What hb writes, and the places to which an editor goes: file, line, column. Where a body is ill typed, the first one
# is the call's.
TOLD = ["==> a.hb <==", "script main", "> stop Busy b.hb:7:7", "stop NilValue a.hb:5:14", "  5 | x.m", "    |   ^",
        "calls 1 own 0 shared 0 fresh 1", "text Expected end a.hb:2:12", "text TooLong",
        "stop IllTyped a.hb:9:13 Result a.hb:6:18", "stop Busy my a.hb:5:6", "text TooMany calls my a.hb:2:1",
        "text BadByte my a.hb:2:3", "text Expected ) my a.hb:2:4", "stop IllTyped my a.hb:9:13 NoType my a.hb:6:18"]
PLACES = [("a.hb", 5, 14), ("a.hb", 2, 12), ("a.hb", 9, 13), ("a.hb", 6, 18), ("my a.hb", 5, 6), ("my a.hb", 2, 1),
          ("my a.hb", 2, 3), ("my a.hb", 2, 4), ("my a.hb", 9, 13), ("my a.hb", 6, 18)]
CALLS = [("a.hb", 9, 13), ("my a.hb", 9, 13)]

# Lines behind which VS Code indents the next one, and lines behind which it does not.
INDENTS = ["if x then", 'if x == "a" then', 'x = "#" ++ if a then', "while i < 3 do # turns", "else", "  else",
           "def A.m(x)", "def A.m(x) y", "x = if a then b", "x.m(", 'print x.m("(",', "x = 1 +", "print", '"a" ++ # on']
STAYS = ["script main", "x", 'x = "if a then"', "# if a then", "x = 1 # +", 'print "def A.m("', "if a then b end",
         'if a then "b" else c end', "def A.m(x) x end", "while a do end", "x.m(1)", '"a +"', "end", "end_of + x"]


def tokens(line):
    """The tokens of a line that have a group: kind, column from 0, and text."""
    form = re.compile("|".join("(%s)" % form for _, form in KINDS))
    return [(KINDS[found.lastindex - 1][0], found.start(), found.group()) for found in form.finditer(line)]


def wrong_groups(editor, file, groups):
    """Where a token's first letter has another group; groups has those of each line, one for each column."""
    for number, line in enumerate(file.read_text().splitlines()):
        for kind, column, token in tokens(line):
            group = groups[number][column]
            if not re.fullmatch(GROUPS[editor][kind], group):
                yield "%s: %s:%d:%d: the %s %s is in %s" % (
                    editor, file.name, number + 1, column + 1, kind, token, group)


def run(*words, text=None):
    done = subprocess.run(words, input=text, stdout=subprocess.PIPE, stderr=subprocess.STDOUT, timeout=60)
    return done.stdout.decode()


def in_vim(folder, *commands):
    script = folder / "commands.vim"
    script.write_text("\n".join(commands) + "\nqall!\n")
    return run("vim", "-e", "-s", "-N", "-u", "NONE", "-i", "NONE", "--cmd", "set runtimepath^=%s" % (EDITORS / "vim"),
               "--cmd", "filetype plugin indent on", "--cmd", "syntax on", "-S", str(script))


def try_vim(folder):
    wrote = folder / "vim.json"
    dump = ('call writefile([json_encode(map(range(1, line("$")), "map(range(1, max([1, col([v:val, \\"$\\"]) - 1])),'
            ' \\"synIDattr(synID(\\" . v:val . \\", v:val, 1), \\\\\\"name\\\\\\")\\")"))], "%s")' % wrote)
    for file in EXAMPLES:
        told = in_vim(folder, "edit %s" % file, dump)
        if not wrote.exists():
            yield "vim: %s: %s" % (file.name, told)
            return
        yield from wrong_groups("vim", file, json.loads(wrote.read_text()))
        wrote.unlink()
    (folder / "told").write_text("\n".join(TOLD) + "\n")
    in_vim(folder, "edit %s" % EXAMPLES[0], "cgetfile %s" % (folder / "told"), 'call writefile([json_encode(map('
           'filter(getqflist(), "v:val.valid"), "[bufname(v:val.bufnr), v:val.lnum, v:val.col]"))], "%s")' % wrote)
    if [tuple(place) for place in json.loads(wrote.read_text())] != PLACES:
        yield "vim: the places are %s" % wrote.read_text()


EMACS_GROUPS = """
(dolist (file (list %s))
  (with-current-buffer (find-file-noselect file)
    (unless (eq major-mode 'hbird-mode) (princ "no hbird-mode\\n"))
    (font-lock-ensure)
    (goto-char (point-min))
    (while (not (eobp))
      (let ((face (get-text-property (point) 'face)))
        (princ (if (eolp) "\\n" (format "%%s " (if (consp face) (car face) face)))))
      (forward-char))))
"""
EMACS_PLACES = """
(with-temp-buffer
  (dolist (line (list %s)) (insert line "\\n"))
  (compilation-mode)
  (compilation--ensure-parse (point-max))
  (goto-char (point-min))
  (while (ignore-errors (compilation-next-error 1) t)
    (let ((place (compilation--message->loc (get-text-property (point) 'compilation-message))))
      (princ (format "%%s:%%s:%%s\\n" (caar (compilation--loc->file-struct place))
                     (compilation--loc->line place) (compilation--loc->col place))))))
"""


def in_emacs(form, texts):
    form %= " ".join(json.dumps(str(text)) for text in texts)
    return run("emacs", "-Q", "--batch", "-l", str(EDITORS / "emacs/hbird-mode.el"), "--eval", "(progn %s)" % form)


def try_emacs(folder):
    for file in EXAMPLES:
        lines = [line.split() + ["nil"] for line in in_emacs(EMACS_GROUPS, [file]).split("\n")]
        yield from wrong_groups("emacs", file, [line for line in lines if line[0] != "Warning:"])
    places = re.findall(r"^(.*):(\d+):(\d+)$", in_emacs(EMACS_PLACES, TOLD), re.M)
    if [(file, int(line), int(column)) for file, line, column in places] != PLACES:
        yield "emacs: the places are %s" % places


def vscode_groups(rules, line):
    """The group of each column, as the grammar's rules give them: the leftmost match, and of these the first rule's."""
    groups, at = ["none"] * (len(line) + 1), 0
    while True:
        matches = [(re.compile(rule.get("match") or rule["begin"]).search(line, at), rule) for rule in rules]
        matches = [(found, rule) for found, rule in matches if found]
        if not matches:
            return groups
        found, rule = min(matches, key=lambda match: match[0].start())
        end = found.end()
        while "begin" in rule and not re.compile(rule["end"]).match(line, end):
            inner = re.compile(rule["patterns"][0]["match"]).match(line, end)
            end = inner.end() if inner else end + 1
        groups[found.start():end] = [rule["name"]] * (end - found.start())
        at = end + ("begin" in rule)


def try_vscode(folder):
    rules = json.loads((EDITORS / "vscode/syntaxes/hbird.tmLanguage.json").read_text())["patterns"]
    package = json.loads((EDITORS / "vscode/package.json").read_text())["contributes"]
    json.loads((EDITORS / "vscode/language-configuration.json").read_text())
    for file in EXAMPLES:
        lines = file.read_text().splitlines()
        yield from wrong_groups("vscode", file, [vscode_groups(rules, line) for line in lines])
    pattern = package["problemMatchers"][0]["pattern"]
    found = [match for match in (re.search(pattern["regexp"], line) for line in TOLD) if match]
    places = [(match[pattern["file"]], int(match[pattern["line"]]), int(match[pattern["column"]])) for match in found]
    # It takes one place from a line, which is the one in the body.
    if places != [place for place in PLACES if place not in CALLS]:
        yield "vscode: the places are %s" % places
    yield from vscode_indents()


def vscode_indents():
    """The rules see a line alone, so letter.hb, where a line goes on and a `def` ends behind it, is left out."""
    rules = json.loads((EDITORS / "vscode/language-configuration.json").read_text())["indentationRules"]
    increases, decreases, goes_on = [re.compile(rules[name]).search for name in (
        "increaseIndentPattern", "decreaseIndentPattern", "indentNextLinePattern")]
    for line in INDENTS + STAYS:
        if bool(increases(line) or goes_on(line)) != (line in INDENTS):
            yield "vscode: what comes behind %r is %sindented" % (line, "not " * (line in INDENTS))
    for file in EXAMPLES:
        lines = [line for line in file.read_text().splitlines() if line]
        for before, line in zip(lines, lines[1:]):
            step = 2 * bool(increases(before) or goes_on(before)) - 2 * bool(decreases(line))
            if file.name != "letter.hb" and blanks(line) != max(0, blanks(before) + step):
                yield "vscode: %s: %r is indented by %d" % (file.name, line, blanks(before) + step)


def blanks(line):
    return len(line) - len(line.lstrip(" "))


def main():
    wrong = []
    for editor, needs, tries in (("vim", "vim", try_vim), ("emacs", "emacs", try_emacs), ("vscode", None, try_vscode)):
        if needs and not shutil.which(needs):
            print("check: skipped: %s is not installed" % needs)
            continue
        with tempfile.TemporaryDirectory() as folder:
            wrong += tries(type(ROOT)(folder))
    for message in wrong[:20]:
        print(message)
    print("%d examples in the editors, %d wrong" % (len(EXAMPLES), len(wrong)))
    return 1 if wrong else 0


if __name__ == "__main__":
    sys.exit(main())
