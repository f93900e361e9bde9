"""Drives Vim and Emacs as one who writes a program does: runs it, goes to the places, types lines, indents all.

    python3 tests/driven.py

An editor that is not installed is skipped, and a line says so. In place of
hbird stands a program whose report names two places. VS Code cannot be driven
here: its client of hb lsp runs in node, with an editor that notes what comes.
"""
import json
import os
import shutil
import subprocess
import sys
import tempfile

import made
from editors import EDITORS, EXAMPLES, ROOT
from front import Room

sys.path.insert(0, str(ROOT / "front"))
import fmt  # noqa: E402

FILE = "my shop.hb"
REPORT = "script main\n> stop Busy 1:1\nstop IllTyped 3:2 Result 5:4\ncalls 1 own 0 shared 0 fresh 1\n"
PLACES = [[FILE, 3, 2], [FILE, 5, 4]]

# What is typed, each time with a new line behind it, and the program that stands there then.
TYPED = ["script main", "# why", "def A.m(x)", 'if x == "a" then', "print", "x", "else", "y = x.m(", "1)", "end", "end",
         "print 1 +", "2", "while a do b end", "c", "end"]
STANDS = """\
script main
# why
def A.m(x)
  if x == "a" then
    print
      x
  else
    y = x.m(
      1)
  end
end
print 1 +
  2
while a do b end
c
end
"""

# So many made programs are indented in each editor.
COUNT = 100


def flat(text):
    return b"\n".join(line.lstrip(b" ") for line in text.split(b"\n"))


def bare(text):
    """A text without the blanks at its lines' ends, which hb fmt takes away and an editor may leave."""
    return b"\n".join(line.rstrip(b" ") for line in text.split(b"\n")).rstrip(b"\n")


class Desk(Room):
    """A folder with files, in which an editor is started that finds hb on its path."""

    def __init__(self, folder):
        super().__init__(folder)
        (self.folder / FILE).write_text("x = 12345\n" * 9)
        self.due = [fmt.formatted(text) for text in made.programs(COUNT) + [file.read_bytes() for file in EXAMPLES]]
        for number, text in enumerate(self.due):
            (self.folder / ("%d.hb" % number)).write_bytes(flat(text))

    def start(self, *words, **more):
        env = dict(os.environ, HBIRD=str(self.program), WRITES=REPORT, ENDS="6", HOME=str(self.folder),
                   PATH="%s:%s" % (ROOT, os.environ["PATH"]), **more)
        done = subprocess.run(words, cwd=self.folder, env=env, timeout=120, stdin=subprocess.DEVNULL,
                              stdout=subprocess.PIPE, stderr=subprocess.STDOUT)
        return done.stdout.decode("utf-8", "replace")

    def seen(self, editor, what, due, said):
        """What an editor wrote of itself as JSON, and behind it, where that is not there, what it said."""
        file = self.folder / ("%s %s" % (editor, what))
        self.expect("%s: %s" % (editor, what), json.loads(file.read_text()) if file.exists() else said, due)

    def is_indented(self, editor):
        wrong = [number for number, text in enumerate(self.due)
                 if bare((self.folder / ("%d.hb" % number)).read_bytes()) != bare(text)]
        self.expect("%s: programs that it indents in another way than hb fmt" % editor, wrong, [])


def try_vim(desk):
    place = "[expand('%%'), line('.'), col('.')]"
    where = "add(g:places, %s)" % place.replace("%%", "%")
    script = [
        # the first place is gone to by :make itself
        "let g:places = []", "edit my\\ shop.hb", "silent make", "call " + where, "cnext", "call " + where,
        "call writefile([json_encode(g:places)], 'vim places')",
        "call writefile([json_encode(len(filter(getqflist(), 'v:val.valid')))], 'vim entries')",
        "edit typed.hb", r'execute "normal i%s\<CR>\<Esc>"' % r"\<CR>".join(
            line.replace('"', r'\"') for line in TYPED),
        "write! vim-typed", *("edit! ++enc=latin1 %d.hb | normal gg=G\nwrite" % number for number in range(len(desk.due))),
        "qall!"]
    (desk.folder / "drive.vim").write_text("\n".join(script) + "\n")
    said = desk.start("vim", "-e", "-s", "-N", "-u", "NONE", "-i", "NONE", "--cmd",
                      "set runtimepath^=%s shellpipe=>%%s\\ 2>&1" % (EDITORS / "vim"), "--cmd",
                      "filetype plugin indent on", "-S", "drive.vim")
    desk.seen("vim", "places", PLACES, said)
    desk.seen("vim", "entries", len(PLACES), said)
    typed = desk.folder / "vim-typed"
    desk.expect("vim: what was typed", typed.read_text().rstrip() if typed.exists() else said, STANDS.rstrip())
    desk.is_indented("vim")


EMACS = r"""
(defun keep (name value) (with-temp-file (concat "emacs " name) (insert (json-encode value))))
(require 'json)
(setq make-backup-files nil inhibit-message t compilation-ask-about-save nil)
(find-file "my shop.hb")
(let* ((buffer (compile (eval compile-command)))
       (process (get-buffer-process buffer))
       (is-terminal (and (process-tty-name process) t))
       (places nil))
  (while (process-live-p process) (accept-process-output process 1))
  (accept-process-output nil 0.1)
  (condition-case nil
      (while t
        (next-error)
        (with-current-buffer (window-buffer)
          (push (vector (file-name-nondirectory buffer-file-name) (line-number-at-pos) (1+ (current-column))) places)))
    (error nil))
  (keep "places" (vconcat (reverse places)))
  (keep "terminal" is-terminal))
(find-file "typed.hb")
(electric-indent-mode 1)
(dolist (line (list %s))
  (dolist (letter (string-to-list line))
    (setq last-command-event letter)
    (call-interactively #'self-insert-command))
  (setq last-command-event ?\n)
  (call-interactively #'newline))
(keep "typed" (buffer-substring-no-properties (point-min) (point-max)))
(set-buffer-modified-p nil)
(let ((coding-system-for-read 'latin-1-unix) (coding-system-for-write 'latin-1-unix))
  (dotimes (number %d)
    (with-current-buffer (find-file-noselect (format "%%d.hb" number))
      (indent-region (point-min) (point-max))
      (set-buffer-modified-p t)
      (save-buffer)
      (kill-buffer))))
"""


def try_emacs(desk):
    (desk.folder / "drive.el").write_text(EMACS % (" ".join(map(json.dumps, TYPED)), len(desk.due)))
    said = desk.start("emacs", "-Q", "--batch", "-l", str(EDITORS / "emacs/hbird-mode.el"), "-l", "drive.el")
    desk.seen("emacs", "terminal", True, said)
    desk.seen("emacs", "places", PLACES, said)
    typed = desk.folder / "emacs typed"
    desk.expect("emacs: what was typed", bare(json.loads(typed.read_text()).encode()).decode() if typed.exists()
                else said, STANDS.rstrip())
    desk.is_indented("emacs")


CLIENT_TEXT = "class A\nscript s\ntype A.f : (Int) -> Int; def A.f(x)\n x + 1 end\nprint A.new.f(1)\nend"
# What of it is where: the def, the type, and all symbols with their kinds and how deep they stand.
DEF, TYPE = [["file:///my%20a.hb", [2, 31, 2, 32]]], [["file:///my%20a.hb", [2, 7, 2, 8]]]
SYMBOLS = [[0, "A", 4], [0, "s", 2], [1, "A.f", 10], [1, "A.f", 5]]
SHOWN = [["file:///my%20a.hb", [["IllTyped", 0, [2, 1, 2, 2]], ["Result", 0, [4, 3, 4, 4]]]]]


def symbols(found, depth=0):
    return [row for one in found for row in [[depth, one["name"], one["kind"]], *symbols(one["children"], depth + 1)]]


def try_vscode(desk):
    said = desk.start("node", str(ROOT / "tests/vscode.js"), HB="hb", TEXT=CLIENT_TEXT, NEWER="\n" + CLIENT_TEXT,
                      LINE="4", CHARACTER="13")
    try:
        noted = json.loads(said)
        shown = [[uri, [[one["code"], one["severity"], list(one["range"].values())] for one in found]]
                 for uri, found in noted["diagnostics"]]
        places = [[[one["uri"], list(one["range"].values())] for one in noted[name]]
                  for name in ("Definition", "TypeDefinition", "Declaration")]
        # A text is run when it is there, and when it is saved; a text that is closed shows nothing.
        newer = [[SHOWN[0][0], [["IllTyped", 0, [2, 1, 2, 2]], ["Result", 0, [4, 3, 4, 4]]]]]
        desk.expect("vscode: what is shown", shown, SHOWN + newer + [[SHOWN[0][0], []]])
        desk.expect("vscode: where it leads", places, [DEF, TYPE, TYPE])
        desk.expect("vscode: the hover", noted["Hover"]["contents"]["value"],
                    "```hbird\ntype A.f : (Int) -> Int  # line 3\n```")
        desk.expect("vscode: the symbols", symbols(noted["DocumentSymbols"]), SYMBOLS)
        desk.expect("vscode: the edits", [edit["newText"] for edit in noted["DocumentFormattingEdits"]], ["  x + 1 end"])
    except (ValueError, KeyError, TypeError) as error:
        desk.expect("vscode", "%s: %s" % (error, said), "")
    said = desk.start("node", str(ROOT / "tests/vscode.js"), HB="/nosuch", TEXT="", LINE="0", CHARACTER="0")
    desk.expect("vscode without hb", json.loads(said), {"error": "the server has ended"})


def main():
    tried, wrong = 0, []
    for editor, drive in (("vim", try_vim), ("emacs", try_emacs), ("node", try_vscode)):
        if not shutil.which(editor):
            print("check: skipped: %s is not installed" % editor)
            continue
        with tempfile.TemporaryDirectory() as folder:
            desk = Desk(folder)
            drive(desk)
            tried, wrong = tried + desk.tried, wrong + desk.wrong
    for message in wrong:
        print(message[:2000])
    print("editors that were driven: %d rows, %d wrong" % (tried, len(wrong)))
    return 1 if wrong else 0


if __name__ == "__main__":
    sys.exit(main())
