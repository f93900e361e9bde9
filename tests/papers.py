"""Holds the documents to the files that they show, to one another, and to what they lead to.

    python3 tests/papers.py [--write]

A block of code whose fence names a file has that file's text. With --write
each such block gets it; what was written is then read as a diff.
"""
import re
import subprocess
import sys

from markdown import FENCE, ROOT, anchors, sections

sys.path[:0] = [str(ROOT / "front"), str(ROOT / "tools")]
import answers  # noqa: E402
import command  # noqa: E402
import headline  # noqa: E402
import lines  # noqa: E402

PAPERS = sorted([*ROOT.glob("*.md"), *ROOT.glob("*/*.md")])
EDITORS = ["vim/syntax/hbird.vim", "emacs/hbird-mode.el", "vscode/syntaxes/hbird.tmLanguage.json"]


def blocks_are_files(paper):
    for section in sections(paper):
        for block in section.blocks:
            if block.file and not (ROOT / block.file).is_file():
                yield "line %d: there is no file %s" % (block.number, block.file)
            elif block.file and (ROOT / block.file).read_text() != block.text:
                yield "line %d: the block is not the text of %s" % (block.number, block.file)


def links_lead_somewhere(paper):
    for section in sections(paper):
        for link in re.findall(r"\]\(([^)]*)\)", "".join(section.lines)):
            file, _, anchor = link.partition("#")
            target = (paper.parent / file) if file else paper
            if not re.match("https?:", link) and not target.exists():
                yield "the link %s leads nowhere" % link
            elif anchor and target.suffix == ".md" and anchor not in anchors(target):
                yield "the link %s leads to no heading" % link


def examples_are_listed(paper):
    if paper == ROOT / "examples/README.md":
        text = paper.read_text()
        for file in sorted((ROOT / "examples").glob("**/*.hb")):
            if "(%s)" % file.relative_to(ROOT / "examples") not in text:
                yield "%s is not in the list" % file.name
            if not file.read_text().startswith("# "):
                yield "%s has no comment that says what to look at" % file.name


def statuses():
    """The two tables of statuses, each as a list of numbers and words."""
    page = re.findall(r'^\.TP\n\.B (\d+)\n(.*)$', (ROOT / "man/hbird.1").read_text(), re.M)
    told = subprocess.run([ROOT / "hb", "help"], stdout=subprocess.PIPE, check=True).stdout.decode()
    return {"man/hbird.1": page, "hb help": re.findall(r"^  (\d+) +(.*)$", told, re.M)}


def tables_are_one():
    tables = statuses()
    if not tables["hb help"] or tables["man/hbird.1"] != tables["hb help"]:
        yield "man/hbird.1: the table of statuses is not that of hb help"


def editors_know_all_words():
    formats = (ROOT / "docs/FORMATS.md").read_text()
    for kind in ("keyword", "type word"):
        words = re.search(r"^\| %s \| `([^`]*)` \|$" % kind, formats, re.M).group(1).split()
        for file in EDITORS:
            text = (ROOT / "editors" / file).read_text()
            for word in words:
                if not re.search(r"(?<!\w)%s(?!\w)" % re.escape(word.rstrip("?")), text):
                    yield "editors/%s: the %s %s is not there" % (file, kind, word)


def commands_are_everywhere():
    """Each command of hb stands in its help, in the page of the manual, and in the completion of both shells."""
    told = subprocess.run([ROOT / "hb", "help"], stdout=subprocess.PIPE, check=True).stdout.decode()
    page = (ROOT / "man/hbird.1").read_text()
    for name in command.COMMANDS:
        if not re.search(r"(?m)^  hb \[?%s\b" % name, told):
            yield "hb help: the command %s is not there" % name
        if not re.search(r'(?m)^\.BI? "?hb %s\b' % name, page):
            yield "man/hbird.1: the command %s is not there" % name
        for file in ("hbird.bash", "_hb"):
            if not re.search(r"\b%s\b" % name, (ROOT / "completion" / file).read_text()):
                yield "completion/%s: the command %s is not there" % (file, name)


def options_are_everywhere():
    """Each option of a run stands in the help of hb, in the page of the manual, and in the completion of both shells."""
    texts = {"hb help": subprocess.run([ROOT / "hb", "help"], stdout=subprocess.PIPE, check=True).stdout.decode()}
    for file in ("man/hbird.1", "completion/hbird.bash", "completion/_hb"):
        texts[file] = (ROOT / file).read_text().replace("\\-", "-")
    for name in command.values():
        for place, text in texts.items():
            if name not in text:
                yield "%s: the option %s is not there" % (place, name)
    if len(command.values()) != 4:
        yield "docs/FORMATS.md: the table of options is not found"


def named_files_are_there(paper):
    """Each file that is named in the guide is there, from the top or from crates/ on."""
    for span in re.findall(r"`([^`\n]+)`", paper.read_text()):
        for word in span.split():
            named = re.fullmatch(r"[\w.-]+(/[\w.-]+)+", word)
            if named and "/out/" not in word and not ((ROOT / word).exists() or (ROOT / "crates" / word).exists()):
                yield "there is no file %s" % word


def crates():
    """The crates of crates.txt, each with those on which it stands."""
    parts = [line.partition(":") for line in (ROOT / "crates.txt").read_text().splitlines()]
    return {name.split()[0]: set(rest.split()) for name, _, rest in parts if name.strip() and not name.startswith("#")}


def rows(section, paper):
    """The rows below a heading that begin with a name in backquotes, each as its cells."""
    found = [line for part in sections(paper) if part.title == section for line in part.lines if line.startswith("| `")]
    return [[cell.strip() for cell in line.strip().strip("|").split("|")] for line in found]


def crates_are_told():
    """docs/ARCHITECTURE.md has a row and a heading for each crate, and the row says on which others it stands."""
    paper, known = ROOT / "docs/ARCHITECTURE.md", crates()
    told = {row[0].strip("`"): set(re.findall("`(.*?)`", row[2])) for row in rows("Architecture", paper)}
    headed = {part.title.strip("`") for part in sections(paper) if part.title.startswith("`")}
    for name in sorted(known.keys() | told.keys() | headed):
        if name not in known:
            yield "%s is no crate" % name
        elif name not in headed:
            yield "%s has no heading" % name
        elif told.get(name) != known[name]:
            yield "%s does not stand on what its row says, by crates.txt" % name


def crates_are_proved():
    """docs/PROOFS.md has a sentence for each crate that is no crate of tests."""
    told = {line.split("`")[1] for part in sections(ROOT / "docs/PROOFS.md") if part.title == "Each crate in a sentence"
            for line in part.lines if line.startswith("- `")}
    for name in sorted(told ^ {name for name in crates() if not name.startswith("hb_trials")}):
        yield "%s has no sentence, or is no crate" % name


def crates_are_measured():
    """In docs/PROOFS.md each crate has a row in the table of the gate's time, or is named below it as not measured yet."""
    title, paper = "What the gate costs", ROOT / "docs/PROOFS.md"
    measured = [row[0].strip("`") for row in rows(title, paper)]
    text = "".join(line for part in sections(paper) if part.title == title for line in part.lines)
    awaited = re.findall("`(.*?)`", "".join(re.findall(r"^Not measured yet: .*$", text, re.M)))
    for name in sorted(crates().keys() | set(measured) | set(awaited)):
        if name not in crates():
            yield "what the gate costs: %s is no crate" % name
        elif name not in measured and name not in awaited:
            yield "what the gate costs: %s has no row, and is not named as not measured yet" % name
        elif name in measured and name in awaited:
            yield "what the gate costs: %s has a row, and is named as not measured yet" % name


def paragraphs_are_short(paper, most=100):
    """No paragraph and no item of a list has more words. Rows of a table do not count."""
    for section in sections(paper):
        text = "".join("\n" + line if re.match(r"[-|]|\d+\. ", line) else line for line in section.lines)
        for part in re.split(r"\n\s*\n", text):
            words = part.split()
            if len(words) > most and words[0] != "|":
                yield "a paragraph has %d words, more than %d: %s .." % (len(words), most, " ".join(words[:6]))


def version_has_its_changes():
    version = (ROOT / "VERSION").read_text().strip()
    if not re.search(r"(?<![\d.])%s(?![\d])" % re.escape(version), (ROOT / "CHANGELOG.md").read_text()):
        yield "CHANGELOG.md: the version %s is not there" % version


def write(paper):
    """Gives each block that names a file that file's text."""
    lines, kept, skips = paper.read_text().splitlines(keepends=True), [], False
    for line in lines:
        if not (skips and not line.startswith(FENCE)):
            kept.append(line)
        if line.startswith(FENCE):
            file = line[len(FENCE):].strip().partition(" ")[2]
            skips = bool(file)
            kept.append((ROOT / file).read_text() if file else "")
    paper.write_text("".join(kept))


def main():
    wrong = []
    for paper in PAPERS:
        if sys.argv[1:] == ["--write"]:
            write(paper)
        for rule in (blocks_are_files, links_lead_somewhere, examples_are_listed):
            wrong += ["%s: %s" % (paper.relative_to(ROOT), message) for message in rule(paper)]
    wrong += [*tables_are_one(), *editors_know_all_words(), *commands_are_everywhere(), *options_are_everywhere()]
    architecture = ROOT / "docs/ARCHITECTURE.md"
    for message in (*crates_are_told(), *paragraphs_are_short(architecture), *named_files_are_there(architecture)):
        wrong.append("docs/ARCHITECTURE.md: %s" % message)
    wrong += ["docs/PROOFS.md: %s" % message for message in (*crates_are_proved(), *crates_are_measured())]
    wrong += [*version_has_its_changes(), *headline.faults(), *lines.faults(), *answers.faults()]
    wrong += ["CONTRIBUTING.md: %s" % message for message in named_files_are_there(ROOT / "CONTRIBUTING.md")]
    for message in wrong:
        print(message)
    print("%d papers, %d wrong" % (len(PAPERS), len(wrong)))
    return 1 if wrong else 0


if __name__ == "__main__":
    sys.exit(main())
