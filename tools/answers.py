#!/usr/bin/env python3
"""Holds docs/ANSWERS.md, the table of all answers, to the enums of the code and to the clauses that it names.

    tools/answers.py

Each variant of an enum of answers has one row, and so has each error of a public function. What is named in the last column
stands in the file behind it: NAME is a definition or a function, NAME.FIELD a clause of its contract or a field of a record.
One of these files speaks of each answer of the row. tests/papers.py says what is wrong.
"""
import re
import sys
from collections import Counter

from antt import CRATES, ROOT

PAGE = ROOT / "docs/ANSWERS.md"
# The public enums whose variants are no answers: what a text, a machine or a list is made of, and what one crate tells itself.
# An enum that is none of these has its rows.
NO_ANSWERS = {
    "hb_build/Held", "hb_call/Ended", "hb_call/Ruling", "hb_call/Share", "hb_check/Stop", "hb_deriv_text/Stage", "hb_eval/Cont",
    "hb_eval/Hand", "hb_eval/Value", "hb_grammar/Action", "hb_grammar/Sort", "hb_grammar/Step", "hb_grammar/Symbol", "hb_jobs/Job",
    "hb_lex/TokenKind", "hb_tables/Act", "hb_threads/Point", "hb_top/Counted", "hb_top/Reading", "hb_top/Stop", "hb_tree/Method",
    "hb_tree/Node", "hb_tree/Op", "hb_types/Ty", "hb_verify/Stop",
}
STATUSES = (re.compile(r"^const \w+: u8 = (\d+);$", re.M), re.compile(r"^ +Ending::\w+ => (\d+),$", re.M))
ENUM = re.compile(r"^pub enum (\w+)(?:<[^>]*>)? \{\n(.*?)^\}", re.M | re.S)
ERROR = re.compile(r"^ *(?:pub fn|fn) \w+(?:(?!^ *(?:pub |pub\(crate\) )?fn ).)*?-> Result<[^\n]*?, (\w+)>$", re.M | re.S)
NAMED = re.compile(r"`([\w.]+)` \(`([\w/]+\.(?:rt|antt))`\)")


def sources():
    """The files of code of the crates that are no tests, each with its crate."""
    for file in sorted(CRATES.glob("*/src/**/*.rt")):
        crate = file.relative_to(CRATES).parts[0]
        if not crate.startswith("hb_trials") and file.name != "tests.rt":
            yield crate, file


def answers():
    """All that must have a row: the variants of the enums of answers, the errors that are no such enum, and the statuses."""
    found, enums, errors = [], set(), set()
    for crate, file in sources():
        text = file.read_text()
        for name, body in ENUM.findall(text):
            enums.add(name)
            if "%s/%s" % (crate, name) not in NO_ANSWERS:
                found += ["%s::%s" % (name, variant) for variant in re.findall(r"^    (\w+)", body, re.M)]
        errors |= {name for name in ERROR.findall(text) if len(name) > 1}
        if crate in ("hb_top", "hbird"):
            found += {"status " + number for pattern in STATUSES for number in pattern.findall(text)}
    return sorted(set(found) | errors - enums)


def rows():
    """The rows of the page: the answers of each, and its last cell."""
    for line in PAGE.read_text().splitlines():
        cells = [cell.strip() for cell in line.strip("|").split("|")]
        if line.startswith("| `") and len(cells) == 3:
            yield re.findall(r"`(status \d+|\w+::\w+|[A-Z]\w+)`", cells[0]), cells[2]


def stands(name, text, is_code):
    """Whether a name of the last column stands in a file's text."""
    name, _, field = name.partition(".")
    if not is_code:
        begins = re.search(r"^ *(?:pub |abbrev |opaque |record |data |local )*%s\b" % name, text, re.M)
        return bool(begins) and (not field or bool(re.search(r"^  pub %s :" % field, text[begins.start():], re.M)))
    clause = r"ensures %s\{" % (field + " " if field else "")
    heads = re.findall(r"^ *(?:pub |pub\(crate\) )?fn %s\b.*?(?:^ *\{$|;$)" % name, text, re.M | re.S)
    if not heads:
        return not field and bool(re.search(r"^    %s\b" % name, text, re.M))
    return not field or any(re.search(clause, head) for head in heads)


def faults():
    told, due = Counter(), answers()
    for names, cell in rows():
        told.update(names)
        places = NAMED.findall(cell)
        texts = {file: (CRATES / file).read_text() for _, file in places if (CRATES / file).is_file()}
        for name, file in places:
            if file not in texts:
                yield "docs/ANSWERS.md: there is no file %s" % file
            elif not stands(name, texts[file], file.endswith(".rt")):
                yield "docs/ANSWERS.md: %s does not stand in %s" % (name, file)
        for name in names:
            word = name.partition("::")[2]
            if not places or word and not any(re.search(r"\b%s\b" % word, text) for text in texts.values()):
                yield "docs/ANSWERS.md: nothing that is named in the row of %s speaks of it" % name
    for name in due:
        if told[name] != 1:
            yield "docs/ANSWERS.md: %s has %d rows, and one is due" % (name, told[name])
    for name in sorted(told.keys() - set(due)):
        yield "docs/ANSWERS.md: %s is no answer of the code" % name


def main():
    wrong = list(faults())
    for message in wrong:
        print(message)
    print("%d answers, %d wrong" % (len(answers()), len(wrong)))
    return 1 if wrong else 0


if __name__ == "__main__":
    sys.exit(main())
