"""Runs the programs of docs/ERRORS.md, and sees that it has a section for each word.

    python3 tests/errors.py PATH_TO_HBIRD

A section has a wrong program, the line that is printed, the mended program,
and what that prints where it prints a little. In place of a program a command
of the shell may stand, which writes it. A program that is an example is run
with that one's options, and so is the mended one. The words of every report have a
program for all of them, with its report.
"""
import subprocess
import sys

from markdown import ROOT, sections

WORDS = """TooLong BadBundle BadByte OpenText BadEscape BigNumber LongName LongLiteral
    UnknownClass TwiceClass TwiceScript TwiceParam TooDeep
    NilValue BadOperand NoBody NoType BadArgs IllTyped Overflow LongText OutputFull Busy BadName Deep Full Worn Steps
    Unbound NoSelf
    Unbound NoType Receiver Count Argument Operand Loop Result""".split()
WORDS += ["Expected " + word for word in "end then do ) expression name type classname ( . : -> new item".split()]
WORDS += ["TooMany " + word for word in
          "classes scripts nodes types body calls variables parameters arguments".split()]

# These share a program.
OF_EACH_REPORT = "setup script done stop text calls own shared fresh trace".split()
SHAPE = ["program", "text", "program"]


def is_program(block):
    return block.language in ("hbird", "sh")


def options(block):
    """The options of the example that a block shows."""
    words = (ROOT / (block.file or "")).with_suffix(".words")
    return words.read_text().split() if block.file and words.exists() else []


# Of these words no run tells.
JOBS = {"BadBundle": "verify"}


def run(program, block, words=(), job="run"):
    """What the program writes, as lines, and its status, on the text that a block has or makes."""
    text = block.text.encode()
    if block.language == "sh":
        text = subprocess.run(["bash", "-c", block.text], stdout=subprocess.PIPE, check=True).stdout
    done = subprocess.run([program, job, *words], input=text, stdout=subprocess.PIPE)
    return done.stdout.decode().splitlines(), done.returncode


def wrongs(program, section):
    """What is wrong with a section, each as one line."""
    shape = ["program" if is_program(block) else block.language for block in section.blocks]
    if shape not in (SHAPE, SHAPE + ["text"]):
        yield "its blocks are: %s" % ", ".join(shape)
        return
    wrong, told, mended, *printed = section.blocks
    line, job = told.text.rstrip("\n"), JOBS.get(section.title, "run")
    lines, status = run(program, wrong, options(wrong), job)
    if line not in lines or status != (1 if line.startswith("text ") else 6):
        yield "%r is due, and %r came with status %d" % (line, lines[-2:], status)
    if " %s " % section.title not in line + " ":
        yield "the line has another word"
    lines, status = run(program, mended, options(wrong), job)
    if status != 0:
        yield "the mended program ends with %r and status %d" % (lines[-2:], status)
    elif printed and [each for each in lines if each.startswith("> ")] != printed[0].text.splitlines():
        yield "the mended program writes %r" % lines


def wrong_report(program, section):
    """What is wrong with the report that the first part shows."""
    text, report = section.blocks
    lines, status = run(program, text)
    if (lines, status) != (report.text.splitlines(), 0):
        yield "%r came" % lines


def main():
    all_sections = sections(ROOT / "docs/ERRORS.md")
    words = [section for section in all_sections if section.depth == 3]
    told = [(section.title, message) for section in all_sections if section.title == "The report"
            for message in wrong_report(sys.argv[1], section)]
    told += [(section.title, message) for section in words
            if section.blocks or section.title not in OF_EACH_REPORT
            for message in wrongs(sys.argv[1], section)]
    titles = [section.title for section in words]
    due = WORDS + OF_EACH_REPORT
    if sorted(titles) != sorted(due):
        told.append(("the sections", "without one, or with one too many: %s" % sorted(set(titles) ^ set(due))))
    for title, message in told:
        print("docs/ERRORS.md: %s: %s" % (title, message))
    print("%d sections, %d wrong" % (len(words), len(told)))
    return 1 if told else 0


if __name__ == "__main__":
    sys.exit(main())
