"""The words behind a command: which are options and which are files, and what is to be said of a wrong one."""
import difflib
import os
import shlex

COMMANDS = ("run", "trace", "derive", "verify", "watch", "new", "fmt", "lsp", "explain", "help")


def parted(words):
    """The options and the files. The word - is a file, and so is all that stands behind the word --."""
    ends = words.index("--") if "--" in words else len(words)
    options = [word for word in words[:ends] if word.startswith("-") and word != "-"]
    return options, [word for word in words[:ends] if word not in options] + words[ends + 1:]


def has_order(options):
    """Whether the scripts take turns by an order. Then a shorter text has other turns."""
    return any(option.startswith("--order") for option in options)


def is_file(option):
    """Whether an option is rather meant as a file."""
    return option.endswith(".hb") or os.path.lexists(option)


def values():
    """What docs/FORMATS.md says of the values of the options that hbird takes, by their names."""
    import pages
    told = {words[0].strip("`").split()[0]: words[-1].replace("`", "") for words in pages.rows(pages.FORMATS, "Words")}
    return {name: value for name, value in told.items() if name.startswith("--")}


def of_value(option, value):
    """What is said of an option that hbird knows and refuses."""
    name, mark, given = option.partition("=")
    if value == "none":
        return "%s takes no value" % name
    if not mark:
        return "%s wants its value behind a =, as in %s=..: %s" % (name, name, value)
    return "%s: the value of %s is %s" % (option, name, value)


def of_option(option, known, command="hb"):
    """What is said of an option that is not known."""
    if is_file(option):
        return "%s begins with a dash, so it is taken for an option; as a file it is named by %s -- %s" % (
            option, command, shlex.quote(option))
    near = difflib.get_close_matches(option.partition("=")[0], known, 1, 0.75)
    return "there is no option %s; %s" % (option, "is it %s?" % near[0] if near else "hb help tells what there is")


def command_near(word):
    """The command that may be meant by a word that names no file, or None."""
    if os.path.lexists(word) or not word.isalpha():
        return None
    return next(iter(difflib.get_close_matches(word, COMMANDS, 1)), None)


def fault(options, files):
    """What is wrong with the words of a run, as far as it shows before the run; else None."""
    for option in filter(is_file, options):
        return of_option(option, [])
    if not files:
        return "no file is named; hb help tells what hb does"
    near = command_near(files[0])
    return near and "there is no file %s; is it hb %s?" % (files[0], near)
