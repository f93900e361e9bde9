"""hb derive: shows the checks of a run, each with the lines of the program."""
import checks
import command
import show
import streams

WRONG_WORDS, READ_FAILED, STOPPED = 2, 4, 6


def one_file(words, name):
    """The one file that a command takes, or what is wrong with its words."""
    options, files = command.parted(words)
    if options:
        return None, command.of_option(options[0], [], name)
    if len(files) != 1:
        return None, "%s takes one file; hb help tells more" % name
    return files[0], None


def main(words, say):
    import hb
    name, wrong = one_file(words, "hb derive")
    if wrong:
        say(wrong)
        return WRONG_WORDS
    source = hb.read(name)
    if source is None:
        return READ_FAILED
    out, status = hb.run(source, [], "derive")
    paint = show.Paint(streams.wants_colours())
    if status not in (0, STOPPED) or not checks.is_bundle(out):
        hb.show_report(name, source, out, status, [], False, paint)
        return status
    text, behind = checks.parts(out)
    name = streams.plain(name)
    for number, derivation in enumerate(checks.derivations(behind), 1):
        hb.write([""] * (number > 1) + list(checks.shown(number, derivation, name, text, paint)))
    return status
