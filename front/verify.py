"""hb verify: shows which derivations of a bundle are good, and of each other one where the walk over its body stopped."""
import checks
import derive
import show
import streams

WRONG_WORDS, READ_FAILED, STOPPED = 2, 4, 6
# The program reads at most one byte more than a bundle may have.
MOST = 33554433


def main(words, say):
    import hb
    name, wrong = derive.one_file(words, "hb verify")
    if wrong:
        say(wrong)
        return WRONG_WORDS
    bundle = hb.read(name, MOST)
    if bundle is None:
        return READ_FAILED
    out, status = hb.run(bundle, [], "verify")
    paint = show.Paint(streams.wants_colours())
    text, behind = checks.parts(bundle)
    *lines, cut = hb.lines_of(out)
    found = checks.derivations(behind)
    if status not in (0, STOPPED) or cut or len(lines) != len(found):
        # The places of a fault of the program are those in its text; all others are those of the bundle.
        is_of_bundle = any(line.startswith("text BadBundle") for line in lines)
        hb.show_report(name, bundle if is_of_bundle else text, out, status, [], False, paint)
        return status
    for number, (derivation, line) in enumerate(zip(found, lines), 1):
        hb.write(checks.verdict_shown(number, derivation, line, "program", text, paint))
    return status
