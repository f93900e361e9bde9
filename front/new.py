"""hb new: writes a first program, and never over a file."""
import os
import shlex

import command

WRONG_WORDS, WRITE_FAILED = 2, 5

PROGRAM = b"""\
# A method gets a type, then a body, and is called. Change something, and run it again.
class Greeter
script main
type Greeter.greet : (Str) -> Str
def Greeter.greet(name)
  "hello, " ++ name
end
print Greeter.new.greet("world")
end
"""


def put_new(name):
    """Writes the program where no file is. Where it cannot be written whole, none is there behind that."""
    with open(name, "xb") as file:
        try:
            file.write(PROGRAM)
            file.flush()
        except OSError:
            os.unlink(name)
            raise


def main(given, say):
    options, names = command.parted(given)
    if options:
        say(command.of_option(options[0], [], "hb new"))
        return WRONG_WORDS
    if len(names) != 1 or os.path.basename(names[0]) in ("", "-"):
        say("hb new takes one name, that of the program to write")
        return WRONG_WORDS
    name = names[0] if names[0].endswith(".hb") else names[0] + ".hb"
    try:
        put_new(name)
    except FileExistsError:
        say("%s is there already, and stays as it is" % name)
        return WRITE_FAILED
    except OSError as error:
        say("%s: %s" % (name, error.strerror))
        return WRITE_FAILED
    # Behind -- a name is no option.
    quoted = "-- " * name.startswith("-") + shlex.quote(name)
    say("%s is written; hb %s runs it, and hb watch %s runs it again on each save" % (name, quoted, quoted))
    return 0
