# The program's edges. tests/check.sh reads this file.
# shellcheck shell=bash disable=SC2154

# One row for each way in which the outside may differ: its name, the status, the text, and a command.
check_edges() {
    local name wanted text command status
    while IFS='|' read -r name wanted text command; do
        status=0
        PROGRAM=$program bash -c "$command" >"$room/wrote" 2>/dev/null || status=$?
        check "$name" [ "$status $(<"$room/wrote")" = "$wanted $text" ]
    done <<'ROWS'
no input|0||"$PROGRAM" run </dev/null
a pipe as input|0|4|set -o pipefail; cat examples/hello.hb | "$PROGRAM" run | wc -l | tr -d ' '
input in two pieces|0|4|set -o pipefail; { head -c 20 examples/hello.hb; sleep 0.2; tail -c +21 examples/hello.hb; } | "$PROGRAM" run | wc -l | tr -d ' '
a folder as input|4||"$PROGRAM" run <examples
closed input|4||"$PROGRAM" run <&-
a full device as output|5||"$PROGRAM" run <examples/hello.hb >/dev/full
closed output|5||"$PROGRAM" run <examples/hello.hb >&-
a pipe that nobody reads|5||set -o pipefail; { sleep 0.2; "$PROGRAM" run <examples/hello.hb; } | true
no word|2|words refused|"$PROGRAM" <examples/hello.hb
another word|2|words refused|"$PROGRAM" walk <examples/hello.hb
one word too many|2|words refused|"$PROGRAM" run run <examples/hello.hb
a text as long as may be|0||head -c 1048576 /dev/zero | tr '\0' ' ' | "$PROGRAM" run
a text one byte longer|1|text TooLong|head -c 1048577 /dev/zero | tr '\0' ' ' | "$PROGRAM" run
ROWS
}
