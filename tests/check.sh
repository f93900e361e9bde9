#!/usr/bin/env bash
# What no proof says: the examples through the program, its edges, the launcher, hb, make, the editors and the papers.
# It builds nothing, and needs no prover. A part whose tool is missing is skipped, and one line says so.
#
#     tests/check.sh [PROGRAM]
#
# Without a word it tries the program that the launcher would run.
set -euo pipefail
# Parts go to other folders.
named=${1:+$(realpath -- "$1")}
cd "$(dirname "$0")/.."
# A program that is named here would be run in place of each that is tried.
unset HBIRD

room=$(mktemp -d)
trap 'kill $(jobs -p) 2>/dev/null || true; rm -rf "$room"' EXIT
passed=0
failed=0
parts=()

# Notes how one check came out: its name, and the command that decides.
check() {
    local name=$1
    shift
    if "$@"; then
        passed=$((passed + 1))
    else
        failed=$((failed + 1))
        echo "check: FAILED: $name"
    fi
}

skip() {
    echo "check: skipped: $*"
}

has() {
    command -v "$1" >/dev/null
}

# Runs some checks beside the others, in a room of their own.
part() {
    local at=$room/${#parts[@]}
    mkdir "$at"
    echo "$*" >"$at/words"
    parts+=("$at")
    run_part "$at" "$@" >"$at/said" 2>&1 &
}

run_part() {
    room=$1
    shift
    "$@"
    echo "$passed $failed" >"$room/counts"
}

# Shows what the parts said, in their order, and counts their checks.
end_parts() {
    local at more lost
    wait
    for at in "${parts[@]}"; do
        cat "$at/said"
        if [[ -f $at/counts ]]; then
            read -r more lost <"$at/counts"
        else
            more=0 lost=1
            echo "check: FAILED: it broke off: $(<"$at/words")"
        fi
        passed=$((passed + more)) failed=$((failed + lost))
    done
}

# shellcheck source=release/program.sh
. release/program.sh
# shellcheck source=tests/edges.sh
. tests/edges.sh
# shellcheck source=tests/launcher.sh
. tests/launcher.sh
# shellcheck source=tests/release.sh
. tests/release.sh
# shellcheck source=tests/gate.sh
. tests/gate.sh
# shellcheck source=tests/surface.sh
. tests/surface.sh

check_program() {
    copy_repository
    part check_edges
    part check_launcher
    part check_release
    part check_gate
    if has python3; then
        part check "the faults of texts" python3 tests/faults.py "$program"
        part check "the examples and the recordings" python3 tests/examples.py "$program"
        part check "the programs of docs/ERRORS.md" python3 tests/errors.py "$program"
        part check "hints" python3 tests/hints.py "$program"
        part check "lists of words" python3 tests/words.py "$program"
        part check "bundles" python3 tests/bundles.py "$program"
        part check "programs of one script" python3 tests/alone.py "$program"
        part check "expressions one by one and several at once" python3 tests/leaps.py "$program"
        part check "scripts by turns" python3 tests/turns.py "$program"
        part check "scripts round one method" python3 tests/one_key.py "$program"
        part check "scripts at once" python3 tests/at_once.py "$program"
        part check "scripts at once with little memory" python3 tests/memory.py "$program"
        part check "scripts at once that share what is limited" python3 tests/at_limits.py "$program"
        part check "what is refused one at a time" python3 tests/failing.py "$program"
        part check "hostile texts and bytes" python3 tests/hostile.py "$program"
    fi
}

check_front() {
    part check "hb" python3 tests/front.py
    part check "the streams of hb" python3 tests/streams.py
    [[ ! -x $program ]] || part check "hb where things go wrong" python3 tests/rough.py "$program"
    part check "the commands of hb" python3 tests/commands.py "$program"
    [[ ! -x $program ]] || part check "the pictures of runs" python3 tests/pictures.py "$program"
    [[ ! -x $program ]] || part check "the page" python3 tests/page.py "$program"
    part check "hb fmt" python3 tests/fmt.py "$program"
    part check "hb lsp" python3 tests/lsp.py "$program"
    part check "the editors" python3 tests/editors.py
    part check "the editors, driven" python3 tests/driven.py
    part check "the papers" python3 tests/papers.py
    part check_completion
}

if [[ -n $named ]]; then
    program=$named
elif ! find_program; then
    program=
fi
if [[ -x $program ]]; then
    check_program
else
    skip "there is no program that is of these sources: ./hbird builds it"
fi
if has python3; then
    check_front
else
    skip "python3 is not installed: faults, examples, hb, editors, papers, completion"
fi
part check_scripts
part check_manual
part check_leftovers
end_parts
echo "check: $passed passed, $failed failed"
[[ $failed == 0 ]]
