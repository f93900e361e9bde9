# The merge gate itself, in a copy of this repository with a kit that proves nothing. tests/check.sh reads this file.
# shellcheck shell=bash disable=SC2154

# What stands for the kit: it notes its words, says some lines as rt does, and leaves a program.
make_kit() {
    mkdir -p "$room/kit"
    cat >"$room/kit/rt" <<'KIT'
#!/usr/bin/env bash
echo "$*" >>asked
mkdir -p crates/hbird/out
cp made crates/hbird/out/hbird
echo "rt: hb_io is kept: an earlier run on this machine proved the same files over the same libraries"
echo "== hb_types"
echo "rt: hb_types proved"
echo "rt: hb_types: its tests are proved"
echo "rt: hb_lex NOT PROVED"
echo "2 passed, 1 failed"
exit "$ENDS"
KIT
    chmod +x "$room/kit/rt"
}

# In the copy, behind a command there, what the gate comes to: its status, its last line, and that rt was asked once, for all.
gate_ends() {
    local status=0 wanted=$1 ends=$2 last=$3 command=$4
    (cd "$copy" && rm -f asked && bash -c "$command") >/dev/null
    PATH=$room/kit:$PATH ENDS=$ends "$copy/.ci/run" >"$room/wrote" 2>&1 || status=$?
    [[ $status == "$wanted" && $(tail -n 1 "$room/wrote") == "$last" && $(<"$copy/asked") == ci ]]
}

# One row for each ending: its name, the status, that of rt, the last line, and how it comes of the one before.
check_endings() {
    local name wanted ends last command
    while IFS='|' read -r name wanted ends last command; do
        check "the gate: $name" gate_ends "$wanted" "$ends" "$last" "$command"
    done <<'ROWS'
no release|1|0|gate: FAILED: release/hbird-x86_64-linux is not there; make release renews it|true
a release of what was built|0|0|the checks|make -s release
what was not proved|3|3|2 passed, 1 failed|true
a check that fails|1|0|the checks|echo exit 1 >>tests/check.sh
another program|1|0|gate: FAILED: release/hbird-x86_64-linux is another than the program that was built here; make release renews it|sed -i '$ d' tests/check.sh; echo >>made
a release of that|0|0|the checks|make -s release
another source|1|0|gate: FAILED: release/hbird-x86_64-linux has other checksums beside it than those of these sources; make release renews it|echo "//" >>crates/hb_io/src/lib.rt
ROWS
}

# What rt says stands there whole and in order, and between its lines how far the gate is.
tells_how_far() {
    local all
    all=$(grep -c '^[a-z]' crates.txt)
    diff - "$room/wrote" <<TOLD
$(head -n 2 "$room/wrote" | grep '^gate: ')
rt: hb_io is kept: an earlier run on this machine proved the same files over the same libraries
gate: 1 of $all crates are proved, after 0 minutes
== hb_types
rt: hb_types proved
gate: 2 of $all crates are proved, after 0 minutes
rt: hb_types: its tests are proved
rt: hb_lex NOT PROVED
2 passed, 1 failed
the checks
gate: FAILED: release/hbird-x86_64-linux has other checksums beside it than those of these sources; make release renews it
TOLD
}

# Nothing is released of a program that is older than its sources, and nothing changes then.
is_not_renewed() {
    local status=0
    (cd "$copy" && echo "//" >>crates/hb_io/src/lib.rt && sha256sum release/* >before && release/renew.sh) >"$room/wrote" 2>"$room/told" || status=$?
    [[ $status == 1 && $(wc -l <"$room/told") -eq 1 ]] && (cd "$copy" && sha256sum --quiet -c before)
}

check_gate() {
    local copy=$room/gate
    cp -r "$original" "$copy"
    make_kit
    printf '#!/bin/sh\necho the checks\n' >"$copy/tests/check.sh"
    cp "$program" "$copy/made"
    check_endings
    check "the gate: how far it is" tells_how_far
    check "no release of an old program" is_not_renewed
}
