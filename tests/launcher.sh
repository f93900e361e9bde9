# Which program ./hbird and ./hb run in a copy of this repository without the kit. tests/check.sh reads this file.
# shellcheck shell=bash disable=SC2154

# The repository as it stands in a checkout where nothing was built, and nothing is released. The copies of it are made
# beside other checks, while editors may put files beside what they open.
copy_repository() {
    original=$room/original
    mkdir "$original"
    tar -c --exclude=./.git --exclude=./out --exclude='./crates/*/out' --exclude=__pycache__ . | tar -x -C "$original"
    rm -f "$original"/release/hbird-x86_64-linux*
}

# A copy in which the program that is tried here is the released one.
copy_with_release() {
    cp -r "$original" "$1"
    mkdir -p "$1/crates/hbird/out"
    cp "$program" "$1/crates/hbird/out/hbird"
    "$1/release/renew.sh" >/dev/null
    rm -r "$1/crates/hbird/out"
}

# The PATH without the kit: a folder that has rt is replaced by one that has all else of it.
path_without_kit() {
    local folder found="" number=0
    while IFS= read -r -d : folder; do
        if [[ -e $folder/rt ]]; then
            number=$((number + 1))
            mkdir -p "$room/bin$number"
            ln -sf "$folder"/* "$room/bin$number"
            rm "$room/bin$number/rt"
            folder=$room/bin$number
        fi
        found+=:$folder
    done <<<"$PATH:"
    echo "${found#:}"
}

# Runs a command without the kit, for ten seconds at most, and once more where it takes longer, as on a very busy machine.
in_time() {
    local status=0
    PATH=$without_kit timeout 10 "$@" >"$room/wrote" 2>"$room/told" || status=$?
    [[ $status != 124 ]] || { status=0 && PATH=$without_kit timeout 10 "$@" >"$room/wrote" 2>"$room/told" || status=$?; }
    return "$status"
}

# Releases what the input has, with the checksums that are due for it.
release_this() {
    cat >"$released"
    chmod +x "$released"
    find_sources
    write_sums "$released"
}

# In the copy, behind a command there, what hb does: its status, with the report where it is 0, and all that it says.
answers() {
    local status=0 wanted=$1 says=$2 command=$3 told
    (cd "$copy" && eval "$command") >/dev/null
    in_time "$copy/hb" "$copy/examples/hello.hb" || status=$?
    told=$(<"$room/told")
    # shellcheck disable=SC2053
    [[ $status == "$wanted" && $told == $says && $(wc -l <"$room/told") -le 1 ]] || return 1
    cmp "$room/wrote" "$( ((status)) && echo /dev/null || echo examples/hello.out)"
}

# One row for each state of a checkout: its name, the status, what is said as a pattern, and how it comes of the one before.
check_states() {
    local name wanted says command
    while IFS='|' read -r name wanted says command; do
        check "hb without the kit: $name" answers "$wanted" "$says" "$command"
    done <<'ROWS'
the released program|0||true
all sources newer by their times|0||find crates crates.txt HANDLES release -exec touch {} +
all sources older by their times|0||find crates crates.txt HANDLES -exec touch -d 2001-01-01 {} +
a change in a crate that is no part of it|0||echo "//" >>crates/hb_trials/src/lib.rt
a change in a source|70|hbird: release/hbird-x86_64-linux is older than its sources (crates/hb_io/src/lib.rt differs), and *; HBIRD=*|echo "//" >>crates/hb_io/src/lib.rt
the same size and time|70|* (crates/hb_io/src/lib.rt differs), *|sed -i '$ s/.*/--/' crates/hb_io/src/lib.rt; touch -d 2001-01-01 crates/hb_io/src/lib.rt
the source as it was|0||sed -i '$ d' crates/hb_io/src/lib.rt
a source more|70|* (crates/hb_lex/proofs/New.antt differs), *|touch crates/hb_lex/proofs/New.antt
a source less|70|* (crates/hb_lex/specs/* differs), *|rm crates/hb_lex/proofs/New.antt; mv crates/hb_lex/specs kept; mkdir crates/hb_lex/specs
the source there again|0||rmdir crates/hb_lex/specs; mv kept crates/hb_lex/specs
another line in crates.txt|70|* (crates.txt differs), *|echo "hb_more:" >>crates.txt
the line gone|0||sed -i '$ d' crates.txt
no place to keep an answer|0||rm -r out; echo >out
a damaged program|70|hbird: release/hbird-x86_64-linux is not the program of its checksums, *|rm out; echo >>"$released"
no checksums|70|hbird: release/hbird-x86_64-linux is not the program of its checksums, *|rm "$released.sums"
no program|70|hbird: the program is not built, and none is released, and *|mv "$released" kept
a program for another processor|70|hbird: release/hbird-x86_64-linux does not run on this machine, since it needs Linux on an x86-64-v2 *, with glibc *|printf '\177ELF' | release_this
a program that wants a newer C library|70|hbird: release/hbird-x86_64-linux does not run on this machine, *|printf '#!/bin/sh\nexit 1\n' | release_this
a program that was built here too|0||mkdir "${built%/*}"; cp kept "$built"
all sources newer than that|0||find crates crates.txt HANDLES -name out -prune -o -exec touch {} +
a copy of all|0||mkdir more; cp -r crates/. more; rm -r crates; mv more crates
a change behind that|70|hbird: crates/hbird/out/hbird is older than its sources (crates/hb_io/src/lib.rt differs), *; HBIRD=*/crates/hbird/out/hbird *|echo "//" >>crates/hb_io/src/lib.rt
a fresh release beside an old program|0||release_this <kept
without checksums, an old program by its time|70|hbird: crates/hbird/out/hbird is older than its sources (* is newer), *|rm "$released" "$built.sums"; touch -d 2001-01-01 "$built"
ROWS
}

# HBIRD names a program to run all the same.
is_run_all_the_same() {
    (cd "$copy" && PATH=$without_kit HBIRD=crates/hbird/out/hbird ./hb examples/hello.hb) >"$room/wrote" && cmp examples/hello.out "$room/wrote"
}

# Nothing that launchers need is there but to find themselves.
is_told_in_bare_room() {
    local status=0 bash
    bash=$(command -v bash)
    mkdir -p "$room/bare"
    ln -sf "$(command -v readlink)" "$(command -v dirname)" "$room/bare"
    rm -r "$copy/crates/hbird/out"
    PATH=$room/bare "$bash" "$copy/hbird" run </dev/null >"$room/wrote" 2>"$room/told" || status=$?
    [[ $status == 70 && ! -s $room/wrote && $(wc -l <"$room/told") -eq 1 ]]
}

# Whether the program may run on a processor that tells these flags.
has_flags() {
    echo "$1" >"$room/cpuinfo"
    has_processor "$room/cpuinfo"
}

lacks_flags() {
    ! has_flags "$1"
}

check_processors() {
    check "a processor of x86-64-v2" has_flags "flags : fpu cx16 lahf_lm popcnt pni sse4_1 sse4_2 ssse3 avx"
    check "a processor that tells no flags" has_flags "Features : fp asimd"
    check "a processor without sse4_2" lacks_flags "flags : fpu cx16 lahf_lm popcnt pni sse4_1 ssse3"
    check "a processor without cx16" lacks_flags "flags : fpu lahf_lm popcnt pni sse4_1 sse4_2 ssse3"
}

# From another folder, and with streams closed, the launcher hands on words, input, output and status.
check_handing_on() {
    local name wanted text command status
    while IFS='|' read -r name wanted text command; do
        status=0
        (cd "$copy/examples" && PATH=$without_kit bash -c "$command") >"$room/wrote" 2>/dev/null || status=$?
        check "the launcher: $name" [ "$status $(head -n 1 "$room/wrote")" = "$wanted $text" ]
    done <<'ROWS'
from another folder|6|script main|../hbird run <stops/no_type.hb
closed input|4||../hbird run <&-
closed output|5||../hbird run <hello.hb >&-
closed errors|0|script main|../hbird run <hello.hb 2>&-
another word|2|words refused|../hbird walk <hello.hb
by a link|0|script main|ln -s ../hbird here; ./here run <hello.hb
nothing to run, and closed errors|70||mv ../release ../away; mkdir ../release; cp ../away/program.sh ../release; ../hbird run <hello.hb 2>&-
ROWS
}

check_launcher() {
    local copy=$room/launched without_kit
    without_kit=$(path_without_kit)
    check_processors
    copy_with_release "$copy"
    check_states
    check "hb without the kit: an old program, by its name" is_run_all_the_same
    check "the launcher in a bare room" is_told_in_bare_room
    copy=$room/handing
    copy_with_release "$copy"
    check_handing_on
}
