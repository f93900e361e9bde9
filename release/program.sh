# Which program there is to run, and whether it is of these sources. The launcher, the gate, make and the checks read
# this file, and call what is here at the top of the repository.
# shellcheck shell=bash

built=crates/hbird/out/hbird
released=release/hbird-x86_64-linux
# The last answer of find_program, and the size and the times of each file on which it rests.
answer=out/program

# Fills `sources`: all that the program and its proof are made from, which is hbird and the crates below it. So a test or
# a law in another crate changes nothing of it.
find_sources() {
    local -A below=()
    local name rest crates=" "
    while IFS=: read -r name rest; do
        below[${name%% *}]=$rest
    done <crates.txt
    sources=(crates.txt)
    [[ ! -f HANDLES ]] || sources+=(HANDLES)
    add_crate hbird
}

# Adds a crate and those below it, each once. The kit's crates have no folder here.
add_crate() {
    local name part
    [[ $crates != *" $1 "* && -d crates/$1 ]] || return 0
    crates+="$1 "
    for part in src specs proofs; do
        [[ ! -d crates/$1/$part ]] || sources+=("crates/$1/$part")
    done
    for name in ${below[$1]-}; do
        add_crate "$name"
    done
}

# The checksum of each source, by their names.
sums_of_sources() {
    find "${sources[@]}" -type f -print0 2>/dev/null | LC_ALL=C sort -z | xargs -0 sha256sum -- 2>/dev/null
}

# The same, and the program's own behind them. In PROGRAM.sums this stands beside a program that was made from them.
sums_with() {
    sums_of_sources
    sha256sum -- "$1" 2>/dev/null
}

write_sums() {
    sums_with "$1" 2>/dev/null >"$1.sums.$$" && mv -f "$1.sums.$$" "$1.sums"
} 2>/dev/null

# Writes the checksums beside the program that rt built just now, unless a source is another than before that: such a
# source may be in the program or not.
note_built() {
    [[ $(sums_of_sources) != "$1" ]] || write_sums "$built" || true
}

# Whether the checksums beside a program are those of the program.
has_own_sums() {
    [[ -f $1.sums && $(tail -n 1 "$1.sums") == "$(sha256sum -- "$1" 2>/dev/null)" ]]
}

no_source_is_newer() {
    [[ -z $(find "${sources[@]}" -newer "$1" -print -quit 2>/dev/null) ]]
}

# Whether a program was made from these sources. What rt built on its own has no checksums beside it: there times tell,
# and the checksums are written, so that from then on contents do.
is_of_these_sources() {
    [[ -x $1 ]] || return 1
    if has_own_sums "$1"; then
        [[ $(sums_with "$1") == "$(<"$1.sums")" ]]
    else
        [[ $1 == "$built" ]] && no_source_is_newer "$1" && { write_sums "$1" || true; }
    fi
}

# Whether the processor has what x86-64-v2 adds to the first of its kind, by the flags in this file. Where none are told, it may.
has_processor() {
    local flags flag
    flags=$(grep -m 1 '^flags' "$1" 2>/dev/null) || return 0
    for flag in cx16 lahf_lm popcnt pni sse4_1 sse4_2 ssse3; do
        [[ " $flags " == *" $flag "* ]] || return 1
    done
}

# Whether the program runs on this machine: the report of the empty text is empty.
runs_here() {
    local wrote
    has_processor /proc/cpuinfo && wrote=$({ "./$1" run </dev/null; } 2>&1) && [[ -z $wrote ]]
}

# What the program needs of a machine, as release/needs has it.
needs() {
    local what of
    while read -r what of; do
        case $what in
            processor) printf 'Linux on an %s processor' "$of" ;;
            glibc) printf ', with glibc %s or newer\n' "$of" ;;
        esac
    done <release/needs
}

# The first file that differs from what the checksums beside a program say, and how; or the first source that is newer,
# where they say nothing of it.
first_difference() {
    local file
    if has_own_sums "$1"; then
        file=$(LC_ALL=C comm -3 <(sums_with "$1" | LC_ALL=C sort) <(LC_ALL=C sort "$1.sums") | sed 's/^\t*[0-9a-f]*  //' | LC_ALL=C sort | head -n 1)
        echo "$file differs"
    else
        echo "$(find "${sources[@]}" -newer "$1" -print -quit 2>/dev/null) is newer"
    fi
}

# A line for each file on which the answer rests, with its size and the time of its last change; nothing where find cannot tell.
listing() {
    find "${sources[@]}" "$built" "$built.sums" "$released" "$released.sums" -type f -printf '%p %s %C@\n' 2>/dev/null
}

# Sets `program` to one that is of these sources and runs here: what was built here, else what was released. Contents are
# read only where the listing is another than at the last answer.
find_program() {
    local now last=
    find_sources
    now=$(listing) || true
    [[ ! -f $answer ]] || last=$(<"$answer")
    for program in "$built" "$released"; do
        [ -z "$now" ] || [ "$last" != "$program"$'\n'"$now" ] || return 0
    done
    for program in "$built" "$released"; do
        if is_of_these_sources "$program" && runs_here "$program"; then
            keep_answer "$program"$'\n'"$now" || true
            return 0
        fi
    done
    return 1
}

# Keeps the answer, where this folder is the caller's own.
keep_answer() {
    [[ -O . ]] && mkdir -p "${answer%/*}" && echo "$1" >"$answer.$$" && mv -f "$answer.$$" "$answer"
} 2>/dev/null
