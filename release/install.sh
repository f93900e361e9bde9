#!/usr/bin/env bash
# Puts the program, hb and what goes with them below a folder, or takes them away again.
#
#     release/install.sh [--remove] PREFIX
#
# ROOT names a folder that stands for / while a package is made, and ZSH the folder below PREFIX for zsh's completion.
set -euo pipefail
cd "$(dirname "$0")/.."
# shellcheck source=release/program.sh
. release/program.sh

# One line for each file: its mode, where it is from and where it goes; or `link`, what the link says and where it goes.
each_file() {
    local file
    echo "755 ${program-none} lib/hbird/hbird"
    echo "755 hb lib/hbird/hb"
    for file in VERSION release/needs docs/ERRORS.md docs/LANGUAGE.md docs/FORMATS.md $(find front -name __pycache__ -prune -o -type f -print); do
        echo "644 $file lib/hbird/$file"
    done
    echo "link ../lib/hbird/hb bin/hb"
    echo "link ../lib/hbird/hbird bin/hbird"
    echo "644 man/hbird.1 share/man/man1/hbird.1"
    echo "link hbird.1 share/man/man1/hb.1"
    echo "644 completion/hbird.bash share/bash-completion/completions/hb"
    echo "link hb share/bash-completion/completions/hbird"
    echo "644 completion/_hb $zsh/_hb"
    find editors/emacs -type f -printf '644 %p share/emacs/site-lisp/%P\n'
    find editors/vim -type f -printf '644 %p share/vim/vimfiles/%P\n'
    find editors/vscode -type f -printf '644 %p share/hbird/vscode/%P\n'
    for file in README.md CHANGELOG.md editors/README.md docs/*.md; do
        echo "644 $file share/doc/hbird/$file"
    done
    find docs/pictures -type f -printf '644 %p share/doc/hbird/%p\n'
    find examples -type f -printf '644 %p share/doc/hbird/%p\n'
}

# What these folders hold is ours alone, also what an older version put there.
own_folders=(lib/hbird share/hbird share/doc/hbird)

put() {
    local mode from to
    while read -r mode from to; do
        if [[ $mode == link ]]; then
            mkdir -p "$(dirname "$prefix/$to")"
            ln -sfn "$from" "$prefix/$to"
        else
            install -D -m "$mode" "$from" "$prefix/$to"
        fi
    done <<<"$files"
}

remove() {
    local mode from to folder
    while read -r mode from to; do
        rm -f "$prefix/$to"
    done <<<"$files"
    for folder in "${own_folders[@]}"; do
        rm -rf "${prefix:?}/$folder"
    done
}

action=put
if [[ ${1-} == --remove ]]; then
    action=remove
    shift
fi
if [[ $# != 1 || $1 != /* ]]; then
    echo "install: PREFIX is the one word that is wanted, and begins with a /" >&2
    exit 2
fi
umask 022
prefix=${ROOT-}$1
zsh=${ZSH-share/zsh/site-functions}
if [[ $action == put ]] && ! find_program; then
    echo "install: there is no program that is of these sources and runs here; ./hbird builds it" >&2
    exit 1
fi
files=$(each_file)
"$action"
