# What the program needs, what make installs, and the Debian package, in a copy without the kit. tests/check.sh reads this file.
# shellcheck shell=bash disable=SC2154

# The newest symbol version of the C library that a program asks for is the one that release/needs names.
needs_that_library() {
    [[ $(readelf -V "$1" | grep -o 'GLIBC_[0-9.]*' | sort -V | tail -n 1) == "GLIBC_$(sed -n 's/^glibc //p' release/needs)" ]]
}

# No instruction is one that came after x86-64-v2. What is shown as tzcnt runs there as bsf, which has the same bytes.
fits_that_processor() {
    local later='v[a-z].*|andn|bextr|bls[a-z]+|bzhi|lzcnt|mulx|pdep|pext|rorx|sarx|shlx|shrx|movbe|ad[co]x|aes.*|pclmul.*|sha[0-9].*|x(save|rstor).*'
    grep -qx 'processor x86-64-v2' release/needs &&
        objdump -d --no-show-raw-insn "$1" | awk -F '\t' 'NF > 1 { split($2, word, " "); print word[1] }' | sort -u >"$room/instructions" &&
        grep -q '^mov' "$room/instructions" && ! grep -Ex "$later" "$room/instructions"
}

check_needs() {
    local file
    for file in "$program" release/hbird-x86_64-linux; do
        if [[ $file == release/* && ! -f $file ]]; then
            skip "no program is released: make release"
        elif has readelf && has objdump; then
            check "the C library of $file" needs_that_library "$file"
            check "the processor of $file" fits_that_processor "$file"
        else
            skip "readelf or objdump is not installed: what $file needs"
        fi
    done
}

status_of() {
    cat "${1%.hb}.status" 2>/dev/null || echo 0
}

# With this hb, the first example answers with its report in two seconds, and each ends with its status.
runs_the_examples() {
    local file due="" hb=$1 plain=() words
    in_time "$hb" examples/hello.hb && cmp "$room/wrote" examples/hello.out || return 1
    for file in examples/*.hb examples/stops/*.hb; do
        if [[ -f ${file%.hb}.words ]]; then
            read -ra words <"${file%.hb}.words"
            PATH=$without_kit "$hb" --json "${words[@]}" "$file" >"$room/wrote" || true
            grep -q "\"status\": $(status_of "$file")," "$room/wrote" || return 1
        else
            due+="$file $(status_of "$file")"$'\n'
            plain+=("$file")
        fi
    done
    PATH=$without_kit "$hb" --json "${plain[@]}" >"$room/wrote"
    [[ "$(sed 's/^{"file": "\(.*\)", "status": \([0-9]*\), .*/\1 \2/' "$room/wrote")"$'\n' == "$due" ]]
}

# What stands below this folder: hb, its version, the page, and what shells and editors look for.
is_installed() {
    local at=$1 page=$2 zsh=$3 file
    runs_the_examples "$at/bin/hb" && [[ $("$at/bin/hb" --version) == "hbird $(<VERSION)" ]] || return 1
    [[ $("$at/bin/hb" explain Busy | head -n 1) == Busy ]] || return 1
    [[ $("$at/bin/hb" help | tail -n 1) == *" stand in $at/share/doc/hbird." && -f $at/share/doc/hbird/docs/LANGUAGE.md ]] || return 1
    [[ $("$at/bin/hbird" run <examples/hello.hb) == "$(<examples/hello.out)" ]] || return 1
    for file in hb hbird; do
        bash -n "$at/share/bash-completion/completions/$file" || return 1
        ! has groff || zcat -f "$at/share/man/man1/$file.1$page" | groff -man -Tascii -P-cbou >"$room/page" || return 1
        ! has groff || grep -q '^ *hb explain' "$room/page" || return 1
    done
    for file in $zsh/_hb share/emacs/site-lisp/hbird-mode.el share/vim/vimfiles/syntax/hbird.vim share/hbird/vscode/package.json; do
        [[ -s $at/$file ]] || return 1
    done
}

# All is gone that was put there, and what was there before stays.
is_uninstalled() {
    (cd "$copy" && PATH=$without_kit make -s uninstall PREFIX="$1") && [[ $(find "$1" ! -type d) == "$1/bin/other" ]]
}

# The package names the version and what it needs, and all in it is root's and may be read by all.
is_package() {
    local file=$1
    [[ $(dpkg-deb -f "$file" Package Version Architecture | tr '\n' ' ') == "Package: hbird Version: $(<VERSION) Architecture: amd64 " ]] &&
        [[ $(dpkg-deb -f "$file" Depends) == "libc6 (>= $(sed -n 's/^glibc //p' release/needs)), python3 (>= 3.9)" ]] &&
        ! dpkg-deb -c "$file" | grep -v '^[-dl]r..r..r.. root/root '
}

check_install() {
    local copy=$room/installing prefix="$room/a prefix" package
    without_kit=$(path_without_kit)
    copy_with_release "$copy"
    check "make program, without the kit" env PATH="$without_kit" make -s -C "$copy"
    mkdir -p "$prefix/bin"
    touch "$prefix/bin/other"
    check "make install" env PATH="$without_kit" make -s -C "$copy" install PREFIX="$prefix"
    check "what is installed" is_installed "$prefix" "" share/zsh/site-functions
    check "make uninstall" is_uninstalled "$prefix"
    if has dpkg-deb; then
        package=$copy/$(PATH=$without_kit make -s -C "$copy" deb)
        check "the package" is_package "$package"
        mkdir -p "$room/unpacked"
        check "the package unpacks" dpkg-deb -x "$package" "$room/unpacked"
        check "what is in the package" is_installed "$room/unpacked/usr" .gz share/zsh/vendor-completions
    else
        skip "dpkg-deb is not installed"
    fi
}

check_release() {
    check_needs
    if has make; then
        check_install
    else
        skip "make is not installed"
    fi
}
