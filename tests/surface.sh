# Scripts, the page of the manual, completion, and what may stand in no file. tests/check.sh reads this file.
# shellcheck shell=bash disable=SC2154

check_scripts() {
    local script
    check "sh -n hb" sh -n hb
    for script in hbird .ci/run release/*.sh tests/*.sh completion/hbird.bash; do
        check "bash -n $script" bash -n "$script"
    done
    if has shellcheck; then
        check "shellcheck" shellcheck -x hb hbird .ci/run release/*.sh tests/check.sh completion/hbird.bash
    else
        skip "shellcheck is not installed"
    fi
}

# Neither tool has a word to say of the page.
check_manual() {
    local words
    for words in "groff -ww -man -Tutf8 -z" "mandoc -Tlint"; do
        if has "${words%% *}"; then
            # shellcheck disable=SC2086
            $words man/hbird.1 >"$room/wrote" 2>&1 || true
            check "$words man/hbird.1" cmp "$room/wrote" /dev/null
        else
            skip "${words%% *} is not installed"
        fi
    done
}

check_completion() {
    check "completion" python3 tests/shells.py
    if has zsh; then
        check "zsh -n completion/_hb" zsh -n completion/_hb
    fi
}

# No tracked file has a match of the pattern.
has_none() {
    ! git grep -nIE "$1" -- . ':!tests/surface.sh'
}

check_leftovers() {
    if has git && git rev-parse --is-inside-work-tree >/dev/null 2>&1; then
        check "no absolute path of a machine" has_none '(^|[^A-Za-z0-9_.])/(opt|tmp|work|home|root|mnt)/'
        check "no word left over" has_none '\b(TODO|FIXME|XXX|HACK)\b'
    else
        skip "git is not installed, or this is no checkout"
    fi
}
