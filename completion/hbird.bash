# Completion of hb and hbird for bash: source this file.

# Completes what was typed to those lines of the input that begin with it; to all of these where capitals are all one.
_hb_reply() {
    local line
    while IFS= read -r line; do
        [[ $line != "$1"* ]] || COMPREPLY+=("$line")
    done
}

_hb_reply_anyhow() {
    local line
    while IFS= read -r line; do
        [[ ${line,,} != "${1,,}"* ]] || COMPREPLY+=("$line")
    done
}

# The options of a run. One with a value goes on behind its mark.
_hb_options=(--order= --trace --steps= --versions=)

_hb_reply_options() {
    _hb_reply "$1" < <(printf '%s\n' "${@:2}")
    [[ ${#COMPREPLY[@]} != 1 || ${COMPREPLY[0]} != *= ]] || compopt -o nospace 2>/dev/null
}

# The words of a report that may stand behind this one, with marks that the shell would read quoted: all first parts,
# or the second parts of a word that has some.
_hb_words() {
    local all
    all=$("$1" explain --words 2>/dev/null)
    if [[ ${2,,} == expected || ${2,,} == toomany ]]; then
        grep -i "^$2 " <<<"$all" | cut -d ' ' -f 2
    else
        cut -d ' ' -f 1 <<<"$all" | sort -u
    fi | while IFS= read -r word; do printf '%q\n' "$word"; done
}

# Completes to programs, and to folders on the way to them. As names of files they are quoted, and a folder gets its
# slash; the words above would get one too where a folder is called so.
_hb_files() {
    local typed=${1#[\"\']} file before=${#COMPREPLY[@]}
    typed=${typed//\\/}
    while IFS= read -r file; do
        [[ ${file##*/} == .* && ${typed##*/} != .* ]] || COMPREPLY+=("$file")
    done < <(compgen -f -X '!*.hb' -- "$typed"; compgen -d -- "$typed")
    [[ ${#COMPREPLY[@]} == "$before" ]] || compopt -o filenames 2>/dev/null
}

_hb() {
    local typed=${COMP_WORDS[COMP_CWORD]} command="" options=(--json --runs= "${_hb_options[@]}")
    COMPREPLY=()
    ((COMP_CWORD == 1)) || command=${COMP_WORDS[1]}
    [[ $command != fmt ]] || options=(--check)
    [[ $command != derive && $command != verify ]] || options=()
    [[ $command != trace ]] || options=(-o --from= --order= --steps= --versions=)
    case $command in
        explain) _hb_reply_anyhow "$typed" < <(_hb_words "$1" "${COMP_WORDS[COMP_CWORD - 1]}") ;;
        help | lsp | new) ;;
        *)
            if [[ $typed == -* && " ${COMP_WORDS[*]:1:COMP_CWORD-1} " != *" -- "* ]]; then
                _hb_reply_options "$typed" "${options[@]}"
            else
                [[ -n $command ]] || _hb_reply "$typed" < <(printf '%s\n' run trace derive verify watch new fmt lsp explain help)
                _hb_files "$typed"
            fi
            ;;
    esac
}

_hbird() {
    local typed=${COMP_WORDS[COMP_CWORD]}
    COMPREPLY=()
    if ((COMP_CWORD == 1)); then
        _hb_reply "$typed" < <(printf '%s\n' run derive verify gen work)
    elif [[ ${COMP_WORDS[1]} == run ]]; then
        _hb_reply_options "$typed" "${_hb_options[@]}"
    fi
}

complete -F _hb hb
complete -F _hbird hbird
