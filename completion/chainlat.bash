# Completion of chainlat for bash. The commands and their arguments are those that `chainlat help` lists, and the names
# are those of the model, as `chainlat migrate` writes it.

# The commands with their arguments, a line each. $1 is the program.
_chainlat_usages() {
    timeout 2 "$1" help 2>/dev/null | sed -n '3,/^$/s/  .*//p' | sed 's/, /\n/g'
}

# The names of a section of a model. $1 is the program, $2 the model, $3 the section.
_chainlat_names() {
    [ -f "$2" ] && timeout 2 "$1" migrate "$2" 2>/dev/null |
        sed -n "/^\[\[/h; /^name = /{G; s/^name = \"\(.*\)\"\n\[\[$3\]\]\$/\1/p;}"
}

# The files that end with one of the endings, and folders; all files where none does. $1 is the begin of the name.
_chainlat_files() {
    local begin=$1 ending
    shift
    mapfile -t COMPREPLY < <(for ending; do compgen -f -X "!*.$ending" -- "$begin"; done)
    if [ ${#COMPREPLY[@]} -eq 0 ]; then
        mapfile -t COMPREPLY < <(compgen -f -- "$begin")
    else
        mapfile -t -O ${#COMPREPLY[@]} COMPREPLY < <(compgen -d -- "$begin")
    fi
    compopt -o filenames -o default 2>/dev/null
}

# The words that begin as what is typed. $1 is that, the others are the words.
_chainlat_words() {
    local begin=$1
    shift
    mapfile -t COMPREPLY < <(compgen -W "$*" -- "$begin")
}

# A word as it is without its quotes, so that a file of that name is found. Nothing in it is run.
_chainlat_plain() {
    local word=${1//[\\\"\']/}
    printf '%s' "${word/#\~\//$HOME/}"
}

_chainlat() {
    local word=${COMP_WORDS[COMP_CWORD]} words=() usages=() usage=() i program section
    COMPREPLY=()
    program=$(_chainlat_plain "$1")
    for ((i = 1; i < COMP_CWORD; i++)); do
        case ${COMP_WORDS[i]} in
            '<' | *'>' | '>>' | '>|' | '&>')
                # a redirection is no word of the command, and neither is its file
                i=$((i + 1))
                [ "$i" -lt "$COMP_CWORD" ] || { _chainlat_files "$word" '*'; return; } ;;
            *) words+=("${COMP_WORDS[i]}") ;;
        esac
    done
    mapfile -t usages < <(_chainlat_usages "$program")
    if [ ${#words[@]} -eq 0 ]; then
        _chainlat_words "$word" "${usages[@]%% *}"
        return
    fi
    for i in "${usages[@]}"; do
        [ "${i%% *}" != "${words[0]}" ] || read -r -a usage <<< "$i"
    done
    case ${usage[${#words[@]}]} in
        MODEL) _chainlat_files "$word" toml ;;
        EDITS) _chainlat_files "$word" edits ;;
        TRACE) _chainlat_files "$word" trace ;;
        '[FILE]') _chainlat_files "$word" edits trace ;;
        '[COMMAND]') _chainlat_words "$word" "${usages[@]%% *}" ;;
        WHAT) _chainlat_words "$word" response reaction age reduced delay requirement ;;
        NAME)
            case ${words[2]} in
                response) section=task ;;
                reaction | age | reduced | delay) section=chain ;;
                requirement) section=requirement ;;
                *) return ;;
            esac
            _chainlat_words "$word" "$(_chainlat_names "$program" "$(_chainlat_plain "${words[1]}")" "$section")" ;;
    esac
}

complete -F _chainlat chainlat
