# shellcheck shell=bash
# Completion for bash: commands and options are those that the program's own help names, so that they are the same.

_journal_collect() {
    local program=$1 word=$2 before=$3 help commands
    local -a asked=("$program") own=()
    local first=1
    case ${program##*/} in
        journal-collect)
            own=(--explain)
            while [[ ${COMP_WORDS[first]} == --* && $COMP_CWORD -gt $first ]]; do first=$((first + 1)); done
            ;;
        journal-collect-admin) ;;
        *) first=0 ;;
    esac
    if [[ $first -gt 0 && $COMP_CWORD -gt $first ]]; then
        asked+=("${COMP_WORDS[first]}")
        case ${asked[1]} in check | codes | inspect | verify) own+=(--json) ;; esac
    fi
    help=$("${asked[@]}" --help 2> /dev/null)
    COMPREPLY=()
    # --machine=NAME is three words
    [[ $word != = ]] || word=
    [[ $before != = ]] || before=${COMP_WORDS[COMP_CWORD - 2]}
    if [[ $before == -M || $before == --machine ]]; then
        mapfile -t COMPREPLY < <(compgen -W "$("$program" --list-machines --no-pager 2> /dev/null |
            awk 'NR > 1 { print $1 }')" -- "$word")
    elif [[ $program == *search && ($before == -u || $before == --unit) ]]; then
        mapfile -t COMPREPLY < <(compgen -W "$("$program" --field=_SYSTEMD_UNIT --no-pager 2> /dev/null)" -- "$word")
    elif [[ $word == -* ]]; then
        help="${own[*]} $help"
        mapfile -t COMPREPLY < <(compgen -W "$(grep -oE -- '--[a-z][a-z-]*' <<< "$help" | sort -u)" -- "$word")
    elif [[ $first -gt 0 && $COMP_CWORD -eq $first ]]; then
        commands=$(awk '/^(Commands:|  COMMAND$)/ { on = 1; next } /^$/ { on = 0 } on && /^  ? ? ?[a-z]/ { print $1 }' \
            <<< "$help")
        mapfile -t COMPREPLY < <(compgen -W "$commands" -- "$word")
    else
        mapfile -t COMPREPLY < <(compgen -f -- "$word")
    fi
}

complete -o filenames -F _journal_collect journal-collect journal-collect-admin journal-collect-forward \
    journal-collect-join journal-collect-search journal-collect-send journal-collect-status
