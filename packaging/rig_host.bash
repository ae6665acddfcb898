# Completions of bash for rig_host: source this file, or lay it as `rig_host` where bash-completion looks. The program itself is asked,
# by --help, which words there are.

_rig_host() {
    local word=${COMP_WORDS[COMP_CWORD]} before=${COMP_WORDS[COMP_CWORD - 1]} told words
    [ "$before" = = ] && before=${COMP_WORDS[COMP_CWORD - 2]}
    [ "$word" = = ] && word=
    COMPREPLY=()
    if [ "$COMP_CWORD" = 1 ]; then
        words=$("$1" --help 2>/dev/null | sed -n '/^Commands:/,/^$/s/^  \([a-z]*\) .*/\1/p; s/.* \(--[a-z-]*\) .*/\1/p')
    else
        told=$("$1" "${COMP_WORDS[1]}" --help 2>/dev/null | sed -n '/^Usage:/,/^Example/p')
        words=$(sed -n 's/^ .* \(--[a-z-]*\) .*/\1/p' <<<"$told")
        case $before,$told in
            --*,*" $before <FILE>"* | --*,*" $before <FOLDER>"*) words=FILES ;;
            --*,*" $before <"*) words= ;;
            *"] <TENANT>"*) [[ $word == -* || $COMP_CWORD == 2 ]] || words=FILES ;;
            *"> <FILE>"* | *"[FILE]"* | *"<OLD> <NEW>"*) [[ $word == -* ]] || words=FILES ;;
        esac
    fi
    if [ "$words" = FILES ]; then
        compopt -o filenames 2>/dev/null
        mapfile -t COMPREPLY < <(compgen -f -- "$word")
    else
        mapfile -t COMPREPLY < <(compgen -W "$words" -- "$word")
    fi
}
complete -F _rig_host rig_host
