# SPDX-License-Identifier: MIT OR Apache-2.0
# Completion of tagetessash for bash: the words that its help lists, then files and the options that help, of a page its own, shows.
_tagetessash() {
    local word=${COMP_WORDS[COMP_CWORD]} page=()
    if [ "$COMP_CWORD" -eq 1 ]; then
        mapfile -t COMPREPLY < <(compgen -W "$("$1" help 2>/dev/null | sed -n 's/^tagetessash \([a-z][a-z]*\) .*/\1/p')" -- "$word")
        return
    fi
    case $word in
    -*)
        [ "${COMP_WORDS[1]}" != page ] || page=(page --help)
        mapfile -t COMPREPLY < <(compgen -W "--jobs --out $("$1" "${page[@]:-help}" 2>/dev/null | grep -oE -- '--[a-z]+(-[a-z]+)*' | sort -u)" -- "$word")
        ;;
    *) compopt -o default 2>/dev/null ;;
    esac
}
complete -F _tagetessash tagetessash
