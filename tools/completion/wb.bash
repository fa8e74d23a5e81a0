# Completes the words of tools/wb in bash: . tools/completion/wb.bash
#
# What there is, is asked of the program's own --help, which takes it a tenth of a second.

# COMMAND WORD..: its help.
_wb_help() {
    COLUMNS=200 "$@" --help 2> /dev/null
}

# COMMAND WORD..: the words, or the parts of a word, that its help lists.
_wb_words() {
    _wb_help "$@" | sed -n 's/^    \([a-z][a-z-]*\)\( .*\)\?$/\1/p'
}

# OPTION COMMAND WORD..: its values, where the help lists them.
_wb_values() {
    local option=$1
    shift
    _wb_help "$@" | sed -n "s/^  $option {\([^}]*\)}.*/\1/p" | tr ',' '\n'
}

_wb() {
    local word=${COMP_WORDS[COMP_CWORD]} before=${COMP_WORDS[COMP_CWORD - 1]} given=("$1") answers=
    type "$1" > /dev/null 2>&1 || return
    [ "$COMP_CWORD" -lt 2 ] || given+=("${COMP_WORDS[1]}")
    [ "$COMP_CWORD" -lt 3 ] || [ "${COMP_WORDS[1]}" != kernel ] || given+=("${COMP_WORDS[2]}")
    case ${word:0:1},${before:0:2},$COMP_CWORD,${given[1]-} in
        -,*) answers=$(_wb_help "${given[@]}" | sed -n 's/^  \(-., \|-. [A-Z]*, \)\?\(--[a-z-]*\).*/\2/p') ;;
        *,--,*) answers=$(_wb_values "$before" "${given[@]}") ;;
        *,1,* | *,2,kernel) answers=$(_wb_words "${given[@]}") ;;
    esac
    # Without an answer bash names files.
    mapfile -t COMPREPLY < <(compgen -W "$answers" -- "$word")
}

complete -o bashdefault -o default -F _wb wb
