# Completes the words of ./wbsim in bash: . tools/completion/wbsim.bash

_wbsim() {
    local word=${COMP_WORDS[COMP_CWORD]} before=${COMP_WORDS[COMP_CWORD - 1]} answers=
    if [ "$COMP_CWORD" -eq 1 ]; then
        answers="replay forecast check law run audit bulk --version --help"
    elif [ "$before" != -o ] && [ "${word:0:1}" = - ]; then
        answers="-o"
    elif [ "$before" != -o ] && [ "$before" != bulk ] && [ "$before" != forecast ]; then
        # The texts of a command and folders on the way there; any file where there is none of them.
        local ending=trace
        [ "${COMP_WORDS[1]}" != law ] || ending=law
        mapfile -t COMPREPLY < <(compgen -f -X "!*.$ending" -- "$word"; compgen -d -S / -- "$word")
        compopt -o nospace 2> /dev/null
        return
    fi
    mapfile -t COMPREPLY < <(compgen -W "$answers" -- "$word")
}

complete -o bashdefault -o default -F _wbsim wbsim
