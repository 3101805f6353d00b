# Completion of pciids for bash. Commands and options are read from the program's own help, so that
# they are always those of the program that is installed.

_pciids() {
    local word=${COMP_WORDS[COMP_CWORD]} before=${COMP_WORDS[COMP_CWORD - 1]} command='' it
    for it in "${COMP_WORDS[@]:1:COMP_CWORD-1}"; do
        [[ $it == -* ]] || { command=$it && break; }
    done
    COMPREPLY=()
    if [[ -z $command ]]; then
        mapfile -t COMPREPLY < <(compgen -W "$(pciids --help 2> /dev/null | sed -n \
            -e '/^Commands:/,/^$/s/^  \([a-z]\+\) .*/\1/p' -e 's/^  .*\(--[a-z]\+\).*/\1/p')" -- "$word")
    elif [[ $command == help ]]; then
        mapfile -t COMPREPLY < <(compgen -W "$(pciids --help 2> /dev/null | sed -n \
            '/^Commands:/,/^$/s/^  \([a-z]\+\) .*/\1/p')" -- "$word")
    elif [[ $word == -* ]]; then
        mapfile -t COMPREPLY < <(compgen -W "$(pciids "$command" --help 2> /dev/null | sed -n \
            's/^  .*\(--[a-z]\+\).*/\1/p')" -- "$word")
    elif [[ $before == --db || $before == --ids || $before == --journal || ($command == import && $before != --*) ]]; then
        mapfile -t COMPREPLY < <(compgen -f -- "$word")
    fi
}
complete -o filenames -F _pciids pciids
