# Bash completion for budquarry(1); needs nothing but bash.
_budquarry() {
    local word=${COMP_WORDS[COMP_CWORD]} before=${COMP_WORDS[COMP_CWORD - 1]} verb='' options='--json --quiet' operands=0 i
    COMPREPLY=()
    for ((i = 1; i < COMP_CWORD; i++)); do
        case ${COMP_WORDS[i]} in
        --role | --accept) ((i++)) ;;
        -?*) ;;
        *) if [[ $verb ]]; then ((operands++)); else verb=${COMP_WORDS[i]}; fi ;;
        esac
    done
    case $verb in
    compare) options="--all --accept $options" ;;
    decide) options="--login --role --strict $options" ;;
    check) options="--strict $options" ;;
    esac
    if [[ $before == --role ]]; then
        return
    elif [[ $before == --accept ]]; then
        compopt -o filenames 2>/dev/null
        mapfile -t COMPREPLY < <(compgen -f -- "$word")
    elif [[ ! $verb ]]; then
        mapfile -t COMPREPLY < <(compgen -W "compare decide check from-web-xml --help --version $options" -- "$word")
    elif [[ $word == -?* ]]; then
        mapfile -t COMPREPLY < <(compgen -W "$options" -- "$word")
    elif [[ $verb == compare && $operands -lt 2 || $verb =~ ^(decide|check|from-web-xml)$ && $operands -eq 0 ]]; then
        compopt -o filenames 2>/dev/null
        mapfile -t COMPREPLY < <(compgen -f -- "$word")
    elif [[ $verb == decide && $operands -eq 1 ]]; then
        mapfile -t COMPREPLY < <(compgen -W 'GET HEAD POST PUT DELETE OPTIONS TRACE PATCH' -- "$word")
    elif [[ ! $word ]]; then
        mapfile -t COMPREPLY < <(compgen -W "$options" -- "$word")
    fi
}
complete -F _budquarry budquarry
