# Completions of obim_query for bash. What is no option and no value is completed as a file name.
_obim_query() {
    local word=${COMP_WORDS[COMP_CWORD]} before=${COMP_WORDS[COMP_CWORD - 1]} choices=
    # Bash takes `=` for a word of its own: `--answer=l` is three words.
    if [[ $word == = ]]; then
        word=
    elif [[ $before == = ]]; then
        before=${COMP_WORDS[COMP_CWORD - 2]}
    fi
    case $before in
        --answer | -a) choices="distances levels components" ;;
        --labels) choices="text raw" ;;
        --workers | -w | --at-once | --shift | -s) choices=auto ;;
        --hierarchy) choices="auto no now" ;;
        --landmarks | --chunk | -c | --within) compopt +o bashdefault +o default; return ;;
        *[\<\>]) return ;;
        *) choices="-a --answer -W --walks --within --labels --totals -w --workers --at-once --landmarks --hierarchy -s --shift
            -c --chunk --session --progress --stats --explain -h --help -V --version" ;;
    esac
    mapfile -t COMPREPLY < <(compgen -W "$choices" -- "$word")
}
complete -o bashdefault -o default -F _obim_query obim_query
