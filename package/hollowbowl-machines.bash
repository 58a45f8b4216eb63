# Completions of hollowbowl-machines for bash: the script, then files, or options of obim_query behind the script's own.
_hollowbowl_machines() {
    local word=${COMP_WORDS[COMP_CWORD]} choices=
    if [[ $COMP_CWORD == 1 ]]; then
        choices="section parts part missing by_parallel by_slurm by_dask.py renew"
    elif [[ $word == -* && ${COMP_WORDS[1]} =~ ^(parts|renew)$ ]]; then
        choices="--answer --walks --within --labels --totals --workers --at-once --landmarks --hierarchy --shift --chunk"
    fi
    mapfile -t COMPREPLY < <(compgen -W "$choices" -- "$word")
    if [[ $COMP_CWORD == 1 ]]; then compopt +o bashdefault +o default; fi
}
complete -o bashdefault -o default -F _hollowbowl_machines hollowbowl-machines
