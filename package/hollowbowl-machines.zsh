#compdef hollowbowl-machines
# Completions of hollowbowl-machines for zsh: the script, then files, or options of obim_query behind the script's own.
local -a scripts options
scripts=(
    'section:write a section of lines, with the header that counts them'
    'parts:cut a long job into parts'
    'part:answer a part'
    'missing:tell which parts have no answer'
    'by_parallel:answer the parts by GNU parallel'
    'by_slurm:answer the parts by Slurm'
    'by_dask.py:answer the parts by Dask'
    'renew:answer a list anew'
)
options=(--answer --walks --within --labels --totals --workers --at-once --landmarks --hierarchy --shift --chunk)
if (( CURRENT == 2 )); then
    _describe script scripts
elif [[ $words[2] == (parts|renew) && $words[CURRENT] == -* ]]; then
    compadd -- $options
else
    _files
fi
