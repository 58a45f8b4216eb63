# Completions of hollowbowl-machines for fish: the script, then files, or options of obim_query behind the script's own.
function __hollowbowl_machines_script
    test (count (commandline -opc)) -eq 1
end
function __hollowbowl_machines_options
    set -l words (commandline -opc)
    test (count $words) -gt 1; and contains -- $words[2] parts renew
end
complete -c hollowbowl-machines -n __hollowbowl_machines_script -f
complete -c hollowbowl-machines -n __hollowbowl_machines_script -a section -d "Write a section of lines, with the header that counts them"
complete -c hollowbowl-machines -n __hollowbowl_machines_script -a parts -d "Cut a long job into parts"
complete -c hollowbowl-machines -n __hollowbowl_machines_script -a part -d "Answer a part"
complete -c hollowbowl-machines -n __hollowbowl_machines_script -a missing -d "Tell which parts have no answer"
complete -c hollowbowl-machines -n __hollowbowl_machines_script -a by_parallel -d "Answer the parts by GNU parallel"
complete -c hollowbowl-machines -n __hollowbowl_machines_script -a by_slurm -d "Answer the parts by Slurm"
complete -c hollowbowl-machines -n __hollowbowl_machines_script -a by_dask.py -d "Answer the parts by Dask"
complete -c hollowbowl-machines -n __hollowbowl_machines_script -a renew -d "Answer a list anew"
for option in answer walks within labels totals workers at-once landmarks hierarchy shift chunk
    complete -c hollowbowl-machines -n __hollowbowl_machines_options -l $option
end
