#compdef obim_query
# Completions of obim_query for zsh.
_arguments -s -S \
    '(-a --answer)'{-a+,--answer=}'[what is answered]:kind:(distances levels components)' \
    '(-W --walks)'{-W,--walks}'[print a shortest path for each cost, of fewest arcs]' \
    '--within=[leave out vertices that cost more]:cost:' \
    '--labels=[how labels are written]:form:(text raw)' \
    '--totals[print one line a source: how many, sum, greatest]' \
    '(-w --workers)'{-w+,--workers=}'[how many workers, 1 to 64]:count:(auto)' \
    '--at-once=[sources solved at the same time, 1 to 64]:count:(auto)' \
    '--landmarks=[landmarks for far pairs, at most, 0 to 64]:max:' \
    '--hierarchy=[shortcuts for far pairs]:when:(auto no now)' \
    '(-s --shift)'{-s+,--shift=}'[bucket width 2^BITS, 0 to 63]:bits:(auto)' \
    '(-c --chunk)'{-c+,--chunk=}'[vertices in a chunk, the unit of shared work, 1 to 256]:size:' \
    '--session[answer requests after the graph, each at once]' \
    '--progress[print on standard error how far the answer is]' \
    '--stats[print figures on standard error after the answer]' \
    '--explain[explain a fault: the line, the field, what was expected]' \
    '(- *)'{-h,--help}'[print help]' \
    '(- *)'{-V,--version}'[print the version]'
