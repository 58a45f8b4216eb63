# A table of costs by Snakemake: snakemake -s examples/costs.smk --cores 2 costs.csv
# --config program=FILE takes another program. Snakemake runs commands with `set -euo pipefail`, so it sees a status of
# the program, deletes what is not finished, and ends with status 1.
config.setdefault("program", "./obim_query")
config.setdefault("graph", "examples/six.gr")
config.setdefault("questions", "examples/six.ss")


rule table:
    input:
        "costs.answer",
    output:
        "costs.csv",
    shell:
        "python3 examples/to_table.py {output} <{input}"


rule answer:
    input:
        graph=config["graph"],
        questions=config["questions"],
    output:
        "costs.answer",
    threads: 2
    params:
        program=config["program"],
    shell:
        "cat {input.graph} {input.questions} | {params.program} --workers {threads} >{output}"
