# A table of costs that is made anew if its graph or its questions change: make -f examples/costs.mk costs.csv
# PROGRAM=FILE takes another program. What is not finished is deleted, and make ends with status 2 whichever command
# failed; it says the command's own status, as `Error 2` of a job that is refused, or `Error 3` for want of memory.
SHELL := bash
.SHELLFLAGS := -euo pipefail -c
.DELETE_ON_ERROR:
PROGRAM ?= ./obim_query
GRAPH ?= examples/six.gr
QUESTIONS ?= examples/six.ss

%.csv: %.answer
	python3 examples/to_table.py $@ <$<

costs.answer: $(GRAPH) $(QUESTIONS)
	cat $^ | $(PROGRAM) --workers 2 >$@
