"""peak.py LIMIT JOB PROGRAM ARGUMENT..: runs the program on a job, and lets its answer go.

Prints how many bytes the answer has. Says on standard error, and ends with 1, if the program's status is not 0, if it
says anything, or if its peak of memory that is really used is above LIMIT MiB.
"""

import resource
import subprocess
import sys

limit, job, *command = sys.argv[1:]
with open(job, "rb") as text:
    with subprocess.Popen(command, stdin=text, stdout=subprocess.PIPE, stderr=subprocess.PIPE) as program:
        size = 0
        while block := program.stdout.read(1 << 16):
            size += len(block)
        said = program.stderr.read()
peak = resource.getrusage(resource.RUSAGE_CHILDREN).ru_maxrss / 1024
print(size)
if program.returncode or said or peak > int(limit):
    sys.exit(f"status {program.returncode}, peak {peak:.1f} MiB, of {limit}: {said.decode(errors='replace')}")
