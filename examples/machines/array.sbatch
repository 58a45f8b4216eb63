#!/bin/sh
# A task of a Slurm job array, which by_slurm submits: array.sbatch PART FOLDER BASE
# PART is the script `part`. The task makes the part with the number BASE + its own.
#SBATCH --job-name=hollowbowl
#SBATCH --requeue
set -eu
exec "$1" "$2" "$(($3 + SLURM_ARRAY_TASK_ID))"
