#!/bin/sh
#SBATCH --array=0-9
# Runs a job of a job array, a hundred of the thousand tasks: sbatch array.sh.
exec ./job $((100 * SLURM_ARRAY_TASK_ID)) 100
