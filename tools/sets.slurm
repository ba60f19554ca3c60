#!/usr/bin/env bash
#SBATCH --job-name=sets
#SBATCH --cpus-per-task=1
# A Slurm job array over the cases of a text. From the top of the repository:
#
#   tools/sets.sh list design.smv design.sets
#   sbatch --array=1-200 tools/sets.slurm design.smv design.sets
#   tools/sets.sh join design.smv design.sets > design.proof
#
# Job I of M takes the lines I, I + M, I + 2 M and so on of the cases. Sent again it does what is not done yet.
# shellcheck disable=SC2046
exec tools/sets.sh one "$1" "$2" $(seq "$SLURM_ARRAY_TASK_ID" "$SLURM_ARRAY_TASK_COUNT" "$(wc -l < "$2/cases")")
