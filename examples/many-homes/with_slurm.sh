#!/bin/sh
#SBATCH --job-name=many-homes
#SBATCH --cpus-per-task=1
#SBATCH --requeue
# A Slurm job array: each of its tasks plays its share of the homes in a folder that all nodes see. At the top of the repository:
#
#     sbatch --array=0-99 examples/many-homes/with_slurm.sh PROGRAM FOLDER
#
# Slurm plays those tasks again whose node is lost (`--requeue`), and those that end with a status of `RequeueExit` in its
# slurm.conf: there 3, 4, 5 and 137 are reading, writing, memory and a kill. 1, a script that is refused, would be refused again.
[ $# -ge 2 ] || { sed -n '2,/^[^#]/s/^# \{0,1\}//p' "$0" >&2; exit 2; }
exec sh examples/many-homes/play_share.sh "$1" "$2" "$SLURM_ARRAY_TASK_ID" "$SLURM_ARRAY_TASK_COUNT"
