#!/bin/sh
# A Slurm job array with one task for each folder of a list:
#
#   sbatch --array=1-$(wc -l < folders.txt) tools/cluster/array.slurm folders.txt budget=1000000000
#
# from the top of the repository. A task that is stopped by its time limit or by a failing node is queued again and goes on from
# its last checkpoint.
#SBATCH --time=04:00:00
#SBATCH --cpus-per-task=4
#SBATCH --requeue
#SBATCH --signal=B:USR1@120

fail() {
    echo "array.slurm: $1" >&2
    exit 2
}

[ $# -ge 1 ] && [ -n "${SLURM_ARRAY_TASK_ID-}" ] || fail 'usage: sbatch --array=1-N tools/cluster/array.slurm LIST [round=N] [budget=N] [slice=N]'
list=$1
shift
folder=$(sed -n "${SLURM_ARRAY_TASK_ID}p" "$list")
[ -n "$folder" ] || fail "$list has no line $SLURM_ARRAY_TASK_ID"
# two minutes before the time limit the session is asked to stop; the next task goes on with it
trap 'touch "$folder/codes.stop"' USR1
rm -f "$folder/codes.stop"
# Slurm runs a copy of this file: the other script is found from the folder in which the array was submitted
"${SLURM_SUBMIT_DIR:-.}/tools/cluster/job" "$folder" "workers=$SLURM_CPUS_PER_TASK" "$@" &
job=$!
while :; do
    wait "$job"
    status=$?
    kill -0 "$job" 2>/dev/null || break
done
[ "$status" -ne 3 ] || scontrol requeue "${SLURM_JOB_ID}"
exit "$status"
