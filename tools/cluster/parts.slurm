#!/bin/sh
# A Slurm job array that shares the ranges of FOLDER/ranges.txt, or of another list, among its tasks:
#
#   sbatch --array=1-100 tools/cluster/parts.slurm FOLDER [LIST]
#
# from the top of the repository. Task i of N does the lines i, i + N, i + 2 N and so on; a range that has its line is left out, so a
# task that is queued again goes on with its first range that has none.
#SBATCH --time=24:00:00
#SBATCH --cpus-per-task=4
#SBATCH --requeue

fail() {
    echo "parts.slurm: $1" >&2
    exit 2
}

[ $# -ge 1 ] && [ -n "${SLURM_ARRAY_TASK_ID-}" ] || fail 'usage: sbatch --array=1-N tools/cluster/parts.slurm FOLDER [LIST]'
folder=$1 list=${2:-$1/ranges.txt} left=0
[ -r "$list" ] || fail "$list can not be read"
while read -r from count; do
    "${SLURM_SUBMIT_DIR:-.}/tools/cluster/part" "$folder" "$from" "$count" "workers=$SLURM_CPUS_PER_TASK" </dev/null || left=1
done <<EOF
$(awk -v i="$SLURM_ARRAY_TASK_ID" -v n="${SLURM_ARRAY_TASK_COUNT:-1}" 'NR % n == i % n' "$list")
EOF
exit $left
