#!/bin/sh
#SBATCH --job-name=farmd --array=0-19 --requeue --output=farmd.%A_%a.log
#SBATCH --time=01:00:00 --mem=1G --cpus-per-task=4 --hint=nomultithread
##SBATCH --account=NAME --partition=NAME
# Runs the packets of a file on a cluster whose nodes see this folder. A site edits the lines above, and TASKS below
# with --array: as many tasks as that array has, 1,000 at most, each of some minutes.
#     sbatch farmd.sbatch IMAGE PACKETS          queues the tasks, which go on without the login
#     sh farmd.sbatch IMAGE PACKETS > RESULTS    prints the results once all are there, or says what queues the rest
TASKS=20
if [ $# != 2 ] || [ ! -r "$1" ] || [ ! -r "$2" ]; then
    echo "usage: farmd.sbatch IMAGE PACKETS" >&2
    exit 2
fi
# The folder of results has the name of what they are made from.
folder=farmd.$({ echo "$TASKS"; cat <"$1"; cat <"$2"; } | sha256sum | head -c 16)
packets=$(grep -c '' <"$2")
share=$(((packets + TASKS - 1) / TASKS))

# Prints the results of a task, which a command runs where they are not in its folder: TASK IMAGE PACKETS COMMAND..
run_task() {
    WORK=$folder/$1
    FIRST=$(($1 * share))
    COUNT=$((packets - FIRST < share ? packets - FIRST : share))
    export WORK FIRST COUNT
    shift
    [ "$COUNT" -le 0 ] || farmd-run "$@"
}

if [ -n "$SLURM_ARRAY_TASK_ID" ]; then
    mkdir -p "$folder" && run_task "$SLURM_ARRAY_TASK_ID" "$1" "$2" farmd --members 4 >/dev/null
    exit
fi
tasks=$(seq 0 $((TASKS - 1)))
mkdir -p "$folder" || exit 2
missing=$(for task in $tasks; do run_task "$task" "$1" "$2" false >/dev/null 2>&1 || printf ',%s' "$task"; done)
if [ -n "$missing" ]; then
    words=$(for word in "$1" "$2"; do printf " '"; printf %s "$word" | sed "s/'/'\\\\''/g"; printf "'"; done)
    echo "farmd.sbatch: no results yet of: sbatch --array=${missing#,} farmd.sbatch$words" >&2
    exit 3
fi
for task in $tasks; do
    run_task "$task" "$1" "$2" false || exit
done
