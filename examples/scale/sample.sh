#!/usr/bin/env bash
# sbatch --array=0-99 --cpus-per-task=4 sample.sh ROOMS FOLDER [SCHEDULES]: a job array of Slurm. Each job samples the rooms by as many schedules, which follow those of the job before it.
[ $# -ge 2 ] && [ -n "$SLURM_ARRAY_TASK_ID" ] || { echo "usage: sbatch --array=0-99 sample.sh ROOMS FOLDER [SCHEDULES]" >&2; exit 2; }
schedules=${3:-1000000}
mkdir -p "$2" && bgview sample --schedules "$schedules" --from "$((SLURM_ARRAY_TASK_ID * schedules))" --workers "${SLURM_CPUS_PER_TASK:-1}" --brief --json "$1" > "$2/$SLURM_ARRAY_TASK_ID.json"
