#!/usr/bin/env bash
#SBATCH --job-name=xrepair
#SBATCH --cpus-per-task=1
#SBATCH --mem=4G
#SBATCH --output=slurm-%A-%a.txt
# An array of a batch system: each task is the job of one recording, that of its number. In this folder
#   sbatch --array=1-$(ls recordings/*.vcd | wc -l) slurm.sh
# and, once all have ended, ./table out. Run again, only what has no row is done.
set -eu
cd "${SLURM_SUBMIT_DIR:-.}"
recordings=(recordings/*.vcd)
number=${SLURM_ARRAY_TASK_ID:?run it by sbatch --array=1-N}
recording=${recordings[number - 1]:?there are ${#recordings[@]} recordings}
name=$(basename "$recording" .vcd)
read -ra words <words
exec ./job "$recording" "out/$name" "${words[@]}"
