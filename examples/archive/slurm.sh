#!/usr/bin/env bash
#SBATCH --job-name=soxchain
#SBATCH --ntasks=1
#SBATCH --mem=64M
# One sound of a list for each task of an array, on a cluster with Slurm:
#
#     (cd sounds && find . -type f -name '*.wav' -printf '%P\0') | sort -z >names
#     sbatch --array=1-$(tr -cd '\0' <names | wc -c) slurm.sh names sounds done vol 0.5
#
# An array has to be shorter than MaxArraySize (scontrol show config, often 1001). A longer list is cut into several arrays, and
# SKIP says how many names come before each:
#
#     for skip in $(seq 0 1000 $(($(tr -cd '\0' <names | wc -c) - 1))); do
#         sbatch --array=1-1000 --export=ALL,SKIP=$skip slurm.sh names sounds done vol 0.5
#     done
#
# A task past the end of the list does nothing. --mem has to be above the hold in bytes that soxchain-plan prints.
set -euo pipefail
names=$1 from=$2 to=$3
shift 3
place=$((SLURM_ARRAY_TASK_ID + ${SKIP:-0}))
IFS= read -r -d '' name < <(sed -zn "${place}p" "$names") || exit 0
# Slurm runs a copy of this file, so the folder of the others is said, or that where the job was sent off.
exec "${ARCHIVE:-${SLURM_SUBMIT_DIR:-.}}/one" "$from" "$to" "$name" "$@"
