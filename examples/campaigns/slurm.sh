#!/bin/sh
# A campaign as an array of Slurm jobs, 500 runs each, from this clone or release on a file system that all nodes have. For 20,000 runs:
#
#     sbatch --array=0-39 --wait examples/campaigns/slurm.sh PLAN.toml ROWS.csv
#     tools/campaign join PLAN.toml --out ROWS.csv --chunk 500
#
# A job that failed is submitted again by its number, for instance --array=17.
#SBATCH --job-name=ringplay
#SBATCH --cpus-per-task=1
#SBATCH --time=01:00:00
set -eu
plan=$1 parts=$2.parts chunk=500
first=$((SLURM_ARRAY_TASK_ID * chunk + 1))
mkdir -p "$parts"
tools/campaign rows "$plan" "$first" $((first + chunk - 1)) >"$parts/$first.unfinished"
mv "$parts/$first.unfinished" "$parts/$first.rows"
