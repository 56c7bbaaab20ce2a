#!/bin/sh
#SBATCH --job-name=racelog
#SBATCH --output=modules/%a.log
FILE=$(sed -n "${SLURM_ARRAY_TASK_ID}p" files.txt)
racelog compile "$FILE" > "modules/$(basename "$FILE").v"
