#!/bin/sh
# shellcheck disable=SC2086 # the words of a study are several
# A template for Slurm: makes `report.csv` of the parts that `array.sbatch` made, in their order, where all are there.
#SBATCH --output=collect.log
. ./study || exit
set --
part=1
while [ "$part" -le "$parts" ]; do
    [ -f "part.$part" ] || { echo "part.$part isn't there"; exit 1; }
    set -- "$@" "part.$part"
    part=$((part + 1))
done
sigma-lab join "$@" >report.new && mv report.new report.csv
