#!/bin/sh
# shellcheck disable=SC2086 # the words of a study are several
# A template for Slurm: the runs of one model in parts, each of them a task of an array. `study` beside it says what is run;
# `collect.sbatch` makes one report of the parts, once all are made:
#
#     job=$(sbatch --parsable array.sbatch) && sbatch --dependency=afterok:$job collect.sbatch
#
# Tasks are counted from 1 to `parts`, and there are as many runs or more. A task whose node is gone goes into the queue again, and so does one that fails by anything
# but a refusal, three times at most. A part has its name only once it is whole.
#SBATCH --array=1-48
#SBATCH --requeue
#SBATCH --open-mode=append
#SBATCH --output=part.%a.log
. ./study || exit
part=$SLURM_ARRAY_TASK_ID
sigma-lab replicate $model $words --part "$part/$parts" --workers 1 >"part.$part.new"
ended=$?
case $ended in
    0) mv "part.$part.new" "part.$part" ;;
    1 | 2 | 9) exit $ended ;;
    *)
        echo "part $part: status $ended"
        [ "${SLURM_RESTART_COUNT:-0}" -ge 3 ] || scontrol requeue "${SLURM_ARRAY_JOB_ID}_$part"
        exit $ended
        ;;
esac
