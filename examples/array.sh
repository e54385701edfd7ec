#!/usr/bin/env bash
# A job array for Slurm: task N judges the capture that stands in line N of LIST, with the description SDP.
#
#   sbatch --array=1-N examples/array.sh SDP LIST FOLDER [PROGRAM]
#
# FOLDER gets report-N.json, or report-N.err where there is no report, with the status and the line of standard error. The names,
# those in LIST too, are absolute or of the folder in which sbatch is called; PROGRAM is ./run where it isn't named. A
# report gets its name once it is whole. Ends with the status of the program, or with 126 where it couldn't begin.
#
# One file is made for all tasks, slurm-JOB.out; it says what the script itself couldn't do.
#SBATCH --output=slurm-%A.out
#SBATCH --open-mode=append
set -u
if [ $# -lt 3 ] || [ $# -gt 4 ] || [ -z "${SLURM_ARRAY_TASK_ID-}" ]; then
    echo "usage: sbatch --array=1-N array.sh SDP LIST FOLDER [PROGRAM]" >&2
    exit 126
fi
sdp=$1 list=$2 report=$3/report-$SLURM_ARRAY_TASK_ID program=${4:-./run}
capture=$(sed -n "${SLURM_ARRAY_TASK_ID}p" -- "$list") && mkdir -p -- "$3" || exit 126
if [ -z "$capture" ]; then
    echo "array.sh: $list has no line $SLURM_ARRAY_TASK_ID" >&2
    exit 126
fi

rm -f -- "$report.json" "$report.err"
"$program" check --serial --json --sdp="$sdp" -- "$capture" > "$report.part" 2> "$report.err"
status=$?
if [ -s "$report.part" ] && [ "$status" -le 4 ]; then
    mv -- "$report.part" "$report.json" && rm -f -- "$report.err"
else
    echo "status $status: $capture" >> "$report.err"
    rm -f -- "$report.part"
fi
exit "$status"
