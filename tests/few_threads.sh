#!/usr/bin/env bash
# Runs the program where few threads can be made, and none, and where all threads share one processor, also under a real-time
# scheduler: it has to end each time, with the one-thread report. The captures are long enough for intakes to wait for workers, and
# where they are joined for each other.
#
#   tests/few_threads.sh [PROGRAM]      dist/st2110_timing
#
# It needs `su` and a user `nobody`, or another name in $AS, whose threads are counted: a limit on
# processes says nothing to root. A run that hasn't ended after 60 seconds hangs.
set -u
top=$(cd "$(dirname "$0")/.." && pwd) || exit 2
program=$(readlink -f "${1:-$top/dist/st2110_timing}")
as=${AS:-nobody}
[ -x "$program" ] || { echo "there is no program ${program:-there}" >&2; exit 2; }
folder=$(mktemp -d) || exit 2
trap 'rm -rf "$folder"' EXIT
cp "$program" "$folder/program" || exit 2
cd "$folder" || exit 2
perl "$top/tests/capture.pl" sdp > long.sdp && perl "$top/tests/capture.pl" media groups=60 > long.pcap || exit 2
chmod -R a+rX "$folder"

captures="long.pcap long.pcap long.pcap long.pcap"

# runs a command, and compares what it prints and its status with those of one thread; the first word says where
same() {
    local where=$1
    shift
    timeout 60 "$@" > many
    many=$?
    if [ $many -eq 124 ] || [ $many -eq 137 ]; then
        echo "hangs $where" >&2
        exit 1
    fi
    if [ $many -ne $serial ] || ! cmp -s serial many; then
        echo "differs $where: status $many and not $serial" >&2
        exit 1
    fi
}

for way in "" --joined; do
    # shellcheck disable=SC2086
    ./program check --serial $way --sdp long.sdp $captures > serial; serial=$?
    for limit in 0 1 2 3 4 6 8 12 20 40; do
        for workers in 1 4; do
            same "where $limit threads may be made, $workers workers $way" \
                su "$as" -s /bin/bash -c "ulimit -u $limit; exec ./program check --workers $workers $way --sdp long.sdp $captures"
        done
    done
    echo "ends with the one-thread report where 0 to 40 threads may be made $way"
    if command -v taskset > /dev/null; then
        # shellcheck disable=SC2086
        same "on one processor $way" taskset -c 0 ./program check --workers 4 $way --sdp long.sdp $captures
        echo "and on one processor $way"
    fi
    for scheduler in --fifo --rr; do
        if command -v taskset > /dev/null && chrt $scheduler 1 true 2> /dev/null; then
            # shellcheck disable=SC2086
            same "on one processor with $scheduler $way" taskset -c 0 chrt $scheduler 1 ./program check --workers 4 $way --sdp long.sdp $captures
            echo "and there with the real-time scheduler $scheduler $way"
        fi
    done
done
