#!/usr/bin/env bash
# Runs the program on 16 captures with 64 media each, with 1 to 16 workers, and compares each report with that of one
# thread. Each media has the plain sender's packets at a port of its own, and each capture lacks one packet of some media.
# Then it runs it on 16 captures of 20 MB, with fewer workers than captures, so that the workers are behind: no run may take more
# than 64 MB.
#
#   tests/stress.sh [TIMES [PROGRAM]]      100 times, dist/st2110_timing
#
# It needs perl, and ends with 1 at the first report that differs.
set -u
top=$(cd "$(dirname "$0")/.." && pwd) || exit 2
times=${1:-100}
program=$(readlink -f "${2:-$top/dist/st2110_timing}")
[ -x "$program" ] || { echo "there is no program ${program:-there}" >&2; exit 2; }
folder=$(mktemp -d) || exit 2
trap 'rm -rf "$folder"' EXIT
cd "$folder" || exit 2

perl "$top/tests/capture.pl" sdp > s.sdp && perl "$top/tests/capture.pl" media begin=41 > whole.pcap || exit 2
# (a packet record has 72 bytes, and a media has 41 packets)
for file in {0..15}; do
    record=$((24 + 72 * (41 * 4 * file + 25)))
    { head -c "$record" whole.pcap; tail -c +$((record + 72 + 1)) whole.pcap; } > "$file.pcap"
done

captures=$(seq -f '%g.pcap' 0 15)
for way in "" --joined --json; do
    # shellcheck disable=SC2086
    "$program" check --serial $way --sdp s.sdp $captures > serial; serial=$?
    [ -s serial ] || { echo "no report on one thread, status $serial" >&2; exit 1; }
    for ((time = 1; time <= times; time++)); do
        workers=$(((time - 1) % 16 + 1))
        # shellcheck disable=SC2086
        "$program" check --workers $workers $way --sdp s.sdp $captures > many; many=$?
        if [ $many -ne $serial ] || ! cmp -s serial many; then
            echo "differs: $way, $workers workers, time $time, status $many and not $serial" >&2
            exit 1
        fi
    done
    echo "check $way: $times runs with 1 to 16 workers print the one-thread report, status $serial"
done

# the greatest memory of a run in kilobytes, as the kernel tells it while the run lasts; its status is in $status
most=0
watch() {
    "$@" > many &
    local child=$! now
    most=0
    while now=$(awk '/^VmHWM/ { print $2 }' "/proc/$child/status" 2>/dev/null) && [ -n "$now" ]; do
        most=$now
        sleep 0.01
    done
    wait $child
    status=$?
}

perl "$top/tests/capture.pl" media groups=220 > long.pcap || exit 1
captures=$(for _ in {1..16}; do echo long.pcap; done)
for way in "" --joined; do
    # shellcheck disable=SC2086
    "$program" check --serial $way --sdp s.sdp $captures > serial; serial=$?
    for workers in 1 2 4 16; do
        # shellcheck disable=SC2086
        watch "$program" check --workers $workers $way --sdp s.sdp $captures
        if [ $status -ne $serial ] || ! cmp -s serial many; then
            echo "differs: 16 long captures $way, $workers workers, status $status and not $serial" >&2
            exit 1
        fi
        if [ "$most" -gt 65536 ]; then
            echo "takes $most kB: 16 long captures $way, $workers workers" >&2
            exit 1
        fi
        echo "16 long captures $way with $workers workers take $most kB"
    done
done
