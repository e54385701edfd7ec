#!/usr/bin/env bash
# Makes captures, lets the program and a plain walk of the file run over them in turn, and prints a table:
#
#     bench/run.sh [FOLDER]
#
# What is made stands in FOLDER (a new one among the temporary files), some 400 MB, and is made once. RUNS says how often each command runs (11):
# the least time counts. Where `valgrind` is there, instructions a packet are counted too, which no other work disturbs. Needs a C compiler.
set -euo pipefail
here=$(cd "$(dirname "$(readlink -f "$0")")" && pwd)
program=${PROGRAM:-$here/../dist/st2110_timing}
folder=${1:-$(mktemp -d)} runs=${RUNS:-11}
[ -x "$program" ] || { echo "bench/run.sh: there is no program $program" >&2; exit 2; }
mkdir -p "$folder" && cd "$folder"
for name in capture walk; do
    cc -O2 -march=x86-64-v2 -o "$name" "$here/$name.c"
done

# name, options of capture, and packets
cases='one_flow|-f 100 -b 64|432001
small|-f 20 -b 64|86401
eight_flows|-f 20 -b 64 -m 8|691208
linear|-f 40 -b 64 -k linear|172801
burst|-f 40 -b 64 -k burst|172801
whole_packets|-f 20|86401
pcapng|-f 100 -b 64 -n|432001'
while IFS='|' read -r name options packets; do
    # shellcheck disable=SC2086
    [ -s "$name.pcap" ] || ./capture $options "$name.pcap" "$name.sdp"
done <<< "$cases"
head -c 24 one_flow.pcap > empty.pcap && cp one_flow.sdp empty.sdp

# prints the nanoseconds that a command takes
time_of() {
    local from=${EPOCHREALTIME/./}
    "$@" > /dev/null 2>&1 || true
    echo $(((${EPOCHREALTIME/./} - from) * 1000))
}

# puts into `least` the least time of each of some commands, which run in turn
declare -A least=()
time_in_turn() {
    local run name time
    least=()
    for ((run = 0; run <= runs; run++)); do
        for name in "$@"; do
            # shellcheck disable=SC2086
            time=$(time_of ${commands[$name]})
            [ "$run" -eq 0 ] || [ "${least[$name]:-$time}" -lt "$time" ] || least[$name]=$time
        done
    done
}

# prints the instructions of a command
instructions_of() {
    valgrind --tool=callgrind --callgrind-out-file=/dev/null "$@" 2>&1 >/dev/null | awk '/Collected/ { print $NF }'
}

# prints the most kilobytes that a command holds
memory_of() { { /usr/bin/time -q -f %M "$@" || true; } 2>&1 >/dev/null | tail -n 1; }

# prints a / b with two digits
ratio() { awk -v a="$1" -v b="$2" 'BEGIN { printf "%.2f", a / b }'; }

declare -A commands=()
printf '%-14s %9s %9s %9s %9s %9s\n' capture serial/ms ns/packet /walk workers memory/MB
while IFS='|' read -r name options packets; do
    commands=(
        [serial]="$program check --serial --sdp $name.sdp $name.pcap"
        [workers]="$program check --sdp $name.sdp $name.pcap"
        [walk]="./walk $name.pcap"
    )
    time_in_turn serial workers walk
    memory=0
    [ ! -x /usr/bin/time ] || memory=$(memory_of "$program" check --serial --sdp "$name.sdp" "$name.pcap")
    printf '%-14s %9s %9s %9s %9s %9s\n' "$name" "$(ratio "${least[serial]}" 1000000)" "$(ratio "${least[serial]}" "$packets")" \
        "$(ratio "${least[serial]}" "${least[walk]}")" "$(ratio "${least[workers]}" "${least[serial]}")" "$(ratio "$memory" 1024)"
done <<< "empty||1
$cases"

echo
commands=(
    [check]="$program check --serial --sdp one_flow.sdp one_flow.pcap"
    [pcapng]="$program check --serial --sdp pcapng.sdp pcapng.pcap"
    [window]="$program window --sdp one_flow.sdp --media 1 one_flow.pcap"
    [list]="$program shape --list --sdp one_flow.sdp --media 1 --type N one_flow.pcap"
    [shape]="$program shape --sdp one_flow.sdp --media 1 --type N one_flow.pcap"
    [skew]="$program skew --sdp one_flow.sdp --media 1 --pair 1 one_flow.pcap one_flow.pcap"
    [measure]="$program measure --sdp one_flow.sdp one_flow.pcap"
    [page]="$program page --sdp one_flow.sdp one_flow.pcap"
    [explain]="$program explain --sdp one_flow.sdp one_flow.pcap"
    [watch]="$program watch --sdp one_flow.sdp one_flow.pcap"
)
others='pcapng window list shape skew measure page explain watch'
# shellcheck disable=SC2086
time_in_turn check $others
for name in $others; do
    printf '%-14s %9s of check --serial\n' "$name" "$(ratio "${least[$name]}" "${least[check]}")"
done

if command -v valgrind > /dev/null; then
    echo
    for kind in narrow linear burst; do
        for frames in 4 8; do
            [ -s "$kind$frames.pcap" ] || ./capture -f "$frames" -b 64 -k "$kind" "$kind$frames.pcap" "$kind$frames.sdp"
        done
        for command in 'check --serial' explain watch; do
            # shellcheck disable=SC2086
            few=$(instructions_of "$program" $command --sdp "${kind}4.sdp" "${kind}4.pcap")
            # shellcheck disable=SC2086
            many=$(instructions_of "$program" $command --sdp "${kind}8.sdp" "${kind}8.pcap")
            printf '%-14s %-14s %9s instructions a packet\n' "$kind" "$command" "$(ratio "$((${many//,/} - ${few//,/}))" $((4 * 4320)))"
        done
    done
fi
