#!/usr/bin/env bash
# Compares the pages of captures with pages that page_check.py works out by itself, cell by cell and mark by mark.
#
#   tests/page_check.sh [PROGRAM]      PROGRAM: dist/st2110_timing, unless another is named
#
# The captures are some of examples/, those of tests/pages/, and larger ones that capture.pl makes. Of one page wrong copies are made too:
# each has to be found. It needs a python3 of version 3.9 or later; if there is none, everything is left out. The last line is
# `page_check: N passed, N failed`. The exit status is 1 if a page differs, and 2 if there is no program.
set -u
export LC_ALL=C.UTF-8
tests=$(cd "$(dirname "$(readlink -f "$0")")" && pwd) || exit 2
program=$(readlink -f "${1:-$tests/../dist/st2110_timing}") && [ -x "$program" ] || { echo "page_check: there is no program" >&2; exit 2; }
folder=$(mktemp -d) && cd "$tests/.." || exit 2
trap 'rm -rf "$folder"' EXIT

if ! python3 -c 'from math import lcm' 2> /dev/null; then
    echo 'left out: pages that are worked out (there is no python3 of version 3.9 or later here)'
    echo 'page_check: 0 passed, 0 failed'
    exit 0
fi

passed=0 failed=0

# Compares the pages of captures, by the arguments of page_check.py behind the program.
check() {
    local options=() said status counts
    while [[ $1 == --* ]]; do
        options+=("$1")
        shift
    done
    said=$(python3 -B "$tests/page_check.py" "${options[@]}" "$program" "$@")
    status=$?
    counts=$(sed -nE '$s/^([0-9]+) passed, ([0-9]+) failed$/\1 \2/p' <<< "$said")
    sed '$d' <<< "$said"
    passed=$((passed + ${counts%% *} + 0)) failed=$((failed + ${counts##* } + 0))
    if [ -z "$counts" ] || [ "$status" != 0 ] && [ "${counts##* }" = 0 ]; then
        echo "page_check.py $*: exit status $status"
        failed=$((failed + 1))
    fi
}

# Makes a capture by the arguments of capture.pl behind its name.
made() {
    perl "$tests/capture.pl" "${@:2}" > "$folder/$1" || exit 2
}

# A clock that is too fast, up to `Over` after 1,500 packets; more than 1,000 frames; bursts of 400 packets; 4,320 packets a frame; RTP
# timestamps that go by another rate. One name has to be escaped.
made fast.pcap sender groups=150 group_ns=19900000
made long.pcap sender groups=1100 packets=2 packet_ns=9600000
made bursts.pcap sender groups=3 packets=400 packet_ns=1000
made usual.pcap usual
made "<b>&amp;'.pcap" lines ticks=3600

check examples/plain.sdp examples/{plain,burst,gap,cut,any,gst_restart}.pcap tests/pages/early.pcap "$folder"/{fast,long,"<b>&amp;'"}.pcap
check --wrong examples/linear.sdp tests/pages/runs.pcap
check tests/pages/fields.sdp tests/pages/fields.pcap
check tests/pages/wide.sdp "$folder/bursts.pcap"
check examples/gst.sdp examples/gst_{steady,wrap,path1}.pcap
check examples/gst_fields.sdp examples/gst_fields.pcap
check examples/two.sdp examples/two.pcap
check --tai=37 examples/utc.sdp examples/utc.pcap "$folder/usual.pcap"
echo "page_check: $passed passed, $failed failed"
[ "$failed" = 0 ]
