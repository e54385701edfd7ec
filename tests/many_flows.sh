#!/usr/bin/env bash
# Prints the report of `check` on a capture of `tests/capture.pl media`, named several times: 64 media in each, which pass.
#
#   tests/many_flows.sh NAME TIMES
set -u
name=$1 times=$2

echo "ST 2110-21 timing report"
for ((file = 1; file <= times; file++)); do
    echo "file $file end $name"
done
for ((file = 1; file <= times; file++)); do
    for ((media = 1; media <= 64; media++)); do
        echo "flow $file.$media 239.0.0.1:$((49998 + 2 * media)) judged: 20 per frame, 2 frames, 40 packets, head 1, tail 0, class narrow, declared N"
        echo "  N pass, bucket 1 of 4, buffer 1 of 8"
        echo "  NL pass, bucket 1 of 4, buffer 1 of 8"
        echo "  W pass, bucket 1 of 16, buffer 1 of 720"
    done
done
echo "status 0"
