#!/usr/bin/env bash
# Prints how many checks `rt ci` shall run at once, for RT_JOBS: what RT_JOBS is, or else 4 on a machine with four processors and 20 GB of
# memory. On a smaller one it prints nothing: `rt ci` then reckons by itself, with more memory for a check than it takes.
if [ -n "${RT_JOBS-}" ]; then
    echo "$RT_JOBS"
elif [ "$(nproc)" -ge 4 ] && [ "$(awk '/^MemTotal/ { print $2 }' /proc/meminfo)" -ge 20000000 ]; then
    echo 4
fi
