#!/usr/bin/env bash
# Prints the version of the program: the second word of the first line that its `help` prints.
#
#   build/version.sh [PROGRAM]      PROGRAM: dist/st2110_timing, unless another is named
#
# The version stands in the program's source alone; every script reads it from the program. Ends with 0, with 1 if
# that line has no version, and with 2 if the program isn't there or doesn't run.
set -u
export LC_ALL=C
top=$(cd "$(dirname "$(readlink -f "$0")")/.." && pwd) || exit 2
program=${1:-$top/dist/st2110_timing}

say() { printf 'version: %s\n' "$*" >&2; }

[ -f "$program" ] && [ -x "$program" ] || { say "$program isn't there, or isn't executable"; exit 2; }
program=$(readlink -f "$program")
help=$("$program" help) || { say "$program help ends with status $?"; exit 2; }
first=${help%%$'\n'*}
if [[ $first =~ ^st2110_timing\ ([0-9]+(\.[0-9]+)*([.+~][A-Za-z0-9]+)*):\  ]]; then
    echo "${BASH_REMATCH[1]}"
else
    say "the first line of $program help has to begin with 'st2110_timing VERSION: ', and is: $first"
    exit 1
fi
