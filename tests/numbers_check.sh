#!/usr/bin/env bash
# Compares the numbers of captures that are made from numbers of chance with numbers that numbers_check.py works out by itself.
#
#   tests/numbers_check.sh [PROGRAM [COUNT]]      PROGRAM: dist/st2110_timing, unless another is named; COUNT: the captures, 100 unless named
#
# The same captures come each time. It needs a python3 of version 3.10 or later; if there is none, everything is left out. The last line is
# `numbers_check: N passed, N failed`. The exit status is 1 if numbers differ, and 2 if there is no program.
set -u
export LC_ALL=C.UTF-8
tests=$(cd "$(dirname "$(readlink -f "$0")")" && pwd) || exit 2
program=$(readlink -f "${1:-$tests/../dist/st2110_timing}") && [ -x "$program" ] || { echo "numbers_check: there is no program" >&2; exit 2; }

if ! python3 -c 'import sys; sys.exit(sys.version_info < (3, 10))' 2> /dev/null; then
    echo 'left out: numbers that are worked out (there is no python3 of version 3.10 or later here)'
    echo 'numbers_check: 0 passed, 0 failed'
    exit 0
fi

said=$(python3 -B "$tests/numbers_check.py" "$program" "${2:-100}")
status=$?
sed '$d' <<< "$said"
if ! sed -nE '$s/^([0-9]+ passed, [0-9]+ failed)$/numbers_check: \1/p' <<< "$said" | grep .; then
    echo 'numbers_check: 0 passed, 1 failed'
    status=1
fi
[ "$status" = 0 ]
