#!/usr/bin/env bash
# Validates the JSON of `check --json`, `measure`, `scan --json`, `sdp --json`, `explain --json` and `watch --json` against the schemas of docs/schema.
#
#   tests/schema.sh [PROGRAM]      PROGRAM: dist/st2110_timing, unless another is named
#
# schema.py has the tests. They need a python3 with the module jsonschema (Debian: python3-jsonschema); if there is none, they are left
# out. JOBS programs run at once, as many as there are processors. The last line is `schema: N passed, N failed`. The exit status is 1 if a
# test fails, and 2 if there is no program.
set -u
export LC_ALL=C
tests=$(cd "$(dirname "$(readlink -f "$0")")" && pwd) || exit 2
program=$(readlink -f "${1:-$tests/../dist/st2110_timing}") && [ -x "$program" ] || { echo "schema: there is no program" >&2; exit 2; }

for python in python3 /usr/bin/python3; do
    if "$python" -c 'from jsonschema import Draft202012Validator' 2> /dev/null; then
        exec "$python" -B "$tests/schema.py" "$program"
    fi
done
echo 'left out: the schemas (there is no python3 with the module jsonschema 4 here)'
echo 'schema: 0 passed, 0 failed'
