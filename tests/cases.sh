#!/usr/bin/env bash
# Runs the program on the cases under tests/cases, and compares what it prints and its exit status.
#
#   tests/cases.sh [PROGRAM] [NAME..]      PROGRAM has a slash in it, and is dist/st2110_timing if none is named; all cases if no NAME is
#
# A case is a folder of tests/cases (tests/README.md has its files). It runs in a copy of that folder. A `check` with `--serial` also
# runs with 1, 4 and 16 workers, and has to print the same. What differs is shown. The last line is `N passed, N failed`. The exit
# status is 1 if a case fails, and 2 if there is no program or no such case. JOBS cases run at once, as many as there are processors.
set -u
export LC_ALL=C

ways=(--serial '--workers 1' '--workers 4' '--workers 16')

# Prints how two files differ, and fails if they do. A file that the case lacks is empty.
compare() {
    local wanted=$1 found=$2
    if [ ! -e "$wanted" ]; then
        [ -s "$found" ] || return 0
        wanted=/dev/null
    fi
    cmp -s "$wanted" "$found" && return 0
    echo "    ${found##*.} differs (- wanted, + found):"
    diff --text -u "$wanted" "$found" | tail -n +3 | head -n 20 | cut -c 1-300 | sed 's/^/    /'
    return 1
}

# Whether standard output contains every piece of the file `has`, and none of `hasnt`. A line `--` stands between two pieces.
compare_pieces() {
    local file=$1 wanted=$2 found line piece='' is_begun='' wrong=0
    [ -e "$file" ] || return 0
    found=$(< "$out.stdout")
    while IFS= read -r line || [ -n "$line" ]; do
        if [ "$line" != -- ]; then
            piece+=${is_begun:+$'\n'}$line is_begun=yes
            continue
        fi
        compare_piece || wrong=1
        piece='' is_begun=''
    done < "$file"
    compare_piece || wrong=1
    return "$wrong"
}

# Whether standard output contains this piece, if it is wanted.
compare_piece() {
    local holds=no
    [[ $found != *"$piece"* ]] || holds=yes
    [ "$holds" = "$wanted" ] && return 0
    echo "    the piece is $([ "$wanted" = yes ] && echo missing || echo there):"
    printf '%s\n' "$piece" | sed 's/^/      /'
    return 1
}

# Compares exit status and output of a run with those that the case wants.
compare_run() {
    local status=$1 wanted=0 wrong=0
    [ ! -e "$case/status" ] || read -r wanted < "$case/status"
    if [ "$status" != "$wanted" ]; then echo "    exit status $status, and not $wanted"; wrong=1; fi
    compare "$errors" "$out.stderr" || wrong=1
    if [ -e "$case/has" ]; then
        compare_pieces "$case/has" yes || wrong=1
        compare_pieces "$case/hasnt" no || wrong=1
    else
        compare "$case/stdout" "$out.stdout" || wrong=1
    fi
    return "$wrong"
}

# Runs a command in the copy of the case, and compares.
run_one() {
    timeout 50 "$@" > "$out.stdout" 2> "$out.stderr" < /dev/null
    compare_run $? > "$out.said" && return 0
    echo "  $*" | sed "s|^  $program |  |"
    cat "$out.said"
    return 1
}

# Runs a line of `args`: once, or if it is a check on one thread, in each of the ways.
run_line() {
    local line=$1 way wrong=0
    local -a words
    if [[ $line == 'check '* && " $line " == *' --serial '* ]]; then
        for way in "${ways[@]}"; do
            read -r -a words <<< "${line/--serial/$way}"
            run_one "$program" "${words[@]}" || wrong=1
        done
        return "$wrong"
    fi
    read -r -a words <<< "$line"
    run_one "$program" "${words[@]}"
}

# Prints the standard error that the case wants of the numbered line of `args`. In `stderrs` a line `--` stands between two of them.
wanted_errors() {
    awk -v number="$1" '$0 == "--" { ends++; next } ends + 1 == number' "$case/stderrs"
}

# Runs a case in its copy, and says what is wrong.
run_case() {
    local line number=0 errors=$case/stderr wrong=0
    [ -s "$case/about" ] || { echo "  it has no file about"; return 1; }
    if [ -e make ] && ! bash -eu make > "$out.said" 2>&1; then
        echo "  its files can't be made:"; sed 's/^/    /' "$out.said"
        return 1
    fi
    if [ -e run ]; then
        run_one bash run
        return
    fi
    [ -s args ] || { echo "  it has neither args nor run"; return 1; }
    while IFS= read -r line || [ -n "$line" ]; do
        number=$((number + 1))
        if [ -e "$case/stderrs" ]; then
            errors=$out.errors
            wanted_errors "$number" > "$errors"
        fi
        run_line "$line" || wrong=1
    done < "$case/args"
    return "$wrong"
}

# Runs every case whose place in the list is the job's number, or that and a multiple of the jobs. The file NAME.said says what is wrong.
run_job() {
    local number name case out=$place/$1
    for ((number = $1; number < ${#names[@]}; number += jobs)); do
        name=${names[number]}
        case=$tests/cases/$name
        cd "$place/in/$name" && run_case > "$place/$name.said" 2>&1 && : > "$place/$name.passed"
    done
}

tests=$(cd "$(dirname "$(readlink -f "$0")")" && pwd) || exit 2
program=$tests/../dist/st2110_timing
case ${1-} in */*) program=$1; shift ;; esac
program=$(readlink -f "$program") && [ -x "$program" ] || { echo "cases: there is no program ${program:-there}" >&2; exit 2; }
export tests program

names=("$@")
[ $# -gt 0 ] || names=($(cd "$tests/cases" && echo */))
names=("${names[@]%/}")
for name in "${names[@]}"; do
    [ -d "$tests/cases/$name" ] || { echo "cases: there is no case $name" >&2; exit 2; }
done
place=$(mktemp -d) || exit 2
trap 'kill $(jobs -p) 2> /dev/null; rm -rf "$place"' EXIT
mkdir "$place/in" && cp -r "${names[@]/#/$tests/cases/}" "$place/in" || exit 2

jobs=${JOBS:-$(nproc)}
for ((job = 0; job < jobs; job++)); do
    run_job "$job" &
done
wait

failed=0
for name in "${names[@]}"; do
    [ ! -e "$place/$name.passed" ] || continue
    failed=$((failed + 1))
    echo "$name: $(head -n 1 "$tests/cases/$name/about" 2> /dev/null)"
    cat "$place/$name.said"
done
echo "$((${#names[@]} - failed)) passed, $failed failed"
[ "$failed" = 0 ]
