#!/usr/bin/env bash
# Proves the program and the crates that it stands on, and builds crates/st2110_timing/out/st2110_timing.
#
#   build/prove.sh
#
# It runs `rt ci` over a copy without the crates of tests and the must-fail edits. A kit that keeps what passes (13f) then proves less in later
# runs, the gate too. On standard error it names each crate that is done. Exit status 1: something isn't proved, and the end of what `rt ci`
# prints is shown.
set -u
top=$(cd "$(dirname "$(readlink -f "$0")")/.." && pwd) || exit 1
copy=$top/out/prove
log=$top/out/prove.log

say() { printf 'prove: %s\n' "$*" >&2; }

# Reads what `rt ci` prints, and names each crate that is done.
tell_progress() {
    local line done=0
    while IFS= read -r line; do
        [[ $line =~ ^rt:\ ([a-z0-9_]+)(\ is\ kept:.*|\ proved)$ ]] || continue
        done=$((done + 1))
        say "crate $done of ${#folders[@]}: ${BASH_REMATCH[1]}"
    done
}

rm -rf "$copy" && mkdir -p "$copy" && cd "$top" || exit 1
trap 'rm -rf "$copy"' EXIT
grep -v '^[a-z0-9_]*_tests ' crates.txt > "$copy/crates.txt"
mapfile -t folders < <(sed -n 's|^\([a-z][a-z0-9_]*\).*:.*|crates/\1|p' "$copy/crates.txt")
tar --exclude=out --exclude=must-fail -cf - HANDLES "${folders[@]}" | tar -C "$copy" -xf - || exit 1
# (`rt ci` wants crates.txt at the top of a repository)
git init -q "$copy" || exit 1
jobs=$(build/jobs.sh)
[ -z "$jobs" ] || export RT_JOBS=$jobs
(cd "$copy" && rt ci) 2>&1 < /dev/null | tee "$log" | tell_progress
if [ "${PIPESTATUS[0]}" != 0 ]; then
    say "it isn't proved; the end of $log:"
    tail -n 20 "$log" >&2
    exit 1
fi
mkdir -p crates/st2110_timing/out && mv "$copy/crates/st2110_timing/out/st2110_timing" crates/st2110_timing/out/st2110_timing
