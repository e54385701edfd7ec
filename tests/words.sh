#!/usr/bin/env bash
# Finds phrases that the pages shouldn't have, since a reader who is new to them doesn't know them.
#
#   tests/words.sh [FILE..]      the FILEs alone; if none is named, the pages, and what `help` and `help COMMAND` print
#
# words.pl has the phrases. It prints `file:line: phrase -> what to write`, then how many each file has, and last `words: N found`. The
# exit status is 1 if there is one, and 2 if there is no program dist/st2110_timing, or a FILE can't be read.
set -u
export LC_ALL=C
tests=$(cd "$(dirname "$(readlink -f "$0")")" && pwd) || exit 2
[ $# = 0 ] || exec perl "$tests/words.pl" "$@"

cd "$tests/.." || exit 2
program=$PWD/dist/st2110_timing
folder=$(mktemp -d) || exit 2
trap 'rm -rf "$folder"' EXIT

# Of the change log only the newest version: the others are as they were.
awk '/^## / { versions++ } versions < 2' CHANGELOG.md > "$folder/CHANGELOG.md"
"$program" help > "$folder/help" || { echo "words: there is no program dist/st2110_timing" >&2; exit 2; }
for command in $(sed -nE 's/^  ([a-z][a-z-]*)( .*)?$/\1/p' "$folder/help" | grep -vx help); do
    "$program" help "$command" > "$folder/help $command" || exit 2
done
perl "$tests/words.pl" --from "$folder" README.md CONTRIBUTING.md docs/*.md docs/st2110_timing.1 {tests,examples}/README.md \
    crates/*/README.md "$folder"/*
