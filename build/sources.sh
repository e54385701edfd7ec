#!/usr/bin/env bash
# Prints one SHA-256 over all that the program is built of: crates.txt, HANDLES, and each source, definition and proof of crates/, by
# name and contents.
set -eu -o pipefail
export LC_ALL=C
cd "$(dirname "$(readlink -f "$0")")/.."
find crates.txt HANDLES crates -name out -prune -o -type f \( -name crates.txt -o -name HANDLES -o -name '*.rt' -o -name '*.antt' \) -print0 |
    sort -z | xargs -0 sha256sum | sha256sum | cut -d ' ' -f 1
