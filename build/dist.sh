#!/usr/bin/env bash
# Writes dist/ anew: the program that the proof of these sources has built, and dist/SHA256SUMS.
#
#   build/dist.sh              takes the program of crates/st2110_timing/out, and first builds it if it is older than a source
#   build/dist.sh --sources    writes nothing: exit status 1 if dist/ is of other sources than those here, and says so
#   build/dist.sh --compare    writes nothing: exit status 1 if dist/ isn't what `rt ci` has just built here, and says so
#
# Exit status 2: there is no program.
set -u
top=$(cd "$(dirname "$(readlink -f "$0")")/.." && pwd) && cd "$top" || exit 2
built=crates/st2110_timing/out/st2110_timing
sums=dist/SHA256SUMS

say() { printf 'dist: %s\n' "$*" >&2; }

# Prints what SHA256SUMS notes under this name, in a line `# NAME: VALUE`.
noted() { sed -n "s/^# $1: //p" "$sums" 2> /dev/null; }

# Whether dist/ is of the sources that are here, and its program as it was written.
check_sources() {
    [ "$(noted sources)" = "$(build/sources.sh)" ] || { say "dist/st2110_timing was built of other sources than those in crates/ (build/dist.sh writes it anew)"; return 1; }
    (cd dist && sha256sum --check --status SHA256SUMS) || { say "dist/st2110_timing isn't the file of which dist/SHA256SUMS has the sum (build/dist.sh writes both)"; return 1; }
}

# Whether the program that was built here is that of dist/. A kit of another version may build other bytes: then the logic by which
# both were proved is compared alone.
compare() {
    local kit
    kit=$(rt version) || { say "there is no rt here"; return 1; }
    if [ "$(noted kit)" != "$kit" ]; then
        say "dist/ was built with $(noted kit), and this is $kit: the logic alone is compared"
        [ "$(noted kit | sed 's/.* logic //')" = "${kit##* logic }" ] || { say "dist/ was proved by another logic"; return 1; }
        return 0
    fi
    cmp -s "$built" dist/st2110_timing || { say "dist/st2110_timing isn't the program that the proof builds, $built (build/dist.sh writes it anew)"; return 1; }
}

# Whether the program isn't built, or a source is newer than it.
is_old() {
    [ -x "$built" ] || return 0
    [ -n "$(find crates.txt HANDLES crates -name out -prune -o -type f -newer "$built" \( -name crates.txt -o -name HANDLES -o -name '*.rt' -o -name '*.antt' \) -print -quit)" ]
}

write() {
    if is_old; then
        ./run --prove || return 2
    fi
    mkdir -p dist && install -m 755 "$built" dist/st2110_timing || return 2
    {
        echo "# sources: $(build/sources.sh)"
        echo "# kit: $(rt version)"
        (cd dist && sha256sum st2110_timing)
    } > "$sums"
    say "written: $(tail -n 1 "$sums")"
}

case ${1-} in
    '') write ;;
    --sources) check_sources ;;
    --compare) compare ;;
    *) say "usage: build/dist.sh [--sources | --compare]"; exit 2 ;;
esac
