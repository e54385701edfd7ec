#!/usr/bin/env bash
# Tests `make install`, `make uninstall`, `make deb` and the completions, on a copy of the repository.
#
#   tests/packaging.sh [PROGRAM]      PROGRAM: dist/st2110_timing, unless another is named
#
# It prints a line for each test that fails, and for each that it leaves out for want of a tool: man or mandoc, zsh,
# dpkg-deb. The last line counts. Ends with 0, with 1 if a test failed, and with 2 if there is no program or no make.
# Nothing is written into the repository, and nothing is installed on the machine.
set -u
export LC_ALL=C
top=$(cd "$(dirname "$(readlink -f "$0")")/.." && pwd) || exit 2
program=${1:-$top/dist/st2110_timing}

say() { printf 'packaging: %s\n' "$*" >&2; }

[ -f "$program" ] || { say "there is no program $program"; exit 2; }
program=$(readlink -f "$program")
command -v make > /dev/null || { say "there is no make here"; exit 2; }
folder=$(mktemp -d) || exit 2
trap 'rm -rf "$folder"' EXIT
copy=$folder/copy
mkdir -p "$copy" "$folder/home" && cp -r "$top"/{Makefile,README.md,CHANGELOG.md,build,docs,examples} "$copy" || exit 2
export HOME=$folder/home
unset MAKEFLAGS MAKEOVERRIDES PREFIX DESTDIR PROGRAM ZSHDIR

passed=0 failed=0
# Counts a test: its name, and a command that has to end with 0.
expect() {
    local name=$1
    shift
    if "$@" > "$folder/said" 2>&1; then
        passed=$((passed + 1))
    else
        failed=$((failed + 1))
        echo "failed: $name"
        sed 's/^/    /' "$folder/said"
    fi
}
same() { diff <(printf '%s\n' "$1") <(printf '%s\n' "$2"); }
leave_out() { echo "left out: $1 (there is no $2 here)"; }

in_copy() { make --no-print-directory -C "$copy" "$@"; }

# Checks that make lists each target of the Makefile.
lists_targets() { same "$(sed -n 's/^\([a-z]*\):.*/\1/p' "$copy/Makefile")" "$(in_copy | awk '{ print $2 }')"; }

# Checks that an installation without the program fails, names it, and installs nothing.
needs_program() {
    ! in_copy install DESTDIR="$folder/none" > "$folder/none.said" 2>&1 &&
        grep -q 'dist/st2110_timing' "$folder/none.said" && [ ! -e "$folder/none" ]
}

# Prints the files that an installation has to have below its PREFIX, with their modes.
wanted_files() {
    local doc=./share/doc/st2110_timing file
    echo "755 ./bin/st2110_timing"
    echo "644 ./share/man/man1/st2110_timing.1"
    echo "644 ./share/bash-completion/completions/st2110_timing"
    echo "644 ./share/zsh/site-functions/_st2110_timing"
    cd "$copy" || return
    for file in README.md CHANGELOG.md docs/*.md docs/schema/*.json; do
        echo "644 $doc/$file"
        grep -o '!\[[^]]*\]([^)]*)' "$file" | sed 's/.*(\(.*\))/\1/' | while read -r picture; do
            echo "644 $doc/$(realpath -m --relative-to=. "$(dirname "$file")/$picture")"
        done
    done
    find examples -type f -printf '%m %p\n' | sed -E "s/^(.).. /\1 /; s/^7/755/; s/^6/644/; s: : $doc/:"
}
found_files() { (cd "$1" && find . -type f -printf '%m %p\n' | sort); }
has_files() { same "$(wanted_files | sort -u)" "$(found_files "$folder/tree/usr/elsewhere")"; }
has_folders() { ! find "$folder/tree" -type d ! -perm 755 | grep .; }
has_examples() { diff -r "$copy/examples" "$folder/tree/usr/elsewhere/share/doc/st2110_timing/examples"; }

# Checks that the installed program runs, and that its first line has name and version.
prints_first_line() {
    local first
    first=$("$folder/tree/usr/elsewhere/bin/st2110_timing" help | sed -n 1p)
    echo "$first"
    [[ $first =~ ^st2110_timing\ [0-9][^\ ]*:\  ]] && same "$first" "$("$program" help | sed -n 1p)"
}

renders() { "$@" "$folder/tree/usr/elsewhere/share/man/man1/st2110_timing.1" 2>&1 | grep 'st2110_timing'; }

commands() { "$program" help | sed -nE 's/^  ([a-z][a-z-]*)( .*)?$/\1/p' | sort; }
options_of() { "$program" help "$1" | sed -nE 's/^  (--[a-z][a-z0-9-]*).*/\1/p' | sort; }

# Prints what bash completes for the last of the arguments.
bash_completes() {
    bash --norc -c '
        . "$1"; shift
        COMP_WORDS=("$@") COMP_CWORD=$(($# - 1)) COMP_LINE=$* COMP_POINT=${#COMP_LINE}
        function=$(complete -p st2110_timing | sed "s/.*-F \([^ ]*\).*/\1/")
        "$function" st2110_timing "${COMP_WORDS[COMP_CWORD]}" "${COMP_WORDS[COMP_CWORD - 1]}"
        printf "%s\n" "${COMPREPLY[@]}" | sort' bash \
        "$folder/tree/usr/elsewhere/share/bash-completion/completions/st2110_timing" "$@"
}
bash_offers() { same "$1" "$(cd "$copy/examples" && bash_completes st2110_timing "${@:2}")"; }

# Prints what zsh shows after each of these lines and a TAB, in a terminal of its own.
zsh_shows() {
    timeout 20 zsh -f -c '
        zmodload zsh/zpty
        zpty shell zsh -f
        zpty -w shell "PS1=\"READY> \"; TERM=dumb; stty columns 200 rows 200; LISTMAX=500; fpath=($1 \$fpath)"
        zpty -w shell "autoload -Uz compinit; compinit -u -D; print BE\"\"GUN"
        zpty -r shell part "*BEGUN*READY> *"
        for line in "${@:2}"; do
            zpty -w -n shell "$line"$'\''\t'\''
            for ((quiet = 0; quiet < 20; quiet++)); do
                while zpty -rt shell part; do print -rn -- "$part"; [[ $part != *$'\''\n'\''* ]] || quiet=10; done
                sleep 0.05
            done
            zpty -w -n shell $'\''\C-u'\''
        done
        zpty -d shell' zsh "$folder/tree/usr/elsewhere/share/zsh/site-functions" "$@"
}
# Checks that zsh shows each name that standard input lists, with a description, after one of these lines.
zsh_offers() {
    local name shown wrong=0
    shown=$(zsh_shows "$@")
    while read -r name; do
        grep -qE -- "^$name +-- [^ ]" <<< "$shown" || { echo "$name isn't offered"; wrong=1; }
    done
    return "$wrong"
}

# Checks that nothing is left but folders that other programs use too.
is_removed() {
    ! find "$folder/tree" ! -type d | grep . && ! find "$folder/tree" -name '*st2110_timing*' | grep .
}

# Checks the fields of the package, and its files against those of `make install`.
has_fields() {
    local field
    dpkg-deb --info "$package" || return
    for field in 'Package: st2110-timing' "Version: $version" 'Section: net' 'Priority: optional' 'Architecture: amd64' \
        'Depends: libc6 (>= 2.34)'; do
        same "$field" "${field%%:*}: $(dpkg-deb --field "$package" "${field%%:*}")" || return
    done
    [ -n "$(dpkg-deb --field "$package" Maintainer)" ] && [ -n "$(dpkg-deb --field "$package" Description)" ]
}
has_contents() {
    dpkg-deb --contents "$package" | grep -v ' root/root ' && return 1
    dpkg-deb --extract "$package" "$folder/deb" || return
    same "$(wanted_files | sed 's:zsh/site-functions:zsh/vendor-completions:' | sort -u)" "$(found_files "$folder/deb/usr")"
}

expect 'make lists its targets' lists_targets
expect 'make install without the program fails, and names it' needs_program
mkdir "$copy/dist" && cp "$program" "$copy/dist/st2110_timing" && chmod 755 "$copy/dist/st2110_timing" || exit 2

# (a umask that keeps everything from others must not show in the modes)
umask 077
expect 'make install' in_copy install PREFIX=/usr/elsewhere DESTDIR="$folder/tree"
umask 022
expect 'make install: files and modes' has_files
expect 'make install: modes of folders' has_folders
expect 'make install: examples are the same' has_examples
expect 'make install: the program prints its first line' prints_first_line
if command -v man > /dev/null; then
    expect 'man renders the man page' renders man -l
elif command -v mandoc > /dev/null; then
    expect 'mandoc renders the man page' renders mandoc
else
    leave_out 'rendering the man page' 'man or mandoc'
fi

expect 'bash offers the commands of help' bash_offers "$(commands)" ''
expect 'bash offers the commands after help' bash_offers "$(commands)" help ''
for command in $(commands); do
    [ "$command" = help ] || expect "bash offers the options of $command" bash_offers "$(options_of "$command")" "$command" --
done
expect 'bash offers types' bash_offers $'N\nNL\nW' shape --type ''
expect 'bash offers models after --model=' bash_offers 'Bucket' verify --model = B
expect 'bash offers files' bash_offers $'plain.pcap\nplain.pcapng' check plain.p
expect 'bash offers files for --sdp' bash_offers $'plain.sdp' check --sdp plain.s
expect 'bash offers nothing for --tai' bash_offers '' check --tai ''
if command -v zsh > /dev/null; then
    expect 'zsh offers the commands of help and the options of check' zsh_offers 'st2110_timing ' 'st2110_timing check --' \
        < <(commands; options_of check)
else
    leave_out 'the completion of zsh' zsh
fi

expect 'the newest heading of CHANGELOG.md is the version that the program prints' \
    same "$(sed -n 's/^## //p' "$copy/CHANGELOG.md" | head -n 1)" "$("$copy/build/version.sh" "$program")"

expect 'make uninstall' in_copy uninstall PREFIX=/usr/elsewhere DESTDIR="$folder/tree"
expect 'make uninstall leaves nothing behind' is_removed

if command -v dpkg-deb > /dev/null; then
    version=$("$program" help | sed -nE '1s/^[^ ]+ ([^ ]+):.*/\1/p')
    package=$copy/out/st2110-timing_${version}_amd64.deb
    # (the least compression, which takes the least time)
    export DPKG_DEB_COMPRESSOR_LEVEL=1
    umask 077
    expect 'make deb' in_copy deb
    umask 022
    expect 'make deb: fields' has_fields
    expect 'make deb: contents' has_contents
else
    leave_out 'the Debian package' dpkg-deb
fi

echo "packaging: $passed passed, $failed failed"
[ "$failed" -eq 0 ]
