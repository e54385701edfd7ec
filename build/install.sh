#!/usr/bin/env bash
# Installs the program with its man page, completions, pages and examples, or removes them.
#
#   build/install.sh install|uninstall
#
# The environment may set, as variables of the Makefile do:
#   PREFIX    the folder to install below, an absolute path (/usr/local)
#   DESTDIR   a folder to put before PREFIX, as packages need it (none)
#   PROGRAM   the program to install (dist/st2110_timing)
#   ZSHDIR    the folder below PREFIX for the completion of zsh (share/zsh/site-functions)
#
# Nothing is built, and no kit is needed. Files get mode 644 or 755, whatever the umask is. Ends with 0, with 1 if a file
# couldn't be installed or removed, and with 2 if the command line is invalid or a file isn't there; with 2 nothing is
# installed.
set -u
umask 022
export LC_ALL=C
top=$(cd "$(dirname "$(readlink -f "$0")")/.." && pwd) || exit 2

say() { printf 'install: %s\n' "$*" >&2; }

# Prints the pictures that a page shows, as Markdown or as <img>, from the top folder.
pictures_of() {
    local picture folder
    folder=$(dirname "$1")
    grep -oE '!\[[^]]*\]\([^) ]+|<img [^>]*src="[^"]+' "$1" | sed -E 's/^!\[[^]]*\]\(//; s/^<img .*src="//' |
        while IFS= read -r picture; do
            case $picture in
                http:* | https:* | data:*) ;;
                *) realpath -m --relative-to=. -- "$folder/$picture" ;;
            esac
        done
}

# Prints each installed file, the only list of them: mode, source and target, with tabs between. A source stands in the
# top folder; `program`, `bash` and `zsh` are the program and what build/completion.sh prints.
list_files() {
    local doc=share/doc/st2110_timing file
    printf '%s\t%s\t%s\n' \
        755 program bin/st2110_timing \
        644 docs/st2110_timing.1 share/man/man1/st2110_timing.1 \
        644 bash share/bash-completion/completions/st2110_timing \
        644 zsh "$zsh/_st2110_timing"
    for file in README.md CHANGELOG.md docs/*.md docs/schema/*.json; do
        printf '644\t%s\t%s\n' "$file" "$doc/$file"
        pictures_of "$file" | while IFS= read -r file; do printf '644\t%s\t%s\n' "$file" "$doc/$file"; done
    done | sort -u
    find examples -type f ! -name '.*' | sort | while IFS= read -r file; do
        if [ -x "$file" ]; then printf 755; else printf 644; fi
        printf '\t%s\t%s\n' "$file" "$doc/$file"
    done
}

# Prints the folders that only this program has, the deepest first.
list_own_folders() {
    list_files | cut -f 3 | while IFS= read -r file; do
        file=${file%/*}
        while [[ $file == share/doc/st2110_timing* ]]; do
            echo "$file"
            file=${file%/*}
        done
    done | sort -ru
}

install_files() {
    local mode source target step missing='' files=()
    [ -f "$program" ] || { say "$program isn't there: it comes with the repository, or set PROGRAM to another"; exit 2; }
    program=$(readlink -f "$program")
    folder=$(mktemp -d) || exit 2
    trap 'rm -rf "$folder"' EXIT
    for source in bash zsh; do
        "$top/build/completion.sh" "$source" "$program" > "$folder/$source" || exit 2
    done
    ln -s "$program" "$folder/program" && cd "$top" || exit 2
    mapfile -t files < <(list_files)
    # (once to see that each source is there, and once to install them)
    for step in look put; do
        while IFS=$'\t' read -r mode source target; do
            case $source in program | bash | zsh) source=$folder/$source ;; esac
            if [ "$step" = put ]; then
                install -D -m "$mode" "$source" "$base/$target" || exit 1
            elif [ ! -f "$source" ]; then
                say "$source isn't there"
                missing=yes
            fi
        done < <(printf '%s\n' "${files[@]}")
        [ -z "$missing" ] || exit 2
    done
    echo "installed ${#files[@]} files below ${base:-/}"
}

remove_files() {
    local file removed=0
    cd "$top" || exit 2
    while IFS= read -r file; do
        [ -e "$base/$file" ] || continue
        rm -f "$base/$file" || exit 1
        removed=$((removed + 1))
    done < <(list_files | cut -f 3)
    # (a folder in which somebody else has put a file stays)
    list_own_folders | while IFS= read -r file; do
        [ ! -d "$base/$file" ] || rmdir --ignore-fail-on-non-empty "$base/$file"
    done
    echo "removed $removed files below ${base:-/}"
}

prefix=${PREFIX:-/usr/local} destdir=${DESTDIR-}
program=${PROGRAM:-$top/dist/st2110_timing}
zsh=${ZSHDIR:-share/zsh/site-functions}
[[ $prefix == /* ]] || { say "PREFIX has to be an absolute path, and is: $prefix"; exit 2; }
[[ -z $destdir || $destdir == /* ]] || destdir=$PWD/$destdir
base=${destdir%/}${prefix%/}
case ${1-} in
    install) install_files ;;
    uninstall) remove_files ;;
    *) say "usage: build/install.sh install|uninstall"; exit 2 ;;
esac
