#!/usr/bin/env bash
# Runs the commands of README.md and docs/GUIDE.md as a reader would, from a folder with the examples, and compares what
# each prints with what the page shows below it.
#
#   tests/pages.sh [PROGRAM]      dist/st2110_timing if none is named
#
# A page's block that begins with ```console has commands (after `$ `, and `> ` where they go on) and what they print; all are
# run but those of the list below. The commands of its ```sh blocks aren't run, and have to be in the list, so none is passed
# over in silence. A command whose tool isn't on this machine is left out, and named. Ends with 1 where a command prints
# something else, or where list and pages don't fit; with 2 where there is no program. Nothing is written into the repository.
set -u
export LC_ALL=C

# What isn't run: how a command begins, and what it needs.
not_run=(
    'make test|to be run by itself: it calls this script'
    'make install|a place to install to: tests/packaging.sh does it'
    'make deb|a place to install to: tests/packaging.sh does it'
    'tcpdump -i|a network card'
    'dumpcap -i|a network card'
    'editcap -r in.pcapng|a capture of your own'
    'curl -o|a node on the network'
    'parallel --line-buffer|a network card'
    'gst-launch-1.0|a network to send into'
    './run check --sdp gst_1080.sdp|a capture of 1.4 MB that does not ship'
    'sbatch|a cluster'
    './run series --sdp cam.sdp|a capture of your own'
    'gnuplot -p|a screen, and a capture of your own'
)
# Tools that a machine may lack.
tools='jq xargs column parallel python3 tcpdump editcap mergecap reordercap capinfos tshark gzip'

top=$(cd "$(dirname "$(readlink -f "$0")")/.." && pwd) || exit 2
folder=$(mktemp -d) || exit 2
trap 'rm -rf "$folder"' EXIT

program=$(readlink -f "${1:-$top/dist/st2110_timing}") && "$program" help > "$folder/said" || { echo "pages: no program" >&2; exit 2; }

# The commands run in a folder of their own, in which `./run` is that program.
mkdir "$folder/here" && cp -r "$top/examples" "$folder/here" && cd "$folder/here" && ln -s "$program" run || exit 2

passed=0 wrong=0
left_out=() met=()

# Says why a command isn't run, or nothing.
reason_of() {
    local entry tool
    for entry in "${!not_run[@]}"; do
        if [[ $1 == "${not_run[entry]%%|*}"* ]]; then
            met[entry]=yes
            echo "it needs ${not_run[entry]#*|}"
            return
        fi
    done
    for tool in $tools; do
        if [[ $1 =~ (^|[^[:alnum:]_./-])$tool([[:space:]]|$) ]] && ! command -v "$tool" > /dev/null; then
            echo "there is no $tool here"
            return
        fi
    done
}

# Runs the command that was read, or notes that it is left out, and makes place for the next.
finish() {
    local reason found
    [ -n "$command" ] || return 0
    reason_of "$command" > "$folder/reason"
    reason=$(< "$folder/reason")
    if [ -n "$reason" ]; then
        left_out+=("$page: $command   ($reason)")
    elif [ "$block" = sh ]; then
        wrong=$((wrong + 1))
        echo "$page: it is neither run nor in the list of this script: $command"
    else
        found=$(HOME=$folder timeout 60 bash -c "$command" 2>&1 < /dev/null)
        if [ "$found" = "${wanted%$'\n'}" ]; then
            passed=$((passed + 1))
        else
            wrong=$((wrong + 1))
            echo "$page: it prints something else: $command"
            diff <(printf '%s\n' "${wanted%$'\n'}") <(printf '%s\n' "$found")
        fi
    fi
    command='' wanted=''
}

for page in README.md docs/GUIDE.md; do
    block='' command='' wanted=''
    while IFS= read -r line; do
        case $block:$line in
            ':```console') block=console ;;
            ':```sh') block=sh ;;
            ':```'*) block=other ;;
            :*) ;;
            *':```') finish; block='' ;;
            'console:$ '*) finish; command=${line#'$ '} ;;
            'console:> '*) command+=$'\n'${line#'> '} ;;
            console:*) wanted+=$line$'\n' ;;
            sh:'#'* | sh:) ;;
            'sh: '*) command+=$'\n'$line ;;
            sh:*) finish; command=$line ;;
        esac
    done < "$top/$page"
done

for entry in "${!not_run[@]}"; do
    if [ -z "${met[entry]-}" ]; then
        wrong=$((wrong + 1))
        echo "no page has what the list of this script leaves out: ${not_run[entry]%%|*}"
    fi
done
[ ${#left_out[@]} -eq 0 ] || printf 'left out: %s\n' "${left_out[@]}"
echo "pages: $passed passed, $wrong failed"
[ "$wrong" -eq 0 ]
