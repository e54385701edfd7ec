#!/usr/bin/env bash
# Prints a completion file for bash or zsh, made from what `help` and `help COMMAND` of the program print.
#
#   build/completion.sh bash|zsh [PROGRAM]      PROGRAM: dist/st2110_timing, unless another is named
#
# The script reads two forms. In `help` a command is a line of two blanks, its name and its arguments; below it, six blanks
# deep, stands what it does. In `help COMMAND` an option is a line `  --NAME VALUE: what it does`. The last argument
# of a command and the value of an option are placeholders in capitals: FILE and CAPTURE complete files, COMMAND completes
# commands, TYPE and MODEL complete their values, and any other completes nothing.
#
# Ends with 0, with 1 if the help isn't in these forms, and with 2 if the command line is invalid or the program doesn't run.
set -u
export LC_ALL=C
top=$(cd "$(dirname "$(readlink -f "$0")")/.." && pwd) || exit 2
shell=${1-}
program=${2:-$top/dist/st2110_timing}

types='N NL W'
models='Bucket Over Empty'

commands=()        # in the order of the help
declare -A about   # of a command: what it does
declare -A syntax  # of a command: its arguments
declare -A options # of a command: lines of option, placeholder and description, with tabs between

say() { printf 'completion: %s\n' "$*" >&2; }

# Reads the commands, from `help`.
read_commands() {
    local text line name=''
    text=$("$program" help) || { say "$program help ends with status $?"; exit 2; }
    while IFS= read -r line; do
        if [[ $line =~ ^'  '([a-z][a-z0-9-]*)(' '.*)?$ ]]; then
            name=${BASH_REMATCH[1]} syntax[$name]=${BASH_REMATCH[2]}
        elif [ -n "$name" ] && [[ $line =~ ^' '{6,}([[-].*)$ ]]; then
            syntax[$name]+=" ${BASH_REMATCH[1]}"
        elif [ -n "$name" ] && [[ $line =~ ^' '{6,}([^ ].*)$ ]]; then
            commands+=("$name") about[$name]=${BASH_REMATCH[1]} name=''
        else
            name=''
        fi
    done <<< "$text"
    [ ${#commands[@]} -gt 0 ] || { say "$program help lists no command in the form that this script reads"; exit 1; }
}

# Reads the options of a command, from `help COMMAND`. They have to be those that `help` shows for it.
read_options() {
    local text line word found=' ' wanted=' '
    options[$1]=''
    for word in ${syntax[$1]}; do
        [[ ! $word =~ ^\[?(--[a-z][a-z0-9-]*) ]] || wanted+="${BASH_REMATCH[1]} "
    done
    [ "$wanted" != ' ' ] || return 0
    text=$("$program" help "$1") || { say "$program help $1 ends with status $?"; exit 2; }
    while IFS= read -r line; do
        [[ $line =~ ^' '+(--[a-z][a-z0-9-]*)(' '([A-Z]+))?:' '*(.*)$ ]] || continue
        options[$1]+=${BASH_REMATCH[1]}$'\t'${BASH_REMATCH[3]:--}$'\t'${BASH_REMATCH[4]}$'\n'
        found+="${BASH_REMATCH[1]} "
        [[ $wanted == *" ${BASH_REMATCH[1]} "* ]] || wanted=''
    done <<< "$text"
    [ ${#wanted} -eq ${#found} ] || { say "help and help $1 list different options of $1"; exit 1; }
}

# Prints the placeholder of a command's arguments that aren't options, or nothing.
placeholder_of() {
    local word after=''
    for word in ${syntax[$1]}; do
        case $after:$word in
            *:*--*']') after='' ;;
            *:*--*) after=option ;;
            option:*) after='' ;;
            *) [[ ! $word =~ ^\[?([A-Z]+) ]] || { echo "${BASH_REMATCH[1]}"; return; } ;;
        esac
    done
}

# Prints a text in single quotes.
quote() { printf "'%s'" "${1//\'/\'\\\'\'}"; }

print_bash() {
    local name option value description names values
    cat << END
# Completion of st2110_timing for bash, made by build/completion.sh from the program's help.
_st2110_timing() {
    local commands='${commands[*]}' options='' values='' rest='' kind=''
    local current=\${COMP_WORDS[COMP_CWORD]} previous='' i
    COMPREPLY=()
    if [ "\$COMP_CWORD" -le 1 ]; then
        mapfile -t COMPREPLY < <(compgen -W "\$commands" -- "\$current")
        return
    fi
    case \${COMP_WORDS[1]} in
END
    for name in "${commands[@]}"; do
        names='' values=''
        while IFS=$'\t' read -r option value description; do
            [ -n "$option" ] || continue
            names+="$option "
            [ "$value" = - ] || values+=" $option=$value"
        done <<< "${options[$name]}"
        printf "        %s) options='%s' values='%s ' rest='%s' ;;\n" "$name" "${names% }" "$values" "$(placeholder_of "$name")"
    done
    cat << END
        *) return ;;
    esac
    # (bash makes three words of --option=value)
    previous=\${COMP_WORDS[COMP_CWORD - 1]}
    if [ "\$current" = = ]; then
        current=''
    elif [ "\$previous" = = ]; then
        previous=\${COMP_WORDS[COMP_CWORD - 2]}
    fi
    if [[ \$values == *" \$previous="* ]]; then
        kind=\${values#*" \$previous="}
        kind=\${kind%% *}
    fi
    # after an argument -- all arguments are files
    for ((i = 2; i < COMP_CWORD; i++)); do
        [ "\${COMP_WORDS[i]}" != -- ] || kind=\$rest options=''
    done
    if [ -z "\$kind" ]; then
        if [[ \$current == -* ]]; then
            mapfile -t COMPREPLY < <(compgen -W "\$options" -- "\$current")
            return
        fi
        kind=\$rest
    fi
    case \$kind in
        FILE | CAPTURE)
            mapfile -t COMPREPLY < <(compgen -f -- "\$current")
            compopt -o filenames 2> /dev/null
            ;;
        COMMAND) mapfile -t COMPREPLY < <(compgen -W "\$commands" -- "\$current") ;;
        TYPE) mapfile -t COMPREPLY < <(compgen -W '$types' -- "\$current") ;;
        MODEL) mapfile -t COMPREPLY < <(compgen -W '$models' -- "\$current") ;;
    esac
}
complete -F _st2110_timing st2110_timing
END
}

# Prints what zsh completes for a placeholder.
action_of() {
    case $1 in
        FILE | CAPTURE) echo _files ;;
        COMMAND) echo '{_describe -t commands command commands}' ;;
        TYPE) echo "($types)" ;;
        MODEL) echo "($models)" ;;
        *) echo ' ' ;;
    esac
}

# Prints a description as _arguments and _describe take it.
escape() {
    local text=${1//\\/\\\\}
    text=${text//:/\\:} text=${text//[/\\[}
    echo "${text//]/\\]}"
}

print_zsh() {
    local name option value description rest
    cat << END
#compdef st2110_timing
# Completion of st2110_timing for zsh, made by build/completion.sh from the program's help.
local curcontext=\$curcontext state state_descr line
local -A opt_args
local -a commands=(
END
    for name in "${commands[@]}"; do
        printf '    %s\n' "$(quote "$name:$(escape "${about[$name]}")")"
    done
    cat << END
)
_arguments -C '1:command:$(action_of COMMAND)' '*::argument:->argument'
[[ \$state != argument ]] || case \$words[1] in
END
    for name in "${commands[@]}"; do
        printf '    %s) _arguments -S' "$name"
        while IFS=$'\t' read -r option value description; do
            [ -n "$option" ] || continue
            if [ "$value" = - ]; then
                rest="${option}[$(escape "$description")]"
            else
                rest="$option=[$(escape "$description")]:$value:$(action_of "$value")"
            fi
            printf ' \\\n        %s' "$(quote "$rest")"
        done <<< "${options[$name]}"
        rest=$(placeholder_of "$name")
        [ -z "$rest" ] || printf ' \\\n        %s' "$(quote "*:$rest:$(action_of "$rest")")"
        printf ' ;;\n'
    done
    echo 'esac'
}

[[ $# -le 2 && $shell =~ ^(bash|zsh)$ ]] || { say "usage: build/completion.sh bash|zsh [PROGRAM]"; exit 2; }
[ -f "$program" ] && [ -x "$program" ] || { say "$program isn't there, or isn't executable"; exit 2; }
program=$(readlink -f "$program")
read_commands
for name in "${commands[@]}"; do read_options "$name"; done
"print_$shell"
