#!/usr/bin/env bash
# Functions for the `run` files of the cases edge_*, which show how the program meets files, pipes and its standard streams.
#
#   . "$tests/edge.sh"      in such a file; $program and $tests are set by cases.sh
#
# show COMMAND..        runs a command, and prints its standard output, each line of its standard error after `standard error: `, and
#                       its exit status
# brief LABEL COMMAND.. prints the same in one line after the label, for a command whose standard output is empty
# label TEXT            prints a line that parts what follows from what came before

show() {
    local status
    "$@" > show.out 2> show.err
    status=$?
    cat show.out
    sed 's/^/standard error: /' show.err
    echo "exit status $status"
}

brief() {
    local name=$1
    shift
    echo "$name: $(show "$@" | sed -n 'H; $ { x; s/\n//; s/\n/, /g; p }')"
}

label() {
    echo "== $1"
}
