#!/bin/sh
# Runs the two report programs where descriptors are few, on the files of their crates: each must print
# what is stored there. Prints 'report: ok', or what failed and exits 1.
set -u

if [ $# -ne 2 ]; then
    echo "usage: test.sh REPORT_PROGRAM REPORT_EDGES_PROGRAM" >&2
    exit 2
fi

# whole PATH: the path of a program from the root.
whole() {
    [ -x "$1" ] || { echo "report: $1 is no program" >&2; exit 2; }
    printf '%s/%s' "$(cd "$(dirname "$1")" && pwd)" "$(basename "$1")"
}

report=$(whole "$1") || exit 2
edges=$(whole "$2") || exit 2
crates=$(cd "$(dirname "$0")/../../crates" && pwd)
out=$(mktemp) || exit 2
trap 'rm -f "$out"' EXIT

# same CRATE WHERE: the output is the crate's stored one.
same() {
    cmp -s "$out" "$crates/$1/stdout" && return
    echo "report: FAILED: $1 prints something else $2" >&2
    exit 1
}

# few CRATE PROGRAM: under each limit.
few() {
    cd "$crates/$1/data" || exit 2
    # The first file that opens is descriptor 0.
    "$2" <&- >"$out"
    same "$1" "with standard input closed"
    # Descriptor 3 alone is free: a file opens only after the one before it was closed.
    (ulimit -n 4 && exec "$2") </dev/null >"$out" 3<&-
    same "$1" "with one descriptor free"
}

few report "$report"
few report_edges "$edges"
echo 'report: ok'
