#!/bin/sh
# Compiles the header and the two C programs against the library, runs the checks, then the terminal
# on files made here. Prints 'c: ok', or what failed and exits 1.
set -u

if [ $# -ne 2 ]; then
    echo "usage: test.sh LIBRARY_FOLDER SCRATCH_FOLDER" >&2
    exit 2
fi

here=$(cd "$(dirname "$0")" && pwd)
work=$2/terminal-test
strict='-Wall -Wextra -Werror'

fail() {
    echo "c: FAILED: $1" >&2
    exit 1
}

# byte N, zeros COUNT: to standard output.
byte() {
    printf "\\$(printf '%03o' "$1")"
}

zeros() {
    left=$1
    while [ "$left" -gt 0 ]; do
        printf '\000'
        left=$((left - 1))
    done
}

# event KIND DOMAIN SUITE PERMISSION ANSWER REQUIRED OPTIONAL: one record of values below 256.
event() {
    byte "$1"; byte "$2"; byte "$3"; zeros 1; byte "$4"; byte "$5"; zeros 2
    byte "$6"; zeros 7; byte "$7"; zeros 7
}

install() { event 1 "$1" "$2" 0 0 "$3" "$4"; }
start() { event 3 0 "$1" 0 0 0 0; }
terminate() { event 4 0 0 0 0 0 0; }
request() { event 5 0 0 "$1" "$2" 0 0; }

# policy CELL: domain 2 has 4, 2, 3, 1 and that cell for permissions 0 to 4, all else is 0.
policy() {
    zeros 128; byte 4; byte 2; byte 3; byte 1; byte "$1"; zeros 379
}

# step_as_expected EVENTS INPUT: the terminal prints the text on standard input.
step_as_expected() {
    cat > expected
    printf "$2" | ./terminal policy store "$1" > printed 2> said \
        || fail "terminal on $1: $(cat said)"
    diff expected printed || fail "terminal on $1 prints otherwise"
    [ ! -e store.new ] || fail "terminal on $1 leaves its temporary file"
}

# refused WHAT WORDS POLICY STORE EVENTS: status 2, a message with those words, and the store, if
# there is one, byte for byte as it was.
refused() {
    what=$1 words=$2 kept=$4
    shift 2
    rm -f before
    [ ! -e "$kept" ] || cp "$kept" before
    ./terminal "$@" < /dev/null > printed 2> said
    status=$?
    [ "$status" -eq 2 ] || fail "$what: exit status $status, not 2"
    grep "^terminal: .*$words" said > /dev/null || fail "$what: the message is '$(cat said)'"
    if [ -e before ]; then
        cmp before "$kept" || fail "$what: the store has changed"
    else
        [ ! -e "$kept" ] || fail "$what: a store has appeared"
    fi
}

# unstepped, with the same arguments: refused before any event is stepped.
unstepped() {
    refused "$@"
    [ ! -s printed ] || fail "$1: an event was stepped"
}

[ -f "$1/libexport.a" ] || fail "no library at $1/libexport.a"
[ ! -d "$work/locked" ] || chmod 755 "$work/locked"
rm -rf "$work"
mkdir -p "$work" || fail "cannot make $work"
library=$(cd "$1" && pwd)/libexport.a
cd "$work" || fail "cannot enter $work"

# Twice, so that the guard is tried too.
printf '#include "treadlemint.h"\n#include "treadlemint.h"\n' \
    | ${CXX:-g++} -std=c++11 $strict -pedantic -fsyntax-only -I "$here/../include" -x c++ - \
    || fail "the header does not compile as C++"
for program in check terminal; do
    ${CC:-cc} -std=c99 $strict -pedantic -I "$here/../include" -o "$program" "$here/$program.c" \
        "$library" || fail "$program.c does not compile"
done
./check || fail "check"

policy 0 > policy
{
    install 2 10 3 28
    request 1 0
    start 10
    request 0 0
    request 1 0
    request 1 0
    request 2 0
    request 2 1
    request 3 0
    request 3 0
    request 3 0
    request 4 0
    install 2 11 18 0
    byte 9; zeros 23
} > first
step_as_expected first 'allow session\nDeny ALWAYS\nabort\na a\nallow once' << 'END'
0 0 0 DONE
1 19 0 NO_SESSION
2 0 0 DONE
3 1 0 ALLOWED
4 3 2 ASK
4 1 0 ALLOWED
5 1 0 ALLOWED
6 3 3 ASK
6 2 0 DENIED
7 28 0 ANSWER_NOT_ASKED
8 3 1 ASK
9 3 1 ASK
9 29 1 MODE_TOO_WIDE
10 3 1 ASK
10 1 0 ALLOWED
11 27 0 NO_RIGHT
12 23 4 NOT_OFFERED
13 18 0 BAD_EVENT
END

# The store is loaded again: the session goes on with its grant, and terminate ends the grant but
# not the denial for always. Permission 3 was allowed once, which is kept nowhere.
{ request 1 0; request 3 0; terminate; start 10; request 1 0; request 2 0; } > second
step_as_expected second '' << 'END'
0 1 0 ALLOWED
1 3 1 ASK
2 0 0 DONE
3 0 0 DONE
4 3 2 ASK
5 2 0 DENIED
END

unstepped "missing policy" "No such file" missing store second
unstepped "missing policy and store" "No such file" missing nowhere second
unstepped "missing events" "No such file" policy store missing
zeros 511 > short
unstepped "short policy" "wrong size" short store second
zeros 1319 > short
unstepped "short store" "wrong size" policy short second
unstepped "store out of reach" "Not a directory" policy policy/store second
zeros 1321 > long
unstepped "long store" "wrong size" policy long second
{ cat second; zeros 23; } > broken
unstepped "events not whole" "wrong size" policy store broken
policy 5 > bad_policy
unstepped "bad policy" BAD_POLICY bad_policy store second
{ byte 10; zeros 1319; } > bad_store
unstepped "bad store" BAD_STATE policy bad_store second

# The mode of a folder stops everyone but the superuser; a folder in the place of the temporary
# file stops the superuser too.
mkdir locked && cp store locked/store && chmod 555 locked
[ ! -w locked ] || mkdir locked/store.new
refused "unwritable folder" "locked/store.new" policy locked/store second
chmod 755 locked

# The limit kills the terminal while it writes: the store stands, and the next call goes on.
cp store before
(ulimit -f 0; ./terminal policy store second < /dev/null > /dev/null; exit $?) 2> /dev/null \
    && fail "crash: the terminal ends well"
cmp before store || fail "crash: the store has changed"
terminate > third
step_as_expected third '' << 'END'
0 0 0 DONE
END

echo "c: ok"
