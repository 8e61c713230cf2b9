#!/bin/sh
# What the library costs a device: the bytes of code of each function, that it has no data of its own, and the stack of each call.
set -u

if [ $# -ne 2 ]; then
    echo "usage: sizes.sh LIBRARY_FOLDER SCRATCH_FOLDER" >&2
    exit 2
fi

here=$(cd "$(dirname "$0")" && pwd)
library=$1/libexport.a

fail() {
    echo "sizes: FAILED: $1" >&2
    exit 1
}

[ -f "$library" ] || fail "no library at $library"
mkdir -p "$2" || fail "cannot make $2"

nm -S "$library" | while read -r _ bytes kind name; do
    case $kind in
    [tT]) printf '%-20s %5d bytes of code\n' "$name" "0x$bytes" ;;
    esac
done
size "$library" | awk 'NR == 2 {
    printf "%-20s %5d bytes in all, constants too; %d of data, %d zeroed\n", "the library", $1, $2, $3
    exit $2 + $3 != 0
}' || fail "the library has data of its own"
${CC:-cc} -std=c99 -O2 -Wall -Wextra -Werror -pedantic -I "$here/../include" -o "$2/stack" "$here/stack.c" "$library" \
    || fail "stack.c does not compile"
"$2/stack" || fail "stack"
