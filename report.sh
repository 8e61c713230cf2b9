#!/usr/bin/env bash
# Builds the report and runs it, the words of each event beside its answer: on the worked listing of document 01, or on a
# folder that has a policy.bin and an events.bin.
set -euo pipefail
fail() { echo "report.sh: $*" >&2; exit 2; }
[ $# -le 1 ] || fail 'give one folder, or none'
home=$(cd "$(dirname "$0")" && pwd)
folder=$(cd "${1:-$home/crates/report/data}" 2>/dev/null && pwd) || fail "$1 is no folder that can be entered"
for tool in rt od awk; do
    command -v "$tool" >/dev/null || fail "$tool is not on the PATH"
done
cd "$home/crates/report"
echo 'report.sh: building; a few minutes where nothing is built yet' >&2
built=$(rt run 2>&1) || fail "the report is not built:"$'\n'"$(tail -n 3 <<<"$built")"

words() {
    od -An -v -tu1 -w24 events.bin 2>/dev/null | awk '
    function members(from,  p, list) {
        for (p = 0; p < 64; p++)
            if (int($(from + 1 + int(p / 8)) / 2 ^ (p % 8)) % 2) list = list (list == "" ? "" : ",") p
        return "{" list "}"
    }
    BEGIN { split("none,allow oneshot,allow session,allow blanket,deny oneshot,deny session,deny blanket", answer, ",") }
    {
        suite = $3 + 256 * $4
        said = "no event"
        if ($1 == 1) said = "install " suite " in domain " $2 ", required " members(8) ", optional " members(16)
        if ($1 == 2) said = "remove " suite
        if ($1 == 3) said = "start " suite
        if ($1 == 4) said = "terminate"
        if ($1 == 5) said = "request " $5 ", " ($6 < 7 ? answer[$6 + 1] : "answer " $6)
        print said
    }'
}

cd "$folder"
awk 'FILENAME == ARGV[1] { said[FNR - 1] = $0; next } { print ($1 in said && NF == 3 ? sprintf("%-10s %s", $0, said[$1]) : $0) }' \
    <(words) <("$home/crates/report/out/report")
