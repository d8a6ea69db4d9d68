#!/usr/bin/env bash
# Times runs: of a one-box program over 1,000,000 input lines, with its memory; how the time grows with the supersteps; and how it
# grows with the boxes of a chain. `bench/run.sh [TOOL]`, where TOOL is the program to call; `bench/run.sh --check [TOOL]` only checks
# the sources. Memory needs GNU time.
set -euo pipefail
export LC_ALL=C

here=$(cd -- "$(dirname -- "${BASH_SOURCE[0]}")" && pwd)
only_check=
[ "${1-}" != --check ] || { only_check=yes && shift; }
tool=$(readlink -f -- "${1-"$(dirname -- "$here")/dist/hume-x86_64-linux"}")
room=$(mktemp -d)
trap 'rm -rf -- "$room"' EXIT
cd -- "$room"

# chain BOXES: a source with so many boxes one behind the other, each of which adds 1
chain() {
    local box
    echo 'stream s from "i" ;'
    for ((box = 1; box <= $1; box++)); do
        echo "box b$box in (x :: int 32) out (y :: int 32) match (x) -> x + 1 ;"
    done
    printf '%s\n' 'stream t to "o" ;' 'wire s to b1.x ;'
    for ((box = 1; box < $1; box++)); do
        echo "wire b$box.y to b$((box + 1)).x ;"
    done
    echo "wire b$1.y to t ;"
}

# run BOXES STEPS: runs the chain five times and prints the least time in microseconds. Number n, counted from 1, is wanted to come
# out as n + BOXES, after n + BOXES + 1 supersteps.
run() {
    local least= start took _run
    for _run in 1 2 3 4 5; do
        rm -f o
        start=$(date +%s%N)
        "$tool" run "$2" 1 "chain $1" i o >/dev/null || { echo "run $2 1 'chain $1' i o ended with $?" >&2 && return 1; }
        took=$((($(date +%s%N) - start) / 1000))
        [ -n "$least" ] && [ "$least" -le "$took" ] || least=$took
    done
    seq $(($1 + 1)) $(($2 - 1 < count + $1 ? $2 - 1 : count + $1)) | cmp - o >&2 || return
    echo "$least"
}

# row BOXES STEPS: what the supersteps take is the time of the run less that of a run of none, which reads the source alone. The
# streams count as nodes.
row() {
    local whole none
    whole=$(run "$1" "$2")
    none=$(run "$1" 0)
    awk -v boxes="$1" -v steps="$2" -v whole="$whole" -v none="$none" 'BEGIN {
        ns = (whole - none) * 1000 / steps
        printf "| %d | %d | %.1f | %.1f | %.0f | %.1f |\n", boxes, steps, whole / 1000, none / 1000, ns, ns / (boxes + 2)
    }'
}

for boxes in 1 10 50 200; do
    chain $boxes >"chain $boxes"
    answer=$("$tool" check "chain $boxes") || { echo "chain $boxes: $answer" >&2 && exit 1; }
done
[ -z "$only_check" ] || { echo 'all sources are accepted' && exit; }

count=1000000
seq $count >i
printf '| boxes | supersteps | ms, least of 5 | ms for no superstep | ns a superstep | ns a superstep and node |\n|---|---|---|---|---|---|\n'
for steps in 10000 100000 1000000; do
    row 1 $steps
done
for steps in 1000 10000; do
    for boxes in 1 10 50 200; do
        row $boxes $steps
    done
done
if [ -x /usr/bin/time ]; then
    for steps in 1000 1000000; do
        /usr/bin/time -f %M -o kilobytes "$tool" run $steps 1 'chain 1' i o >/dev/null
        printf '%s supersteps of one box take %s kB of memory\n' $steps "$(cat kilobytes)"
    done
fi
