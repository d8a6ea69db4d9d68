#!/usr/bin/env bash
# Times a superstep of nets of 200 boxes of one kind, in ten chains: boxes that add, that call, that take data types apart, that change
# vectors; boxes to which nothing comes, and boxes that are blocked. Beside them one box of some 20,000 instructions a step, and one
# that filters a window of 64 numbers. `bench/kinds.sh [TOOL [TRIALS]]`, where TOOL is the program to call, and TRIALS the built program
# `trials`, which makes the same supersteps by the plain net; `bench/kinds.sh --check [TOOL]` only checks the sources and what short
# runs write. Where the machine has perf, it also says what of the time is the machine's that runs code.
set -euo pipefail
export LC_ALL=C

here=$(cd -- "$(dirname -- "${BASH_SOURCE[0]}")" && pwd)
only_check=
[ "${1-}" != --check ] || { only_check=yes && shift; }
tool=$(readlink -f -- "${1-"$(dirname -- "$here")/dist/hume-x86_64-linux"}")
trials=${2:+$(readlink -f -- "$2")}
room=$(mktemp -d)
trap 'rm -rf -- "$room"' EXIT
cd -- "$room"

# chains TYPE FIRST NEXT STEP: ten chains of twenty boxes over wires of the type. The first box of each makes the value FIRST of its
# number n, which rises; each other box has a number s of its own, which rises too, and makes STEP of x, or NEXT where it has none.
chains() {
    local chain box
    printf '%s\n' 'data Pair = P int 64 int 64 ;' 'less :: int 64 -> int 64 -> int 64 ;' 'less a b = a - b ;'
    for chain in {0..9}; do
        echo "box b${chain}_0 in (n :: int 64) out (m :: int 64, y :: $1) match (n) -> (n + 1, $2) ;"
        echo "wire b${chain}_0.m to b${chain}_0.n initial 0 ;"
        for box in {1..19}; do
            echo "box b${chain}_$box in (x :: $1, s :: int 64) out (y :: $1, r :: int 64) match ($3, s) -> ($4, s + 1) ;"
            echo "wire b${chain}_$((box - 1)).y to b${chain}_$box.x ;"
            echo "wire b${chain}_$box.r to b${chain}_$box.s initial $((31 * chain + 17 * box)) ;"
        done
        printf 'stream c%s to "c%s" ;\nwire b%s_19.y to c%s ;\n' "$chain" "$chain" "$chain" "$chain"
    done
}

# waiting: ten chains of twenty boxes whose first values come from a port
waiting() {
    local chain box
    for chain in {0..9}; do
        printf 'stream s%s from "i%s" ;\n' "$chain" "$chain"
        for box in {0..19}; do
            echo "box b${chain}_$box in (x :: int 64) out (y :: int 64) match (x) -> x + 1 ;"
            [ "$box" = 0 ] || echo "wire b${chain}_$((box - 1)).y to b${chain}_$box.x ;"
        done
        printf 'wire s%s to b%s_0.x ;\n' "$chain" "$chain"
        printf 'stream c%s to "c%s" ;\nwire b%s_19.y to last%s.x ;\n' "$chain" "$chain" "$chain" "$chain"
        # A box behind the chain takes a value only with one that it would have to make itself, so it never does.
        echo "box last$chain in (x :: int 64, own :: bool) out (y :: int 64, made :: bool) match (x, own) -> (x, own) ;"
        printf 'wire last%s.made to last%s.own ;\nwire last%s.y to c%s ;\n' "$chain" "$chain" "$chain" "$chain"
    done
}

# long: one box whose step has some 20,000 instructions
long() {
    local level
    printf '%s\n' 'f0 :: int 64 -> int 64 ;' 'f0 x = x * 3 - 1 ;'
    for level in {1..11}; do
        printf 'f%s :: int 64 -> int 64 ;\nf%s x = f%s (f%s x) ;\n' "$level" "$level" $((level - 1)) $((level - 1))
    done
    echo 'box b in (x :: int 64) out (y :: int 64, z :: int 64) match (x) -> let y = f11 x in (y, y) ;'
    printf '%s\n' 'wire b.y to b.x initial 1 ;' 'stream c0 to "c0" ;' 'wire b.z to c0 ;'
}

# zeros: 64 of them, as the elements of a vector
zeros() {
    printf '0, %.0s' {1..63}
    printf 0
}

# filter: one box with a window of 64 numbers, of which one is changed in each step, and the differences of sixteen are added
filter() {
    local place sum='window @ 1'
    for place in {2..16}; do
        sum="$sum + window @ $place - window @ $((place + 48))"
    done
    echo "total :: vector 64 of int 64 -> int 64 ;"
    echo "total window = $sum ;"
    echo 'box b in (n :: int 64, w :: vector 64 of int 64) out (m :: int 64, v :: vector 64 of int 64, y :: int 64)'
    echo 'match (n, w) -> let next = update w (n mod 64 + 1) n in (n + 1, next, total next)'
    echo "handle Range -> (0, <<$(zeros)>>, 0) ;"
    printf 'wire b.m to b.n initial 0 ;\nwire b.v to b.w initial <<%s>> ;\n' "$(zeros)"
    printf '%s\n' 'stream c0 to "c0" ;' 'wire b.y to c0 ;'
}

chains 'int 64' n x 'x + s' >adding
chains 'int 64' n x 'less x s' >calling
chains Pair 'P n n' 'P a b' 'P (a + s) b' >'data types'
chains 'vector 4 of int 64' '<<n, n, n, n>>' x 'update x 2 (x @ 1 + s)' >vectors
waiting >idle
cp idle blocked
long >long
filter >filter
for chain in {0..9}; do
    : >"none$chain"
    seq 100 >"some$chain"
done
kinds=(adding calling 'data types' vectors idle blocked long filter)
for kind in "${kinds[@]}"; do
    answer=$("$tool" check "$kind") || { echo "$kind: $answer" >&2 && exit 1; }
done

# call KIND STEPS: runs the net
call() {
    local ports=() chain from=none
    [ "$1" != blocked ] || from=some
    case $1 in
    idle | blocked)
        for chain in {0..9}; do
            ln -sf "$from$chain" "i$chain"
            ports+=("i$chain" "c$chain")
        done
        ;;
    long | filter) ports=(c0) ;;
    *) ports=(c{0..9}) ;;
    esac
    "$tool" run "$2" 1 "$1" "${ports[@]}" >table
}

# wanted KIND STEPS: how many values its first stream takes in so many supersteps
wanted() {
    case $1 in
    idle | blocked) echo 0 ;;
    long | filter) echo $(($2 - 1)) ;;
    *) echo $(($2 - 20)) ;;
    esac
}

for kind in "${kinds[@]}"; do
    call "$kind" 1000
    [ "$(wc -l <c0)" = "$(wanted "$kind" 1000)" ] || { echo "$kind: $(wc -l <c0) values" >&2 && exit 1; }
done
[ -z "$only_check" ] || { echo 'all sources are accepted, and their runs bring as many values as they have to' && exit; }

# least RUNS WORD..: the microseconds of the quickest of so many calls
least() {
    local least= begun took runs=$1
    shift
    for ((; runs > 0; runs--)); do
        begun=$EPOCHREALTIME
        "$@" >told
        took=$((${EPOCHREALTIME/./} - ${begun/./}))
        [ -n "$least" ] && [ "$least" -le "$took" ] || least=$took
    done
    echo "$least"
}

# machine KIND STEPS: what percent of the time the machine takes, by the samples of perf
machine() {
    command -v perf >/dev/null || { echo - && return; }
    local whole=$tool
    printf '#!/bin/sh\nexec perf record -q -F 5000 -e cpu-clock -o samples %q "$@"\n' "$whole" >sampled
    chmod 755 sampled
    tool=$PWD/sampled call "$1" "$2"
    perf report -i samples --stdio -F overhead,sym --percent-limit 0 2>/dev/null |
        awk '$3 ~ /^box_machine::/ { share += $1 } END { printf "%.0f\n", share }'
}

# plain_net KIND: the nanoseconds of a superstep of the plain net, to which nothing comes
plain_net() {
    [ -n "$trials" ] && [ "$1" != blocked ] || { echo - && return; }
    echo $((($(least 2 "$trials" net "$1" 150) - $(least 2 "$trials" net "$1" 50)) * 10))
}

echo '| kind | instructions a step of its last box, at most | supersteps | ns a superstep | ns a box | percent in the machine | ns by the plain net |'
echo '|---|---|---|---|---|---|---|'
for kind in "${kinds[@]}"; do
    few=1000 many=21000 boxes=200
    case $kind in
    long | filter) boxes=1 ;;
    idle | blocked) few=10000 many=210000 ;;
    esac
    short=$(least 7 call "$kind" $few)
    whole=$(least 7 call "$kind" $many)
    work=$(sed -n '/^box/h; ${x; s/.* work //p}' table)
    awk -v kind="$kind" -v work="$work" -v steps=$((many - few)) -v took=$((whole - short)) -v boxes=$boxes \
        -v share="$(machine "$kind" $many)" -v plain="$(plain_net "$kind")" \
        'BEGIN { ns = took * 1000 / steps; printf "| %s | %d | %d | %.0f | %.1f | %s | %s |\n", kind, work, steps, ns, ns / boxes, share, plain }'
done
