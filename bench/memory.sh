#!/usr/bin/env bash
# The memory that runs and traces take, by the number of supersteps: of a program of one box over a line of input for each superstep,
# of a net of 200 boxes that needs no input, and of a program whose wires carry vectors of 1,024 numbers. `bench/memory.sh [TOOL]`, where
# TOOL is the program to call. It needs GNU time.
set -euo pipefail
export LC_ALL=C

here=$(cd -- "$(dirname -- "${BASH_SOURCE[0]}")" && pwd)
tool=$(readlink -f -- "${1-"$(dirname -- "$here")/dist/hume-x86_64-linux"}")
room=$(mktemp -d)
trap 'rm -rf -- "$room"' EXIT
cd -- "$room"

cat >one <<'SOURCE'
stream s from "i" ;
box b in (x :: int 32) out (y :: int 32) match (x) -> x + 1 ;
stream t to "o" ;
wire s to b.x ;
wire b.y to t ;
SOURCE

# A ring of two boxes, which hand a vector on and change it.
cat >vectors <<'SOURCE'
box a in (v :: vector 1024 of int 64) out (w :: vector 1024 of int 64) match (v) -> update v 1 (v @ 1 + 1) ;
box b in (v :: vector 1024 of int 64) out (w :: vector 1024 of int 64, n :: int 64) match (v) -> (v, v @ 1) ;
wire a.w to b.v ;
SOURCE
printf 'wire b.w to a.v initial <<%s0>> ;\nstream t to "o" ;\nwire b.n to t ;\n' "$(printf '0, %.0s' {1..1023})" >>vectors

for chain in {0..9}; do
    echo "box b${chain}_0 in (n :: int 64) out (m :: int 64, y :: int 64) match (n) -> (n + 1, n) ;"
    echo "wire b${chain}_0.m to b${chain}_0.n initial 0 ;"
    for box in {1..19}; do
        echo "box b${chain}_$box in (x :: int 64) out (y :: int 64) match (x) -> x + 1 ;"
        echo "wire b${chain}_$((box - 1)).y to b${chain}_$box.x ;"
    done
    printf 'stream c%s to "c%s" ;\nwire b%s_19.y to c%s ;\n' "$chain" "$chain" "$chain" "$chain"
done >net

seq 1000000 >i
echo '| program | form | KiB for 1,000 supersteps | for 100,000 | for 1,000,000 |'
echo '|---|---|---|---|---|'

# row FORM SOURCE PORT..: the memory for each number of supersteps
row() {
    local form=$1 source=$2 steps cells=
    shift 2
    for steps in 1000 100000 1000000; do
        /usr/bin/time -f %M -o kilobytes "$tool" "$form" $steps 1 "$source" "$@" >/dev/null
        cells+=" $(cat kilobytes) |"
    done
    echo "| $source | $form |$cells"
}

row run one i o
row trace one i o
row run vectors o
row run net c{0..9}
