#!/usr/bin/env bash
# limits.sh FOLDER: writes sources NAME.hume into the folder that have as many declarations, rules or elements as there may be, or
# one more, and a line for each: `NAME CODE LINE` where it is refused, `NAME accepted` otherwise.
set -euo pipefail
export LC_ALL=C
folder=$1

# pair NAME CODE MOST MAKER: the source of so many is accepted, and that of one more refused in the line of the last one
pair() {
    "$4" "$3" >"$folder/$1-fit.hume"
    printf '%s-fit accepted\n' "$1"
    "$4" $(($3 + 1)) >"$folder/$1-over.hume"
    printf '%s-over %s %s\n' "$1" "$2" "${5-$(($3 + 1))}"
}

# Each of these writes so many, one a line.
functions() {
    for ((n = 0; n < $1; n++)); do printf 'f%s :: bool -> bool ; f%s x = x ;\n' "$n" "$n"; done
}
exceptions() {
    for ((n = 0; n < $1; n++)); do printf 'exception E%s nat 8 ;\n' "$n"; done
}
boxes() {
    for ((n = 0; n < $1; n++)); do
        printf 'box b%s in (x :: bool) out (y :: bool) match (x) -> x ; wire b%s.y to b%s.x ;\n' "$n" "$n" "$n"
    done
}
# half of the nodes are boxes, half streams
streams() {
    for ((n = 0; n < $1; n += 2)); do
        printf 'stream s%s from "i%s" ;\nstream t%s to "o%s" ;\n' "$n" "$n" "$n" "$n"
    done | sed -n "1,$1p"
}

# parts BEFORE AFTER COUNT: so many pieces, numbered, with commas between
parts() {
    local n
    printf '%s0%s' "$1" "$2"
    for ((n = 1; n < $3; n++)); do printf ', %s%s%s' "$1" "$n" "$2"; done
}

# wires COUNT: boxes with 16 outputs, each of which is wired back, and one with the rest; the boxes come first, so that the
# last wire stands in the last line
wires() {
    local boxes=$((($1 + 15) / 16)) box count n
    for ((box = 0; box < boxes; box++)); do
        count=$((box < boxes - 1 ? 16 : $1 - 16 * box))
        printf 'box b%s in (%s) out (%s) match (%s) -> (%s) ;\n' "$box" "$(parts x ' :: bool' "$count")" \
            "$(parts y ' :: bool' "$count")" "$(parts x '' "$count")" "$(parts x '' "$count")"
    done
    for ((box = 0; box < boxes; box++)); do
        count=$((box < boxes - 1 ? 16 : $1 - 16 * box))
        for ((n = 0; n < count; n++)); do printf 'wire b%s.y%s to b%s.x%s ;\n' "$box" "$n" "$box" "$n"; done
    done
}

# rules COUNT: a box with so many rules, one a line
rules() {
    local n
    echo 'box b in (x :: nat 8) out (y :: nat 8) match (0) -> 1'
    for ((n = 1; n < $1; n++)); do printf '    | (%s) -> %s\n' "$n" $((n + 1)); done
    printf ';\nwire b.y to b.x initial 0 ;\n'
}

# elements COUNT: a vector of so many
elements() {
    printf 'f :: nat 8 -> nat 8 ;\nf n = <<%s>> @ n ;\n' "$(parts '' '' "$1" | sed 's/[0-9][0-9]*/n/g')"
}

# calls COUNT: a box that calls a function, which calls another one, and so on; each puts a vector of 1,024 numbers on the stack
# before it calls, and the first one a vector of so many
calls() {
    local n count vector
    printf 'f0 :: nat 8 -> nat 8 ;\nf0 n = n ;\n'
    for ((n = 1; n <= 16; n++)); do
        count=$((n < 16 ? 1024 : $1))
        vector=$(printf 'n, %.0s' $(seq 2 "$count"))
        printf 'f%s :: nat 8 -> nat 8 ;\nf%s n = <<%s f%s n>> @ 1 ;\n' "$n" "$n" "$vector" $((n - 1))
    done
    printf 'box b in (x :: nat 8) out (y :: nat 8) match (x) -> f16 x ; wire b.y to b.x initial 0 ;\n'
}

# updates COUNT: so many boxes of which each makes 64 vectors of 1,023 numbers, a line each behind the first
updates() {
    local n of='vector 1023 of bool' seven='v'
    for ((n = 0; n < 7; n++)); do seven="update ($seven) 1 true"; done
    printf 'f :: %s -> %s ; f v = %s ; ' "$of" "$of" "$seven"
    printf 'g :: %s -> %s ; g v = f (f (f v)) ;\n' "$of" "$of"
    for ((n = 0; n < $1; n++)); do
        printf 'box b%s in (v :: %s) out (w :: %s) match (v) -> g (g (g v)) ; wire b%s.w to b%s.v ;\n' "$n" "$of" "$of" "$n" "$n"
    done
}

pair functions 72 256 functions
pair exceptions 72 61 exceptions
pair boxes 72 256 boxes
pair wires 72 1024 wires 1090
pair rules 72 64 rules 1
pair elements 42 1024 elements 1
# 16,384 words of stack, and 63 boxes of 65,549 words of heap and stack
pair calls 76 969 calls 35
pair updates 78 63 updates 65
# Types are asked before the limits, of raised exceptions of any number too.
{
    exceptions 300
    echo 'f :: bool -> nat 8 ; f x = if x then raise E299 1 else 256 ;'
} >"$folder/exceptions-and-a-literal.hume"
echo 'exceptions-and-a-literal 41 301'
{
    exceptions 300
    echo 'f :: bool -> nat 8 ; f x = if x then raise E299 1 else 255 ;'
} >"$folder/exceptions-raised.hume"
echo 'exceptions-raised 72 62'
streams 257 >"$folder/streams-over.hume"
echo 'streams-over 72 257'
# The wires of 64 vectors have 65,536 words. A wire between two streams counts for none.
{
    for ((n = 0; n < 64; n++)); do
        printf 'box b%s in (v :: vector 1024 of bool) out (w :: vector 1024 of bool) match (v) -> v ; wire b%s.w to b%s.v ;\n' "$n" "$n" "$n"
    done
} >"$folder/words-fit.hume"
echo 'words-fit accepted'
{
    cat "$folder/words-fit.hume"
    echo 'box c in (v :: bool) out (w :: bool) match (v) -> v ; wire c.w to c.v ;'
    echo 'box d in (v :: bool) out (w :: bool) match (v) -> v ; wire d.w to d.v ;'
} >"$folder/words-over.hume"
echo 'words-over 74 65'
{
    printf 'stream s from "i" ;\nstream t to "o" ;\nwire s to t @ 16 ;\n'
    cat "$folder/words-fit.hume"
} >"$folder/words-between-streams.hume"
echo 'words-between-streams 54 3'
