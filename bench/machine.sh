#!/usr/bin/env bash
# Times the loop of the machine that runs compiled boxes, in runs of nets of one box (loops.hume and so on), beside the same loop in plain
# C (machine.c) over the code of these boxes, and beside that loop without the count of the most words on the stack.
# `bench/machine.sh [TOOL [TRIALS]]`, where TOOL is the program to time, and TRIALS the built program `trials`, which prints the code;
# `bench/machine.sh --check [TOOL [TRIALS]]` only checks that all do the same.
set -euo pipefail
export LC_ALL=C

here=$(cd -- "$(dirname -- "${BASH_SOURCE[0]}")" && pwd)
only_check=
[ "${1-}" != --check ] || { only_check=yes && shift; }
tool=$(readlink -f -- "${1-"$(dirname -- "$here")/dist/hume-x86_64-linux"}")
trials=${2-"$(dirname -- "$here")/crates/trials/out/trials"}
[ -x "$trials" ] || { echo "$trials is missing: 'rt run' in crates/trials proves and builds it" >&2 && exit 1; }
trials=$(readlink -f -- "$trials")
room=$(mktemp -d)
trap 'rm -rf -- "$room"' EXIT
cd -- "$room"
gcc -O2 -Wall -o machine "$here/machine.c"
gcc -O2 -Wall -DWITHOUT_PEAK -o machine_without_peak "$here/machine.c"

few=50 # steps that are taken off, with the start of the program
many=550

# Each program makes so many steps. The C programs print the instructions of all of them, the most words on the stack and the outputs of
# the last one. A run takes two supersteps more: values come in before the first step, and go out after the last one.
hume() { (cd -- "$1" && "$tool" run $(($1 + 2)) 1 "$here/$source.hume" "${from[@]}" "${to[@]}"); }
plain() { ./machine code "$1" "${texts[@]}"; }
without_peak() { ./machine_without_peak code "$1" "${texts[@]}"; }

# ports WORD: the ports of the source's streams `from` or `to` them
ports() {
    sed -n "s/^stream .* $1 \"\(.*\)\";$/\1/p" "$here/$source.hume"
}

# prepare STEPS: a folder of that name with so many values for each input
prepare() {
    local place _step
    mkdir -- "$1"
    for place in "${!from[@]}"; do
        for ((_step = 0; _step < $1; _step++)); do
            echo "${texts[place]}"
        done >"$1/${from[place]}"
    done
}

# word TEXT: the word of a number or a truth value
word() {
    case $1 in
    true) echo 1 ;;
    false) echo 0 ;;
    *) printf '%u\n' "$1" ;;
    esac
}

# outcome STEPS: the peak of the stack in that run, and the last value of each output, as the C program prints them
outcome() {
    local port
    sed -n 's/^peak .* stack \([0-9]*\)$/peak \1/p' "told hume $1"
    for port in "${to[@]}"; do
        [ "$(wc -l <"$1/$port")" = "$1" ] || { echo "$source: $port has not $1 values" >&2 && return 1; }
        word "$(tail -n 1 -- "$1/$port")"
    done
}

# compare PROGRAM STEPS: what the C program printed is the outcome of the run, but for the instructions, and the peak where it has none
compare() {
    outcome "$2" >wanted
    [ "$1" = plain ] || sed -i '/^peak /d' wanted
    sed '/^work /d' "told $1 $2" | cmp wanted - >&2
}

# spend PROGRAM STEPS: calls it, keeps what it prints, and gives the milliseconds of the processor that it took
spend() {
    local TIMEFORMAT='%3U %3S' spent
    spent=$({ time "$1" "$2" >"told $1 $2" 2>&3; } 3>&2 2>&1) || { echo "$source: $1 ended with $?" >&2 && return 1; }
    read -r user system <<<"${spent//./}"
    echo $((10#$user + 10#$system))
}

# work STEPS: the instructions of all steps
work() {
    sed -n 's/^work //p' "told plain $1"
}

# measure: five calls of each program and each number of steps, one program after the other; the least time of each counts
measure() {
    local program steps took _run
    for _run in 1 2 3 4 5; do
        for steps in $few $many; do
            for program in hume plain without_peak; do
                took=$(spend $program "$steps")
                [ "${least["$program $steps"]-$took}" -lt "$took" ] || least["$program $steps"]=$took
                [ $program = hume ] || compare $program "$steps"
            done
        done
    done
}

# between PROGRAM: the milliseconds that many steps took more than few
between() { echo "$((least["$1 $many"] - least["$1 $few"]))"; }

# row SOURCE TEXT..: the box of that name, on inputs of these texts
row() {
    local source=$1 texts=("${@:2}") from to program
    local -A least=()
    mapfile -t from < <(ports from)
    mapfile -t to < <(ports to)
    rm -rf -- "$few" "$many" 2
    "$trials" code "$here/$source.hume" "$source" >code
    if [ -n "$only_check" ]; then
        prepare 2
        for program in hume plain without_peak; do
            $program 2 >"told $program 2"
            [ $program = hume ] || compare $program 2
        done
        return
    fi
    prepare "$few"
    prepare "$many"
    measure
    awk -v source="$source" -v steps=$((many - few)) -v work=$(($(work "$many") - $(work "$few"))) \
        -v machine="$(between hume)" -v plain="$(between plain)" -v without="$(between without_peak)" 'BEGIN {
        printf "| %s | %d | %.2f | %.2f | %.2f | %.2f | %.2f |\n", source, work / steps, machine * 1e6 / work, plain * 1e6 / work,
            machine / plain, without * 1e6 / work, machine / without
    }'
}

if [ -z "$only_check" ]; then
    echo '| box | instructions a step | machine, ns an instruction | C, ns an instruction | ratio | C without the peak, ns | ratio to that |'
    echo '|---|---|---|---|---|---|---|'
fi
row loops 12345678901234567 -7
row objects 3 12345
row vectors 12345 -7
row calls 2 17 -5 1000000
[ -z "$only_check" ] || echo 'all come to the same outputs, and both that keep it have the same most words on the stack'
