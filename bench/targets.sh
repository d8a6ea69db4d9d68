#!/usr/bin/env bash
# targets.sh [TRIALS]: times a superstep of generated C beside the same program by hand, both compiled by gcc -O2 and by clang -O2,
# and beside `hume run`: the net of net.sh beside net.c, and six controllers of examples/controllers beside those of targets/. Below it
# tells their code and memory in bytes, by -Os, for x86-64 and for each board whose compiler is there. It takes the processor's time, and
# the least of TRIALS calls (9 if it isn't there); both versions of a controller are called in turn. Before that they have to bring out
# the same values, each stream with one lag in supersteps. The variable LOOK names another program than that of dist/.
# shellcheck disable=SC1091,SC2016
set -euo pipefail
export LC_ALL=C
here=$(dirname -- "$(readlink -f -- "${BASH_SOURCE[0]}")")
hume=$here/../hume
tool=$(readlink -f -- "$here/../dist/hume-x86_64-linux")
trials=${1:-9}
controllers=(crc8 vending_machine lift traffic_lights debouncer arbiter)
room=$(mktemp -d)
trap 'rm -rf -- "$room"' EXIT
cd -- "$room"
source -- "$here/net_source.sh"

compilers=()
for it in gcc clang; do
    if command -v "$it" >/dev/null; then compilers+=("$it"); else echo "left out: $it is not there" >&2; fi
done

# values STREAM FILE: the lines of the file as values of C
values() {
    awk -v stream="$1" 'BEGIN { printf "#define VALUES_%s", stream }
        $1 == "true" || $1 == "false" { printf " %s,", $1; next }
        NF == 1 { printf " {.tag = C_%s},", $1 }
        NF == 2 { printf " {.tag = C_%s, .u.c_%s.f0 = %s},", $1, $1, $2 }
        END { print "" }' "$2"
}

# ports WAY NAME: a line `STREAM PORT` for each stream that goes that way, `from` or `to`
ports() {
    sed -n "s/^stream \([a-z]*\) $1 \"\([a-z_]*\)\" ;/\1 \2/p" "$here/../examples/controllers/$2/$2.hume"
}

# input NAME PORT: the example's file
input() {
    if [[ $2 == std_in ]]; then echo "$here/../examples/controllers/$1/stdin"; else echo "$here/../examples/controllers/$1/$2"; fi
}

# build NAME: a folder of that name with both versions of the controller, and their programs
build() {
    local stream port version compiler
    local -a words=(-std=c99 -Wall -Wextra -O2 "-I$here/targets/worlds" "-I$1")
    mkdir -- "$1" "$1/made"
    "$hume" c "$here/../examples/controllers/$1/$1.hume" >"$1/made/$1.c"
    while read -r stream port; do
        values "$stream" "$(input "$1" "$port")"
    done < <(ports from "$1") >"$1/values.h"
    for version in made hand; do
        source=$1/made/$1.c
        [[ $version == made ]] || source=$here/targets/$1.c
        for compiler in "${compilers[@]}"; do
            "$compiler" "${words[@]}" "-DCONTROLLER=\"$source\"" -I. -o "$1/${version}_$compiler" "$here/targets/worlds/$1.c"
        done
        "${compilers[0]}" "${words[@]}" -DPRINTS "-DCONTROLLER=\"$source\"" -I. -o "$1/${version}_prints" "$here/targets/worlds/$1.c"
    done
}

# compare NAME: both versions bring out the same values on each stream, and each stream of the one is as many supersteps later
compare() {
    local version
    for version in made hand; do
        "$1/${version}_prints" 1000 | sort -s -k1,1 >"$1/$version.out"
    done
    paste -d ' ' "$1/made.out" "$1/hand.out" | awk -v name="$1" '
        $1 != $4 || $3 != $6 { print name ": value " NR ": " $0; failed = 1; exit }
        $1 in lag && lag[$1] != $2 - $5 { print name ": lag of value " NR ": " $0; failed = 1; exit }
        { lag[$1] = $2 - $5; count++ }
        END { if (failed || !count) exit 1; printf "%s: %d values agree;", name, count
              for (it in lag) printf " %s %d", it, lag[it]; print " supersteps later" }' >&2
}

# least WORD..: the least number that the command prints, of TRIALS calls
least() {
    local i
    for ((i = 0; i < trials; i++)); do "$@"; done | sort -g | head -n 1
}

# least_of_two A B WORD..: the least number that each of two programs prints with these words, both called TRIALS times, in turn
least_of_two() {
    local i first=$1 second=$2
    shift 2
    for ((i = 0; i < trials; i++)); do
        echo "$("$first" "$@") $("$second" "$@")"
    done | awk 'NR == 1 { a = $1; b = $2 } { if ($1 < a) a = $1; if ($2 < b) b = $2 } END { print a, b }'
}

# used WORD..: the milliseconds of the processor that a command takes, whose standard input is the file `coming`
coming=/dev/null
used() {
    local TIMEFORMAT='%U %S'
    { time "$@" <"$coming" >/dev/null; } 2>&1 | awk '{ printf "%d\n", ($1 + $2) * 1000 + 0.5 }'
}

# difference FEW MANY WORD..: nanoseconds a superstep, where `@` in the words stands for the number of supersteps
difference() {
    local few=$1 many=$2 short long
    shift 2
    short=$(least used "${@/@/$few}")
    long=$(least used "${@/@/$many}")
    awk -v span=$((many - few)) -v took=$((long - short)) 'BEGIN { printf "%.1f\n", took * 1000000 / span }'
}

# run_time NAME: nanoseconds a superstep of `hume run`, with its files
run_time() {
    local stream port
    local -a words=()
    mkdir -- "$1/run"
    while read -r stream port; do
        yes "$(<"$(input "$1" "$port")")" | head -n 210000 >"$1/run/$port"
        [[ $port == std_in ]] || words+=("$port")
    done < <(ports from "$1")
    while read -r stream port; do
        [[ $port == std_out ]] || words+=("$port")
    done < <(ports to "$1")
    (
        cd -- "$1/run"
        [[ ! -f std_in ]] || coming=std_in
        difference 1000 201000 "$tool" run @ 1 "$here/../examples/controllers/$1/$1.hume" "${words[@]}"
    )
}

row() {
    local it
    for it in "$@"; do printf '| %s ' "$it"; done
    echo '|'
}

quotient() {
    awk -v a="$1" -v b="$2" 'BEGIN { printf "%.2f\n", a / b }'
}

head_of() {
    row "$@"
    row "${@/*/---}" | tr -d ' '
}

net_table() {
    local compiler made hand run
    source_of 7 >net.hume
    "$hume" c net.hume >net_made.c
    run=$(difference 100 10100 "$tool" run @ 1 net.hume c{0..9})
    head_of compiler 'generated, ns' 'by hand, ns' 'times by hand' '`hume run`, ns' '`hume run`, times generated'
    for compiler in "${compilers[@]}"; do
        "$compiler" -std=c99 -O2 -Wall -Wextra -DCONTROLLER='"net_made.c"' -I. -o made "$here/targets/worlds/net.c"
        "$compiler" -O2 -o hand "$here/net.c"
        ./made 1000 >found && ./hand 7 1000 >wanted
        diff wanted found >&2
        made=$(difference 1000 201000 ./made @)
        hand=$(difference 1000 201000 ./hand 7 @)
        row "$compiler" "$made" "$hand" "$(quotient "$made" "$hand")" "$run" "$(quotient "$run" "$made")"
    done
}

times_table() {
    local name compiler made hand run
    head_of controller compiler 'generated, ns' 'by hand, ns' 'times by hand' '`hume run`, ns'
    for name in "${controllers[@]}"; do
        run=$(run_time "$name")
        for compiler in "${compilers[@]}"; do
            read -r made hand < <(least_of_two "$name/made_$compiler" "$name/hand_$compiler" 3000000)
            row "$name" "$compiler" "$made" "$hand" "$(quotient "$made" "$hand")" "$run"
        done
    done
}

# bytes FILE SIZE WORD..: code and memory of the C file, compiled by these words and told by this program `size`
bytes() {
    local file=$1 size=$2
    shift 2
    "$@" -std=c99 -Os -c -o object.o "$file"
    "$size" object.o | awk 'NR == 2 { printf "%d / %d\n", $1 + $2, $2 + $3 }'
}

sizes_table() {
    local name at
    local -a boards=('x86-64|size|gcc -fno-asynchronous-unwind-tables' 'ATmega328|avr-size|avr-gcc -mmcu=atmega328p'
        'Cortex-M0|arm-none-eabi-size|arm-none-eabi-gcc -mcpu=cortex-m0 -mthumb') kept=() heads=() cells parts
    for at in "${boards[@]}"; do
        IFS='|' read -ra parts <<<"$at"
        if command -v "${parts[1]}" "${parts[2]%% *}" >/dev/null; then
            kept+=("$at") && heads+=("${parts[0]}, generated" "${parts[0]}, by hand")
        else
            echo "left out: ${parts[0]}, as ${parts[2]%% *} is not there" >&2
        fi
    done
    head_of controller "${heads[@]}"
    for name in "${controllers[@]}"; do
        cells=()
        for at in "${kept[@]}"; do
            IFS='|' read -ra parts <<<"$at"
            # shellcheck disable=SC2086
            cells+=("$(bytes "$name/made/$name.c" "${parts[1]}" ${parts[2]})" "$(bytes "$here/targets/$name.c" "${parts[1]}" ${parts[2]})")
        done
        row "$name" "${cells[@]}"
    done
}

for it in "${controllers[@]}"; do
    build "$it"
    compare "$it"
done
net_table && echo
times_table && echo
sizes_table
