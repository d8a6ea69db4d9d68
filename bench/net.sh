#!/usr/bin/env bash
# net.sh [TOOL [TRIALS]]: times a superstep of a generated net of 200 boxes, 10 streams and 400 wires by `TOOL run` (by default the
# program of dist/) beside the same net in C (net.c, gcc -O2) and, if the built program `trials` is given, beside the plain net,
# which the meaning of programs is compared with. All are timed in turn, least of five runs, and the time of few supersteps is taken
# off. What the streams bring out has to be what the C program says.
set -eu
here=$(dirname -- "$(readlink -f -- "${BASH_SOURCE[0]}")")
tool=$(readlink -f -- "${1:-$here/../dist/hume-x86_64-linux}")
trials=${2:+$(readlink -f -- "$2")}
room=$(mktemp -d)
trap 'rm -rf -- "$room"' EXIT
cd -- "$room"
# shellcheck disable=SC1091
source -- "$here/net_source.sh"
gcc -O2 -o net "$here/net.c"

# seconds WORD..: the least time of five runs
seconds() {
    local least= took _
    for _ in 1 2 3 4 5; do
        local begun=$EPOCHREALTIME
        "$@" >/dev/null || { echo "$* ended with $?" >&2 && return 1; }
        took=$((${EPOCHREALTIME/./} - ${begun/./}))
        [ -n "$least" ] && [ "$took" -ge "$least" ] || least=$took
    done
    echo "$least"
}

# row NAME FEW MANY WORD..: nanoseconds a superstep, where `@` in the words stands for the number of supersteps
row() {
    local name=$1 few=$2 many=$3 short long
    shift 3
    short=$(seconds "${@/@/$few}")
    long=$(seconds "${@/@/$many}")
    awk -v name="$name" -v few="$few" -v many="$many" -v short="$short" -v long="$long" \
        'BEGIN { printf "| %s | %d | %.0f |\n", name, many, (long - short) * 1000 / (many - few) }'
}

source_of 7 >net.hume
"$tool" run 1000 1 net.hume c{0..9} >report
for k in {0..9}; do
    awk -v k="$k" '{ n++; sum += $1 } END { printf "chain %d count %d sum %d\n", k, n, sum }' "c$k"
done >found
./net 7 1000 >wanted
diff wanted found
echo '| program | supersteps | ns a superstep |'
echo '|---|---|---|'
row 'C, two loops' 1000 201000 ./net 7 @
row hume 100 20100 "$tool" run @ 1 net.hume c{0..9}
[ -z "$trials" ] || row 'plain net' 50 250 "$trials" net net.hume @
