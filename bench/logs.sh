#!/usr/bin/env bash
# logs.sh [TOOL]: times a superstep of a net of 200 boxes by `TOOL trace`, `record` and `verify` (by default the program of dist/), in turn,
# least of CALLS calls (7), the time of few supersteps taken off; then the most memory that each takes for 1,000 and for 10,000 supersteps;
# and what `verify` reads of a log that is wrong in its first block, and takes for it.
set -eu
here=$(dirname -- "$(readlink -f -- "${BASH_SOURCE[0]}")")
tool=$(readlink -f -- "${1:-$here/../dist/hume-x86_64-linux}")
calls=${CALLS:-7}
few=100 many=1100
room=$(mktemp -d)
trap 'rm -rf -- "$room"' EXIT
cd -- "$room"

# the net: ten rings of twenty boxes, each of which puts out a value in each superstep
for k in {0..9}; do
    for j in {0..19}; do
        echo "box b${k}_$j in (x :: int 64, s :: int 64) out (y :: int 64, r :: int 64) match (x, s) -> (x + s, s + 1) ;"
        echo "wire b${k}_$j.y to b${k}_$(((j + 1) % 20)).x initial $j ;"
        echo "wire b${k}_$j.r to b${k}_$j.s initial $((31 * k + 17 * j)) ;"
    done
done >p

# call COMMAND STEPS
call() {
    case $1 in
    trace) "$tool" trace "$2" 1 p ;;
    record) "$tool" record "$2" p log ;;
    verify) "$tool" verify "$2" p "log$2" ;;
    esac >/dev/null
}

# least COMMAND STEPS: the least time of so many calls, in microseconds
least() {
    local least= took begun call
    for ((call = 0; call < calls; call++)); do
        begun=$EPOCHREALTIME
        call "$1" "$2"
        took=$((${EPOCHREALTIME/./} - ${begun/./}))
        [ -n "$least" ] && [ "$took" -ge "$least" ] || least=$took
    done
    echo "$least"
}

# memory COMMAND STEPS: the most resident memory of a call, in KiB
memory() {
    local words
    case $1 in
    trace) words=(trace "$2" 1 p) ;;
    record) words=(record "$2" p log) ;;
    verify) words=(verify "$2" p "log$2") ;;
    esac
    python3 -c '
import os, subprocess, sys
child = subprocess.Popen(sys.argv[1:], stdout=subprocess.DEVNULL)
print(os.wait4(child.pid, 0)[2].ru_maxrss)' "$tool" "${words[@]}"
}

for steps in $few $many 1000 10000; do
    "$tool" record "$steps" p "log$steps" >/dev/null
done

echo '| command | us a superstep | times trace | KiB for 1,000 supersteps | for 10,000 |'
echo '|---|---|---|---|---|'
traced=
for command in trace record verify; do
    short=$(least $command $few) long=$(least $command $many)
    took=$((long - short))
    traced=${traced:-$took}
    awk -v command=$command -v took=$took -v traced=$traced -v steps=$((many - few)) -v small="$(memory $command 1000)" -v big="$(memory $command 10000)" \
        'BEGIN { printf "| %s | %.2f | %.2f | %d | %d |\n", command, took / steps, took / traced, small, big }'
done

sed '1s/0/1/' log10000 >log1000000
echo
printf 'A log of %d bytes whose first line is wrong: ' "$(stat -c %s log1000000)"
begun=$EPOCHREALTIME
"$tool" verify 1000000 p log1000000 || true
printf 'told after %d us' $((${EPOCHREALTIME/./} - ${begun/./}))
if command -v strace >/dev/null; then
    printf ', %d bytes read of it' "$(strace -y -e trace=read "$tool" verify 1000000 p log1000000 2>&1 >/dev/null |
        sed -n 's/^read([0-9]*<.*log1000000>.* = \([0-9]*\)$/\1/p' | awk '{ all += $1 } END { print all + 0 }')"
fi
echo '.'
