#!/usr/bin/env bash
# console.sh [TOOL]: times a superstep of a net of 200 boxes by sessions of TOOL (the program of dist/) with `step 64`, beside its runs, in turn, least of CALLS calls (7), the time of few supersteps taken off; then the most memory that
# a session takes for 1,000 and for 1,000,000 commands `peaks` on a net of one box.
set -eu
here=$(dirname -- "$(readlink -f -- "${BASH_SOURCE[0]}")")
tool=$(readlink -f -- "${1:-$here/../dist/hume-x86_64-linux}")
calls=${CALLS:-7}
few=128 many=1280
room=$(mktemp -d)
trap 'rm -rf -- "$room"' EXIT
cd -- "$room"

# the net: ten rings of twenty boxes, each of which puts out a value in each superstep
for k in {0..9}; do
    for j in {0..19}; do
        echo "box b${k}_$j in (x :: int 64, s :: int 64) out (y :: int 64, r :: int 64) match (x, s) -> (x + s, s + 1) ;"
        echo "wire b${k}_$j.y to b${k}_$(((j + 1) % 20)).x initial $j ;"
        echo "wire b${k}_$j.r to b${k}_$j.s initial $((31 * k + 17 * j)) ;"
    done
done >p
echo 'box b in (s :: int 64) out (r :: int 64) match (s) -> (s + 1) ; wire b.r to b.s initial 0 ;' >q

# commands COUNT LINE
commands() { yes "$2" | head -n "$1"; }

commands $((few / 64)) 'step 64' >"steps$few"
commands $((many / 64)) 'step 64' >"steps$many"

# call PROGRAM STEPS
call() {
    case $1 in
    run) "$tool" run "$2" 1 p ;;
    console) "$tool" console 1 p <"steps$2" ;;
    esac >/dev/null
}

# least PROGRAM STEPS: the least time of so many calls, in microseconds
least() {
    local least= took begun call
    for ((call = 0; call < calls; call++)); do
        begun=$EPOCHREALTIME
        call "$1" "$2"
        took=$((${EPOCHREALTIME/./} - ${begun/./}))
        [ -n "$least" ] && [ "$took" -ge "$least" ] || least=$took
    done
    echo "$least"
}

# memory COMMANDS: the most memory of a session of so many commands, in KiB
memory() {
    commands "$1" peaks >many
    python3 - "$tool" <<'PY'
import resource, subprocess, sys
with open("many", "rb") as commands:
    subprocess.run([sys.argv[1], "console", "1", "q"], stdin=commands, stdout=subprocess.DEVNULL, check=True)
print(resource.getrusage(resource.RUSAGE_CHILDREN).ru_maxrss)
PY
}

run=$(($(least run $many) - $(least run $few)))
console_time=$(($(least console $many) - $(least console $few)))
printf 'a superstep by run %d ns, by step 64 %d ns: %d.%02d times\n' $((run * 1000 / (many - few))) $((console_time * 1000 / (many - few))) \
    $((console_time / run)) $((console_time * 100 / run % 100))
printf 'memory for 1,000 commands %d KiB, for 1,000,000 %d KiB\n' "$(memory 1000)" "$(memory 1000000)"
