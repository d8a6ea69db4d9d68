#!/usr/bin/env bash
# live.sh [CALLS]: times a superstep of a live run between two FIFOs (`hume live`), as a plant sees it: it writes a value, and waits for the
# answer to an earlier one. The thermostat of examples/live, the best of CALLS runs (5) of SUPERSTEPS supersteps (20,000). Beside it the session
# alone, which has its commands in a file and its output at std_out; and a `cat` in the place of the run, which is what the FIFOs take.
set -eu
here=$(dirname -- "$(readlink -f -- "${BASH_SOURCE[0]}")")
calls=${1:-5}
supersteps=${SUPERSTEPS:-20000}
room=$(mktemp -d)
trap 'rm -rf -- "$room"' EXIT
cp -- "$here/../examples/live/thermostat/thermostat.hume" "$room"
cd -- "$room"
mkfifo temperature heater
sed 's/to "heater"/to "std_out"/' thermostat.hume >standard.hume
yes 'step 1' | head -n "$((supersteps + 9))" >commands

# plant AHEAD LINES: the microseconds of a superstep, where the plant is so many values ahead, and so many lines come before the answers
plant() {
    python3 - "$@" "$supersteps" <<'PY'
import os, sys, time
ahead, lines, supersteps = map(int, sys.argv[1:])
sensor, actuator = os.open("temperature", os.O_RDWR), os.open("heater", os.O_RDWR)
while lines:
    lines -= os.read(actuator, 4096).count(b"\n")
os.write(sensor, b"200\n" * ahead)
times = []
for _ in range(supersteps):
    begun = time.perf_counter_ns()
    os.write(sensor, b"200\n")
    os.read(actuator, 4096)
    times.append(time.perf_counter_ns() - begun)
os.close(sensor)
times.sort()
print(times[supersteps // 2] / 1000, sum(times) / supersteps / 1000, times[supersteps * 99 // 100] / 1000)
PY
}

# row WHAT AHEAD LINES COMMAND..: the least middle time of the calls, with the mean and the time that 99 of 100 don't exceed
row() {
    local call
    for ((call = 0; call < calls; call++)); do
        "${@:4}" >/dev/null 2>&1 &
        plant "$2" "$3"
        wait "$!"
    done | LC_ALL=C sort -n | head -n 1 | while read -r middle mean most; do
        LC_ALL=C printf '| %s | %.1f | %.1f | %.1f |\n' "$1" "$middle" "$mean" "$most"
    done
}

printf '| between the FIFOs | us a superstep, middle | mean | 99 of 100 |\n|---|---|---|---|\n'
row 'hume live' 2 0 "$here/../hume" live thermostat.hume
row 'the session alone' 2 2 sh -c 'exec "$0" console 1 standard.hume temperature <commands >heater' "$here/../dist/hume-x86_64-linux"
row 'cat' 0 0 sh -c 'exec cat <temperature >heater'
