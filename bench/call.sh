#!/usr/bin/env bash
# Times a call: the command `./hume check` over a small source, one with two thousand ports, and the program of dist/ alone. `bench/call.sh [CALLS]`, 100 if it isn't said: the least and the middle time of that many.
set -euo pipefail
export LC_ALL=C

top=$(cd -- "$(dirname -- "${BASH_SOURCE[0]}")/.." && pwd)
calls=${1-100}
source=$top/examples/add_one/add_one.hume

# row WHAT COUNT WORD..
row() {
    local what=$1 count=$2 start took
    shift 2
    for ((; count > 0; count--)); do
        start=$EPOCHREALTIME
        "$@" >/dev/null
        took=$((${EPOCHREALTIME/./} - ${start/./}))
        echo "$took"
    done | sort -n | awk -v what="$what" '{ all[NR] = $1 } END { printf "| %s | %.1f | %.1f |\n", what, all[1] / 1000, all[int((NR + 1) / 2)] / 1000 }'
}

printf '| call | ms, least | ms, middle |\n|---|---|---|\n'
row './hume' "$calls" "$top/hume" check "$source"
folder=$(mktemp -d)
trap 'rm -rf -- "$folder"' EXIT
cd -- "$folder"
cp -- "$source" "${source%/*}/i" .
row './hume, 2,000 ports' $(((calls + 9) / 10)) "$top/hume" run 4 1 add_one.hume i o port.{1..2000}
row 'the program' "$calls" "$top/dist/hume-x86_64-linux" check "$source"
row '`/bin/bash -c :`' "$calls" /bin/bash -c :
