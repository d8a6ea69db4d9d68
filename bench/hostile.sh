#!/usr/bin/env bash
# How much memory the program of dist/ takes at most for each long source that bench/hostile.py makes: a table of MB by sources and words. It
# needs GNU time.
set -euo pipefail

top=$(cd -- "$(dirname -- "${BASH_SOURCE[0]}")/.." && pwd)
room=$(mktemp -d)
trap 'rm -rf -- "$room"' EXIT
mkdir -- "$room/sources"
python3 -B -- "$top/bench/hostile.py" "$room/sources"

# megabytes_of WORD SOURCE: the most memory that the call has
megabytes_of() {
    /usr/bin/time -q -f %M -o "$room/kilobytes" "$top/dist/hume-x86_64-linux" "$@" </dev/null >/dev/null || true
    echo $((($(<"$room/kilobytes") + 1023) / 1024))
}

printf '| source | check | why | bounds | net | hints |\n|---|---|---|---|---|---|\n'
for source in "$room"/sources/*; do
    printf '| %s |' "$(tr _ ' ' <<<"${source##*/}")"
    for word in check why bounds net hints; do
        printf ' %s |' "$(megabytes_of "$word" "$source")"
    done
    printf '\n'
done
