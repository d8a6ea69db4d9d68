#!/usr/bin/env bash
# Times whole checks by the built program (`hume check`), start and reading with them: of sources of the greatest length that
# are hard on a checker (hostile.py writes them), and of a program that people would write, as often as the limits let it stand.
set -euo pipefail
export LC_ALL=C

here=$(cd -- "$(dirname -- "${BASH_SOURCE[0]}")" && pwd)
program=$(dirname -- "$here")/dist/hume-x86_64-linux
room=$(mktemp -d)
trap 'rm -rf -- "$room"' EXIT

python3 "$here/hostile.py" "$room"
cd -- "$room"
# copies of the controller, each with names of its own
python3 - "$here/controller.hume" >controllers <<'PYTHON'
import re, sys
text = open(sys.argv[1]).read()
names = set(re.findall(r"^(?:data|exception|box|stream)\s+(\w+)", text, re.M)) | set(re.findall(r"^(\w+) ::", text, re.M))
names |= {"On", "Off", "Failed"}
for copy in range(25):
    print(re.sub(r"\b(\w+)\b", lambda m: f"{m[1]}{copy}" if m[1] in names else m[1], text))
PYTHON

printf '%-26s %8s  %-22s %s\n' source bytes answer 'least ms of 5'
for source in controllers $(ls | grep -v '^controllers$'); do
    answer=accepted
    least=
    for _ in 1 2 3 4 5; do
        start=$(date +%s%N)
        told=$("$program" check "$source") || answer=$told
        took=$((($(date +%s%N) - start) / 10000))
        [ -n "$least" ] && [ "$least" -le "$took" ] || least=$took
    done
    printf '%-26s %8s  %-22s %d.%02d\n' "$source" "$(wc -c <"$source")" "${answer:-no answer}" $((least / 100)) $((least % 100))
done
