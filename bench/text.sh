#!/usr/bin/env bash
# Times the reading and printing of 1,000,000 values by a program of one box that hands them on, beside a plain C program over the
# same bytes (fgets, strtol, fwrite). `bench/text.sh [TOOL]`, where TOOL is the program to call; `bench/text.sh --check [TOOL]` only
# checks the sources and builds the C program.
set -euo pipefail
export LC_ALL=C

here=$(cd -- "$(dirname -- "${BASH_SOURCE[0]}")" && pwd)
only_check=
[ "${1-}" != --check ] || { only_check=yes && shift; }
tool=$(readlink -f -- "${1-"$(dirname -- "$here")/dist/hume-x86_64-linux"}")
lines=999998 # so many values go through one box in 1,000,000 supersteps
room=$(mktemp -d)
trap 'rm -rf -- "$room"' EXIT
cd -- "$room"

# identity TYPE: a source of one box that hands values of the type on
identity() {
    echo 'data Event = Tick | Moved int 32 int 32 | Named char bool ;'
    echo "box b in (x :: $1) out (y :: $1) match (x) -> x ;"
    printf '%s\n' 'stream s from "i" ;' 'stream t to "o" ;' 'wire s to b.x ;' 'wire b.y to t ;'
}

cat >plain.c <<'PROGRAM'
#include <errno.h>
#include <stdio.h>
#include <stdlib.h>

/* Reads a number of 32 bits from each line of the first file, and writes it as a line of the second. */
int main(int count, char **names) {
    char line[65538];
    if (count != 3) return 1;
    FILE *in = fopen(names[1], "r"), *out = fopen(names[2], "w");
    if (!in || !out) return 4;
    for (long at = 1; fgets(line, sizeof line, in); at++) {
        char *end, digits[12];
        errno = 0;
        long value = strtol(line, &end, 10);
        if (end == line || *end != '\n' || errno || value < -2147483648L || value > 2147483647L) {
            printf("bad value s line %ld\n", at);
            return 3;
        }
        unsigned long rest = value < 0 ? -value : value;
        int from = sizeof digits;
        digits[--from] = '\n';
        do digits[--from] = '0' + rest % 10; while (rest /= 10);
        if (value < 0) digits[--from] = '-';
        size_t length = sizeof digits - from;
        if (fwrite(digits + from, 1, length, out) != length) return 4;
    }
    return fclose(out) ? 4 : 0;
}
PROGRAM
gcc -O2 -Wall -o plain plain.c

identity 'int 32' >numbers
identity 'vector 4 of nat 16' >vectors
identity Event >events
for source in numbers vectors events; do
    answer=$("$tool" check $source) || { echo "$source: $answer" >&2 && exit 1; }
done

# The values of each type, printed as the tool prints them, so that what goes in has to come out.
python3 - $lines <<'PYTHON'
import random, sys
random.seed(1)
lines, below = int(sys.argv[1]), random.randrange


def write(name, value):
    with open(name, "w") as file:
        file.writelines(value() + "\n" for _ in range(lines))


def event():
    kind = below(3)
    if kind == 0:
        return "Tick"
    if kind == 1:
        return f"Moved {below(-2**31, 2**31)} {below(-2**31, 2**31)}"
    return f"Named '{chr(below(97, 123))}' {('false', 'true')[below(2)]}"


write("numbers.i", lambda: str(below(-2**31, 2**31)))
write("vectors.i", lambda: f"<<{below(65536)}, {below(65536)}, {below(65536)}, {below(65536)}>>")
write("events.i", event)
PYTHON
ln -sf numbers.i i && ./plain i o && cmp i o
[ -z "$only_check" ] || { echo 'all sources are accepted, and the C program writes what it reads' && exit; }

printf '| values | program | MB | least seconds of 3 | MB a second |\n|---|---|---|---|---|\n'

# row VALUES PROGRAM WORD..: a call over these values, of which each has to come out as it went in
row() {
    local values=$1 program=$2 least= start took _run
    shift 2
    ln -sf "$values.i" i
    for _run in 1 2 3; do
        rm -f o
        start=$(date +%s%N)
        "$@" >/dev/null
        took=$((($(date +%s%N) - start) / 1000000))
        cmp i o
        [ -n "$least" ] && [ "$least" -le "$took" ] || least=$took
    done
    awk -v values="$values" -v program="$program" -v bytes="$(wc -c <o)" -v ms="$least" 'BEGIN {
        printf "| %s | %s | %.1f | %.3f | %.0f |\n", values, program, bytes / 1e6, ms / 1e3, bytes / 1e3 / (ms > 0 ? ms : 1)
    }'
}

# texts VALUES: the seconds that the same call spends on lines and texts and in the system, by the samples of perf
texts() {
    ln -sf "$1.i" i
    rm -f o
    local start
    start=$(date +%s%N)
    perf record -q -o samples "$tool" run 1000000 1 "$1" i o >/dev/null
    perf report -i samples --stdio -F overhead,sym --percent-limit 0 2>"/dev/null" |
        awk -v values="$1" -v ms=$((($(date +%s%N) - start) / 1000000)) '
            $2 == "[k]" { system_share += $1 }
            $3 ~ /^hume_(text|streams|ports)::/ || $3 ~ /^(hume_streams::places|hume_streams::writes|run_rounds)::/ { text_share += $1 }
            END { printf "| %s | %.3f | %.3f |\n", values, text_share * ms / 1e5, system_share * ms / 1e5 }'
}

row numbers C ./plain i o
for values in numbers vectors events; do
    row $values hume "$tool" run 1000000 1 $values i o
done

# The reference that makes the supersteps copies all values in each of them, and takes nearly all of the time. So what belongs to
# texts is counted apart, where the machine has perf.
command -v perf >"/dev/null" || exit 0
printf '\n| values | seconds for lines and texts | seconds in the system |\n|---|---|---|\n'
for values in numbers vectors events; do
    texts $values
done
