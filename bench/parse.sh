#!/usr/bin/env bash
# Times the parser alone, on sources of the greatest length: one that people would write, and long ones of each kind.
set -euo pipefail

here=$(cd -- "$(dirname -- "${BASH_SOURCE[0]}")" && pwd)
top=$(dirname -- "$here")
room=$(mktemp -d)
trap 'rm -rf -- "$room"' EXIT

# A repository for the measurement alone, so that no file of it has to be proved with this one.
mkdir -p "$room/crates/time_parse/src"
for crate in hume_base hume_lex hume_ast parse_readers parse_errors parse_items hume_parse; do
    mkdir -p "$room/crates/$crate"
    for part in src specs proofs; do
        cp -r -- "$top/crates/$crate/$part" "$room/crates/$crate/"
    done
done
grep -E '^(hume_base|hume_lex|hume_ast|parse_readers|parse_errors|parse_items|hume_parse):' "$top/crates.txt" >"$room/crates.txt"
echo 'time_parse: hume_base hume_lex hume_parse' >>"$room/crates.txt"
cat >"$room/crates/time_parse/src/main.rt" <<'PROGRAM'
//! `time_parse FILE`: how many tokens the file has, whether the parser takes them, and the least nanoseconds of a call.
#![tactic(auto)]

use hume_base::Token;
use hume_base::limits::MAX_SOURCE_BYTES;
use hume_lex::lex;
use hume_parse::parse;
use std::alloc::Global;
use std::time::Instant;
use std::{env, fs, io};

const CALLS: u32 = 20;

fn main(rt: HostRuntime) -> io::Result<()> {
    let Some(name) = env::args(&rt)?.nth(1) else {
        return Ok(());
    };
    let source = fs::read(&rt, name)?;
    if source.len() > MAX_SOURCE_BYTES {
        return Ok(());
    }
    let Ok(tokens) = lex(rt.alloc(), &source) else {
        return Ok(());
    };
    let mut taken = false;
    let mut least = u128::MAX;
    for _call in 0..CALLS {
        let start = Instant::now(&rt)?;
        taken = is_taken(rt.alloc(), &tokens, source.len() as u32);
        least = least.min(start.elapsed(&rt)?.as_nanos());
    }
    println!(rt; "{} {} {least}", tokens.len(), if taken { "taken" } else { "refused" })
}

fn is_taken(alloc: Global, tokens: &[Token], end: u32) -> bool {
    parse(alloc, tokens, end).is_ok()
}
PROGRAM
cd -- "$room/crates/time_parse"
rt run </dev/null >"$room/log" 2>&1 || {
    cat -- "$room/log" >&2
    exit 1
}

# times TEXT COUNT: a text so often
times() {
    yes -- "$1" | head -n "$2" | tr '\n' ' ' || true
}

controller=$(cat -- "$here/controller.hume")
for _copy in $(seq $((262144 / (${#controller} + 1)))); do
    printf '%s\n' "$controller"
done >"$room/controllers"
{ printf 'data T = A'; times ' | B' 32000; printf ';'; } >"$room/one type of 32,001 constructors"
{ printf 'data T = A'; times ' B' 65000; printf ';'; } >"$room/one constructor of 65,000 parts"
{ printf 'exception E (bool'; times ', bool' 32000; printf ');'; } >"$room/one tuple of 32,001 parts"
{ printf 'wire a to b initial <<1'; times ', 1' 32000; printf '>>;'; } >"$room/one vector of 32,001 numbers"
{ printf 'wire a to b initial f'; times ' 1' 65000; printf ';'; } >"$room/one call of 65,000 arguments"
{ printf 'f :: bool -> bool;'; times 'f x = x;' 10900; } >"$room/one function of 10,900 equations"
times 'wire a.b to c.d;' 7200 >"$room/7,200 wires"
deep=$(printf '(%.0s' $(seq 63))1$(printf ')%.0s' $(seq 63))
{ for _wire in $(seq 490); do printf 'wire a to b initial %s;' "$deep"; done; } >"$room/490 wires 64 deep"

printf '| source | tokens | | ms |\n|---|---|---|---|\n'
for source in controllers 'one type of 32,001 constructors' 'one constructor of 65,000 parts' \
    'one tuple of 32,001 parts' 'one vector of 32,001 numbers' 'one call of 65,000 arguments' \
    'one function of 10,900 equations' '7,200 wires' '490 wires 64 deep'; do
    read -r tokens answer nanoseconds < <(out/time_parse "$room/$source")
    printf '| %s | %s | %s | %d.%03d |\n' "$source" "$tokens" "$answer" $((nanoseconds / 1000000)) $((nanoseconds / 1000 % 1000))
done
