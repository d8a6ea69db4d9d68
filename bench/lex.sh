#!/usr/bin/env bash
# Times the lexer alone, on sources of the greatest length: one that people would write, and the worst ones.
set -euo pipefail

here=$(cd -- "$(dirname -- "${BASH_SOURCE[0]}")" && pwd)
top=$(dirname -- "$here")
room=$(mktemp -d)
trap 'rm -rf -- "$room"' EXIT

# A repository for the measurement alone, so that no file of it has to be proved with this one.
mkdir -p "$room/crates/time_lex/src"
for crate in hume_base hume_lex; do
    mkdir -p "$room/crates/$crate"
    for part in src specs proofs; do
        cp -r -- "$top/crates/$crate/$part" "$room/crates/$crate/"
    done
done
grep -E '^hume_(base|lex):' "$top/crates.txt" >"$room/crates.txt"
echo 'time_lex: hume_base hume_lex' >>"$room/crates.txt"
cat >"$room/crates/time_lex/src/main.rt" <<'PROGRAM'
//! `time_lex FILE`: how many tokens the lexer finds in the file, or that it refuses it, and the least nanoseconds of a call.
#![tactic(auto)]

ghost use Rattle.std.specs.Prelude.{◌≤◌, length};

use hume_base::limits::MAX_SOURCE_BYTES;
use hume_lex::lex;
use std::alloc::Global;
use std::time::Instant;
use std::{env, fs, io};

const CALLS: u32 = 50;

fn main(rt: HostRuntime) -> io::Result<()> {
    let Some(name) = env::args(&rt)?.nth(1) else {
        return Ok(());
    };
    let source = fs::read(&rt, name)?;
    if source.len() > MAX_SOURCE_BYTES {
        return Ok(());
    }
    let mut tokens = None;
    let mut least = u128::MAX;
    for _call in 0..CALLS {
        let start = Instant::now(&rt)?;
        tokens = count_tokens(rt.alloc(), &source);
        least = least.min(start.elapsed(&rt)?.as_nanos());
    }
    match tokens {
        Some(count) => println!(rt; "{count} {least}"),
        None => println!(rt; "refused {least}"),
    }
}

fn count_tokens(alloc: Global, source: &[u8]) -> Option<usize>
    requires { length source.now ≤ MAX_SOURCE_BYTES }
{
    match lex(alloc, source) {
        Ok(tokens) => Some(tokens.len()),
        Err(_) => None,
    }
}
PROGRAM
cd -- "$room/crates/time_lex"
rt run </dev/null >"$room/log" 2>&1 || {
    cat -- "$room/log" >&2
    exit 1
}

# a text again and again, up to 262,144 bytes
full_of() {
    yes -- "$1" | tr -d '\n' | head -c 262144 || true
}

full_of 'a' >"$room/one name"
full_of ' ' >"$room/blanks"
full_of '+   ' >"$room/65,536 signs"
full_of 'abc ' >"$room/65,536 names"
full_of '123 ' >"$room/65,536 numbers"
full_of "'a' " >"$room/65,536 letters"
full_of '"a" ' >"$room/65,536 quoted texts"
full_of '+' >"$room/signs alone"
full_of '"' >"$room/quotes alone"
{ printf -- '--'; full_of 'a'; } | head -c 262144 >"$room/one comment"
{ yes -- "$(cat -- "$here/controller.hume")" | head -c 262144 || true; } >"$room/controllers"

printf '| source | tokens | ms |\n|---|---|---|\n'
for source in controllers 'one comment' 'one name' blanks '65,536 signs' '65,536 names' '65,536 numbers' \
    '65,536 letters' '65,536 quoted texts' 'signs alone' 'quotes alone'; do
    read -r tokens nanoseconds < <(out/time_lex "$room/$source")
    printf '| %s | %s | %d.%03d |\n' "$source" "$tokens" $((nanoseconds / 1000000)) $((nanoseconds / 1000 % 1000))
done
