#!/bin/sh
# Times one key switch (1,024 mask words to 128, 4 digits of 4 bits) in a built program against a plain C program that
# does the same sums in the same loops, for one target, five runs of each in turn. Both print a check word, which must
# agree. It prints the fastest of each in nanoseconds with their ratio.
set -eu
here=$(cd "$(dirname "$0")" && pwd)
temp=$(mktemp -d)
trap 'rm -rf "$temp"' EXIT
mkdir -p "$temp/crates/switch_timing/src"
for crate in word_ring negacyclic gadget_decomp lwe_core key_switch; do
    cp -r "$here/../crates/$crate" "$temp/crates/"
done
cat > "$temp/crates.txt" <<'CRATES'
word_ring:
negacyclic: word_ring
gadget_decomp: word_ring negacyclic
lwe_core: word_ring
key_switch: word_ring lwe_core gadget_decomp
switch_timing: lwe_core key_switch
CRATES
cat > "$temp/crates/switch_timing/src/main.rt" <<'RATTLE'
#![tactic(auto)]

use key_switch::{SwitchKey, switch_into};
use lwe_core::{Big, Lwe, Small};
use std::alloc::{AllocError, Global};
use std::io;
use std::time::Instant;

const ROUNDS: u64 = 400;

fn next(word: u64) -> u64 {
    word.wrapping_mul(6364136223846793005).wrapping_add(1442695040888963407)
}

fn fill(key: &mut SwitchKey, row: &mut Lwe<Small>, place: usize, start: u64) -> u64 {
    let mut word = start;
    for at in 0..129 {
        word = next(word);
        if at <= row.dim() {
            row.set(at, word);
        }
    }
    let (i, t) = (place / 4, (place % 4) as u32 + 1);
    if i < key.big_dim() && t <= key.level() && row.dim() == key.small_dim() {
        key.swap_row(i, t, row);
    }
    word
}

fn source(alloc: Global, start: u64) -> Result<Lwe<Big>, AllocError> {
    let mut c = Lwe::new(alloc, 1024)?;
    let mut word = start;
    for at in 0..1025 {
        word = next(word);
        if at <= c.dim() {
            c.set(at, word);
        }
    }
    Ok(c)
}

fn main(rt: HostRuntime) -> io::Result<()> {
    let mut key = SwitchKey::new(rt.alloc(), 1024, 128, 4, 4)?;
    let mut word = 1;
    for place in 0..4096 {
        let mut row = Lwe::new(rt.alloc(), 128)?;
        word = fill(&mut key, &mut row, place, word);
    }
    let mut c = source(rt.alloc(), word)?;
    let mut out = Lwe::new(rt.alloc(), 128)?;
    let mut check: u64 = 0;
    let start = Instant::now(&rt)?;
    for _ in 0..ROUNDS {
        if c.dim() == key.big_dim() && out.dim() == key.small_dim() {
            switch_into(&mut out, &key, &c);
        }
        check ^= out.word(0).wrapping_add(out.word(out.dim()));
        let first = c.word(0);
        c.set(0, first.wrapping_add(1));
    }
    let nanoseconds = start.elapsed(&rt)?.as_nanos() / (ROUNDS as u128);
    println!(rt; "{nanoseconds} {check}")?;
    Ok(())
}
RATTLE
cd "$temp/crates/switch_timing"
rt run > "$temp/first.txt" 2>&1 || { cat "$temp/first.txt"; exit 1; }
clang -O3 -march=x86-64-v2 -DD=1024 -DN=128 -DBASE=4 -DLEVEL=4 -DROUNDS=400 -o "$temp/plain" "$here/key_switch.c"
program=$(find out -maxdepth 1 -type f -perm -u+x | head -n 1)
[ "$("$program" | cut -d' ' -f2)" = "$("$temp/plain" | cut -d' ' -f2)" ] || { echo "the words differ"; exit 1; }
best_program=
best_plain=
for _ in 1 2 3 4 5; do
    time_program=$("$program" | cut -d' ' -f1)
    time_plain=$("$temp/plain" | cut -d' ' -f1)
    [ -n "$best_program" ] && [ "$best_program" -le "$time_program" ] || best_program=$time_program
    [ -n "$best_plain" ] && [ "$best_plain" -le "$time_plain" ] || best_plain=$time_plain
done
echo "key switch: $best_program ns, plain C $best_plain ns"
awk -v p="$best_program" -v c="$best_plain" 'BEGIN { printf "ratio %.2f\n", p / c }'
