#!/bin/sh
# Times an external product (k 1, 1,024 coefficients, two digits of 12 bits) in a built program against a plain C
# program of the same sums in the same loops, whose products are plain double loops, for one target, five runs of each
# in turn, and prints the fastest of each in nanoseconds with their ratio.
set -eu
here=$(cd "$(dirname "$0")" && pwd)
temp=$(mktemp -d)
trap 'rm -rf "$temp"' EXIT
mkdir -p "$temp/crates/external_timing/src"
for crate in word_ring lwe_core negacyclic gadget_decomp glwe_core ggsw_core; do
    cp -r "$here/../crates/$crate" "$temp/crates/"
    grep "^$crate:" "$here/../crates.txt" >> "$temp/crates.txt"
done
echo 'external_timing: word_ring negacyclic glwe_core ggsw_core' >> "$temp/crates.txt"
cat > "$temp/crates/external_timing/src/main.rt" <<'RATTLE'
#![tactic(auto)]

ghost use Rattle.std.specs.Prelude.{◌≡◌, ◌+◌, ◌*◌, ◌≤◌, ◌^◌, IfOk, replicate};
ghost use Rattle.glwe_core.specs.Glwe.{lengths_of};
ghost use Rattle.ggsw_core.specs.Ggsw.{row_lengths};

use ggsw_core::{ExtRoom, Ggsw, external_into};
use glwe_core::{Glwe, Lin};
use std::alloc::{AllocError, Global};
use std::io;
use std::time::Instant;

fn drawn(alloc: Global, k: u32, log_n: u32, start: u64) -> Result<Glwe, AllocError>
    requires some_masks { 1 ≤ k }
    requires few_masks { k ≤ 3 }
    requires one_or_more { 1 ≤ log_n }
    requires thirteen_or_less { log_n ≤ 13 }
    ensures { IfOk result (λ c. lengths_of c ≡ replicate (k + 1) (2 ^ log_n)) }
{
    let zeros = Glwe::new(alloc, k, log_n)?;
    let mut c = Glwe::new(alloc, k, log_n)?;
    let mut word = start;
    for at in 0..k + 1 {
        for place in 0..1usize << log_n {
            word = word.wrapping_mul(6364136223846793005).wrapping_add(1442695040888963407);
            if at <= c.k() && place < c.part(0).coeffs().len() {
                c.set(at, place, word);
            }
        }
    }
    if c.fits(&zeros) { Ok(c) } else { Ok(zeros) }
}

fn drawn_ggsw(alloc: Global, k: u32, log_n: u32, base: u32, level: u32) -> Result<Ggsw, AllocError>
    requires some_masks { 1 ≤ k }
    requires few_masks { k ≤ 3 }
    requires one_or_more { 1 ≤ log_n }
    requires thirteen_or_less { log_n ≤ 13 }
    requires some_bits { 1 ≤ base }
    requires some_digits { 1 ≤ level }
    requires fits { base * level ≤ 63 }
    ensures { IfOk result (λ g. row_lengths g ≡ replicate (k + 1) (2 ^ log_n)) }
{
    ggsw_core::laws::laws();
    let mut g = Ggsw::new(alloc, k, log_n, base, level)?;
    for i in 0..(k + 1) * level {
        let mut row = drawn(alloc, k, log_n, u64::from(i) + 1)?;
        g.known();
        g.swap_row(i / level, i % level + 1, &mut row);
    }
    Ok(g)
}

fn time(rt: &HostRuntime, k: u32, log_n: u32, base: u32, level: u32) -> io::Result<()>
    requires some_masks { 1 ≤ k }
    requires few_masks { k ≤ 3 }
    requires one_or_more { 1 ≤ log_n }
    requires thirteen_or_less { log_n ≤ 13 }
    requires some_bits { 1 ≤ base }
    requires some_digits { 1 ≤ level }
    requires fits { base * level ≤ 63 }
{
    let g = drawn_ggsw(rt.alloc(), k, log_n, base, level)?;
    let c = drawn(rt.alloc(), k, log_n, 0)?;
    let mut out = drawn(rt.alloc(), k, log_n, 0)?;
    let mut room = ExtRoom::new(rt.alloc(), k, log_n)?;
    let rounds: u128 = 200;
    let start = Instant::now(rt)?;
    for _ in 0..200 {
        external_into(&mut out, &g, &c, &mut room);
    }
    let nanoseconds = start.elapsed(rt)?.as_nanos() / rounds;
    let last = if k <= out.k() { out.part(k).coeffs().last().copied().unwrap_or(0) } else { 0 };
    println!(rt; "{nanoseconds} {last}")
}

fn main(rt: HostRuntime) -> io::Result<()> {
    time(&rt, 1, 10, 12, 2)
}
RATTLE
mkdir -p "$temp/crates/external_timing/proofs/drawn_ggsw" "$temp/crates/external_timing/proofs/time"
cat > "$temp/crates/external_timing/proofs/drawn_ggsw/Invariants.antt" <<'ANTT'
use Rattle.std.proofs.Common.{◌≡◌, ◌+◌, ◌^◌, replicate}
use Rattle.ggsw_core.specs.Ggsw.{row_lengths}
use Rattle.external_timing.proofs.drawn_ggsw.Given as goal

abbrev pub invariant-loop-i : goal.invariant-loop-i
invariant-loop-i l = record { lengths : row_lengths l.g ≡ replicate (l.k + 1) (2 ^ l.log_n); level : l.g.level ≡ l.level }
ANTT
cat > "$temp/crates/external_timing/proofs/time/Invariants.antt" <<'ANTT'
use Rattle.std.proofs.Common.{◌≡◌, ◌+◌, ◌^◌, replicate}
use Rattle.glwe_core.specs.Glwe.{lengths_of}
use Rattle.external_timing.proofs.time.Given as goal

abbrev pub invariant-loop : goal.invariant-loop
invariant-loop l = record { out : lengths_of l.out ≡ replicate (l.k + 1) (2 ^ l.log_n); room : l.room ≡ replicate (l.k + 1) (2 ^ l.log_n) }
ANTT
cd "$temp/crates/external_timing"
rt run > "$temp/first.txt" 2>&1 || { cat "$temp/first.txt"; exit 1; }
clang -O3 -march=x86-64-v2 -o "$temp/plain" "$here/external_product.c"
program=$(find out -maxdepth 1 -type f -perm -u+x | head -n 1)
best_program=
best_plain=
for _ in 1 2 3 4 5; do
    "$program" > "$temp/program.txt"
    "$temp/plain" > "$temp/plain.txt"
    time_program=$(cut -d' ' -f1 "$temp/program.txt")
    time_plain=$(cut -d' ' -f1 "$temp/plain.txt")
    [ -n "$best_program" ] && [ "$best_program" -le "$time_program" ] || best_program=$time_program
    [ -n "$best_plain" ] && [ "$best_plain" -le "$time_plain" ] || best_plain=$time_plain
done
[ "$(cut -d' ' -f2 "$temp/program.txt")" = "$(cut -d' ' -f2 "$temp/plain.txt")" ] || { echo "the products differ"; exit 1; }
awk -v p="$best_program" -v c="$best_plain" 'BEGIN { printf "external product: %d ns, plain C %d ns, ratio %.2f\n", p, c, p / c }'
