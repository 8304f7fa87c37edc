#!/bin/sh
# Times products of 256 and of 1,024 coefficients in a built program against a plain C double loop of the sums,
# for one target, five runs of each in turn, and prints the fastest of each in nanoseconds with their ratio.
set -eu
here=$(cd "$(dirname "$0")" && pwd)
temp=$(mktemp -d)
trap 'rm -rf "$temp"' EXIT
mkdir -p "$temp/crates/product_timing/src"
cp -r "$here/../crates/word_ring" "$here/../crates/negacyclic" "$temp/crates/"
printf 'word_ring:\nnegacyclic: word_ring\nproduct_timing: negacyclic\n' > "$temp/crates.txt"
cat > "$temp/crates/product_timing/src/main.rt" <<'RATTLE'
#![tactic(auto)]

ghost use Rattle.std.specs.Prelude.{◌≡◌, ◌≤◌, ◌^◌, IfOk, length};

use negacyclic::{Poly, Scratch, mul_add};
use std::alloc::{AllocError, Global};
use std::io;
use std::time::Instant;

fn filled(alloc: Global, log_n: u32, start: u64) -> Result<Poly, AllocError>
    requires one_or_more { 1 ≤ log_n }
    requires thirteen_or_less { log_n ≤ 13 }
    ensures { IfOk result (λ p. length p ≡ 2 ^ log_n) }
{
    let mut poly = Poly::new(alloc, log_n)?;
    let mut word = start;
    for i in 0..poly.coeffs().len() {
        word = word.wrapping_mul(6364136223846793005).wrapping_add(1442695040888963407);
        poly.set(i, word);
    }
    Ok(poly)
}

fn time(rt: &HostRuntime, log_n: u32, rounds: u64) -> io::Result<()>
    requires one_or_more { 1 ≤ log_n }
    requires thirteen_or_less { log_n ≤ 13 }
{
    let a = filled(rt.alloc(), log_n, 1)?;
    let b = filled(rt.alloc(), log_n, 2)?;
    let mut scratch = Scratch::new(rt.alloc(), log_n)?;
    let mut last = 0;
    let start = Instant::now(rt)?;
    for _ in 0..rounds {
        let mut into = Poly::new(rt.alloc(), log_n)?;
        mul_add(&mut into, &a, &b, &mut scratch);
        last = into.coeffs().last().copied().unwrap_or(0);
    }
    let nanoseconds = start.elapsed(rt)?.as_nanos() / (rounds as u128).max(1);
    println!(rt; "{nanoseconds} {last}")?;
    Ok(())
}

fn main(rt: HostRuntime) -> io::Result<()> {
    time(&rt, 8, 8192)?;
    time(&rt, 10, 2048)
}
RATTLE
mkdir -p "$temp/crates/product_timing/proofs/filled" "$temp/crates/product_timing/proofs/time"
cat > "$temp/crates/product_timing/proofs/filled/Invariants.antt" <<'ANTT'
use Rattle.std.proofs.Common.{◌≡◌, ◌^◌, length}
use Rattle.product_timing.proofs.filled.Given as goal

abbrev pub invariant-loop-i : goal.invariant-loop-i
invariant-loop-i l = (length l.poly ≡ 2 ^ l.log_n) × (l.i-end ≡ length l.poly)
ANTT
cat > "$temp/crates/product_timing/proofs/time/Invariants.antt" <<'ANTT'
use Rattle.std.proofs.Common.{◌≡◌}
use Rattle.product_timing.proofs.time.Given as goal

abbrev pub invariant-loop : goal.invariant-loop
invariant-loop l = l.scratch ≡ l.log_n
ANTT
cd "$temp/crates/product_timing"
rt run > "$temp/first.txt" 2>&1 || { cat "$temp/first.txt"; exit 1; }
for n in 256 1024; do
    clang -O3 -march=x86-64-v2 -DN=$n -o "$temp/plain$n" "$here/product.c"
done
program=$(find out -maxdepth 1 -type f -perm -u+x | head -n 1)
least() { # of two numbers, of which the first may be missing
    if [ -n "$1" ] && [ "$1" -le "$2" ]; then echo "$1"; else echo "$2"; fi
}
program256= program1024= plain256= plain1024=
for _ in 1 2 3 4 5; do
    "$program" > "$temp/times.txt"
    program256=$(least "$program256" "$(sed -n 1p "$temp/times.txt" | cut -d' ' -f1)")
    program1024=$(least "$program1024" "$(sed -n 2p "$temp/times.txt" | cut -d' ' -f1)")
    for n in 256 1024; do "$temp/plain$n" > "$temp/plain$n.txt"; done
    plain256=$(least "$plain256" "$(cut -d' ' -f1 "$temp/plain256.txt")")
    plain1024=$(least "$plain1024" "$(cut -d' ' -f1 "$temp/plain1024.txt")")
done
for n in 256 1024; do
    [ "$(sed -n $((n / 768 + 1))p "$temp/times.txt" | cut -d' ' -f2)" = "$(cut -d' ' -f2 "$temp/plain$n.txt")" ] || { echo "the products differ"; exit 1; }
done
awk -v n=256 -v p="$program256" -v c="$plain256" 'BEGIN { printf "%d coefficients: %d ns, plain C %d ns, ratio %.2f\n", n, p, c, p / c }'
awk -v n=1024 -v p="$program1024" -v c="$plain1024" 'BEGIN { printf "%d coefficients: %d ns, plain C %d ns, ratio %.2f\n", n, p, c, p / c }'
