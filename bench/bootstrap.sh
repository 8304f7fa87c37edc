#!/bin/sh
# Times one bootstrap in a built program against a plain C program that does the same steps with plain products, for one
# target, three runs of each in turn, at two shapes: 256 coefficients, 8 mask words and 4 digits of 8 bits; and 1,024
# coefficients, 128 mask words and 2 digits of 12 bits. Both print a check word, which must agree. It prints the fastest of
# each in nanoseconds with their ratio.
set -eu
here=$(cd "$(dirname "$0")" && pwd)
temp=$(mktemp -d)
trap 'rm -rf "$temp"' EXIT
for crate in word_ring lwe_core negacyclic gadget_decomp key_switch lut_encode glwe_core ggsw_core blind_rotate; do
    mkdir -p "$temp/crates"
    cp -r "$here/../crates/$crate" "$temp/crates/"
    grep "^$crate:" "$here/../crates.txt" >> "$temp/crates.txt"
done
for shape in 8_8_8_4_20 10_128_12_2_2; do
    crate="bootstrap_$shape"
    log_n=$(echo "$shape" | cut -d_ -f1)
    dim=$(echo "$shape" | cut -d_ -f2)
    base=$(echo "$shape" | cut -d_ -f3)
    level=$(echo "$shape" | cut -d_ -f4)
    rounds=$(echo "$shape" | cut -d_ -f5)
    rows=$((dim * 2 * level))
    n=$((1 << log_n))
    echo "$crate: lwe_core negacyclic glwe_core blind_rotate" >> "$temp/crates.txt"
    mkdir -p "$temp/crates/$crate/src" "$temp/crates/$crate/proofs/drawn_row" "$temp/crates/$crate/proofs/drawn_key" \
        "$temp/crates/$crate/proofs/drawn_words" "$temp/crates/$crate/proofs/drawn_test" "$temp/crates/$crate/proofs/time"
    cat > "$temp/crates/$crate/src/main.rt" <<RATTLE
#![tactic(auto)]

ghost use Rattle.std.specs.Prelude.{◌≡◌, ◌^◌, IfOk, length, replicate};
ghost use Rattle.glwe_core.specs.Glwe.{lengths_of};
ghost use Rattle.blind_rotate.specs.BootKey.{glwe_shape};

use blind_rotate::{BootKey, Room, bootstrap_into};
use glwe_core::Glwe;
use lwe_core::{Big, Lwe, Small};
use negacyclic::Poly;
use std::alloc::{AllocError, Global};
use std::io;
use std::time::Instant;

fn next(word: u64) -> u64 {
    word.wrapping_mul(6364136223846793005).wrapping_add(1442695040888963407)
}

fn drawn_row(alloc: Global, start: u64) -> Result<Glwe, AllocError>
    ensures { IfOk result (λ c. lengths_of c ≡ replicate 2 (2 ^ $log_n)) }
{
    let mut c = Glwe::new(alloc, 1, $log_n)?;
    let mut word = start;
    for at in 0..2u32 {
        for place in 0..1usize << $log_n {
            word = next(word);
            if at <= c.k() && place < c.part(0).coeffs().len() {
                c.set(at, place, word);
            }
        }
    }
    Ok(c)
}

fn drawn_key(alloc: Global) -> Result<BootKey, AllocError>
    ensures shape { IfOk result (λ key. key.shape ≡ glwe_shape 1 $log_n) }
    ensures number { IfOk result (λ key. length key.ggsws ≡ $dim) }
{
    let mut key = BootKey::new(alloc, 1, $log_n, $dim, $base, $level)?;
    for place in 0..${rows}u32 {
        let mut row = drawn_row(alloc, u64::from(place) + 1)?;
        key.swap_row(place / (2 * $level), place / $level % 2, place % $level + 1, &mut row);
    }
    Ok(key)
}

fn drawn_words(alloc: Global) -> Result<Lwe<Small>, AllocError>
    ensures { IfOk result (λ c. length c ≡ $((dim + 1))) }
{
    let mut c = Lwe::<Small>::new(alloc, $dim)?;
    let mut word = 9;
    for at in 0..$((dim + 1))usize {
        word = next(word);
        c.set(at, word);
    }
    Ok(c)
}

fn drawn_test(alloc: Global) -> Result<Poly, AllocError>
    ensures { IfOk result (λ test. length test ≡ $n) }
{
    let mut test = Poly::new(alloc, $log_n)?;
    let mut word = 5;
    for place in 0..test.coeffs().len() {
        word = next(word);
        test.set(place, word);
    }
    Ok(test)
}

fn time(rt: &HostRuntime) -> io::Result<()> {
    let key = drawn_key(rt.alloc())?;
    let test = drawn_test(rt.alloc())?;
    let c = drawn_words(rt.alloc())?;
    let mut room = Room::new(rt.alloc(), 1, $log_n)?;
    let mut out = Lwe::<Big>::new(rt.alloc(), $n)?;
    let start = Instant::now(rt)?;
    for _ in 0..${rounds}u32 {
        bootstrap_into(&mut out, &mut room, &key, &test, &c);
    }
    let nanoseconds = start.elapsed(rt)?.as_nanos() / $rounds;
    let check = out.word(0) ^ out.word($n);
    println!(rt; "{nanoseconds} {check}")
}

fn main(rt: HostRuntime) -> io::Result<()> {
    time(&rt)
}
RATTLE
    cat > "$temp/crates/$crate/proofs/drawn_row/Invariants.antt" <<ANTT
use Rattle.std.proofs.Common.{◌≡◌, ◌^◌, replicate}
use Rattle.glwe_core.specs.Glwe.{lengths_of}
use Rattle.$crate.proofs.drawn_row.Given as goal

abbrev pub invariant-loop-at : goal.invariant-loop-at
invariant-loop-at l = lengths_of l.c ≡ replicate 2 (2 ^ $log_n)

abbrev pub invariant-loop-place : goal.invariant-loop-place
invariant-loop-place l = lengths_of l.c ≡ replicate 2 (2 ^ $log_n)
ANTT
    cat > "$temp/crates/$crate/proofs/drawn_key/Invariants.antt" <<ANTT
use Rattle.std.proofs.Common.{◌≡◌, length}
use Rattle.blind_rotate.specs.BootKey.{glwe_shape}
use Rattle.$crate.proofs.drawn_key.Given as goal

abbrev pub invariant-loop-place : goal.invariant-loop-place
invariant-loop-place l = record { shape : l.key.shape ≡ glwe_shape 1 $log_n; level : l.key.level ≡ $level; number : length l.key.ggsws ≡ $dim }
ANTT
    cat > "$temp/crates/$crate/proofs/drawn_words/Invariants.antt" <<ANTT
use Rattle.std.proofs.Common.{◌≡◌, length}
use Rattle.$crate.proofs.drawn_words.Given as goal

abbrev pub invariant-loop-at : goal.invariant-loop-at
invariant-loop-at l = length l.c ≡ $((dim + 1))
ANTT
    cat > "$temp/crates/$crate/proofs/drawn_test/Invariants.antt" <<ANTT
use Rattle.std.proofs.Common.{◌≡◌, length}
use Rattle.$crate.proofs.drawn_test.Given as goal

abbrev pub invariant-loop-place : goal.invariant-loop-place
invariant-loop-place l = length l.test ≡ $n
ANTT
    cat > "$temp/crates/$crate/proofs/time/Invariants.antt" <<ANTT
use Rattle.std.proofs.Common.{◌≡◌, length}
use Rattle.blind_rotate.specs.BootKey.{glwe_shape}
use Rattle.$crate.proofs.time.Given as goal

abbrev pub invariant-loop : goal.invariant-loop
invariant-loop l = record { room : l.room ≡ glwe_shape 1 $log_n; out : length l.out ≡ $((n + 1)) }
ANTT
    (cd "$temp/crates/$crate" && rt run > "$temp/first.txt" 2>&1) || { cat "$temp/first.txt"; exit 1; }
    clang -O3 -march=x86-64-v2 -DLOG_N="$log_n" -DDIM="$dim" -DBASE="$base" -DLEVEL="$level" -DROUNDS="$rounds" \
        -o "$temp/plain" "$here/bootstrap.c"
    program=$(find "$temp/crates/$crate/out" -maxdepth 1 -type f -perm -u+x | head -n 1)
    best_program=
    best_plain=
    for _ in 1 2 3; do
        "$program" > "$temp/program.txt"
        "$temp/plain" > "$temp/plain.txt"
        time_program=$(cut -d' ' -f1 "$temp/program.txt")
        time_plain=$(cut -d' ' -f1 "$temp/plain.txt")
        [ -n "$best_program" ] && [ "$best_program" -le "$time_program" ] || best_program=$time_program
        [ -n "$best_plain" ] && [ "$best_plain" -le "$time_plain" ] || best_plain=$time_plain
    done
    [ "$(cut -d' ' -f2 "$temp/program.txt")" = "$(cut -d' ' -f2 "$temp/plain.txt")" ] || { echo "the words differ"; exit 1; }
    echo "bootstrap at 2^$log_n coefficients, $dim mask words, $level digits of $base bits:"
    awk -v p="$best_program" -v c="$best_plain" 'BEGIN { printf "%d ns, plain C %d ns, ratio %.2f\n", p, c, p / c }'
done
