#!/usr/bin/env bash
# Times `fhec run` on a chain of 400 look-ups (64 coefficients, 8 mask words) and on a look-up of four bits (1,024
# coefficients, 128 mask words) against plain C programs that do as many key switches and bootstraps of the same shape with
# plain products, on drawn words. The program's time has the reading of its files in it. It prints the least of three wall
# times of each in milliseconds, with their ratio.
# Usage: bench/run.sh PROGRAM      (as crates/fhec/out/fhec, after `rt run` in crates/fhec)
set -eu
program=$(readlink -f "$1")
here=$(cd "$(dirname "$0")" && pwd)
folder=$(mktemp -d)
trap 'rm -rf "$folder"' EXIT
cd "$folder"
seed=000102030405060708090a0b0c0d0e0f101112131415161718191a1b1c1d1e1f

table() { # LOG_N ONES ERROR N ONES ERROR BASE LEVEL BASE LEVEL
    printf '[cost]\nswitch = 1\nboot = 1\nlin = 1\n[[glwe]]\nk = 1\nlog_n = %d\nones = %d\nerror = %d\n' "$1" "$2" "$3"
    printf '[[lwe]]\nn = %d\nones = %d\nerror = %d\n[[boot]]\nbase = %d\nlevel = %d\n' "$4" "$5" "$6" "$7" "$8"
    printf '[[switch]]\nbase = %d\nlevel = %d\n' "$9" "${10}"
}

least() { # the least of three wall times of a command, in microseconds
    best=
    for _ in 1 2 3; do
        begin=$(date +%s%N)
        "$@" > /dev/null
        end=$(date +%s%N)
        took=$(((end - begin) / 1000))
        if [ -z "$best" ] || [ "$took" -lt "$best" ]; then best=$took; fi
    done
    echo "$best"
}

timed() { # WHAT VALUES LOOK_UPS LOG_N DIM BASE_B LEVEL_B BASE_S LEVEL_S
    printf "$2" > values
    "$program" compile program table circuit cert
    "$program" keygen circuit "$seed" secret eval
    "$program" encrypt circuit secret "$seed" values inputs
    ours=$(least "$program" run circuit eval inputs output)
    "$program" decrypt secret output > results
    "$program" clear program values > expected
    cmp -s results expected || { echo "$1: the values differ"; exit 1; }
    clang -O3 -march=x86-64-v2 -DLOG_N="$4" -DDIM="$5" -DBASE="$6" -DLEVEL="$7" -DROUNDS="$3" -o boots "$here/bootstrap.c"
    clang -O3 -march=x86-64-v2 -DD=$((1 << $4)) -DN="$5" -DBASE="$8" -DLEVEL="$9" -DROUNDS="$3" -o switches "$here/key_switch.c"
    boots=
    switches=
    for _ in 1 2 3; do
        one=$(./boots | cut -d' ' -f1)
        if [ -z "$boots" ] || [ "$one" -lt "$boots" ]; then boots=$one; fi
        one=$(./switches | cut -d' ' -f1)
        if [ -z "$switches" ] || [ "$one" -lt "$switches" ]; then switches=$one; fi
    done
    plain=$(((boots + switches) * $3 / 1000))
    ratio=$(awk "BEGIN { printf \"%.2f\", $ours / $plain }")
    echo "$1: fhec run $((ours / 1000)) ms, plain C $((plain / 1000)) ms, ratio $ratio"
}

python3 "$here/programs.py" chain 400 > program
table 6 4 1024 8 2 1048576 8 4 4 6 > table
timed 'chain of 400' '0\n1\n' 400 6 8 8 4 4 6

cp "$here/../examples/lookup/program" "$here/../examples/lookup/table" .
timed 'look-up of four bits' '9\n' 1 10 128 12 2 4 4
