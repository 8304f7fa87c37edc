#!/usr/bin/env bash
# Times `fhec keygen` for a look-up over a ring of 1,024 (128 mask words, an evaluation file of 12.6 MB) against a plain C
# program that draws as many words by ChaCha20, does a plain product for each row of the boot key and hashes as many bytes.
# The program's time has the writing of its files in it. It prints the least of three wall times of each in milliseconds,
# with their ratio.
# Usage: bench/keygen.sh PROGRAM      (as crates/fhec/out/fhec, after `rt run` in crates/fhec)
set -eu
program=$(readlink -f "$1")
here=$(cd "$(dirname "$0")" && pwd)
folder=$(mktemp -d)
trap 'rm -rf "$folder"' EXIT
cd "$folder"
"$program" compile "$here/../examples/squares/program" "$here/../examples/squares/table" circuit cert
cc -O3 -march=native -o plain "$here/keygen.c"

ours=
plain=
for _ in 1 2 3; do
    begin=$(date +%s%N)
    "$program" keygen circuit 000102030405060708090a0b0c0d0e0f101112131415161718191a1b1c1d1e1f secret eval
    end=$(date +%s%N)
    took=$(((end - begin) / 1000000))
    if [ -z "$ours" ] || [ "$took" -lt "$ours" ]; then ours=$took; fi
    read -r took _ < <(./plain)
    if [ -z "$plain" ] || [ "$took" -lt "$plain" ]; then plain=$took; fi
done
ratio=$(awk "BEGIN { printf \"%.2f\", $ours / $plain }")
echo "keygen: $ours ms, plain products in C: $plain ms, ratio $ratio"
