#!/usr/bin/env bash
# Times `fhec run` on 64 inputs of dimension 24,576 and 1,088 sums of 64 terms, of which 64 are put out, beside a
# plain C loop that does all of these sums over the same words. It makes its files in a temporary folder.
# Usage: bench/weighted_sums.sh PROGRAM      (as crates/fhec/out/fhec, after `rt run` in crates/fhec)
set -eu
program=$(readlink -f "$1")
folder=$(mktemp -d)
trap 'rm -rf "$folder"' EXIT
cd "$folder"

python3 - <<'PYTHON'
import hashlib, random, struct

random.seed(1)
N, NODES, TERMS, D = 64, 1088, 64, 24576
head = "glwe 3 13 0 1\nlwe 1 0 0\nboot 1 1\nswitch 1 1\n"
weights = [[random.choice([-3, -2, -1, 1, 2, 3]) for _ in range(TERMS)] for _ in range(NODES)]
ends = [(sum(min(0, w) for w in ws), sum(max(0, w) for w in ws)) for ws in weights]
outs = range(NODES - 64, NODES)
span = max(ends[i][1] - ends[i][0] for i in outs)
width = max(1, span.bit_length())
lines = ["%%%d = input 0 1" % i for i in range(N)]
for i, ws in enumerate(weights):
    lines.append("%%%d = lin 0 " % (N + i) + " ".join("%d %%%d" % (w, j) for j, w in enumerate(ws)))
lines += ["out %%%d %d %d" % (N + i, *ends[i]) for i in outs]
open("circuit", "w").write("fhec circuit 1\nwidth %d\n" % width + head + "\n".join(lines) + "\nend\n")
words = random.randbytes(8 * N * (D + 1))
body = b"FHECCIP1" + hashlib.sha256(head.encode()).digest() + struct.pack("<3Q", D, width, N)
body += struct.pack("<2q", 0, 1) * N + words
open("inputs", "wb").write(body + hashlib.sha256(body).digest())
open("words", "wb").write(words)
open("weights", "wb").write(b"".join(struct.pack("<64q", *weights[i]) for i in range(NODES)))
PYTHON

cat > sums.c <<'C'
#include <stdint.h>
#include <stdio.h>
#include <stdlib.h>

enum { N = 64, NODES = 1088, OUTS = 64, D = 24577 };
static uint64_t in[N][D], out[NODES][D], w[NODES][N];

int main(void) {
    FILE *f = fopen("words", "rb");
    if (!f || fread(in, 8, (size_t)N * D, f) != (size_t)N * D) return 1;
    fclose(f);
    f = fopen("weights", "rb");
    if (!f || fread(w, 8, NODES * N, f) != NODES * N) return 1;
    fclose(f);
    for (int o = 0; o < NODES; o++)
        for (int i = 0; i < N; i++)
            for (int d = 0; d < D; d++) out[o][d] += w[o][i] * in[i][d];
    f = fopen("sums", "wb");
    if (!f || fwrite(out[NODES - OUTS], 8, (size_t)OUTS * D, f) != (size_t)OUTS * D) return 1;
    return fclose(f);
}
C
cc -O2 -ftree-vectorize -o plain sums.c

best() { # the least of five wall times of a command, in milliseconds
    least=
    for _ in 1 2 3 4 5; do
        begin=$(date +%s%N)
        "$@" || exit 1
        end=$(date +%s%N)
        took=$(((end - begin) / 1000000))
        if [ -z "$least" ] || [ "$took" -lt "$least" ]; then least=$took; fi
    done
    echo "$least"
}
ours=$(best "$program" run circuit - inputs output)
plain=$(best ./plain)
python3 - "$ours" "$plain" <<'PYTHON'
import sys
data, sums = open("output", "rb").read(), open("sums", "rb").read()
assert data[64 + 16 * 64:-32] == sums, "the sums differ"
ours, plain = map(int, sys.argv[1:])
print("fhec run: %d ms, plain C loop: %d ms, ratio %.2f" % (ours, plain, ours / plain))
PYTHON
