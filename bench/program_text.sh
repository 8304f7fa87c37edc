#!/bin/sh
# Times the reading of five program texts in a built program against ten passes over their tokens (`lex`), in one run,
# the fastest of five: 2^20 bytes of comments and spaces before a program, statements of one a line up to 2^20 bytes,
# 64 arguments, a dense list of 2^16 numbers, and 2^20 brackets. It prints both in microseconds, what was read, and
# fails where one reading takes longer than the ten passes.
set -eu
here=$(cd "$(dirname "$0")" && pwd)
temp=$(mktemp -d)
trap 'rm -rf "$temp"' EXIT
mkdir -p "$temp/crates/text_timing/src"
for crate in lists refusals mlir_lex fhe_text; do
    cp -r "$here/../crates/$crate" "$temp/crates/"
done
cat > "$temp/crates.txt" <<'CRATES'
lists:
refusals:
mlir_lex: lists
fhe_text: mlir_lex lists refusals indexmap
text_timing: fhe_text mlir_lex refusals
CRATES
cat > "$temp/crates/text_timing/src/main.rt" <<'RATTLE'
#![tactic(auto)]

use fhe_text::read_program;
use mlir_lex::lex;
use refusals::Refusal;
use std::io::{self, Read};
use std::time::Instant;

fn main(rt: HostRuntime) -> io::Result<()> {
    let mut bytes = Vec::new(rt.alloc());
    rt.stdin().read_to_end(&mut bytes)?;
    if bytes.len() > 1 << 20 {
        return Ok(());
    }
    let mut tokens = 0;
    let start = Instant::now(&rt)?;
    for _ in 0..10 {
        tokens = lex(rt.alloc(), &bytes)?.list.len();
    }
    let passes = start.elapsed(&rt)?.as_micros();
    let start = Instant::now(&rt)?;
    let read = read_program(rt.alloc(), &bytes);
    let reading = start.elapsed(&rt)?.as_micros();
    match read {
        Ok(source) => println!(rt; "{passes} {reading} {tokens} tokens, {} statements", source.body.len())?,
        Err(Refusal::Fault(fault)) => println!(rt; "{passes} {reading} {tokens} tokens, fault at {}:{}", fault.line, fault.column)?,
        Err(Refusal::Memory) => println!(rt; "{passes} {reading} {tokens} tokens, no memory")?,
    }
    Ok(())
}
RATTLE
python3 - "$temp" <<'PYTHON'
import sys

folder, most = sys.argv[1], 1 << 20
head = "func.func @f(%a: !FHE.eint<2>) -> !FHE.eint<2> {\n"
end = "return %a : !FHE.eint<2>\n}\n"


def put(name, text):
    assert len(text) <= most
    open(f"{folder}/{name}.txt", "w").write(text)


program = head + end
put("comments", "// a comment of some words\n   \t " * ((most - len(program)) // 32) + program)
lines, size = [head], len(head) + len(end)
while True:
    line = f'  %{len(lines)} = "FHE.neg_eint"(%a) : (!FHE.eint<2>) -> !FHE.eint<2>\n'
    if size + len(line) > most:
        break
    lines.append(line)
    size += len(line)
put("statements", "".join(lines) + end)
args = ", ".join(f"%a{i}: !FHE.eint<4> {{fhec.range = [0, {i}]}}" for i in range(64))
put("arguments", f"func.func @f({args}) -> !FHE.eint<4> {{ return %a0 : !FHE.eint<4> }}\n")
numbers = ", ".join(str(i % 256) for i in range(1 << 16))
put("list", head + f"%b = arith.constant dense<[{numbers}]> : tensor<65536xi64>\n" + end)
put("brackets", "func.func @f(%a: !FHE.eint<2>) -> " + "(" * (most - 64))
PYTHON
cd "$temp/crates/text_timing"
: > stdin
rt run > "$temp/first.txt" 2>&1 || { cat "$temp/first.txt"; exit 1; }
program=$(find out -maxdepth 1 -type f -perm -u+x | head -n 1)
late=0
for name in comments statements arguments list brackets; do
    best=
    for _ in 1 2 3 4 5; do
        line=$("$program" < "$temp/$name.txt")
        if [ -z "$best" ] || [ "$(echo "$line" | cut -d' ' -f2)" -lt "$(echo "$best" | cut -d' ' -f2)" ]; then best=$line; fi
    done
    echo "$name: $(echo "$best" | awk '{ p = $1; r = $2; $1 = $2 = ""; printf "reading %d us, ten passes %d us,%s", r, p, $0 }')"
    [ "$(echo "$best" | cut -d' ' -f2)" -le "$(echo "$best" | cut -d' ' -f1)" ] || late=1
done
exit $late
