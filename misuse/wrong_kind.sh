#!/bin/sh
# Shows that a ciphertext under the small key is no source of a key switch: the call that gives one does not compile,
# because of its type, and the same call with a ciphertext under the big key is proved.
set -eu
here=$(cd "$(dirname "$0")" && pwd)
temp=$(mktemp -d)
trap 'rm -rf "$temp"' EXIT
mkdir -p "$temp/crates/wrong_kind/src"
for crate in word_ring negacyclic gadget_decomp lwe_core key_switch; do
    cp -r "$here/../crates/$crate" "$temp/crates/"
done
cat > "$temp/crates.txt" <<'CRATES'
word_ring:
negacyclic: word_ring
gadget_decomp: word_ring negacyclic
lwe_core: word_ring
key_switch: word_ring lwe_core gadget_decomp
wrong_kind: lwe_core key_switch
CRATES
cd "$temp/crates/wrong_kind"
write() {
    cat > src/lib.rt <<RATTLE
#![tactic(auto)]

use key_switch::{SwitchKey, switch_into};
use lwe_core::{$1, Lwe};

pub fn switched(out: &mut Lwe<Small>, key: &SwitchKey, source: &Lwe<$2>) {
    if source.dim() == key.big_dim() && out.dim() == key.small_dim() {
        switch_into(out, key, source);
    }
}
RATTLE
}
write "Big, Small" Big
rt check > "$temp/right.txt" 2>&1 || { cat "$temp/right.txt"; echo "the right kind is refused"; exit 1; }
write "Small" Small
if rt check > "$temp/wrong.txt" 2>&1; then
    echo "the wrong kind is accepted"
    exit 1
fi
grep -q 'error\[mismatched-types\]: expected `&Lwe<Big>`, found `&Lwe<Small>`' "$temp/wrong.txt" || { cat "$temp/wrong.txt"; echo "refused for another reason"; exit 1; }
grep -m1 'error\[mismatched-types\]' "$temp/wrong.txt"
echo "a source under the small key does not compile"
