#!/usr/bin/env bash
# Times `fhec compile` on chains of 250, 500 and 1,000 look-ups, and on programs of 288 leaves with 436, 873, 1,747 and
# 3,495 statements that have a weight on each of them (the last has 2^20 weights less some), under a table of one choice;
# and then on the chain of 1,000 under a table of 12 entries a list, 20,736 choices. It prints the least of three wall times in
# milliseconds, and the time of each in parts of the one before.
# Usage: bench/compile.sh PROGRAM      (as crates/fhec/out/fhec, after `rt run` in crates/fhec)
set -eu
program=$(readlink -f "$1")
here=$(cd "$(dirname "$0")" && pwd)
folder=$(mktemp -d)
trap 'rm -rf "$folder"' EXIT
cd "$folder"
python3 "$here/programs.py" table 1 > table
python3 "$here/programs.py" table 12 > many

best() { # the least of three wall times of a command, in milliseconds; the status may be 6, no choice
    least=
    for _ in 1 2 3; do
        begin=$(date +%s%N)
        "$@" 2> line || grep -q 'no choice' line || { cat line >&2; exit 1; }
        end=$(date +%s%N)
        took=$(((end - begin) / 1000000))
        if [ -z "$least" ] || [ "$took" -lt "$least" ]; then least=$took; fi
    done
    echo "$least"
}

last=
show() { # WHAT MILLISECONDS
    if [ -n "$last" ] && [ "$last" -gt 0 ]; then
        echo "$1: $2 ms, $((100 * $2 / last)) % of the one before"
    else
        echo "$1: $2 ms"
    fi
    last=$2
}

for number in 250 500 1000; do
    python3 "$here/programs.py" chain "$number" > chain
    show "chain of $number" "$(best "$program" compile chain table circuit cert)"
done
last=
for number in 436 873 1747 3495; do
    python3 "$here/programs.py" weights "$number" > weights
    show "288 weights in each of $number statements" "$(best "$program" compile weights table circuit cert)"
done
last=
show "chain of 1000, 20,736 choices" "$(best "$program" compile chain many circuit cert)"
echo "refused before the chosen one: $(grep -c '^refused' cert)"
