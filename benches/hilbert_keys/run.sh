#!/bin/sh
# Times the calls of hilbert_keys beside plain Rust: the least and the median of 20 rounds, in nanoseconds a call.
set -e
here=$(cd "$(dirname "$0")" && pwd)
root=$(cd "$here/../.." && pwd)
scratch=${1:-$(mktemp -d)}
mkdir -p "$scratch/crates/times/src"
for name in cell_space hilbert_keys; do
    mkdir "$scratch/crates/$name"
    cp -r "$root/crates/$name/src" "$root/crates/$name/specs" "$root/crates/$name/proofs" "$scratch/crates/$name/"
    grep "^$name:" "$root/crates.txt"
done > "$scratch/crates.txt"
echo "times: cell_space hilbert_keys" >> "$scratch/crates.txt"
cp "$here/keys.template" "$scratch/crates/times/src/main.rt"
rustc -O -o "$scratch/plain" "$here/plain.rs"
summary() {
    for name in nothing key_of pos_of; do
        grep "^$name " "$1" | sort -k2n | awk -v name=$name -v who="$2" '{ at[NR] = $2; sum = $3 }
            END { printf "%-8s %-8s %6.1f %6.1f  %s\n", name, who, at[1], at[int((NR + 1) / 2)], sum }'
    done
}
(cd "$scratch/crates/times" && rt check > "$scratch/check.log" 2>&1)
(cd "$scratch/crates/times" && rt run) > "$scratch/rattle.txt" 2> "$scratch/run.log"
"$scratch/plain" > "$scratch/plain.txt"
summary "$scratch/rattle.txt" Rattle
summary "$scratch/plain.txt" Rust
