#!/bin/sh
# Times the building of a tree beside plain Rust: the least and the median of 5 rounds, in milliseconds, and the peak of memory.
set -e
here=$(cd "$(dirname "$0")" && pwd)
root=$(cd "$here/../.." && pwd)
scratch=${1:-$(mktemp -d)}
mkdir -p "$scratch/crates/times/src"
below="fixed_point cell_space hilbert_keys nbody_model model_laws node_moments octree_build particle_set"
for name in $below; do
    mkdir "$scratch/crates/$name"
    cp -r "$root/crates/$name/src" "$root/crates/$name/specs" "$root/crates/$name/proofs" "$scratch/crates/$name/"
    grep "^$name:" "$root/crates.txt"
done > "$scratch/crates.txt"
echo "times: fixed_point cell_space nbody_model particle_set octree_build" >> "$scratch/crates.txt"
mkdir -p "$scratch/crates/times/proofs/rows_of"
cp "$here/tree.template" "$scratch/crates/times/src/main.rt"
cp "$here/rows.template" "$scratch/crates/times/proofs/rows_of/Invariants.antt"
rustc -O -o "$scratch/plain" "$here/plain.rs"
summary() {
    for name in uniform-100000 uniform-1000000 clustered-1000000; do
        for part in sort build; do
            grep "^$name $part " "$1" | sort -k3n | awk -v name=$name -v part=$part -v who="$2" '{ at[NR] = $3; sum = $4 }
                END { printf "%-18s %-6s %-8s %6d %6d  %s\n", name, part, who, at[1], at[int((NR + 1) / 2)], sum }'
        done
    done
}
(cd "$scratch/crates/times" && rt check > "$scratch/check.log" 2>&1)
(cd "$scratch/crates/times" && rt run) > "$scratch/rattle.txt" 2> "$scratch/run.log"
"$scratch/plain" > "$scratch/plain.txt"
summary "$scratch/rattle.txt" Rattle
summary "$scratch/plain.txt" Rust
peak() {
    /usr/bin/time -f "%M" "$@" one 2>&1 >/dev/null | awk -v who="$1" '{ printf "peak of one tree of 1000000 bodies: %d KB (%s)\n", $1, who }' | sed "s#$scratch/##"
}
peak "$scratch/crates/times/out/times"
peak "$scratch/plain"
