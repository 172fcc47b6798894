#!/bin/sh
# Times the calls of pair_law, as they are and as they were at a commit, beside plain Rust.
set -e
here=$(cd "$(dirname "$0")" && pwd)
root=$(cd "$here/../.." && pwd)
before=${1:-7f2ef16}
scratch=${2:-$(mktemp -d)}
mkdir -p "$scratch/crates/times/src" "$scratch/then"
for name in fixed_point cell_space nbody_model model_laws node_moments ewald_table pair_law; do
    mkdir "$scratch/crates/$name"
    cp -r "$root/crates/$name/src" "$root/crates/$name/specs" "$root/crates/$name/proofs" "$scratch/crates/$name/"
    grep "^$name:" "$root/crates.txt"
done > "$scratch/crates.txt"
git -C "$root" archive "$before" crates/pair_law | tar -x -C "$scratch/then"
mv "$scratch/then/crates/pair_law" "$scratch/crates/pair_then"
rm -rf "$scratch/crates/pair_then/src/tests.rt" "$scratch/crates/pair_then/must-fail"
grep -rl 'Rattle\.pair_law\.' "$scratch/crates/pair_then" | xargs sed -i 's/Rattle\.pair_law\./Rattle.pair_then./g'
sed -i '/^#\[cfg(test)\]$/d; /^mod tests;$/d' "$scratch/crates/pair_then/src/lib.rt"
grep '^pair_law:' "$root/crates.txt" | sed 's/^pair_law/pair_then/' >> "$scratch/crates.txt"
echo "times: fixed_point cell_space nbody_model node_moments pair_law pair_then" >> "$scratch/crates.txt"
cp "$here/main.template" "$scratch/crates/times/src/main.rt"
cp "$here/pairs.template" "$scratch/crates/times/src/pairs.rt"
sed 's/FORM/pair_law/' "$here/calls.template" > "$scratch/crates/times/src/now.rt"
sed 's/FORM/pair_then/' "$here/calls.template" > "$scratch/crates/times/src/then.rt"
(cd "$scratch/crates/times" && rt check > "$scratch/check.log" 2>&1 && rt run) | python3 "$here/rounds.py"
rustc -O -o "$scratch/plain" "$here/plain.rs"
echo "plain Rust:"
"$scratch/plain"
