#!/bin/sh
# Times the calls of fixed_point beside plain Rust.
set -e
here=$(cd "$(dirname "$0")" && pwd)
scratch=${1:-$(mktemp -d)}
mkdir -p "$scratch/crates/times/src"
cp -r "$here/../../crates/fixed_point" "$scratch/crates/"
cp "$here/calls.template" "$scratch/crates/times/src/main.rt"
printf 'fixed_point: thiserror\ntimes: fixed_point\n' > "$scratch/crates.txt"
rustc -O -o "$scratch/plain" "$here/plain.rs"
echo "Rattle:"
(cd "$scratch/crates/times" && rt check > "$scratch/check.log" 2>&1 && rt run)
echo "plain Rust:"
"$scratch/plain"
