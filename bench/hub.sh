#!/bin/bash
# Measures a hub over records in memory: bench/hub.sh. Works in a copy, with what was checked already.
set -eu
here=$(cd "$(dirname "$0")/.." && pwd)
copy=$(mktemp -d)
trap 'rm -rf "$copy"' EXIT
mkdir -p "$copy/crates/hub_bench/src"
crates='x12_numbers x12_envelopes x12_judge x12_acks x12_profile x12_hub'
for crate in $crates; do
  cp -a "$here/crates/$crate" "$copy/crates/$crate"
  grep "^$crate:" "$here/crates.txt" >> "$copy/crates.txt"
done
echo 'hub_bench: x12_hub x12_envelopes anyhow' >> "$copy/crates.txt"
cp "$here/bench/hub/main.rattle" "$copy/crates/hub_bench/src/main.rt"
cd "$copy/crates/hub_bench"
rt run
