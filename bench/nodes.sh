#!/bin/bash
# Measures nodes behind locks, and their settlement, beside their cores: bench/nodes.sh. Works in a copy, with what was
# checked already.
set -eu
here=$(cd "$(dirname "$0")/.." && pwd)
copy=$(mktemp -d)
trap 'rm -rf "$copy"' EXIT
bench="$copy/crates/nodes_bench"
mkdir -p "$bench/src" "$bench/proofs/station_core"
crates='x12_numbers x12_envelopes x12_judge x12_acks x12_profile x12_inbound x12_outbound x12_hub x12_station x12_core x12_world x12_nodes'
for crate in $crates; do
  cp -a "$here/crates/$crate" "$copy/crates/$crate"
  grep "^$crate:" "$here/crates.txt" >> "$copy/crates.txt"
done
echo 'nodes_bench: x12_nodes x12_core x12_station x12_hub x12_judge x12_envelopes anyhow' >> "$copy/crates.txt"
cp "$here/bench/nodes/main.rattle" "$bench/src/main.rt"
cp "$here/bench/nodes/answers.rattle" "$bench/proofs/station_core/Answers.antt"
(cd "$bench" && rt run -- 1)
python3 "$here/bench/nodes/measure.py" "$bench/out/nodes_bench"
