#!/bin/bash
# Measures a network over records in memory: bench/world.sh [PROGRAM WORDS..], beside a program that does the same work, if
# one is named. Works in a copy, with what was checked already.
set -eu
here=$(cd "$(dirname "$0")/.." && pwd)
copy=$(mktemp -d)
trap 'rm -rf "$copy"' EXIT
bench="$copy/crates/world_bench"
mkdir -p "$bench/src" "$bench/proofs/new_station"
crates='x12_numbers x12_envelopes x12_judge x12_acks x12_profile x12_inbound x12_outbound x12_hub x12_station x12_core x12_world'
for crate in $crates; do
  cp -a "$here/crates/$crate" "$copy/crates/$crate"
  grep "^$crate:" "$here/crates.txt" >> "$copy/crates.txt"
done
echo 'world_bench: x12_world x12_station x12_hub x12_outbound x12_inbound x12_acks x12_judge x12_envelopes anyhow' >> "$copy/crates.txt"
cp "$here/bench/world/main.rattle" "$bench/src/main.rt"
cp "$here/bench/world/answers.rattle" "$bench/proofs/new_station/Answers.antt"
(cd "$bench" && rt run)
python3 "$here/bench/world/measure.py" "$bench/out/world_bench" "$@"
