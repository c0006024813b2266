#!/bin/bash
# Measures a station over records in memory: bench/station.sh. Works in a copy, with what was checked already.
set -eu
here=$(cd "$(dirname "$0")/.." && pwd)
copy=$(mktemp -d)
trap 'rm -rf "$copy"' EXIT
mkdir -p "$copy/crates/station_bench/src" "$copy/crates/station_bench/proofs/opened"
crates='x12_numbers x12_envelopes x12_judge x12_acks x12_profile x12_outbound x12_inbound x12_station'
for crate in $crates; do
  cp -a "$here/crates/$crate" "$copy/crates/$crate"
  grep "^$crate:" "$here/crates.txt" >> "$copy/crates.txt"
done
echo 'station_bench: x12_station x12_judge x12_envelopes anyhow' >> "$copy/crates.txt"
cp "$here/bench/station/main.rattle" "$copy/crates/station_bench/src/main.rt"
cp "$here/bench/station/opened.answers" "$copy/crates/station_bench/proofs/opened/Answers.antt"
cd "$copy/crates/station_bench"
rt run
