#!/bin/bash
# Measures `vanlab answer` beside mawk and Debian's X12::Parser: bench/run.sh [FOLDER FOR THE INPUTS]
set -eu
here=$(cd "$(dirname "$0")" && pwd)
if [ $# -gt 0 ]; then
  folder=$1
else
  folder=$(mktemp -d)
  trap 'rm -rf "$folder"' EXIT
fi
"$here/../vanlab" --version
[ -f "$folder/noisy_16.edi" ] || python3 "$here/inputs.py" "$folder"
python3 "$here/measure.py" "$folder" "$here/../crates/vanlab/out/vanlab"
