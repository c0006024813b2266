#!/bin/bash
# Measures `vanlab script`: bench/script.sh [PROGRAM WORDS..], beside a program that runs the same scripts, if one is named.
set -eu
here=$(cd "$(dirname "$0")" && pwd)
"$here/../vanlab" --version
python3 "$here/script/measure.py" "$here/../crates/vanlab/out/vanlab" "$@"
