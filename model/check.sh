#!/bin/sh
# Makes the vectors and the sheet program's input anew in a temporary folder, with the
# answers to both, and compares them with the stored ones.
set -eu
cd "$(dirname "$0")/.."
fresh=$(mktemp -d)
trap 'rm -r "$fresh"' EXIT
python3 -B model/vectors.py "$fresh/stdin" "$fresh/stdout"
cmp "$fresh/stdin" crates/vectors/stdin
cmp "$fresh/stdout" crates/vectors/stdout
python3 -B model/sheet_input.py "$fresh/stdin" "$fresh/stdout"
cmp "$fresh/stdin" crates/sheet/stdin
cmp "$fresh/stdout" crates/sheet/stdout
