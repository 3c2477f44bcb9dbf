#!/usr/bin/env bash
# Measures the program, beside git where it is there, and prints one table. docs/PERFORMANCE.md says what its rows are.
# usage: bench/run.sh [COMMITS [REFS [TIMES]]]   by default 1000000 commits, 65536 refs, and the best of 5
# The program is $GITV2, or crates/gitv2/out/gitv2, which `rt run` in crates/gitv2 builds. The data is made anew, in a
# folder for temporary files. 1,000 commits are the fewest.
set -eu
cd "$(dirname "$0")/.."
program=$(realpath "${GITV2:-crates/gitv2/out/gitv2}")
[ -x "$program" ] || { echo "bench/run.sh: no program at $program" >&2; exit 1; }
folder=$(mktemp -d)
trap 'rm -rf "$folder"' EXIT
python3 -B bench/measure.py "$program" "$folder" "${1:-1000000}" "${2:-65536}" "${3:-5}"
