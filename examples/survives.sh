#!/usr/bin/env bash
# Tries, by hand, whether the file of a client survives: too small a limit on files, a full disk (root only), a kill at
# random moments, two fetches at once, and a lock that is there. FILE has to be whole each time, and a fetch that reports
# success has to be in it. It needs python3 and the built program.
# usage: examples/survives.sh [PROGRAM]
set -eu
cd "$(dirname "$0")/.."
exec python3 examples/survives.py "${1:-crates/gitv2/out/gitv2}"
