#!/usr/bin/env bash
# Tries the commands that open sockets, by hand: conversations byte for byte, both ends in one process, git at the other
# end, ten thousand connections with flat memory, and peers that are silent or slow (which takes two minutes).
# It needs python3, git with its daemon, and the built program.
# usage: examples/over-tcp.sh [PROGRAM]
set -eu
cd "$(dirname "$0")/.."
exec python3 examples/over_tcp.py "${1:-crates/gitv2/out/gitv2}"
