#!/bin/sh
# Has git itself list the refs of a repository's file that `gitv2 upload` serves: by default those of the sample.
# usage: examples/ls-remote.sh [FILE]
set -eu
top=$(cd "$(dirname "$0")/.." && pwd)
file=$(realpath "${1:-$top/examples/server.repo}")
# In an ext:: address a space ends a word; "% " stands for a space, and "%%" for a percent sign.
escaped() { printf '%s' "$1" | sed 's/%/%%/g; s/ /% /g'; }
program=$(escaped "$top/crates/gitv2/out/gitv2")
exec git -c protocol.version=2 -c protocol.ext.allow=always \
    ls-remote "ext::$program upload $(escaped "$file")"
