#!/usr/bin/env bash
# Tries gitrepo with git at the other end, both ways, over each layout of a repository. Every repository that comes out has to
# pass `git fsck --full --strict`, and to have the same objects and refs. It prints a line for each check, and at last their
# number and that of the wrong ones. The gate runs it. It needs python3, git with its daemon, and the built program.
# usage: examples/with-git.sh [PROGRAM]
set -eu
cd "$(dirname "$0")/.."
exec python3 -B examples/with_git.py "${1:-crates/gitrepo/out/gitrepo}"
