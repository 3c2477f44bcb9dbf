#!/usr/bin/env bash
# Tries gitrepo, by hand, against peers that lie and against trouble, with Git at the other end: packs that are wrong in each
# way, a server and a client that say what they must not, a directory that changes while it is read, a full disk (root only),
# kills at random moments, and fetches at once. Nothing wrong may be taken, nothing may be left behind but tmp_*, *.lock and
# *.keep after a kill, no process may have more than 600 MB, and no byte of a peer may reach the terminal that is no printable one.
# The gate runs what needs no Git: the rows of crates/gitcases (packs, indexes, loose objects, refs, URLs and paths), and
# examples/trouble.py, the same trouble on real files, sockets and a terminal. docs/CASES.md has both.
# By hand alone: Git reads what is left (git fsck), Git itself makes the changes, kills are at random, and fetches run at once.
# It needs python3, git with its daemon, and the built program, and takes some minutes.
# usage: examples/hostile.sh [PROGRAM]
set -eu
cd "$(dirname "$0")/.."
exec python3 -B examples/hostile.py "${1:-crates/gitrepo/out/gitrepo}"
