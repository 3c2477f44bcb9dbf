#!/usr/bin/env bash
# Makes a small git repository that has the same ids each time: a merge, branches, and tags of several kinds.
# usage: examples/small-repository.sh FOLDER
set -eu
export GIT_CONFIG_NOSYSTEM=1 GIT_CONFIG_GLOBAL=/dev/null LC_ALL=C
export GIT_AUTHOR_NAME=A GIT_AUTHOR_EMAIL=a@example.com GIT_AUTHOR_DATE='1700000000 +0000'
export GIT_COMMITTER_NAME=A GIT_COMMITTER_EMAIL=a@example.com GIT_COMMITTER_DATE='1700000000 +0000'

git init --quiet --bare --object-format=sha1 "$1"
cd "$1"
git symbolic-ref HEAD refs/heads/main

tree=$(git mktree < /dev/null)
commit() { git commit-tree -m "$1" "${@:2}" "$tree"; }
tag() {
    printf 'object %s\ntype %s\ntag %s\ntagger A <a@example.com> 1700000000 +0000\n\n%s\n' "$2" "$3" "$1" "$1" | git mktag
}

first=$(commit first)
left=$(commit left -p "$first")
right=$(commit right -p "$first")
merge=$(commit merge -p "$left" -p "$right")
release=$(tag v1 "$merge" commit)
signed=$(tag signed "$release" tag)

git update-ref refs/heads/main "$merge"
git update-ref refs/heads/side "$right"
git update-ref refs/tags/plain "$first"
git update-ref refs/tags/v1 "$release"
git update-ref refs/tags/v1-signed "$signed"
