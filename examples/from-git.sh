#!/usr/bin/env bash
# Writes the history of a git repository as a file of gitv2: its commits, tags, refs and HEAD.
# It leaves out each ref that leads to no commit. It fails if a commit has more than 64 parents; the text then lacks
# its last line, so that gitv2 refuses it.
# usage: examples/from-git.sh [REPOSITORY] > FILE
set -euo pipefail
# A server of git shows the objects themselves, not their replacements.
export LC_ALL=C GIT_NO_REPLACE_OBJECTS=1
cd "${1:-.}"

format_line() {
    case $(git rev-parse --show-object-format) in
    sha1) echo 'gitv2 1' ;;
    sha256) echo 'gitv2 2 sha256' ;;
    esac
}

# Parents come before their children.
commits() {
    git rev-list --topo-order --reverse --parents --all |
        awk 'NF > 65 { print "too many parents: " $1 > "/dev/stderr"; exit 1 } { print "c " $0 }'
}

# `r ID NAME` for each ref that leads to a commit, in the byte order of the names.
refs() {
    local all
    all=$(git for-each-ref --sort=refname --format='%(objectname) %(refname)')
    paste -d ' ' <(sed 's/ .*/^{commit}/' <<< "$all" | git cat-file --batch-check='%(objecttype)' 2> /dev/null) <(echo "$all") |
        sed -n 's/^commit /r /p'
}

# The line of a tag object. A tag that it points at comes first.
tag() {
    local object
    [ "$(git cat-file -t "$1")" = tag ] || return 0
    object=$(git cat-file tag "$1" | sed -n '1s/^object //p')
    tag "$object"
    echo "t $1 $object"
}

# Two refs can lead to one tag object.
tags() {
    while read -r _ id name; do
        case $name in ?*) tag "$id" ;; esac
    done <<< "$1" | awk '!seen[$0]++'
}

head_line() {
    local name
    if name=$(git symbolic-ref --quiet HEAD); then
        echo "h ref $name"
    else
        echo "h id $(git rev-parse --verify HEAD)"
    fi
}

format_line
commits
shown=$(refs)
tags "$shown"
[ -z "$shown" ] || echo "$shown"
head_line
echo end
