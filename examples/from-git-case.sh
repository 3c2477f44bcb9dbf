#!/usr/bin/env bash
# Compares what from-git.sh writes with stored texts and, where the program is built, what `gitv2 serve` shows of such a
# text to git with what git shows of the repository itself. It needs git.
# usage: examples/from-git-case.sh [PROGRAM]
set -euo pipefail
cd "$(dirname "$0")/.."
program=$(realpath -m "${1:-crates/gitv2/out/gitv2}")
export GIT_CONFIG_NOSYSTEM=1 GIT_CONFIG_GLOBAL=/dev/null
folder=$(mktemp -d)
server=
finish() {
    [ -z "$server" ] || kill "$server" 2> /dev/null || :
    rm -rf "$folder"
}
trap finish EXIT

wrong() {
    echo "from-git-case.sh: $1" >&2
    exit 1
}

# Compares standard input with the text of $1, which `check` calls whole.
expect() {
    diff "$1" - || wrong "$2"
    [ -x "$program" ] || return 0
    "$program" check "$1" | grep -q ' closed yes safe yes$' || wrong "$2: the text is refused, or not safe"
}

repository="$folder/small.git"
examples/small-repository.sh "$repository"
examples/from-git.sh "$repository" | expect examples/small.repo 'a small repository'

git -C "$repository" update-ref refs/tags/tree "$(git -C "$repository" rev-parse 'main^{tree}')"
examples/from-git.sh "$repository" | expect examples/small.repo 'a ref at a tree'
git -C "$repository" update-ref -d refs/tags/tree

git init --quiet --bare --object-format=sha256 "$folder/empty.git"
git -C "$folder/empty.git" symbolic-ref HEAD refs/heads/main
printf 'gitv2 2 sha256\nh ref refs/heads/main\nend\n' > "$folder/empty.repo"
examples/from-git.sh "$folder/empty.git" | expect "$folder/empty.repo" 'an empty repository'

cp -R "$repository" "$folder/detached.git"
side=$(git -C "$repository" rev-parse side)
git -C "$folder/detached.git" update-ref --no-deref HEAD "$side"
sed "s,^h .*,h id $side," examples/small.repo > "$folder/detached.repo"
examples/from-git.sh "$folder/detached.git" | expect "$folder/detached.repo" 'a detached HEAD'

[ -x "$program" ] || exit 0
"$program" serve --listen 127.0.0.1:0 --path /small --connections 1 examples/small.repo > "$folder/listening" &
server=$!
for _ in $(seq 100); do
    [ -s "$folder/listening" ] && break
    sleep 0.1
done
port=$(cut -d ' ' -f 2 "$folder/listening")
git ls-remote "$repository" > "$folder/git"
git -c protocol.version=2 ls-remote "git://127.0.0.1:$port/small" > "$folder/gitv2"
cmp "$folder/git" "$folder/gitv2" || wrong 'git shows other refs of gitv2 serve'
wait "$server" || wrong 'gitv2 serve failed'
server=
