"""Makes repositories to measure: files of gitv2, and the same histories as repositories of git."""

import hashlib
import subprocess

WHO = "A <a@example.com> 1 +0000"


def id_of(number):
    return hashlib.sha1(b"%d" % number).hexdigest()


def parents_of(number, has_merges):
    """The parents of a commit: the one before, and of each second one in a history with merges one further back."""
    if number == 0:
        return []
    if has_merges and number % 2 == 0:
        return [number - 1, max(0, number - 2 - number % 16)]
    return [number - 1]


class Shape:
    """A history: so many commits, with merges or without, and so many refs beside `main`, each fourth of them a tag."""

    def __init__(self, commits, refs=0, has_merges=False):
        self.commits, self.refs, self.has_merges = commits, refs, has_merges

    def ref_names(self):
        """The refs in the order of their names, each with the commit that it is about and whether it is a tag."""
        for number in range(self.refs):
            kind = "tags" if number % 4 == 3 else "heads"
            yield f"refs/{kind}/feature-{number:06}", number * self.commits // self.refs, kind == "tags"

    def write_file(self, path, ref="refs/heads/main", head="ref refs/heads/main"):
        """Writes a file of gitv2."""
        ids = [id_of(number) for number in range(self.commits)]
        with open(path, "w") as file:
            file.write("gitv2 1\n")
            for number, id in enumerate(ids):
                parents = "".join(f" {ids[parent]}" for parent in parents_of(number, self.has_merges))
                file.write(f"c {id}{parents}\n")
            refs = [(ref, ids[-1])]
            for name, commit, is_tag in self.ref_names():
                id = id_of(-1 - commit) if is_tag else ids[commit]
                if is_tag:
                    file.write(f"t {id} {ids[commit]}\n")
                refs.append((name, id))
            file.writelines(f"r {id} {name}\n" for name, id in sorted(refs))
            file.write(f"h {head}\nend\n")

    def stream(self):
        """The history as `git fast-import` reads it."""
        for number in range(self.commits):
            parents = parents_of(number, self.has_merges)
            yield f"commit refs/heads/main\nmark :{number + 1}\ncommitter {WHO}\ndata 0\n"
            yield "".join(f"{'merge' if place else 'from'} :{it + 1}\n" for place, it in enumerate(parents))
        for name, commit, is_tag in self.ref_names():
            if is_tag:
                yield f"tag {name.removeprefix('refs/tags/')}\nfrom :{commit + 1}\ntagger {WHO}\ndata 0\n"
            else:
                yield f"reset {name}\nfrom :{commit + 1}\n\n"

    def write_git(self, path):
        """Makes a repository of git, with its refs packed and a commit graph, as one that is kept well has them."""
        git("init", "--quiet", "--bare", "--initial-branch=main", path)
        import_ = subprocess.Popen(
            ["git", "fast-import", "--quiet"], cwd=path, stdin=subprocess.PIPE, stderr=subprocess.DEVNULL, text=True
        )
        import_.stdin.writelines(self.stream())
        import_.stdin.close()
        if import_.wait():
            raise OSError("git fast-import failed")
        git("pack-refs", "--all", cwd=path)
        git("commit-graph", "write", "--reachable", cwd=path)


def git(*words, cwd=None):
    subprocess.run(["git", *words], cwd=cwd, check=True, stdout=subprocess.DEVNULL, stderr=subprocess.DEVNULL)


def packets(*lines):
    """Packet lines of texts; `0000` and `0001` are the flush and the delimiter."""
    return b"".join(
        line.encode() if line in ("0000", "0001") else b"%04x%s\n" % (len(line) + 5, line.encode()) for line in lines
    )
