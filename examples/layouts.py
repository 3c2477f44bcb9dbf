"""The layouts of a repository of git, each made anew in a folder. See with_git.py."""

import itertools
import os
import random

from both_ends import BRANCH, add_history, attempt, git, new_repository, refs, tip

COMMITS = 70
TIPS = 1_000


class Layout:
    """A repository: its name, the path at which it is served, and where it lies."""

    # The seeds of what is added.
    seeds = itertools.count(1_000)

    def __init__(self, name, base, path):
        self.name, self.served, self.path = name, path, os.path.join(base, path)
        # Linked work trees share the repository of the main one.
        self.repository = git(self.path, "rev-parse", "--path-format=absolute", "--git-common-dir")

    def grow(self):
        """Adds some commits, a branch and tags, as a push would."""
        seed = next(self.seeds)
        add_history(self.path, 12, seed, f"refs/heads/grown/{seed}", tip(self.path) or None)


def one_pack(base):
    """One pack, and loose refs."""
    return add_history(new_repository(f"{base}/one-pack.git"), COMMITS, 1)


def several_packs(base):
    """Several packs. Refs that are packed, and loose ones that go before them."""
    path = add_history(new_repository(f"{base}/several.git"), COMMITS, 1)
    git(path, "pack-refs", "--all")
    for seed in (2, 3):
        add_history(path, 60, seed, onto=tip(path))
    git(path, "update-ref", "refs/heads/side/1-0", BRANCH)
    git(path, "update-ref", "-d", "refs/heads/side/1-60")
    return path


def unpacked(source, path):
    """The same objects and refs, loose, with streams of each level of compression."""
    new_repository(path)
    for level, line in enumerate(git(source, "rev-list", "--objects", "--no-object-names", "--all").splitlines()):
        kind = git(source, "cat-file", "-t", line)
        body = attempt("git", "cat-file", kind, line, cwd=source).out
        git(path, "-c", f"core.looseCompression={level % 10}", "hash-object", "-t", kind, "-w", "--stdin", data=body)
    for line in refs(source).splitlines():
        id, name = line.split(" ", 1)
        git(path, "update-ref", name, id)
    return path


def loose(base):
    """Loose objects alone."""
    source = add_history(new_repository(f"{base}/to-unpack.git"), 25, 4)
    path = unpacked(source, f"{base}/loose.git")
    assert not os.listdir(f"{path}/objects/pack")
    return path


def alternates(base):
    """Objects in two other repositories, one after the other, one of them by a relative path."""
    middle = f"{base}/middle.git"
    git(None, "clone", "--quiet", "--bare", "--shared", f"{base}/one-pack.git", middle)
    add_history(middle, 40, 5, onto=tip(middle))
    path = f"{base}/alternates.git"
    git(None, "clone", "--quiet", "--bare", "--shared", middle, path)
    with open(f"{path}/objects/info/alternates", "w") as file:
        file.write("# A comment.\n../../middle.git/objects\n")
    add_history(path, 10, 6, onto=tip(path))
    return path


def packed_refs(base):
    """All refs in `packed-refs`, one of them with a name that is not UTF-8."""
    path = add_history(new_repository(f"{base}/packed-refs.git"), COMMITS, 7)
    git(path, "pack-refs", "--all")
    with open(f"{path}/packed-refs", "ab") as file:
        file.write(tip(path).encode() + b" refs/zz/caf\xe9\n")
    return path


def detached(base):
    """HEAD at a commit."""
    path = add_history(new_repository(f"{base}/detached.git"), COMMITS, 8)
    git(path, "update-ref", "--no-deref", "HEAD", f"{BRANCH}~3")
    return path


def unborn(base):
    """HEAD at a branch that is not there, beside others that are."""
    path = add_history(new_repository(f"{base}/unborn.git"), COMMITS, 9)
    git(path, "symbolic-ref", "HEAD", "refs/heads/to-come")
    return path


def empty(base):
    """No object and no ref."""
    return new_repository(f"{base}/empty.git")


def deltas_by_id(base):
    """Deltas that name their base by its id."""
    path = add_history(new_repository(f"{base}/by-id.git"), COMMITS, 10)
    git(path, "-c", "repack.useDeltaBaseOffset=false", "repack", "-adfq")
    return path


def long_chains(base):
    """Deltas of deltas, 250 deep."""
    path = new_repository(f"{base}/chains.git")
    chance = random.Random(11)
    text = [b"%030x\n" % chance.getrandbits(120) for _ in range(300)]
    lines = []
    for number in range(300):
        text[number] = b"changed %d\n" % number
        body = b"".join(text)
        lines.append(b"commit refs/heads/trunk\ncommitter C <c@example.com> %d +0000\ndata 1\nm" % (1_700_000_000 + number))
        lines.append(b"M 100644 inline file\ndata %d\n%s\n" % (len(body), body))
    git(path, "fast-import", "--quiet", data=b"".join(lines))
    git(path, "repack", "-adfq", "--depth=250", "--window=4")
    return path


def tags(base):
    """Tags of trees, blobs and tags, and refs at trees and blobs."""
    path = add_history(new_repository(f"{base}/tags.git"), COMMITS, 12)
    blob = git(path, "hash-object", "-w", "--stdin", data=b"alone\n")
    tree = git(path, "mktree", data=f"100644 blob {blob}\tfile\n".encode())
    git(path, "tag", "-a", "-m", "of a blob", "blob", blob)
    git(path, "tag", "-a", "-m", "of a tree", "tree", tree)
    for number in range(5):
        git(path, "tag", "-a", "-m", "of a tag", f"deep{number}", f"deep{number - 1}" if number else "tree")
    git(path, "update-ref", "refs/tags/plain-blob", git(path, "hash-object", "-w", "--stdin", data=b"other\n"))
    git(path, "update-ref", "refs/tags/plain-tree", f"{BRANCH}~2^{{tree}}")
    git(path, "update-ref", "refs/notes/at-a-tree", tree)
    return path


def thousand_tips(base):
    """A thousand branches, each at a commit of its own."""
    path = new_repository(f"{base}/tips.git")
    lines = []
    for number in range(TIPS):
        lines.append(f"commit refs/heads/tip/{number}\ncommitter C <c@example.com> {1_700_000_000 + number} +0000\n")
        lines.append(f"data 1\nm{f'from refs/heads/tip/{number - 1}' if number else ''}\n")
        lines.append(f"M 100644 inline file{number % 7}\ndata 4\n{number:04}\n")
    git(path, "fast-import", "--quiet", data="".join(lines).encode())
    git(path, "symbolic-ref", "HEAD", f"refs/heads/tip/{TIPS - 1}")
    return path


def work_tree(base):
    """A work tree with its `.git`: loose objects, remote branches, a stash, a detached HEAD."""
    path = f"{base}/work"
    git(None, "clone", "--quiet", f"{base}/one-pack.git", path)
    for number in range(4):
        with open(f"{path}/new", "a") as file:
            file.write(f"{number}\n" * 1000)
        git(path, "add", "new")
        git(path, "commit", "--quiet", "--message", f"c{number}")
    with open(f"{path}/new", "a") as file:
        file.write("stashed\n")
    git(path, "stash", "push", "--quiet")
    git(path, "checkout", "--quiet", "HEAD~2")
    git(path, "tag", "light")
    return path


def linked_work_tree(base):
    """A linked work tree, whose `.git` is a file."""
    git(f"{base}/work", "worktree", "add", "--quiet", "-b", "linked", f"{base}/linked", "HEAD~1")
    assert os.path.isfile(f"{base}/linked/.git")
    return f"{base}/linked"


def submodule(base):
    """A submodule, whose `.git` is a file; its superproject has an entry of it."""
    above = f"{base}/super"
    git(None, "init", "--quiet", "--initial-branch=trunk", above)
    git(above, "submodule", "--quiet", "add", f"{base}/one-pack.git", "inner")
    git(above, "commit", "--quiet", "--message=c")
    assert os.path.isfile(f"{above}/inner/.git")
    return f"{above}/inner"


def superproject(base):
    """The superproject: trees with entries of submodules."""
    return f"{base}/super"


def well_kept(base):
    """A commit-graph in a chain, an index of several packs, a bitmap, a reverse index, a kept pack."""
    path = add_history(new_repository(f"{base}/well-kept.git"), COMMITS, 13)
    git(path, "repack", "-adfqb")
    git(path, "commit-graph", "write", "--reachable", "--split")
    for name in os.listdir(f"{path}/objects/pack"):
        if name.endswith(".pack"):
            open(f"{path}/objects/pack/{name.removesuffix('pack')}keep", "w").close()
    add_history(path, 60, 14, onto=tip(path))
    git(path, "commit-graph", "write", "--reachable", "--split=no-merge")
    git(path, "multi-pack-index", "write")
    add_history(path, 10, 15, onto=tip(path))
    return path


def leftovers(base):
    """Garbage: objects that no ref reaches, temporary files, locks, and files in `refs` that are no refs."""
    path = add_history(new_repository(f"{base}/leftovers.git"), COMMITS, 16)
    git(path, "hash-object", "-w", "--stdin", data=b"of no ref\n")
    add_history(path, 60, 17, branch="refs/heads/dropped")
    for name in ("refs/heads/dropped", "refs/tags/v17", "refs/tags/vv17"):
        git(path, "update-ref", "-d", name)
    files = {
        "objects/pack/tmp_pack_x": b"PACK", "objects/pack/pack-x.idx.lock": b"", "objects/tmp_obj_x": b"x",
        "refs/heads/left.lock": b"", "refs/heads/.hidden": b"1" * 40 + b"\n", "HEAD.lock": b"",
    }
    for name, text in files.items():
        with open(f"{path}/{name}", "wb") as file:
            file.write(text)
    return path


def odd_names(base):
    """Refs with odd names, symbolic refs, notes, replaced objects."""
    path = add_history(new_repository(f"{base}/names.git"), COMMITS, 18)
    for name in ("refs/heads/ä/ö", "refs/pull/1/head", "refs/notes/commits", "refs/heads/a.b-c/@", "refs/x/y/z/" + "n" * 200):
        git(path, "update-ref", name, f"{BRANCH}~1")
    git(path, "symbolic-ref", "refs/remotes/origin/HEAD", "refs/heads/ä/ö")
    git(path, "symbolic-ref", "refs/heads/alias", BRANCH)
    git(path, "symbolic-ref", "HEAD", "refs/heads/alias")
    git(path, "replace", f"{BRANCH}~2", f"{BRANCH}~5")
    return path


def odd_objects(base):
    """Large blobs and trees, empty ones, commits with more lines, and one with 64 parents."""
    path = add_history(new_repository(f"{base}/objects.git"), COMMITS, 19)
    chance = random.Random(19)
    large = git(path, "hash-object", "-w", "--stdin", data=chance.randbytes(3 << 20))
    zeros = git(path, "hash-object", "-w", "--stdin", data=bytes(5 << 20))
    nothing = git(path, "hash-object", "-w", "--stdin")
    entries = "".join(f"100644 blob {nothing}\t{number:05}\n" for number in range(5000))
    wide = git(path, "mktree", data=entries.encode())
    none = git(path, "mktree")
    top = f"100644 blob {large}\tlarge\n100644 blob {zeros}\tzeros\n040000 tree {wide}\twide\n040000 tree {none}\tnone\n"
    tree = git(path, "mktree", data=top.encode())
    who = "A <a@example.com> 1700000000 +0000"
    ids = git(path, "rev-list", "--max-count=64", BRANCH).split()
    text = f"tree {tree}\n" + "".join(f"parent {id}\n" for id in ids) + f"author {who}\ncommitter {who}\n"
    text += "encoding ISO-8859-1\ngpgsig -----BEGIN PGP SIGNATURE-----\n \n x\n -----END PGP SIGNATURE-----\n\ncaf\xe9\n"
    commit = git(path, "hash-object", "-t", "commit", "-w", "--stdin", data=text.encode("latin-1"))
    git(path, "update-ref", "refs/heads/odd", commit)
    if not attempt("git", "repack", "-adq", cwd=path):
        raise OSError("git repack")
    return path


# In this order: some stand on those before.
LAYOUTS = [
    ("one pack", one_pack),
    ("several packs", several_packs),
    ("loose objects", loose),
    ("alternates", alternates),
    ("packed refs", packed_refs),
    ("a detached HEAD", detached),
    ("an unborn HEAD", unborn),
    ("an empty repository", empty),
    ("deltas by id", deltas_by_id),
    ("long chains", long_chains),
    ("tags of trees and blobs", tags),
    ("1,000 tips", thousand_tips),
    ("a work tree", work_tree),
    ("a linked work tree", linked_work_tree),
    ("a submodule", submodule),
    ("a superproject", superproject),
    ("a well-kept repository", well_kept),
    ("leftovers", leftovers),
    ("odd names", odd_names),
    ("odd objects", odd_objects),
]


def make_layouts(base):
    """Makes all layouts below a folder."""
    os.mkdir(base)
    return [Layout(name, base, os.path.relpath(make(base), base)) for name, make in LAYOUTS]
