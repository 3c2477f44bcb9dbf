"""Tries gitrepo with git at the other end. usage: with_git.py PROGRAM [SECONDS]; see with-git.sh.

It makes each layout of a repository (layouts.py) below one folder, which `gitrepo serve` and `git daemon` both serve. Nothing
leaves 127.0.0.1, and the folder is removed at the end. A run that takes longer than so many seconds, 300 by default, is wrong.
"""

import os
import random
import re
import shutil
import signal
import socket
import subprocess
import sys
import tempfile
import threading
import time
from concurrent.futures import ThreadPoolExecutor

from bare import put_entries, write
from both_ends import (
    BRANCH, ENV, Gitrepo, GitDaemon, add_history, answer_to, attempt, faults_of, git, has_git, hello, left_behind,
    new_repository, objects, packet, refs, stored, tip,
)
from layouts import make_layouts, unpacked
from lies import WHO, by_id, by_offset, copy_of, id_of, size_of, whole

PROGRAM = os.path.abspath(sys.argv[1])
LIMIT = int(sys.argv[2]) if len(sys.argv) > 2 else 300
HEADS, TAGS = "+refs/heads/*:refs/heads/*", "+refs/tags/*:refs/tags/*"
SHARED = ["refs/heads", "refs/tags"]
# So many layouts are tried at a time.
AT_A_TIME = 4
# The number of distinct tips, and of commits that a server lacks. No request that `gitv2` reads may name so many.
MANY = 20_000
tried = 0
wrong = []
lock = threading.Lock()


def check(what, is_right, got=""):
    """Prints a line of a check, and answers whether it is right."""
    global tried
    with lock:
        tried += 1
        if is_right:
            print(f"ok    {what}", flush=True)
        else:
            wrong.append(what)
            print(f"WRONG {what}: {str(got)[:900]}", flush=True)
    return is_right


def gitrepo(*words, **more):
    return attempt(PROGRAM, *words, **more)


def is_sentence(text):
    """Whether a text is one line that names the program and says more."""
    return re.fullmatch(r"gitrepo: \S.*[^\n]\n", text) is not None


def refuses(what, done, *words):
    """A run has to end with status 1 and one sentence, in which one of these words is."""
    says = is_sentence(done.told) and (not words or any(word in done.told for word in words))
    check(f"{what}: refused in a sentence", done.status == 1 and says and done.out == b"", done)


def same_repository(what, path, copy, *prefixes):
    """The copy has to pass fsck, and to have the refs with these prefixes and their objects."""
    which = ["--branches", "--tags"] if prefixes else ["--all"]
    check(f"{what}: fsck --full --strict", not faults_of(copy), faults_of(copy))
    check(f"{what}: the same objects", objects(path, *which) == objects(copy))
    check(f"{what}: the same refs", refs(path, *prefixes) == refs(copy), refs(copy))


def head_of(path):
    with open(f"{path}/HEAD") as file:
        return file.read()


# ---- git clones and fetches from gitrepo


def served(folder, layout, ours, theirs):
    """git lists, clones and fetches a layout from `gitrepo serve`."""
    name, url = f"git from {layout.name}", ours.url(layout.served)
    listed, due = attempt("git", "ls-remote", url), attempt("git", "ls-remote", theirs.url(layout.served))
    check(f"{name}: ls-remote", listed and listed.out == due.out, listed)
    mirror, other = f"{folder}/mirror", f"{folder}/other"
    done = attempt("git", "clone", "--quiet", "--mirror", url, mirror)
    if not check(f"{name}: clone --mirror", done, done):
        return
    git(None, "clone", "--quiet", "--mirror", theirs.url(layout.served), other)
    same_repository(f"{name}: clone --mirror", layout.path, mirror)
    check(f"{name}: HEAD", head_of(mirror) == head_of(other), head_of(mirror))
    check(f"{name}: no object more", stored(mirror) == objects(mirror))
    layout.grow()
    done = attempt("git", "fetch", "--quiet", "origin", cwd=mirror)
    if check(f"{name}: fetch of what is new", done, done):
        same_repository(f"{name}: fetch of what is new", layout.path, mirror)


def one_branch(folder, ours):
    copy = f"{folder}/branch"
    done = attempt("git", "clone", "--quiet", "--single-branch", "--branch=side/1-0", ours.url("one-pack.git"), copy)
    check("git clones one branch", done, done)
    check("one branch: its refs", refs(copy, "refs/remotes").split("\n")[0].endswith("/side/1-0"), refs(copy))
    check("one branch: a clean work tree", git(copy, "status", "--porcelain") == "")
    check("one branch: no object more", stored(copy) == objects(copy))
    done = attempt("git", "fetch", "--quiet", "origin", f"{BRANCH}:refs/remotes/origin/trunk", cwd=copy)
    check("one branch, and then another", done and tip(copy, "origin/trunk") == tip(f"{folder}/served/one-pack.git"), done)
    check("one branch, and then another: fsck", not faults_of(copy), faults_of(copy))


def under_a_server(folder, ours):
    """Pushes, packing and rewinding while the server runs, which has read the repository before."""
    path, mirror, work = f"{folder}/served/live.git", f"{folder}/live-mirror", f"{folder}/live-work"
    add_history(new_repository(path), 80, 31)
    git(None, "clone", "--quiet", "--mirror", ours.url("live.git"), mirror)
    git(None, "clone", "--quiet", path, work)

    def fetched(what):
        done = attempt("git", "fetch", "--quiet", "--prune", "origin", cwd=mirror)
        check(f"{what}, then a fetch", done and refs(mirror) == refs(path) and not faults_of(mirror), done)
        clone = tempfile.mkdtemp(dir=folder)
        done = attempt("git", "clone", "--quiet", "--mirror", ours.url("live.git"), clone)
        check(f"{what}, then a clone", done and objects(clone) == objects(path) and not faults_of(clone), done)

    def push(number):
        with open(f"{work}/pushed", "a") as file:
            file.write(f"{number}\n" * 100)
        git(work, "add", "pushed")
        git(work, "commit", "--quiet", "--message=pushed")
        git(work, "push", "--quiet", "origin", "HEAD:trunk", f"HEAD:refs/heads/pushed/{number}")

    push(1)
    fetched("a push")
    git(path, "gc", "--quiet", "--prune=now")
    fetched("git gc")
    push(2)
    git(path, "repack", "-adfq", "--depth=10")
    fetched("a push and a repack")
    git(path, "pack-refs", "--all")
    git(path, "prune-packed")
    fetched("pack-refs")
    git(work, "reset", "--quiet", "--hard", "HEAD~4")
    git(work, "push", "--quiet", "--force", "origin", "HEAD:trunk", ":pushed/1")
    git(path, "gc", "--quiet", "--prune=now")
    fetched("a rewound branch, a deleted one, and git gc")
    git(path, "commit-graph", "write", "--reachable")
    push(3)
    fetched("a commit-graph and a push")
    git(path, "symbolic-ref", "HEAD", "refs/heads/pushed/3")
    listed = git(None, "ls-remote", "--symref", ours.url("live.git"), "HEAD")
    check("HEAD at another branch", listed.startswith("ref: refs/heads/pushed/3\tHEAD"), listed)


def upload_pack(folder, layouts):
    """`gitrepo upload-pack` at the far end of file://."""
    for layout in layouts:
        if layout.name in ("one pack", "a work tree", "a linked work tree", "a submodule", "an empty repository"):
            copy = f"{folder}/piped-{layout.name.replace(' ', '-')}"
            words = ["clone", "--quiet", "--mirror", "-u", f"{PROGRAM} upload-pack", f"file://{layout.path}", copy]
            done = attempt("git", *words)
            if check(f"git clone -u 'gitrepo upload-pack' of {layout.name}", done, done):
                same_repository(f"upload-pack of {layout.name}", layout.path, copy)
    path = layouts[0].path
    for protocol in ("", "version=1", "version=0", "version=20"):
        more = {"GIT_PROTOCOL": protocol} if protocol else {}
        done = gitrepo("upload-pack", path, env=ENV | more)
        said = done.out[4:8] == b"ERR " and b"version=2" in done.out and int(done.out[:4], 16) == len(done.out)
        check(f"upload-pack with GIT_PROTOCOL='{protocol}': an ERR line", said and done.status == 1, done)
    for protocol in ("version=2", "version=1:version=2", "other:version=2", "version=2:key=value"):
        done = gitrepo("upload-pack", path, env=ENV | {"GIT_PROTOCOL": protocol})
        check(f"upload-pack with GIT_PROTOCOL='{protocol}'", b"version 2\n" in done.out, done)
    done = attempt("git", "-c", "protocol.version=0", "ls-remote", f"--upload-pack={PROGRAM} upload-pack", f"file://{path}")
    check("git of protocol version 0 shows the ERR line", done.status == 128 and "version=2" in done.told, done)
    done = attempt("git", "ls-remote", f"--upload-pack={PROGRAM} upload-pack", f"file://{folder}/nothing.git")
    check("upload-pack of nothing: an error", done.status == 128, done)


# ---- gitrepo clones and fetches from git


def cloned(folder, layout, theirs):
    """`gitrepo` lists, clones and fetches a layout from `git daemon`."""
    name, url = f"gitrepo from {layout.name}", theirs.url(layout.served)
    listed, due = gitrepo("ls", url), attempt("git", "ls-remote", url)
    check(f"{name}: ls", listed and listed.out == due.out, listed)
    copy, other = f"{folder}/clone", f"{folder}/like"
    done = gitrepo("clone", "--quiet", url, copy)
    if not check(f"{name}: clone", done and done.told == "", done):
        return
    git(None, "clone", "--quiet", "--bare", url, other)
    same_repository(f"{name}: clone", other, copy, *SHARED)
    check(f"{name}: HEAD", head_of(copy) == head_of(other), head_of(copy))
    check(f"{name}: no object more", stored(copy) == objects(copy))
    check(f"{name}: the index of git index-pack", are_indexes_of_git(copy))
    check(f"{name}: gitrepo check", gitrepo("check", copy), gitrepo("check", copy))
    layout.grow()
    done = gitrepo("fetch", "--quiet", copy, url, HEADS, TAGS)
    if check(f"{name}: fetch of what is new", done, done):
        same_repository(f"{name}: fetch of what is new", layout.path, copy, *SHARED)
        check(f"{name}: nothing left behind", not left_behind(copy), left_behind(copy))


def are_indexes_of_git(path):
    """Whether each index is, byte for byte, what `git index-pack` makes of the pack, under the name that git gives it."""
    packs = f"{path}/objects/pack"
    for name in os.listdir(packs):
        stem, _, extension = name.rpartition(".")
        if extension == "pack":
            made = f"{path}/made.idx"
            git(path, "index-pack", "-o", made, f"{packs}/{name}")
            same = read(made) == read(f"{packs}/{stem}.idx")
            os.remove(made)
            if not same or stem != f"pack-{read(f'{packs}/{name}')[-20:].hex()}":
                return False
    return True


def read(path):
    with open(path, "rb") as file:
        return file.read()


def updates(folder, theirs):
    """What a fetch does to refs: forced and not, locked, in the way of others; and what it says."""
    path, url = f"{folder}/served/updated.git", theirs.url("updated.git")
    add_history(new_repository(path), 130, 41)
    copy = f"{folder}/updated"
    check("clone for the updates", gitrepo("clone", url, copy))
    side, other = "refs/heads/side/41-60", "refs/heads/side/41-120"
    before = tip(copy, side)
    packs = sorted(os.listdir(f"{copy}/objects/pack"))
    done = gitrepo("fetch", copy, url, HEADS, TAGS)
    check("a fetch of nothing", done and packs == sorted(os.listdir(f"{copy}/objects/pack")), done)
    git(path, "update-ref", side, "refs/heads/side/41-0")
    done = gitrepo("fetch", copy, url, f"{side}:{side}")
    refuses("a ref that would be rewound", attempt(PROGRAM, "fetch", "--quiet", copy, url, f"{side}:{side}"), "fast-forward")
    check("a ref that would be rewound stays, and the status is 1", tip(copy, side) == before and done.status == 1, done)
    locked(copy, url, side, before)
    done = gitrepo("fetch", copy, url, f"+{side}:{side}")
    check("a ref that is forced moves", done and tip(copy, side) == tip(path, side), done)
    done = gitrepo("fetch", copy, url, f"{other}:refs/remotes/origin/x")
    check("a ref of another name", done and tip(copy, "refs/remotes/origin/x") == tip(path, other), done)
    before = refs(copy)
    done = gitrepo("fetch", copy, url, f"{other}:refs/heads/trunk/below")
    refuses("a ref below another", done, "refs/heads/trunk")
    check("a ref below another: the refs stay", refs(copy) == before)
    done = gitrepo("fetch", copy, url, "refs/heads/none:refs/heads/none")
    check("a ref that the server does not have", done.status == 1 and refs(copy) == before, done)
    done = attempt("git", "clone", "--quiet", copy, f"{folder}/updated-work")
    check("git clones what gitrepo fetched", done and git(f"{folder}/updated-work", "status", "--porcelain") == "", done)
    done = attempt("git", "gc", "--quiet", "--prune=now", cwd=copy)
    check("git gc of what gitrepo fetched", done and not faults_of(copy), done)
    add_history(path, 30, 42, onto=tip(path))
    done = gitrepo("fetch", copy, url, HEADS, TAGS)
    check("a fetch after git gc", done and refs(copy, *SHARED) == refs(path) and not faults_of(copy), done)
    check("updates: nothing left behind", not left_behind(copy), left_behind(copy))


def locked(copy, url, name, before):
    """A lock in the way: the ref stays, and so does the lock."""
    lock = f"{copy}/{name}.lock"
    os.makedirs(os.path.dirname(lock), exist_ok=True)
    open(lock, "w").close()
    done = gitrepo("fetch", copy, url, f"+{name}:{name}")
    refuses("a lock in the way", done, f"{name}.lock", "locked")
    check("a lock in the way: the ref stays", tip(copy, name) == before)
    check("a lock in the way: the lock stays", left_behind(copy) == [lock], left_behind(copy))
    os.remove(lock)


def into_work_trees(folder, layouts, theirs):
    """A fetch into a work tree, and into those whose `.git` is a file."""
    for layout in layouts:
        if layout.name in ("a work tree", "a linked work tree", "a submodule"):
            name = "refs/remotes/other/trunk"
            url = theirs.url("live.git")
            done = gitrepo("fetch", layout.path, url, f"+{BRANCH}:{name}")
            due = tip(f"{folder}/served/live.git")
            check(f"a fetch into {layout.name}", done and tip(layout.path, name) == due, done)
            check(f"a fetch into {layout.name}: fsck", not faults_of(layout.path), faults_of(layout.path))
            check(f"gitrepo check of {layout.name}", gitrepo("check", layout.path), gitrepo("check", layout.path))


def protected(folder, theirs):
    """What a fetch must not move: a branch that is checked out, and a branch to what is no commit."""
    path, url = f"{folder}/served/updated.git", theirs.url("updated.git")
    work = f"{folder}/checked-out"
    git(None, "clone", "--quiet", path, work)
    head = git(work, "symbolic-ref", "HEAD")
    before = refs(work)
    add_history(path, 3, 43, onto=tip(path))
    for spelt in (work, f"{work}/", f"{work}/.git", f"{work}/.git/", f"{work}/.git/."):
        refuses(f"a branch that is checked out, {spelt[len(folder):]}", gitrepo("fetch", spelt, url, f"+{BRANCH}:{head}"), head)
    refuses("a branch that is checked out, .", gitrepo("fetch", ".", url, f"+{BRANCH}:{head}", cwd=f"{work}/.git"), head)
    check("a branch that is checked out stays", refs(work) == before and git(work, "status", "--porcelain") == "")
    bare = f"{folder}/bare/.git"
    git(None, "clone", "--quiet", "--bare", work, bare)
    done = gitrepo("fetch", f"{folder}/bare", url, f"+{BRANCH}:{head}")
    check("a bare repository has no branch that is checked out", done and tip(bare, head) == tip(path), done)
    git(None, "clone", "--quiet", "--bare", work, f"{folder}/hidden/.bare")
    write(f"{folder}/hidden/.git", b"gitdir: ./.bare\n")
    done = gitrepo("fetch", f"{folder}/hidden", url, f"+{BRANCH}:{head}")
    check("nor has one that a file leads to", done and tip(f"{folder}/hidden/.bare", head) == tip(path), done)
    git(work, "checkout", "--quiet", "--detach")
    for name, text in (("rebase-merge/head-name", head), ("rebase-merge/update-refs", f"{head}\n{'0' * 40}"),
                       ("rebase-apply/head-name", head), ("BISECT_START", head.removeprefix("refs/heads/"))):
        write(f"{work}/.git/{name}", f"{text}\n".encode())
        refuses(f"a branch that {name} names", gitrepo("fetch", work, url, f"+{BRANCH}:{head}"), "rebased or bisected")
        os.remove(f"{work}/.git/{name}")
    done = gitrepo("fetch", work, url, f"+{BRANCH}:{head}")
    check("a branch that nothing names", done and tip(work, head) == tip(path), done)
    copy = f"{folder}/protected"
    check("clone for what is protected", gitrepo("clone", url, copy))
    before = refs(copy)
    tag = git(path, "for-each-ref", "--format=%(refname)", "refs/tags").split("\n")[0]
    git(path, "update-ref", "refs/files/one", git(path, "rev-parse", f"{BRANCH}:"))
    for source in (tag, "refs/files/one"):
        refuses(f"a branch at {source}", gitrepo("fetch", copy, url, f"{source}:refs/heads/odd"), "refs/heads/odd")
    check("no branch is at a tag or a tree", refs(copy) == before)
    check("what is protected: nothing left behind", not left_behind(copy), left_behind(copy))
    done = attempt("bash", "-c", f"ulimit -n 64 && exec '{PROGRAM}' fetch '{copy}' '{url}' 'refs/heads/*:refs/many/*'")
    check("a fetch of many refs with few descriptors", done and not faults_of(copy), done)


def into_folders(folder, theirs):
    """A clone into an empty folder keeps its permissions, and makes the folders above a new one."""
    url = theirs.url("live.git")
    empty = f"{folder}/private"
    os.mkdir(empty, 0o700)
    for what, words, there in (("fails", [theirs.url("none.git")], []), ("is done", [url], None)):
        done = gitrepo("clone", "--quiet", *words, empty)
        mode = os.stat(empty).st_mode & 0o777
        check(f"a clone into an empty folder {what}: its permissions", mode == 0o700, done)
        check(f"a clone into an empty folder {what}", bool(done) == (there is None) and there in (None, os.listdir(empty)), done)
    check("a clone into an empty folder: fsck", not faults_of(empty), faults_of(empty))
    write(f"{folder}/file", b"")
    refuses("a clone to a file", gitrepo("clone", url, f"{folder}/file"), "exists and is not an empty directory")
    refuses("a clone below a file", gitrepo("clone", url, f"{folder}/file/below"), "cannot open")
    os.mkdir(f"{folder}/here")
    done = gitrepo("clone", "--quiet", url, ".", cwd=f"{folder}/here")
    check("a clone into the folder that is current", done and not faults_of(f"{folder}/here"), done)
    done = gitrepo("clone", "--quiet", url, f"{folder}/above/below/new.git")
    check("a clone below folders that are not there", done and not faults_of(f"{folder}/above/below/new.git"), done)


def odd_head(folder, theirs):
    """HEAD outside of refs/heads: that of a clone is detached, as Git has it."""
    path = add_history(new_repository(f"{folder}/served/odd-head.git"), 5, 44)
    git(path, "update-ref", "refs/odd/one", tip(path))
    git(path, "symbolic-ref", "HEAD", "refs/odd/one")
    copy = f"{folder}/odd-head"
    done = gitrepo("clone", theirs.url("odd-head.git"), copy)
    check("HEAD outside of refs/heads is detached", done and head_of(copy) == tip(path) + "\n" and not faults_of(copy), done)
    git(path, "tag", "--annotate", "--message", "t", "odd", BRANCH)
    git(path, "symbolic-ref", "HEAD", "refs/tags/odd")
    done = gitrepo("clone", theirs.url("odd-head.git"), f"{copy}-tag")
    head = done and head_of(f"{copy}-tag")
    check("HEAD at a tag is detached at its commit", head == tip(path) + "\n" and not faults_of(f"{copy}-tag"), done)


def home(folder):
    """`~/` of upload-pack is HOME."""
    done = gitrepo("upload-pack", "~/one-pack.git", env=ENV | {"GIT_PROTOCOL": "version=2", "HOME": f"{folder}/served"})
    check("upload-pack of ~/", b"version 2\n" in done.out, done)


def both_ends(folder, ours):
    copy = f"{folder}/both"
    done = gitrepo("clone", ours.url("live.git"), copy)
    if check("gitrepo clones from gitrepo", done, done):
        same_repository("gitrepo from gitrepo", f"{folder}/served/live.git", copy, *SHARED)
    for prefix in ("refs/heads/", "refs/tags/v", "HEAD", "refs/none"):
        all_refs, some = gitrepo("ls", ours.url("live.git")), gitrepo("ls", ours.url("live.git"), prefix)
        due = b"".join(it for it in all_refs.out.splitlines(True) if it.split(b"\t")[1].startswith(prefix.encode()))
        check(f"gitrepo ls with the prefix {prefix}", some and some.out == due, some)


# ---- what is large


def with_tips(path, count):
    """A repository with so many branches, each at a commit without parents."""
    form = b"reset refs/tip\n\ncommit refs/tip\nmark :%d\ncommitter C <c@example.com> %d +0000\ndata 1\nm\n"
    lines = b"".join(form % (number, number) for number in range(1, count + 1))
    marks = f"{new_repository(path)}/marks"
    git(path, "fast-import", "--quiet", f"--export-marks={marks}", data=lines)
    git(path, "update-ref", "-d", "refs/tip")
    ids = [line.split()[1] for line in read(marks).decode().splitlines()]
    # Git would make a file for each branch first, which takes long.
    with open(f"{path}/packed-refs", "w") as file:
        file.write("# pack-refs with: peeled fully-peeled sorted \n")
        file.writelines(f"{id} refs/heads/tip/{number:05}\n" for number, id in enumerate(ids))
    return path


def many_tips(folder, ours, theirs):
    """Clones of many distinct tips, and a fetch of many of their names."""
    for count in (1_500, MANY):
        name = f"tips-{count}.git"
        path = with_tips(f"{folder}/served/{name}", count)
        check(f"{count:,} distinct tips are made", len(set(refs(path).split())) == 2 * count)
        for what, words in (
            (f"git clone of {count:,} tips", ["git", "clone", "--quiet", "--mirror", ours.url(name)]),
            (f"gitrepo clone of {count:,} tips", [PROGRAM, "clone", "--quiet", theirs.url(name)]),
        ):
            copy = tempfile.mkdtemp(dir=folder)
            done = attempt(*words, copy)
            if check(what, done, done):
                same_repository(what, path, copy)
    due = refs(path).splitlines()[::MANY // 100]
    copy = new_repository(f"{folder}/named")
    names = [line.split()[1] for line in due]
    done = attempt("git", "fetch", "--quiet", ours.url(name), *(f"{it}:{it}" for it in names), cwd=copy)
    check(f"git fetch of {len(due)} names at once", done and refs(copy).splitlines() == due and not faults_of(copy), done)


def with_commits(path, source, count):
    """A repository with one ref, which is so many commits after a branch of another one."""
    git(new_repository(path), "fetch", "--quiet", "--no-tags", source, f"{BRANCH}:refs/own/branch")
    lines = b"".join(
        b"commit refs/own/branch\nmark :%d\ncommitter C <c@example.com> %d +0000\ndata 1\nm\nfrom %s\n"
        % (number, 1_800_000_000 + number, b":%d" % (number - 1) if number > 1 else tip(source).encode())
        for number in range(1, count + 1)
    )
    git(path, "fast-import", "--quiet", data=lines)
    return path


def many_commits(folder, ours, theirs):
    """Fetches into a repository that has many commits which the server lacks: the client names them all."""
    path = add_history(new_repository(f"{folder}/served/behind.git"), 40, 71)
    ahead = with_commits(f"{folder}/ahead", path, MANY)
    add_history(path, 12, 72, onto=tip(path))
    for what, words in (
        ("git", ["git", "fetch", "--quiet", ours.url("behind.git"), HEADS, TAGS]),
        ("gitrepo", [PROGRAM, "fetch", "--quiet", ".", theirs.url("behind.git"), HEADS, TAGS]),
    ):
        name = f"{what} fetch with {MANY:,} commits that the server lacks"
        copy = shutil.copytree(ahead, f"{folder}/ahead-{what}")
        done = attempt(*words, cwd=copy, env=ENV | {"GIT_TRACE_PACKET": "1"})
        if check(name, done, done):
            check(f"{name}: fsck --full --strict", not faults_of(copy), faults_of(copy))
            check(f"{name}: the same refs", refs(path) == refs(copy, *SHARED), refs(copy))
            check(f"{name}: its own stay", refs(copy, "refs/own") == refs(ahead))
        if what == "git":
            haves = done.told.count("fetch> have ")
            check(f"{name}: it names them all", haves > MANY, haves)


def large_pack(folder, ours, theirs):
    """A pack of more than 64 MiB: our server sends it, and our client accepts it.

    Its last blobs are a text and a delta of it. By then 64 MiB are in memory, so our client reads the text back from its file.
    """
    path = new_repository(f"{folder}/served/large.git")
    chance = random.Random(73)
    text = chance.randbytes(900_000)
    commit = b"commit %s\ncommitter C <c@example.com> 1700000000 +0000\ndata 1\nm\n" % BRANCH.encode()
    lines = b""
    for added in (b"", b"more"):
        lines += commit + b"M 100644 inline text\ndata %d\n%s\n" % (len(text + added), text + added)
    for number, size in enumerate([4 << 20] * 17 + [len(text)] * 4):
        lines += b"M 100644 inline %d\ndata %d\n%s\n" % (number, size, chance.randbytes(size))
    # As one pack, without a search for deltas and without compression.
    settings = ("fastimport.unpackLimit=1", "core.bigFileThreshold=1m", "core.compression=0")
    git(path, *(word for setting in settings for word in ("-c", setting)), "fast-import", "--quiet", data=lines)
    for name, words in (
        ("git", ["git", "clone", "--quiet", "--mirror", ours.url("large.git")]),
        ("gitrepo", [PROGRAM, "clone", "--quiet", theirs.url("large.git")]),
    ):
        what, copy = f"{name} clone of 72 MiB", f"{folder}/large-{name}"
        done = attempt(*words, copy)
        if check(what, done, done):
            same_repository(what, path, copy)
            check(f"{what}: nothing left behind", not left_behind(copy), left_behind(copy))


def stored_twice(folder, ours):
    """A pack has a blob whole, and again as deltas of a delta of it. The pack that is served has no circle of deltas."""
    first = b"a line\n" * 20
    second = first + b"more"
    tree = b"100644 first\0" + id_of("blob", first) + b"100644 second\0" + id_of("blob", second)
    commit = b"tree %s\n%s\nm\n" % (id_of("tree", tree).hex().encode(), WHO)
    base, copied = whole("blob", first), copy_of(0, len(first))
    change = size_of(len(first)) + size_of(len(second)) + copied + b"\4more"
    back = by_id(id_of("blob", second), size_of(len(second)) + size_of(len(first)) + copied)
    for number, entries in enumerate((
        [(first, base), (second, by_offset(len(base), change)), *[(first, back)] * 8],
        [(first, back), (second, by_id(id_of("blob", first), change)), (first, base), (first, back)],
    )):
        path = new_repository(f"{folder}/served/stored-twice-{number}.git")
        entries = [(id_of("blob", body), entry) for body, entry in entries]
        put_entries(path, entries + [(id_of(kind, body), whole(kind, body)) for kind, body in (("tree", tree), ("commit", commit))])
        git(path, "update-ref", BRANCH, id_of("commit", commit).hex())
        for name, words in (("git", ["git", "clone", "--quiet", "--mirror"]), ("gitrepo", [PROGRAM, "clone", "--quiet"])):
            what, copy = f"{name} clone of a blob that is stored twice, {number}", f"{folder}/stored-twice-{name}-{number}"
            done = attempt(*words, ours.url(f"stored-twice-{number}.git"), copy)
            if check(what, done, done):
                same_repository(what, path, copy)
        check(f"a blob that is stored twice, {number}: gitrepo check", gitrepo("check", path))


def tags_alone(folder, ours):
    """A client that has the tagged commits receives the tags alone."""
    path, copy = new_repository(f"{folder}/served/tags-alone.git"), f"{folder}/tags-alone"
    add_history(path, 60, 47)
    for number, commit in enumerate(git(path, "rev-list", BRANCH).split()[::7]):
        git(path, "tag", "--annotate", "--message=t", f"old{number}", commit)
    git(None, "clone", "--quiet", "--bare", "--single-branch", "--no-tags", ours.url("tags-alone.git"), copy)
    before = stored(copy)
    done = attempt("git", "fetch", "--quiet", "--tags", "origin", cwd=copy)
    check("tags alone: fetched", done and refs(copy, "refs/tags") == refs(path, "refs/tags") and not faults_of(copy), done)
    tags = git(path, "for-each-ref", "--format=%(objectname)", "refs/tags").split()
    more = set(stored(copy)) - set(before) - set(tags)
    check("tags alone: nothing more", not more, [git(copy, "cat-file", "-t", it) for it in more])


def changed_meanwhile(folder):
    """A repository changes during a fetch into it. No ref moves if the fetch relies on an object that git gc removed."""
    path, hook, other, mine = new_repository(f"{folder}/changed.git"), f"{folder}/hook", "refs/heads/other", "refs/heads/mine"
    merged, single, same, gc = "refs/heads/merged", "refs/heads/single", "refs/heads/same", "gc --quiet --prune=now"
    add_history(path, 20, 48)
    add_history(path, 20, 49, branch=other, onto=tip(path))
    for name, parents, tree in ((merged, (BRANCH, other), other), (single, (BRANCH,), BRANCH), (same, (BRANCH,), other)):
        words = [word for parent in parents for word in ("-p", parent)]
        git(path, "update-ref", name, git(path, "commit-tree", *words, "-m", "m", f"{tree}^{{tree}}"))
    # With a bitmap, git sends no object that a common commit reaches.
    git(path, "repack", "-a", "-d", "-b", "--quiet")
    for number, (what, names, before, changes, lost) in enumerate((
        ("a branch is deleted and pruned", [merged], (), (f"update-ref -d {other}", gc), other),
        ("a branch with the same tree is deleted and pruned", [same], (), (f"update-ref -d {other}", gc), other),
        ("a branch is deleted", [merged], (), (f"update-ref -d {other}",), None),
        ("a branch of its own is replaced and pruned", [merged], (f"update-ref {mine} {{own}}",), (f"update-ref {mine} {BRANCH}", gc), None),
        ("HEAD leaves a commit that is pruned", [single, other], (f"update-ref --no-deref HEAD {other}", f"update-ref -d {other}"),
         (f"symbolic-ref HEAD {BRANCH}", gc), "HEAD"),
    )):
        copy = new_repository(f"{folder}/changed-{number}.git")
        git(copy, "fetch", "--quiet", "--no-tags", path, f"{BRANCH}:{BRANCH}", f"{other}:{other}")
        own = git(copy, "commit-tree", "-p", BRANCH, "-m", "own", f"{BRANCH}^{{tree}}")
        for words in before:
            git(copy, *words.format(own=own).split())
        git(copy, "repack", "-a", "-d", "--quiet")
        lines = " && ".join(f"git -C '{copy}' {words}" for words in changes)
        write(hook, f'#!/bin/sh\n{lines}\nexec "$@"\n'.encode())
        os.chmod(hook, 0o755)
        with GitDaemon(folder, before=("-c", f"uploadpack.packObjectsHook={hook}")) as theirs:
            done = gitrepo("fetch", copy, theirs.url("changed.git"), *(f"{name}:{name}" for name in names))
        if lost:
            refuses(f"a fetch while {what}", done, f"{lost} was deleted or moved during the fetch")
        else:
            check(f"a fetch while {what}", done, done)
        moved = [name for name in names if tip(copy, name) == tip(path, name)]
        check(f"a fetch while {what}: the refs that move", moved == ([] if lost else names), refs(copy))
        check(f"a fetch while {what}: fsck", not faults_of(copy), faults_of(copy))


# ---- what is broken or refused


def broken_refs(folder, ours):
    """A repository with a broken ref is not served: if the ref were left out, a fetch that prunes would delete the copy."""
    path = add_history(new_repository(f"{folder}/served/broken-refs.git"), 20, 61)
    good, mirror = refs(path), f"{folder}/broken-refs"
    for name, text in {"dangling": b"ref: refs/heads/nobody\n", "circle": b"ref: refs/heads/circle\n"}.items():
        write(f"{path}/refs/heads/{name}", text)
    done = attempt("git", "clone", "--quiet", "--mirror", ours.url("broken-refs.git"), mirror)
    check("symbolic refs to no ref are left out of a clone", done and refs(mirror) == good and not faults_of(mirror), done)
    broken = {"broken": b"", "zeros": b"0" * 40 + b"\n", "words": b"no id\n", "short": b"12345\n", "climbs": b"ref: ../../HEAD\n"}
    for name, text in {**broken, "missing": b"1" * 40 + b"\n"}.items():
        write(f"{path}/refs/heads/{name}", text)
        done = attempt("git", "-C", mirror, "fetch", "--quiet", "--prune", "origin")
        check(f"a fetch with --prune, a ref is {name}: refused", done.status and "cannot be read" in done.told, done)
        check(f"a fetch with --prune, a ref is {name}: nothing is deleted", refs(mirror) == good, refs(mirror))
        refuses(f"gitrepo check, a ref is {name}", gitrepo("check", path), f"refs/heads/{name}", "1" * 40)
        os.remove(f"{path}/refs/heads/{name}")
    done = attempt("git", "-C", mirror, "fetch", "--quiet", "--prune", "origin")
    check("a fetch with --prune, no ref is broken", done and refs(mirror) == good, done)
    git(path, "pack-refs", "--all")
    line = f" {BRANCH}\n".encode()
    write(f"{path}/packed-refs", read(f"{path}/packed-refs").replace(line, line + b"1" * 40 + b" refs/heads/missing\n"))
    done = attempt("git", "ls-remote", ours.url("broken-refs.git"))
    check("git ls-remote, the object of a packed ref is missing: the ref is listed", done and b"refs/heads/missing" in done.out, done)
    done = attempt("git", "-C", mirror, "fetch", "--quiet", "--prune", "origin")
    check("a fetch with --prune, the object of a packed ref is missing: refused", done.status and "cannot be read" in done.told, done)
    check("a fetch with --prune, the object of a packed ref is missing: nothing is deleted", refs(mirror) == good, refs(mirror))
    refuses("gitrepo check, the object of a packed ref is missing", gitrepo("check", path), "refs/heads/missing", "1" * 40)


def unreachable_trees(folder):
    """A pack names a tree that the client has, but no ref reaches it and its blob is missing. So the pack is refused."""
    source = new_repository(f"{folder}/unreachable/source.git")
    blob = git(source, "hash-object", "-w", "--stdin", data=b"a\n")
    line = f"100644 blob {blob}\tfile\n"
    inner = git(source, "mktree", data=line.encode())
    outer = git(source, "mktree", data=f"040000 tree {inner}\tfolder\n".encode())
    commit = git(source, "commit-tree", "-m", "a", outer)
    git(source, "update-ref", BRANCH, commit)
    hook = f"{folder}/unreachable/hook"
    with open(hook, "w") as file:
        file.write(f"#!/bin/sh\ncat > /dev/null\nprintf '{commit}\\n{outer}\\n' | git pack-objects --stdout -q\n")
    os.chmod(hook, 0o755)
    copy = new_repository(f"{folder}/unreachable/copy.git")
    git(copy, "mktree", "--missing", data=line.encode())
    with GitDaemon(f"{folder}/unreachable", before=["-c", f"uploadpack.packObjectsHook={hook}"]) as server:
        refuses("a pack names an incomplete tree", gitrepo("fetch", copy, server.url("source.git"), HEADS), blob)
    check("a pack names an incomplete tree: no ref moves", refs(copy) == "", refs(copy))
    check("a pack names an incomplete tree: nothing left behind", not left_behind(copy), left_behind(copy))


def change_an_entry(path, id):
    """Changes a byte of the entry of an object, in the only pack."""
    (index,) = [name for name in os.listdir(f"{path}/objects/pack") if name.endswith(".idx")]
    index = f"{path}/objects/pack/{index}"
    lines = attempt("git", "show-index", data=read(index)).out.decode().splitlines()
    (offset,) = [int(line.split()[0]) for line in lines if line.split()[1] == id]
    pack = index.replace(".idx", ".pack")
    text = bytearray(read(pack))
    text[offset + 12] ^= 16
    os.chmod(pack, 0o644)
    with open(pack, "wb") as file:
        file.write(text)


def damaged(folder, ours):
    """Objects that are missing or changed: no clone is wrong, gitrepo check names what is wrong, and the server goes on."""
    source = add_history(new_repository(f"{folder}/to-damage.git"), 12, 62)
    ids = {
        "commit": git(source, "rev-parse", f"{BRANCH}~2"), "tree": git(source, "rev-parse", f"{BRANCH}~2^{{tree}}"),
        "blob": git(source, "rev-list", "--objects", "--filter=object:type=blob", "--no-object-names", BRANCH).split("\n")[-1],
        "tag": git(source, "rev-parse", "refs/tags/v62"),
    }
    loose = unpacked(source, f"{folder}/to-damage-loose.git")
    for kind, id in ids.items():
        name = f"without-a-{kind}.git"
        path = shutil.copytree(loose, f"{folder}/served/{name}")
        os.remove(f"{path}/objects/{id[:2]}/{id[2:]}")
        done = attempt("git", "clone", "--quiet", "--mirror", ours.url(name), f"{folder}/{name}")
        check(f"a {kind} is missing: no clone", done.status == 128 or kind == "tag", done)
        done = gitrepo("check", path)
        check(f"a {kind} is missing: gitrepo check names it", done.status == 1 and id in done.told, done)
        check(f"a {kind} is missing: gitrepo check says what names it", (" names it)" in done.told) == (kind != "tag"), done)
    path = add_history(new_repository(f"{folder}/served/changed.git"), 80, 63)
    change_an_entry(path, git(path, "rev-parse", f"{BRANCH}^{{tree}}"))
    done = attempt("git", "clone", "--quiet", "--mirror", ours.url("changed.git"), f"{folder}/changed.git")
    check("a pack is changed: no clone", done.status == 128, done)
    done = gitrepo("check", path)
    check("a pack is changed: gitrepo check names it", done.status == 1 and ".pack" in done.told, done)
    check("damaged repositories: the server goes on", attempt("git", "ls-remote", ours.url("one-pack.git")))


def unreadable(folder):
    """Repositories of a kind that gitrepo does not read, and a word that the sentence has to say."""
    source = f"{folder}/served/one-pack.git"
    shallow, sha256, reftable, partial = [f"{folder}/served/{it}.git" for it in ("shallow", "sha256", "reftable", "partial")]
    git(None, "clone", "--quiet", "--bare", "--depth=2", f"file://{source}", shallow)
    git(source, "config", "uploadpack.allowFilter", "true")
    git(None, "clone", "--quiet", "--bare", "--filter=blob:none", f"file://{source}", partial)
    made = attempt("git", "init", "--quiet", "--bare", "--ref-format=reftable", reftable)
    if not made:
        add_history(new_repository(reftable), 20, 51)
        git(reftable, "config", "core.repositoryFormatVersion", "1")
        git(reftable, "config", "extensions.refStorage", "reftable")
    git(None, "init", "--quiet", "--bare", "--object-format=sha256", "--initial-branch=trunk", sha256)
    add_history(sha256, 20, 52)
    return [
        ("shallow.git", "shallow"), ("sha256.git", "SHA-256"), ("reftable.git", "reftable"), ("partial.git", "partial"),
    ]


def kinds(folder, ours, theirs):
    for name, word in unreadable(folder):
        path = f"{folder}/served/{name}"
        for what, done in (
            (f"git from {name}", attempt("git", "ls-remote", ours.url(name))),
            (f"git -u upload-pack from {name}", attempt("git", "ls-remote", f"--upload-pack={PROGRAM} upload-pack", f"file://{path}")),
        ):
            check(f"{what}: refused, and why", done.status == 128 and word.lower() in done.told.lower(), done)
        before = refs_as_files(path)
        for what, words in (("check", ["check", path]), ("fetch", ["fetch", path, theirs.url("live.git"), HEADS])):
            done = gitrepo(*words)
            says = is_sentence(done.told) and word.lower() in done.told.lower()
            check(f"gitrepo {what} of {name}: refused, and why", done.status == 1 and says, done)
        check(f"{name}: as it was", refs_as_files(path) == before)
    done = gitrepo("clone", theirs.url("sha256.git"), f"{folder}/sha256")
    refuses("gitrepo clone of sha256.git", done, "sha256", "SHA-256")
    check("gitrepo clone of sha256.git: no folder", not os.path.exists(f"{folder}/sha256"))


def refs_as_files(path):
    """All files of a repository but its configuration."""
    return sorted(os.path.join(at, name) for at, _, names in os.walk(path) for name in names)


def exports(folder):
    """Without --export-all a repository is served if it has the file git-daemon-export-ok."""
    base = f"{folder}/served"
    with Gitrepo(PROGRAM, base) as server:
        done = attempt("git", "ls-remote", server.url("one-pack.git"))
        check("no git-daemon-export-ok: refused", done.status == 128 and "not exported" in done.told, done)
        open(f"{base}/one-pack.git/git-daemon-export-ok", "w").close()
        done = attempt("git", "ls-remote", server.url("one-pack.git"))
        check("git-daemon-export-ok: served, while the server runs", done, done)
        open(f"{base}/work/.git/git-daemon-export-ok", "w").close()
        done = attempt("git", "ls-remote", server.url("work"))
        check("git-daemon-export-ok in a work tree's .git", done, done)


def paths(folder, ours):
    """Paths that climb, and those that name nothing; with or without .git."""
    os.makedirs(f"{folder}/outside.git")
    git(None, "clone", "--quiet", "--mirror", f"{folder}/served/one-pack.git", f"{folder}/outside.git")
    for path in (
        b"/../outside.git", b"/one-pack.git/../../outside.git", b"/one-pack.git/../one-pack.git", b"/./one-pack.git",
        b"//one-pack.git", b"/one-pack.git//", b"/work/.git", b"/.", b"/..", b"/", b"", b"one-pack.git",
        b"/" + folder.encode() + b"/served/one-pack.git", b"/none.git", b"/one-pack.git/objects", b"/one-pack.git/HEAD",
        b"/one-pack.git\n", b"/one-pack.git/.", b"/caf\xe9.git", b"/" + b"a/" * 300 + b"b", b"/super/.git/modules/inner",
    ):
        got = answer_to(ours.port, hello(path))
        refused = got[4:8] == b"ERR " and int(got[:4], 16) == len(got) or got == b""
        check(f"the path {path[:60]!r}: refused", refused, got[:200])
    for path in ("one-pack.git/", "one-pack/", "one-pack//", "work//"):
        done = gitrepo("check", f"{folder}/served/{path}")
        check(f"gitrepo check {path}: slashes at the end count for nothing", done, done)
    for path in (b"/one-pack.git", b"/one-pack", b"/work", b"/linked", b"/super", b"/super/inner"):
        got = answer_to(ours.port, hello(path))
        check(f"the path {path!r}: served", got.startswith(packet(b"version 2\n")), got[:200])
    got = answer_to(ours.port, hello(b"/one-pack.git", b""))
    check("a client of protocol version 0: an ERR line", got[4:8] == b"ERR " and b"version 2" in got, got[:200])


def words(folder, theirs):
    """Exit statuses, help, the version, and that no error leaves a folder."""
    for what in ([], ["clone"], ["clone", theirs.url("x")], ["none"], ["fetch", "--none"], ["ls"]):
        done = gitrepo(*what)
        check(f"gitrepo {' '.join(what)[:20]}: status 2 and the usage", done.status == 2 and "sage" in done.told, done)
    for what in (["--help"], ["clone", "--help"], ["serve", "--help"], ["--version"]):
        done = gitrepo(*what)
        check(f"gitrepo {' '.join(what)}", done and done.out and not done.told, done)
    refuses("a clone of nothing", gitrepo("clone", theirs.url("none.git"), f"{folder}/none"), "none.git")
    check("a clone of nothing: no folder", not os.path.exists(f"{folder}/none"))
    os.mkdir(f"{folder}/taken")
    open(f"{folder}/taken/file", "w").close()
    refuses("a clone into a folder that is there", gitrepo("clone", theirs.url("live.git"), f"{folder}/taken"), "taken")
    check("a clone into a folder that is there: it stays", os.listdir(f"{folder}/taken") == ["file"])
    with socket.create_server(("127.0.0.1", 0)) as closed:
        port = closed.getsockname()[1]
    refuses("a server that is not there", gitrepo("ls", f"git://127.0.0.1:{port}/x"), "127.0.0.1")
    refuses("a fetch into no repository", gitrepo("fetch", f"{folder}/taken", theirs.url("live.git"), HEADS), "taken")
    for url in ("https://example.com/x", "ssh://example.com/x", "file:///x", "git://127.0.0.1", "x"):
        done = gitrepo("ls", url)
        check(f"the URL {url}: refused in a sentence", done.status in (1, 2) and url in done.told, done)
    done = gitrepo("clone", "--progress", theirs.url("live.git"), f"{folder}/progress")
    check("--progress", done and "bjects" in done.told, done)
    done = gitrepo("clone", theirs.url("live.git"), f"{folder}/no-progress")
    check("no progress where standard error is no terminal", done and done.told == "", done)


def standard_streams(folder, ours):
    """A full disk under standard output is named. A closed standard stream leaves no room for the connection."""
    url, before = ours.url("one-pack.git"), len(ours.log())
    with open("/dev/full", "w") as full:
        for what in (["--version"], ["ls", url]):
            done = subprocess.run([PROGRAM, *what], env=ENV, stdout=full, stderr=subprocess.PIPE, text=True, timeout=60)
            says = is_sentence(done.stderr) and "standard output: no storage space" in done.stderr
            check(f"gitrepo {what[0]} on a full disk: refused in a sentence", done.returncode == 1 and says, done)
    for closed in (0, 1, 2):
        copy = f"{folder}/closed-{closed}"
        words = [PROGRAM, "clone", "--progress", url, copy]
        done = subprocess.run(words, env=ENV, stderr=subprocess.DEVNULL, preexec_fn=lambda: os.close(closed), timeout=60)
        check(f"a clone without standard stream {closed}", done.returncode == 0 and not faults_of(copy), done)
    time.sleep(0.5)
    lines = ours.log()[before:]
    check("no progress goes into a connection", len(lines) == 7 and not [it for it in lines if "refused" in it], lines)


def status_of(process):
    """The status with which a process ends in time, or nothing."""
    try:
        return process.wait(5)
    except subprocess.TimeoutExpired:
        return None


def ended(folder):
    """SIGTERM ends a server, also with a client that is served, and frees its port."""
    server = Gitrepo(PROGRAM, f"{folder}/served", "--export-all")
    with socket.create_connection(("127.0.0.1", server.port)) as client:
        client.sendall(hello(b"/one-pack.git"))
        check("a client is served", client.recv(4) == b"000e")
        server.process.send_signal(signal.SIGTERM)
        check("SIGTERM ends a server", status_of(server.process) is not None)
    server.end()
    with Gitrepo(PROGRAM, f"{folder}/served", "--export-all", "--connections", "2") as server:
        for _ in range(2):
            attempt("git", "ls-remote", server.url("one-pack.git"))
        check("--connections 2: it ends after two", status_of(server.process) == 0)
        lines = server.log()
        check("a line of the log for each connection", len(lines) == 2 and all("/one-pack.git" in it for it in lines), lines)


def for_each(layouts, action):
    """Does something with all layouts, several at a time, but with one of each repository."""
    groups = {}
    for layout in layouts:
        groups.setdefault(layout.repository, []).append(layout)
    pool = ThreadPoolExecutor(AT_A_TIME)
    try:
        for done in [pool.submit(lambda group: [action(it) for it in group], group) for group in groups.values()]:
            done.result()
    finally:
        pool.shutdown(cancel_futures=True)


def try_all(folder):
    layouts = make_layouts(f"{folder}/served")
    with Gitrepo(PROGRAM, f"{folder}/served", "--export-all") as ours, GitDaemon(f"{folder}/served") as theirs:
        for_each(layouts, lambda it: served(tempfile.mkdtemp(dir=folder), it, ours, theirs))
        for_each(layouts, lambda it: cloned(tempfile.mkdtemp(dir=folder), it, theirs))
        one_branch(folder, ours)
        under_a_server(folder, ours)
        upload_pack(folder, layouts)
        updates(folder, theirs)
        into_work_trees(folder, layouts, theirs)
        protected(folder, theirs)
        into_folders(folder, theirs)
        odd_head(folder, theirs)
        home(folder)
        both_ends(folder, ours)
        many_tips(folder, ours, theirs)
        many_commits(folder, ours, theirs)
        large_pack(folder, ours, theirs)
        stored_twice(folder, ours)
        tags_alone(folder, ours)
        standard_streams(folder, ours)
        check("no connection so far had a fault", not [it for it in ours.log() if "cannot" in it or "fault" in it], ours.log())
        broken_refs(folder, ours)
        damaged(folder, ours)
        unreachable_trees(folder)
        kinds(folder, ours, theirs)
        paths(folder, ours)
        words(folder, theirs)
    changed_meanwhile(folder)
    exports(folder)
    ended(folder)


def too_long(_signal, _frame):
    raise TimeoutError(f"the run takes longer than {LIMIT} seconds")


def main():
    if not has_git():
        print("git and its daemon are not there: nothing is tried")
        return 0
    signal.signal(signal.SIGALRM, too_long)
    signal.alarm(LIMIT)
    began = time.monotonic()
    with tempfile.TemporaryDirectory(prefix="with-git-") as folder:
        try:
            try_all(folder)
        except (OSError, ValueError, IndexError, AssertionError) as error:
            check("the run comes to its end", False, repr(error))
    print(f"{tried} checks, {len(wrong)} wrong, {time.monotonic() - began:.0f} s")
    return 1 if wrong else 0


sys.exit(main())
