"""Measures gitv2, beside git where it is there.

usage: measure.py PROGRAM FOLDER COMMITS REFS TIMES
"""

import multiprocessing
import os
import shutil
import subprocess
import sys
import time

from data import Shape, git, id_of, packets

# The most bytes of a pack, and of a commit with one parent in one.
MAX_PACK, COMMIT_LINE = 67_108_864, 84
NEW_COMMITS = 100
REQUESTS = 30
GIT = ["git", "-c", "protocol.version=2", "-c", "protocol.file.allow=always"]
V2 = {**os.environ, "GIT_PROTOCOL": "version=2", "GIT_CONFIG_NOSYSTEM": "1", "LC_ALL": "C"}


class Run:
    """The wall-clock seconds of a run, and the most memory that one of its programs had, in MiB."""

    def __init__(self, seconds, memory):
        self.seconds, self.memory = seconds, memory


def run(*programs, data=b"", prepare=None):
    """Runs a program on some bytes, or two that are joined by pipes both ways."""
    if prepare:
        prepare()
    started = time.perf_counter()
    if len(programs) == 1:
        process = subprocess.Popen(
            programs[0], stdin=subprocess.PIPE, stdout=subprocess.DEVNULL, stderr=subprocess.DEVNULL, env=V2
        )
        process.stdin.write(data)
        process.stdin.close()
        processes = [process]
    else:
        (to_second, from_first), (to_first, from_second) = os.pipe(), os.pipe()
        ends = [(to_first, from_first), (to_second, from_second)]
        processes = [
            subprocess.Popen(program, stdin=near, stdout=far, stderr=subprocess.DEVNULL, env=V2)
            for program, (near, far) in zip(programs, ends)
        ]
        for end in (to_second, from_first, to_first, from_second):
            os.close(end)
    memory = 0
    for process in processes:
        _, status, used = os.wait4(process.pid, 0)
        process.returncode = os.waitstatus_to_exitcode(status)
        if process.returncode:
            raise OSError(f"{process.args} failed")
        memory = max(memory, used.ru_maxrss // 1024)
    return Run(time.perf_counter() - started, memory)


class Bench:
    def __init__(self, program, folder, times):
        self.program, self.folder, self.times, self.rows = program, folder, times, []
        self.has_git = shutil.which("git") is not None

    def best(self, *programs, **how):
        return min((run(*programs, **how) for _ in range(self.times)), key=lambda it: it.seconds)

    def repository(self, name, shape, **how):
        """A file of gitv2 and a repository of git with this history."""
        file, folder = f"{self.folder}/{name}.repo", f"{self.folder}/{name}.git"
        apart(shape.write_file, file, **how)
        if self.has_git:
            apart(shape.write_git, folder)
        return file, folder

    def row(self, what, size, ours, theirs):
        """Measures both, and prints their row."""
        ours = ours()
        cells = [what, size, shown(ours.seconds), f"{ours.memory} MiB"]
        if theirs and self.has_git:
            theirs = theirs()
            ratio = f"{ours.seconds / theirs.seconds:.2f}" if theirs.seconds else "-"
            cells += [shown(theirs.seconds), f"{theirs.memory} MiB", ratio]
        else:
            cells += ["-", "-", "-"]
        print("| " + " | ".join(cells) + " |", flush=True)

    def more_requests(self, program, request, end=b""):
        """What one more request takes on a connection that has one already."""
        one = self.best(program, data=request + end)
        many = self.best(program, data=request * (1 + REQUESTS) + end)
        return Run(max(many.seconds - one.seconds, 0) / REQUESTS, many.memory)

    # ---- what is measured

    def loading(self, commits, has_merges):
        shape = Shape(commits, has_merges=has_merges)
        file, folder = self.repository("load", shape)
        size = f"{commits:,} commits" + (", merges" if has_merges else "")
        self.row("load", size, lambda: self.best([self.program, "upload", file]), None)
        walk = [*GIT, "-C", folder, "rev-list", "--quiet", "--objects", "--all"]
        self.row("check", size, lambda: self.best([self.program, "check", file]), lambda: self.best(walk))
        self.forget("load")

    def clone(self, commits):
        file, folder = self.repository("clone", Shape(commits))
        mine, copy = f"{self.folder}/mine.repo", f"{self.folder}/copy.git"

        def begin():
            with open(mine, "w") as text:
                text.write("gitv2 1\nh none\nend\n")
            shutil.rmtree(copy, ignore_errors=True)

        words = ["fetch", "--stdio", "--limit", str(MAX_PACK), mine, "+refs/heads/*:refs/remotes/origin/*"]
        ours = lambda: self.best([self.program, *words], [self.program, "upload", file], prepare=begin)
        clone = [*GIT, "clone", "--quiet", "--bare", f"file://{folder}", copy]
        self.row("clone", f"{commits:,} commits", ours, lambda: self.best(clone, prepare=begin))
        self.forget("clone", "mine", "copy")

    def fetch(self, commits):
        before = Shape(commits - NEW_COMMITS)
        file, folder = self.repository("fetch", Shape(commits))
        old, old_folder = self.repository("old", before, ref="refs/remotes/origin/main", head="none")
        mine, copy = f"{self.folder}/mine.repo", f"{self.folder}/copy.git"

        def begin():
            shutil.copy(old, mine)

        def begin_git():
            shutil.rmtree(copy, ignore_errors=True)
            shutil.copytree(old_folder, copy)

        spec = "refs/heads/main:refs/remotes/origin/main"
        mine_words = [self.program, "fetch", "--stdio", mine, spec]
        git_words = [*GIT, "-C", copy, "-c", "gc.auto=0", "fetch", "--quiet", f"file://{folder}", spec]
        self.row(
            f"fetch of {NEW_COMMITS} commits",
            f"{commits:,} commits",
            lambda: self.best(mine_words, [self.program, "upload", file], prepare=begin),
            lambda: self.best(git_words, prepare=begin_git),
        )
        self.forget("old", "mine", "copy")
        self.one_more_fetch(commits, file, folder)
        self.forget("fetch")

    def one_more_fetch(self, commits, file, folder):
        """The server's part of it: one more request on an open connection."""

        def request(tip, known):
            words = ["0001", "thin-pack", "no-progress", "include-tag", "ofs-delta"]
            return packets("command=fetch", *words, f"want {tip}", f"have {known}", "done", "0000")

        ours = request(id_of(commits - 1), id_of(commits - 1 - NEW_COMMITS))
        theirs = b""
        if self.has_git:
            names = ["refs/heads/main", f"refs/heads/main~{NEW_COMMITS}"]
            theirs = request(*subprocess.check_output(["git", "rev-parse", *names], cwd=folder, text=True).split())
        self.row(
            f"serve a fetch of {NEW_COMMITS} commits",
            f"{commits:,} commits",
            lambda: self.more_requests([self.program, "upload", file], ours),
            lambda: self.more_requests(["git", "upload-pack", folder], theirs, b"0000"),
        )

    def ls_refs(self, commits, refs):
        file, folder = self.repository("refs", Shape(commits, refs - 1))
        size = f"{commits:,} commits, {refs:,} refs"
        self.row("load", size, lambda: self.best([self.program, "upload", file]), None)
        for words in [[], ["peel", "symrefs"]]:
            request = packets("command=ls-refs", "0001", *words, "0000")
            self.row(
                "ls-refs" + "".join(f" {word}" for word in words),
                size,
                lambda: self.more_requests([self.program, "upload", file], request),
                lambda: self.more_requests(["git", "upload-pack", folder], request, b"0000"),
            )
        self.forget("refs")

    def forget(self, *names):
        for name in names:
            shutil.rmtree(f"{self.folder}/{name}.git", ignore_errors=True)
            if os.path.exists(f"{self.folder}/{name}.repo"):
                os.remove(f"{self.folder}/{name}.repo")


def apart(work, *words, **how):
    """Does some work in a process of its own: a program that is run counts the memory of this one as its own."""
    process = multiprocessing.Process(target=work, args=words, kwargs=how)
    process.start()
    process.join()
    if process.exitcode:
        raise OSError(f"{work.__name__} failed")


def shown(seconds):
    return f"{seconds:.2f} s" if seconds >= 1 else f"{seconds * 1000:.1f} ms"


def main(program, folder, commits, refs, times):
    bench = Bench(program, folder, int(times))
    commits, refs = int(commits), int(refs)
    print("| What | Size | gitv2 | memory | git | memory | ratio |\n|---|---|---|---|---|---|---|")
    for size in (commits // 4, commits // 2, commits):
        bench.loading(size, has_merges=False)
    bench.loading(commits, has_merges=True)
    for size in (commits // 4, commits // 2, commits):
        if size * COMMIT_LINE < MAX_PACK:
            bench.clone(size)
    for size in (commits // 4, commits // 2, commits):
        bench.fetch(size)
    for part in (4, 2, 1):
        bench.ls_refs(commits, refs // part)


main(*sys.argv[1:])
