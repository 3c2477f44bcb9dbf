"""Measures gitrepo beside git, in one run, and prints one table. docs/PERFORMANCE.md says what its rows are.

usage: gitrepo.py PROGRAM REPOSITORY [COMMITS [TIMES]]

The program is the one that `rt run` in crates/gitrepo builds. REPOSITORY is a Git repository of some size: it is
cloned into a folder for temporary files, as one pack. COMMITS, by default 60,000, is the length of a history that
is made anew.
"""

import os
import re
import shutil
import signal
import socket
import subprocess
import sys
import tempfile
import time

REFS, NEW_COMMITS = 1_000, 100
ENVIRONMENT = {
    **os.environ,
    "GIT_CONFIG_NOSYSTEM": "1",
    "GIT_CONFIG_GLOBAL": "/dev/null",
    "GIT_AUTHOR_NAME": "a",
    "GIT_AUTHOR_EMAIL": "a@example.org",
    "GIT_COMMITTER_NAME": "a",
    "GIT_COMMITTER_EMAIL": "a@example.org",
    "LC_ALL": "C",
}
GIT = ["git", "-c", "protocol.version=2", "-c", "gc.auto=0", "-c", "maintenance.auto=false"]


def git(*words, **how):
    return subprocess.run([*GIT, *words], check=True, env=ENVIRONMENT, stdout=subprocess.PIPE, **how).stdout


class Cost:
    """The seconds of a run on the clock and of the processor, and the most memory that it had, in MiB."""

    def __init__(self, wall, used):
        self.wall, self.cpu, self.memory = wall, used.ru_utime + used.ru_stime, used.ru_maxrss // 1024


def run(words, prepare=None):
    if prepare:
        prepare()
    started = time.perf_counter()
    process = subprocess.Popen(words, env=ENVIRONMENT, stdout=subprocess.DEVNULL, stderr=subprocess.DEVNULL)
    _, status, used = os.wait4(process.pid, 0)
    process.returncode = os.waitstatus_to_exitcode(status)
    if process.returncode:
        raise OSError(f"{words} failed")
    return Cost(time.perf_counter() - started, used)


def free_port():
    with socket.socket() as taken:
        taken.bind(("127.0.0.1", 0))
        return taken.getsockname()[1]


class Server:
    """A server of all repositories below a folder, until it is stopped."""

    def __init__(self, words, port):
        self.url = f"git://127.0.0.1:{port}"
        self.process = subprocess.Popen(words, env=ENVIRONMENT, stdout=subprocess.DEVNULL, stderr=subprocess.DEVNULL)
        for _ in range(500):
            with socket.socket() as probe:
                if probe.connect_ex(("127.0.0.1", port)) == 0:
                    return
            time.sleep(0.01)
        raise OSError(f"{words} does not listen")

    def stop(self):
        """Ends it, and answers what it cost with all processes that it started."""
        self.process.send_signal(signal.SIGTERM)
        _, _, used = os.wait4(self.process.pid, 0)
        self.process.returncode = 0
        return Cost(0, used)


class Bench:
    def __init__(self, program, folder, times):
        self.program, self.folder, self.times = program, folder, times
        self.copy = f"{folder}/copy.git"

    def ours(self):
        port = free_port()
        return Server([self.program, "serve", "--listen", f"127.0.0.1:{port}", "--export-all", self.folder], port)

    def theirs(self):
        port = free_port()
        words = ["daemon", "--export-all", "--reuseaddr", f"--base-path={self.folder}", "--listen=127.0.0.1"]
        return Server([*GIT, *words, f"--port={port}", self.folder], port)

    def best(self, words, prepare=None):
        return min((run(words, prepare) for _ in range(self.times)), key=lambda cost: cost.wall)

    def forget(self):
        shutil.rmtree(self.copy, ignore_errors=True)

    def served(self, what, words):
        """A command of git's against our server and against git's daemon: the client's clock, the server's processor."""
        costs = []
        for start in (self.ours, self.theirs):
            server = start()
            try:
                client = self.best([*GIT, *(word.replace("URL", server.url) for word in words)], self.forget)
            finally:
                cost = server.stop()
            costs.append((client.wall, cost.cpu / self.times, cost.memory))
        row(what, *costs)

    def fetched(self, what, ours, theirs, prepare):
        """Our client and git's, against git's daemon."""
        server = self.theirs()
        costs = []
        try:
            for words in (ours, theirs):
                cost = self.best([word.replace("URL", server.url) for word in words], prepare)
                costs.append((cost.wall, cost.cpu, cost.memory))
        finally:
            server.stop()
        row(what, *costs)

    def clones(self, name, what):
        self.served(f"`git clone --mirror` of {what}, from the server", ["clone", "-q", "--mirror", f"URL/{name}", self.copy])
        ours = [self.program, "clone", "--quiet", f"URL/{name}", self.copy]
        theirs = [*GIT, "clone", "-q", "--bare", f"URL/{name}", self.copy]
        self.fetched(f"clone of {what}, the client", ours, theirs, self.forget)

    def fetches(self, name, what):
        """A fetch of the last commits of main."""
        old = f"{self.folder}/old.git"
        git("clone", "-q", "--bare", f"{self.folder}/{name}", old)
        tip = git("rev-parse", f"main~{NEW_COMMITS}", cwd=old).decode().strip()
        git("update-ref", "refs/heads/main", tip, cwd=old)
        git("gc", "-q", "--prune=now", cwd=old)

        def begin():
            self.forget()
            shutil.copytree(old, self.copy)

        spec = "refs/heads/main:refs/heads/main"
        ours = [self.program, "fetch", "--quiet", self.copy, f"URL/{name}", spec]
        theirs = [*GIT, "-C", self.copy, "fetch", "-q", f"URL/{name}", spec]
        self.fetched(f"fetch of {NEW_COMMITS} commits of {what}, the client", ours, theirs, begin)
        shutil.rmtree(old)

    def lists(self, name, what):
        """What opening a repository costs."""
        self.served(f"`git ls-remote` of {what}, from the server", ["ls-remote", f"URL/{name}"])
        uploads = [f"{self.program} upload-pack", "git upload-pack"]
        costs = []
        for upload in uploads:
            cost = self.best([*GIT, "ls-remote", f"--upload-pack={upload}", f"file://{self.folder}/{name}"])
            costs.append((cost.wall, cost.cpu, cost.memory))
        row(f"`git ls-remote` of {what}, by `upload-pack`", *costs)

    def loose_bytes(self, name, what):
        """The bytes of a pack of loose objects."""
        sizes = []
        for start in (self.ours, self.theirs):
            server = start()
            try:
                self.forget()
                git("clone", "-q", "--mirror", f"{server.url}/{name}", self.copy)
            finally:
                server.stop()
            packs = f"{self.copy}/objects/pack"
            sizes.append(sum(os.path.getsize(f"{packs}/{file}") for file in os.listdir(packs) if file.endswith(".pack")))
        ours, theirs = sizes
        print(f"\nA clone of {what} is {ours:,} bytes from us, {theirs:,} from git: {ours / theirs:.2f}.")


def row(what, ours, theirs):
    cells = [what]
    for wall, cpu, memory in (ours, theirs):
        cells += [f"{wall:.3f} s", f"{cpu:.3f} s", f"{memory} MiB"]
    cells += [f"{ours[0] / theirs[0]:.2f}", f"{ours[1] / max(theirs[1], 0.001):.2f}"]
    print("| " + " | ".join(cells) + " |", flush=True)


def make_history(path, commits):
    """A history of commits that each change one file, with refs spread over it and each fourth of them a tag."""
    git("init", "-q", "--bare", "-b", "main", path)
    process = subprocess.Popen([*GIT, "-C", path, "fast-import", "--quiet"], stdin=subprocess.PIPE, env=ENVIRONMENT)
    write = process.stdin.write
    for number in range(1, commits + 1):
        write(b"commit refs/heads/main\nmark :%d\n" % number)
        write(b"committer a <a@example.org> %d +0000\ndata 0\n" % (1_600_000_000 + number))
        text = b"line %d\n" % number
        write(b"M 100644 inline d%d/f%d\ndata %d\n%s\n" % (number % 10, number % 200, len(text), text))
    for number in range(REFS):
        mark = 1 + number * (commits - 1) // REFS
        if number % 4 == 0:
            write(b"tag t%d\nfrom :%d\ntagger a <a@example.org> 1600000000 +0000\ndata 2\nt\n\n" % (number, mark))
        else:
            write(b"reset refs/heads/b%d\nfrom :%d\n\n" % (number, mark))
    process.stdin.close()
    if process.wait():
        raise OSError("git fast-import failed")
    git("repack", "-adq", cwd=path)
    git("pack-refs", "--all", cwd=path)


def main(program, repository, commits=60_000, times=5):
    folder = tempfile.mkdtemp()
    try:
        bench = Bench(os.path.realpath(program), folder, int(times))
        print("| Row | gitrepo | its processor | memory | git | its processor | memory | clock | processor |")
        print("|---|---|---|---|---|---|---|---|---|")
        git("clone", "-q", "--bare", repository, f"{folder}/self.git")
        git("repack", "-adfq", cwd=f"{folder}/self.git")
        objects = re.search(rb"in-pack: (\d+)", git("count-objects", "-v", cwd=f"{folder}/self.git"))
        what = f"{int(objects[1]):,} objects"
        bench.clones("self.git", what)
        bench.fetches("self.git", what)
        make_history(f"{folder}/long.git", int(commits))
        what = f"{int(commits):,} commits"
        bench.lists("long.git", what)
        git("commit-graph", "write", "--reachable", cwd=f"{folder}/long.git")
        what += " with a commit-graph"
        bench.lists("long.git", what)
        bench.clones("long.git", what)
        bench.fetches("long.git", what)
        git("init", "-q", "--bare", f"{folder}/loose.git")
        pack = next(entry.path for entry in os.scandir(f"{folder}/self.git/objects/pack") if entry.name.endswith(".pack"))
        with open(pack, "rb") as data:
            git("unpack-objects", "-q", cwd=f"{folder}/loose.git", stdin=data)
        refs = git("for-each-ref", "--format=create %(refname) %(objectname)", cwd=f"{folder}/self.git")
        git("update-ref", "--stdin", cwd=f"{folder}/loose.git", input=refs)
        bench.loose_bytes("loose.git", "the same as loose objects")
    finally:
        shutil.rmtree(folder, ignore_errors=True)


if __name__ == "__main__":
    main(*sys.argv[1:])
