"""Tries whether a client's file survives. usage: survives.py PROGRAM; see survives.sh."""

import os
import random
import resource
import socket
import stat
import subprocess
import sys
import tempfile
import time

PROGRAM = os.path.abspath(sys.argv[1])
COMMITS = 5_000
KILLS = 50
PAIRS = 20
BUSY = (1, "", "gitv2: fault 95 File\n")
wrong = []


def check(what, is_right, got=""):
    if not is_right:
        wrong.append(what)
        print(f"WRONG {what} {got}", flush=True)


def commit(number):
    return f"{number:040x}"


def history(count, *last):
    """The text of a chain of commits, with the lines that follow them."""
    lines = [f"c {commit(1)}"] + [f"c {commit(n)} {commit(n - 1)}" for n in range(2, count + 1)]
    return "".join(f"{line}\n" for line in ["gitv2 1", *lines, *last, "end"])


SERVED = history(
    COMMITS, f"r {commit(COMMITS)} refs/heads/main", f"r {commit(COMMITS // 2)} refs/heads/side", "h ref refs/heads/main"
)
OLD = history(1, f"r {commit(1)} refs/remotes/origin/main", "h none").encode()
NEW = history(COMMITS, f"r {commit(COMMITS)} refs/remotes/origin/main", "h none").encode()
MAIN, SIDE = [f"refs/heads/{name}:refs/remotes/origin/{name}" for name in ("main", "side")]
MOVED = f"moved refs/remotes/origin/main {commit(COMMITS)}\n"


class Server:
    """`gitv2 serve`, for as many connections as anyone wants."""

    def __init__(self, folder):
        file = os.path.join(folder, "served.repo")
        write(file, SERVED.encode())
        words = ["serve", "--listen", "127.0.0.1:0", "--path", "/p", "--connections", "1000000", file]
        self.process = subprocess.Popen([PROGRAM, *words], stdout=subprocess.PIPE, stderr=subprocess.DEVNULL, text=True)
        self.address = f"127.0.0.1:{self.process.stdout.readline().split()[1]}"

    def fetch(self, file, spec=MAIN, **more):
        """A fetch that runs."""
        words = [PROGRAM, "fetch", "--tcp", self.address, "--path", "/p", file, spec]
        return subprocess.Popen(words, stdout=subprocess.PIPE, stderr=subprocess.PIPE, text=True, **more)

    def fetched(self, file, spec=MAIN, **more):
        return ended(self.fetch(file, spec, **more))


def ended(process):
    try:
        shown, told = process.communicate(timeout=60)
    except subprocess.TimeoutExpired:
        process.kill()
        shown, told = process.communicate()
    return process.returncode, shown, told


def write(file, data):
    with open(file, "wb") as out:
        out.write(data)


def read(file):
    with open(file, "rb") as data:
        return data.read()


def forget_lock(file):
    """Removes the lock that a killed run may leave."""
    try:
        os.remove(f"{file}.lock")
    except FileNotFoundError:
        pass


def limit_files():
    resource.setrlimit(resource.RLIMIT_FSIZE, (65536, 65536))


def small_limit(folder, server):
    """A limit on the length of files, as `ulimit -f` sets it: the system stops the run, or the write fails."""
    file = os.path.join(folder, "limited.repo")
    write(file, OLD)
    status, shown, told = server.fetched(file, preexec_fn=limit_files)
    check("a limit: fails, and reports nothing", status != 0 and shown == "", (status, shown, told))
    check("a limit: the file", read(file) == OLD)
    forget_lock(file)
    check("a limit: the next fetch", server.fetched(file) == (0, MOVED, ""))
    check("a limit: the file at last", read(file) == NEW)


def full_disk(folder, server):
    disk = os.path.join(folder, "disk")
    os.mkdir(disk)
    mount = ["mount", "-t", "tmpfs", "-o", "size=64k", "tmpfs", disk]
    if os.geteuid() != 0 or subprocess.run(mount, stderr=subprocess.DEVNULL).returncode != 0:
        print("full disk: left out, since only root can mount one")
        return
    try:
        file = os.path.join(disk, "full.repo")
        write(file, OLD)
        got = server.fetched(file)
        check("a full disk: the fault", got == BUSY, got)
        check("a full disk: the file", read(file) == OLD)
        check("a full disk: the lock", not os.path.exists(f"{file}.lock"))
    finally:
        subprocess.run(["umount", disk])


def kills(folder, server):
    """A kill at random moments of a fetch; of each second one soon after the lock has the first bytes of the new text."""
    file = os.path.join(folder, "killed.repo")
    write(file, OLD)
    began = time.time()
    check("a fetch", server.fetched(file) == (0, MOVED, ""))
    whole = time.time() - began
    found = {OLD: 0, NEW: 0}
    for number in range(KILLS):
        write(file, OLD)
        fetch = server.fetch(file)
        if number % 2:
            wait_for_text(fetch, f"{file}.lock")
            time.sleep(random.uniform(0, whole / 10))
        else:
            time.sleep(random.uniform(0, whole))
        fetch.kill()
        _status, shown, _told = ended(fetch)
        now = read(file)
        check("a kill: the file", now in found, f"{len(now)} bytes")
        found[now] = found.get(now, 0) + 1
        check("a kill: the report", shown == "" or now == NEW, shown)
        forget_lock(file)
    print(f"{KILLS} kills in {whole:.2f} s: {found[OLD]} before the new text was there, {found[NEW]} after")


def wait_for_text(fetch, lock):
    while fetch.poll() is None:
        try:
            if os.stat(lock).st_size:
                return
        except FileNotFoundError:
            pass


def two_at_once(folder, server):
    file = os.path.join(folder, "shared.repo")
    both = 0
    for _ in range(PAIRS):
        write(file, OLD)
        fetches = [server.fetch(file, spec) for spec in (MAIN, SIDE)]
        ends = [ended(fetch) for fetch in fetches]
        text = read(file).decode()
        for name, got in zip(("main", "side"), ends):
            is_there = f"refs/remotes/origin/{name}\n" in text and (name == "side" or text.count(commit(COMMITS)) > 1)
            check("two at once: what is reported is there", got[0] != 0 or is_there, got)
            check("two at once: an end", got[0] == 0 or got == BUSY, got)
        whole = subprocess.run([PROGRAM, "check", file], capture_output=True, text=True).stdout
        check("two at once: the file", whole.endswith("closed yes safe yes\n"), whole)
        check("two at once: the lock", not os.path.exists(f"{file}.lock"))
        check("two at once: one of them", any(status == 0 for status, _, _ in ends), ends)
        both += all(status == 0 for status, _, _ in ends)
    print(f"{PAIRS} times two fetches at once: {both} times one came after the other, {PAIRS - both} times one was refused")


def locked(folder):
    """A lock that is there: refused before anyone is asked, and nothing is touched."""
    file = os.path.join(folder, "locked.repo")
    write(file, OLD)
    write(f"{file}.lock", b"")
    before = os.stat(file), os.stat(f"{file}.lock")
    with socket.create_server(("127.0.0.1", 0)) as nobody:
        nobody.setblocking(False)
        words = ["fetch", "--tcp", f"127.0.0.1:{nobody.getsockname()[1]}", "--path", "/p", file, MAIN]
        for more in (words, ["fetch", "--stdio", file, MAIN]):
            got = subprocess.run([PROGRAM, *more], stdin=subprocess.DEVNULL, capture_output=True, text=True, timeout=60)
            check("a lock: the fault", (got.returncode, got.stdout, got.stderr) == BUSY, got)
        try:
            nobody.accept()
            check("a lock: nobody is asked", False)
        except BlockingIOError:
            pass
    after = os.stat(file), os.stat(f"{file}.lock")
    check("a lock: nothing is touched", all(same_file(*pair) for pair in zip(before, after)))


def same_file(before, after):
    return (before.st_ino, before.st_mtime_ns, before.st_mode) == (after.st_ino, after.st_mtime_ns, after.st_mode)


def kept(folder, server):
    """What a fetch keeps: a file without news, permissions, and a symbolic link. A pipe is refused."""
    file, link, pipe = [os.path.join(folder, f"{name}.repo") for name in ("kept", "link", "pipe")]
    write(file, OLD)
    os.chmod(file, 0o640)
    os.symlink("kept.repo", link)
    check("a link: the fetch", server.fetched(link) == (0, MOVED, ""))
    check("a link: still a link", os.path.islink(link) and read(file) == NEW)
    check("the permissions", stat.S_IMODE(os.stat(file).st_mode) == 0o640)
    before = os.stat(file)
    check("no news: the fetch", server.fetched(file) == (0, "same refs/remotes/origin/main\n", ""))
    check("no news: the file", same_file(before, os.stat(file)))
    os.mkfifo(pipe)
    got = server.fetched(pipe)
    check("a pipe: the fault", got == BUSY, got)
    check("locks", not [name for name in os.listdir(folder) if name.endswith(".lock")])


def main():
    random.seed()
    with tempfile.TemporaryDirectory() as folder:
        server = Server(folder)
        try:
            small_limit(folder, server)
            full_disk(folder, server)
            kills(folder, server)
            two_at_once(folder, server)
            kept(folder, server)
            locked(folder)
        finally:
            server.process.kill()
            server.process.wait()
    print(f"{len(wrong)} wrong")
    return 1 if wrong else 0


sys.exit(main())
