"""Tries `gitrepo serve` with many clients at once. usage: many-clients.py PROGRAM [--quick]

- 1,000 clients: 900 are silent, send a byte a second or half a line, never read, ask for ever, or reset. Each of 100 runs of git
  beside them ends within twice its time alone, and a second more.
- 10,000 connections that say nothing, as far as the system lets it: the server has 200 MB at most, and still answers.
- Fifty clones at once, beside git daemon in the same run.
- A large pack for ten clients that read slowly: the server does not hold it ten times.

It needs git with its daemon, and loopback alone. Without --quick it takes some minutes; with it, 20 seconds at most."""

import multiprocessing
import os
import resource
import selectors
import socket
import struct
import subprocess
import sys
import tempfile
import time
from concurrent.futures import ThreadPoolExecutor

sys.dont_write_bytecode = True

from both_ends import (
    ENV, Gitrepo, GitDaemon, add_history, attempt, faults_of, git, has_git, hello, new_repository, packet, refs, tip,
)

PROGRAM = os.path.abspath(sys.argv[1])
QUICK = "--quick" in sys.argv[2:]
HOSTILE, HONEST = (90, 12) if QUICK else (900, 100)
IDLE = 1_000 if QUICK else 10_000
CLONES = 8 if QUICK else 50
COMMITS = 150 if QUICK else 2_600
# Of the repository that is cloned many times at once: some 20,000 objects.
CLONED = 150 if QUICK else 5_600
LARGE = 8 if QUICK else 60
SLOW = 10
# The most seconds that a run of git takes beyond twice its time alone.
MORE = 1.0
# The most memory of the server in MB: with idle connections, and beyond that before, while slow clients read.
IDLE_MEMORY, SLOW_MEMORY = 200, 100
# The most connections of the crowd from one address.
PER_ADDRESS = 40
tried = 0
wrong = []


def check(what, is_right, got=""):
    """Counts a check, and prints a line where it is wrong."""
    global tried
    tried += 1
    if not is_right:
        wrong.append(what)
        print(f"WRONG {what}: {str(got)[:600]}", flush=True)


def memory_of(process, name="VmRSS"):
    """The memory of a process in MB."""
    with open(f"/proc/{process.pid}/status") as status:
        return next(int(line.split()[1]) for line in status if line.startswith(f"{name}:")) / 1024


def raise_limit():
    """Lets this process and those that it starts open as many files as the system allows."""
    _, most = resource.getrlimit(resource.RLIMIT_NOFILE)
    resource.setrlimit(resource.RLIMIT_NOFILE, (most, most))
    return most


def fetch_of(id):
    """A request for all that an id reaches."""
    return packet(b"command=fetch\n") + b"0001" + packet(b"want %s\n" % id.encode()) + packet(b"done\n") + b"0000"


# ---- the crowd

ASK = packet(b"command=ls-refs\n") + b"0000"


class Hostile:
    """A client that is up to no good. It comes again when the server has closed its connection, unless it never reads."""

    KINDS = ("silent", "drips", "half", "deaf", "asks", "resets")

    def __init__(self, number, port, path, id):
        self.kind = self.KINDS[number % len(self.KINDS)]
        self.address, self.port = f"127.1.{number // PER_ADDRESS // 250}.{1 + number // PER_ADDRESS % 250}", port
        self.hello, self.request = hello(path), fetch_of(id)
        self.socket, self.next = None, 0

    def connect(self, waiting):
        self.socket = socket.socket()
        self.socket.setsockopt(socket.SOL_SOCKET, socket.SO_RCVBUF, 4_096)
        self.socket.bind((self.address, 0))
        self.socket.setblocking(False)
        self.socket.connect_ex(("127.0.0.1", self.port))
        self.sent, self.next = 0, time.monotonic() + 1
        waiting.register(self.socket, selectors.EVENT_WRITE, self)

    def close(self, waiting):
        try:
            waiting.unregister(self.socket)
        except (KeyError, ValueError):
            pass
        self.socket.close()
        self.socket, self.next = None, time.monotonic() + 1

    def begin(self, waiting):
        """Says what it says once it is connected."""
        first = {"drips": b"", "silent": b"", "half": self.hello[:20], "deaf": self.hello + self.request}
        self.socket.send(first.get(self.kind, self.hello))
        if self.kind == "resets":
            self.socket.setsockopt(socket.SOL_SOCKET, socket.SO_LINGER, struct.pack("ii", 1, 0))
            self.close(waiting)
        elif self.kind == "deaf":
            waiting.unregister(self.socket)
        else:
            waiting.modify(self.socket, selectors.EVENT_READ, self)

    def hear(self, waiting):
        got = self.socket.recv(65_536)
        if not got:
            self.close(waiting)
        elif self.kind == "asks" and got.endswith(b"0000"):
            self.socket.send(ASK)

    def tick(self, waiting, now):
        if self.socket is None:
            self.connect(waiting)
        elif self.kind == "drips":
            self.socket.send(self.hello[self.sent:self.sent + 1])
            self.sent, self.next = self.sent + 1, now + 1
        else:
            self.next = now + 1


def crowd(port, path, id, is_over):
    """Hostile clients, until it is over."""
    raise_limit()
    waiting = selectors.DefaultSelector()
    clients = [Hostile(number, port, path, id) for number in range(HOSTILE)]
    while not is_over.is_set():
        now = time.monotonic()
        for client in clients:
            if client.next <= now:
                act(client, lambda: client.tick(waiting, now), waiting)
        for key, events in waiting.select(0.05):
            client = key.data
            act(client, lambda: client.begin(waiting) if events & selectors.EVENT_WRITE else client.hear(waiting), waiting)
    for client in clients:
        if client.socket:
            client.socket.close()


def act(client, action, waiting):
    """Does what a client does, and drops its connection if the socket fails."""
    try:
        action()
    except BlockingIOError:
        pass
    except OSError:
        if client.socket:
            client.close(waiting)


# ---- runs of git


def timed(*words):
    began = time.monotonic()
    done = attempt(*words)
    return time.monotonic() - began, done


def honest(folder, url, name, count):
    """The seconds of runs of git, a few at a time, by what they do."""
    def run(number):
        if number % 2:
            return "clone", timed("git", "clone", "--quiet", "--mirror", url, f"{folder}/{name}-{number}")
        return "ls-remote", timed("git", "ls-remote", url)

    seconds = {"clone": [], "ls-remote": []}
    with ThreadPoolExecutor(4) as pool:
        for what, (took, done) in pool.map(run, range(count)):
            check(f"{name}: {what}", done, done)
            seconds[what].append(took)
    return seconds


def among_hostile(folder, base, path):
    """Runs of git alone, and then beside the crowd."""
    with Gitrepo(PROGRAM, base, "--export-all") as server:
        url, worst = server.url("r.git"), {}
        alone = {what: sorted(took)[len(took) // 2] for what, took in honest(folder, url, "alone", 12).items()}
        is_over = multiprocessing.Event()
        process = multiprocessing.Process(target=crowd, args=(server.port, b"/r.git", tip(path), is_over))
        process.start()
        try:
            time.sleep(3)
            for what, took in honest(folder, url, "beside", HONEST).items():
                worst[what] = max(took)
                check(f"{what} beside {HOSTILE}: twice its time", worst[what] <= 2 * alone[what] + MORE, (alone[what], took))
        finally:
            is_over.set()
            process.join(10)
            process.kill()
        check("the server goes on", attempt("git", "ls-remote", url))
        used = memory_of(server.process, "VmHWM")
    told = ", ".join(f"{what} {alone[what]:.2f} s alone, {worst[what]:.2f} s at most" for what in alone)
    print(f"{HOSTILE} hostile clients: {told}; the server had {used:.0f} MB", flush=True)


def idle(base):
    """Connections that say nothing."""
    count = min(IDLE, raise_limit() - 100)
    if count < IDLE:
        print(f"idle connections: {count}, since the system allows no more open files")
    with Gitrepo(PROGRAM, base, "--export-all", "--max-connections", "100000", "--max-per-address", "100000") as server:
        before = memory_of(server.process)
        streams = [socket.create_connection(("127.0.0.1", server.port)) for _ in range(count)]
        took, done = timed("git", "ls-remote", server.url("r.git"))
        used = memory_of(server.process)
        check(f"{count} idle connections: {IDLE_MEMORY} MB at most", used <= IDLE_MEMORY, used)
        check(f"{count} idle connections: git ls-remote", done, done)
        for stream in streams:
            stream.close()
    print(f"{count} idle connections: {used:.0f} MB, {before:.0f} before; git ls-remote {took:.2f} s", flush=True)
    with Gitrepo(PROGRAM, base, "--export-all") as server:
        streams = [socket.create_connection(("127.0.0.1", server.port)) for _ in range(65)]
        streams[-1].settimeout(5)
        got = streams[-1].recv(1_000)
        check("the 65th connection of an address: an ERR line", got[4:8] == b"ERR " and int(got[:4], 16) == len(got), got)
        for stream in streams:
            stream.close()


def clones_at_once(folder, server, name):
    """The seconds in which all clones end that begin at once, the copies, and how many came through."""
    copies = [f"{folder}/{name}-{number}" for number in range(CLONES)]
    words = ["git", "clone", "--quiet", "--mirror", server.url("r.git")]
    began = time.monotonic()
    runs = [subprocess.Popen([*words, copy], env=ENV, stderr=subprocess.PIPE) for copy in copies]
    ends = [(run.communicate()[1], run.returncode) for run in runs]
    took = time.monotonic() - began
    return took, copies, sum(status == 0 for _, status in ends)


def beside_daemon(folder):
    """Clones at once from both servers."""
    base = f"{folder}/cloned"
    path = packed_history(f"{base}/r.git", CLONED)
    with Gitrepo(PROGRAM, base, "--export-all") as ours, GitDaemon(base, "--max-connections=0") as theirs:
        took, copies, came = clones_at_once(folder, ours, "ours")
        due, _, came_theirs = clones_at_once(folder, theirs, "theirs")
        check(f"{CLONES} clones at once", came == CLONES, came)
        for copy in copies[:3]:
            check("a clone among others", refs(copy) == refs(path) and not faults_of(copy), faults_of(copy))
        used = memory_of(ours.process, "VmHWM")
    count = git(path, "count-objects", "-v").split("in-pack: ")[1].split()[0]
    others = f"git daemon {due:.2f} s, of which {came_theirs} came through"
    print(f"{CLONES} clones at once of {count} objects: {took:.2f} s, {others}; the server had {used:.0f} MB", flush=True)


def large_repository(path):
    """A repository whose pack has some megabytes."""
    new_repository(path)
    lines = [b"commit refs/heads/trunk\ncommitter C <c@example.com> 1700000000 +0000\ndata 2\nm\n\n"]
    lines += [b"M 100644 inline f%d\ndata 1000000\n%s\n" % (number, os.urandom(1_000_000)) for number in range(LARGE)]
    git(path, "fast-import", "--quiet", data=b"".join(lines))
    git(path, "repack", "-adq")
    return path


def slow_readers(base):
    """Clients that take a large pack slowly."""
    path = large_repository(f"{base}/large.git")
    asked = hello(b"/large.git") + fetch_of(tip(path))
    with Gitrepo(PROGRAM, base, "--export-all") as server:
        check("git ls-remote of a large one", attempt("git", "ls-remote", server.url("large.git")))
        before, most = memory_of(server.process), 0
        streams = [socket.create_connection(("127.0.0.1", server.port)) for _ in range(SLOW)]
        for stream in streams:
            stream.sendall(asked)
        for _ in range(5 if QUICK else 50):
            for stream in streams:
                stream.recv(16_384)
            most = max(most, memory_of(server.process))
            time.sleep(0.1)
        check("git ls-remote beside slow clients", attempt("git", "ls-remote", server.url("large.git")))
        check(f"{SLOW} slow clients: {SLOW_MEMORY} MB more at most", most - before <= SLOW_MEMORY, (before, most))
        for stream in streams:
            stream.close()
    print(f"{SLOW} slow clients of a pack of {LARGE} MB: {most:.0f} MB, {before:.0f} before", flush=True)


def packed_history(path, commits):
    """A repository of so many commits, in one pack."""
    os.makedirs(os.path.dirname(path), exist_ok=True)
    add_history(new_repository(path), commits, 51)
    git(path, "repack", "-adq")
    return path


def main():
    if not has_git():
        print("many-clients.py: left out, since git or its daemon is not there")
        return 0
    raise_limit()
    began = time.monotonic()
    with tempfile.TemporaryDirectory(prefix="many-") as folder:
        base = f"{folder}/base"
        path = packed_history(f"{base}/r.git", COMMITS)
        for step in (
            lambda: among_hostile(folder, base, path), lambda: idle(base), lambda: beside_daemon(folder),
            lambda: slow_readers(base),
        ):
            try:
                step()
            except (OSError, ValueError, subprocess.SubprocessError) as error:
                check("a step comes to its end", False, repr(error))
    print(f"{tried} checks, {len(wrong)} wrong, {time.monotonic() - began:.0f} s")
    return 1 if wrong else 0


if __name__ == "__main__":
    sys.exit(main())
