"""Tries gitrepo against peers that lie or stop, and against trouble on the disk, without git. usage: trouble.py PROGRAM

It makes, reads and checks its repositories by itself (bare.py), and nothing leaves 127.0.0.1. Each check is of an exit status, of
the sentence on standard error, of what is in the directory afterwards, of memory, or of time. It is over within 40 seconds.
"""

import contextlib
import itertools
import json
import os
import pty
import shutil
import socket
import subprocess
import sys
import tempfile
import threading
import time
from concurrent.futures import ThreadPoolExecutor

from bare import MAIN, OLD, History, faults_of, files_of, make, pack_of, put_loose, put_pack, put_packed, put_ref, refs_of, write
from both_ends import Gitrepo, answer_to, hello, packet
from lies import ADVERT, GOOD, LONG, NEW, TIP, Liar, bands, bombs, chains, listing, names, packfile, progress, spoken, wrong_ends
from runs import Checks, Running, at_once, is_printable, run, run_limited, run_unprivileged

PROGRAM = os.path.abspath(sys.argv[1])
HEADS, TAGS = "+refs/heads/*:refs/heads/*", "+refs/tags/*:refs/tags/*"
# A client still waits so long after its server became silent, and a closed connection ends a run within so long.
SILENT, SOON = 1, 40
# The deadlines of a client's first line, and of a server's next byte.
FIRST_LINE, NEXT_BYTE = 10, 60
# The most lines of a request, and how the server says so.
WANTS, HAVES, PREFIXES = 65_537, 65_536, 1_024
LIMITS = b"upload-pack: a request has at most 65,537 wants, 65,536 haves and 1,024 prefixes of ref names"
LIMITS += b" (while 64 other clients are connected: 1,024, 4,096 and 64)"
BUSY, BUSY_WANTS = 64, 1_024
KILLS = 20
# So many steps are taken at a time, each in a process of its own. One of them only waits.
AT_A_TIME = 5
# So many refs have a longer file than the index of a small pack.
BRANCHES = 25
CLONES = 12
# So many clients hold a repository at once: more than a server opens repositories.
SHARING = 20
# For so long a repository that changes stays as it is.
PAUSE = 0.05
checks = Checks()
check = checks.check

FIRST = History(60, 1)
NEXT = History(60, 2, onto=FIRST)


def new_repository(path, history=FIRST, name=OLD):
    """A repository with a pack of a history, at whose end a ref is."""
    make(path)
    put_pack(path, history.objects)
    put_packed(path, {name: history.tip})
    return path


class Copies:
    """Copies of a repository, in the folder of a step."""

    def __init__(self, folder):
        self.folder, self.base, self.numbers = folder, new_repository(f"{folder}/base"), itertools.count()

    def new(self):
        path = f"{self.folder}/copy-{next(self.numbers)}"
        shutil.copytree(self.base, path)
        return path

    def free(self):
        """A path at which nothing is yet. Cases are tried at once, so no two clones share one."""
        return f"{self.folder}/clone-{next(self.numbers)}"


def fetch_words(path, url, *more):
    return [PROGRAM, "fetch", *more, path, url, HEADS, TAGS]


def clone_words(path, url, *more):
    return [PROGRAM, "clone", *more, url, path]


# ---- servers


class Stopping(Liar):
    """A server that says so many bytes at a place, and then closes the connection, or says nothing."""

    def __init__(self, place, count, is_silent=False):
        self.place, self.count, self.is_silent = place, count, is_silent
        self.is_over, self.has_stopped = threading.Event(), threading.Semaphore(0)
        super().__init__(ADVERT, listing(NEW), packfile(LONG))

    def send(self, stream, place, said):
        if place != self.place:
            return super().send(stream, place, said)
        stream.sendall(said[:self.count])
        if self.is_silent:
            self.has_stopped.release()
            self.is_over.wait()
        raise OSError("it stops")

    def wait_for(self, clients):
        """Waits until it is silent to so many clients, and answers whether it is."""
        return all(self.has_stopped.acquire(timeout=SOON) for _ in range(clients))

    def __exit__(self, *words):
        self.is_over.set()
        super().__exit__(*words)


def stops():
    """The places where a server stops: before a packet, in its length, in it, after it, and before the last flush."""
    for place, said in (("advert", ADVERT), ("refs", listing(NEW)), ("pack", packfile(LONG))):
        for count in (0, 2, 4, 9, len(said) // 2, len(said) - 4, len(said) - 1):
            yield place, count


def servers_that_close(folder):
    copies = Copies(folder)
    at_once(lambda stop: server_that_closes(copies, *stop), stops())


def server_that_closes(copies, place, count):
    what = f"a server that closes after {count} bytes of its {place}"
    path, clone = copies.new(), copies.free()
    before = files_of(path)
    with Stopping(place, count) as server:
        ran = run(*fetch_words(path, server.url()))
        cloned = run(*clone_words(clone, server.url()))
    for one in (ran, cloned):
        checks.refused(what, one, server.url(), "ended early")
        check(f"{what}: at once", one.seconds < SOON, one)
    check(f"{what}: nothing is left of a fetch", files_of(path) == before)
    check(f"{what}: nothing is left of a clone", not os.path.exists(clone))


def silent_servers(folder):
    """All at once: no client gives up before its deadline. Killed, it leaves a clone's empty repository, and what arrived of a pack."""
    copies, tries = Copies(folder), []
    for place, count in stops():
        server = Stopping(place, count, True)
        path, clone = copies.new(), copies.free()
        before = files_of(path)
        runs = [Running(*fetch_words(path, server.url())), Running(*clone_words(clone, server.url()))]
        tries.append((f"a server that is silent after {count} bytes of its {place}", server, path, clone, before, runs))
    for what, server, *_, runs in tries:
        check(f"{what}: it comes so far", server.wait_for(len(runs)), [one.texts for one in runs])
    time.sleep(SILENT)
    for what, server, path, clone, before, runs in tries:
        check(f"{what}: the client waits", not any(one.is_over() for one in runs), [one.texts for one in runs])
        ends = [one.kill() for one in runs]
        server.__exit__()
        check(f"{what}: nothing is said", all(end.out + end.told == b"" for end in ends), ends)
        fetched, cloned = files_of(path), files_of(clone)
        arrived = [files.pop(name) for files in (fetched, cloned) for name in [*files] if name.startswith("objects/pack/tmp_pack_")]
        check(f"{what}: a temporary file is a part of the pack", all(map(LONG.startswith, arrived)), [*map(len, arrived)])
        check(f"{what}: one temporary file at most", len(arrived) <= len(runs), len(arrived))
        check(f"{what}: nothing else is left of a fetch", fetched == before, set(fetched) - set(before))
        check(f"{what}: no object and no ref of a clone", set(cloned) <= {"HEAD", "config"}, set(cloned))


def deadline(folder):
    """A client gives up at a server that is silent from the beginning, once its deadline is over."""
    copies = Copies(folder)
    path, clone = copies.new(), copies.free()
    before = files_of(path)
    with Stopping("advert", 0, True) as server:
        words = fetch_words(path, server.url()), clone_words(clone, server.url()), [PROGRAM, "ls", server.url()]
        for ended in [one.end() for one in [Running(*some) for some in words]]:
            checks.refused("a deadline", ended, server.url(), f"silent for {NEXT_BYTE} seconds")
            check("a deadline: when it is over", NEXT_BYTE - 1 < ended.seconds, ended)
    check("a deadline: nothing is left of a fetch", files_of(path) == before)
    check("a deadline: nothing is left of a clone", not os.path.exists(clone))


def lying_servers(folder):
    """Names of refs that climb or are in each other's way, wrong ends, bombs, a long chain, and texts that are no answer."""
    copies = Copies(folder)
    at_once(lambda case: lying_server(copies, case), itertools.chain(names(), wrong_ends(), bombs(300), chains(100, True)))
    at_once(lambda one: server_of_no_answer(copies, *one), spoken())


def lying_server(copies, case):
    path, clone = copies.new(), copies.free()
    before = files_of(path)
    with Liar(refs=listing(case.refs), pack=packfile(case.pack)) as server:
        ran = run(*fetch_words(path, server.url()))
        cloned = run(*clone_words(clone, server.url()))
    judge(case.what, ran, cloned, path, clone, before, case)


def server_of_no_answer(copies, what, server):
    path, clone = copies.new(), copies.free()
    before = files_of(path)
    with server:
        ran = run(*fetch_words(path, server.url()))
        cloned = run(*clone_words(clone, server.url()))
        listed = run(PROGRAM, "ls", server.url())
    judge(what, ran, cloned, path, clone, before)
    checks.within_bounds(what, listed)
    if listed.status:
        checks.refused(f"{what}, ls", listed)


def judge(what, ran, cloned, path, clone, before, case=None):
    """A fetch and a clone: refused, with nothing left behind, or right; refused, unless the case is taken."""
    old = refs_of_files(before)
    if ran.status:
        checks.refused(f"{what}, fetch", ran)
        refs = refs_of(path)
        check(f"{what}: no ref moves", refs == old, refs)
        check(f"{what}: nothing is left", files_of(path) == before)
    else:
        checks.within_bounds(what, ran)
    if cloned.status:
        checks.refused(f"{what}, clone", cloned)
        check(f"{what}: nothing is left of a clone", not os.path.exists(clone))
    else:
        checks.within_bounds(what, cloned)
        check(f"{what}: the clone is whole", faults_of(clone) == "", faults_of(clone))
    check(f"{what}: the repository is whole", faults_of(path) == "", faults_of(path))
    if case:
        check(f"{what}: taken, or not", (ran.status == 0) == case.is_taken, ran)
        check(f"{what}: cloned, or not", (cloned.status == 0) == case.is_cloned, cloned)
    shutil.rmtree(clone, ignore_errors=True)


def refs_of_files(files):
    """The refs of a copy: `put_packed` writes them, and none is loose."""
    lines = files["packed-refs"].decode().splitlines()[1:]
    return {line[41:]: bytes.fromhex(line[:40]) for line in lines}


# ---- clients


def paths_of_clients(folder):
    """Paths that climb, and bytes that are no path: only what is below the base is served."""
    base = f"{folder}/paths/base"
    new_repository(f"{base}/r.git")
    new_repository(f"{folder}/paths/outside.git")
    new_repository(f"{base}/.hidden.git")
    os.symlink("/", f"{base}/root")
    with Gitrepo(PROGRAM, base, "--export-all") as server:
        for path in (b"/r.git", b"/r", b"/r/"):
            got = answer_to(server.port, hello(path) + b"0000")
            check(f"the path {path!r}: served", got.startswith(packet(b"version 2\n")), got[:200])
        for path in (
            b"/../outside.git", b"/r.git/../../outside.git", b"/..", b"/../base/r.git", b"/./r.git", b"/r.git/.", b"/r.git/..",
            b"//r.git", b"/a//r.git", b"//", b"/", b"", b"r.git", b"../base/r.git", b"/.hidden.git", b"/r.git/.git", b"/r.git//",
            b"/r.git/refs", b"/r.git/HEAD", b"/~root/r.git", b"~root/r.git", b"/R.GIT", b"/r.git\n", b"/\x1b[31m", b"/r.git\xff",
            b"/\x7f", b"/%2e%2e/outside.git", b"/..\\outside.git", b"/" + b"a" * 60_000, b"/" + b"a/" * 30_000,
        ):
            got = answer_to(server.port, hello(path) + b"0000")
            is_refused = len(got) > 8 and got[4:8] == b"ERR " and int(got[:4], 16) == len(got)
            check(f"the path {path[:40]!r}: refused", is_refused, got[:200])
        for what, said in (
            ("nothing", b""), ("half a length", b"00"), ("a length alone", b"0040"), ("half a line", hello(b"/r.git")[:20]),
            ("a length of 3", b"0003"), ("no packet", b"GET / HTTP/1.0\r\n\r\n"), ("the longest packet, cut", b"ffff"),
            ("no path", packet(b"git-upload-pack \0host=x\0\0version=2\0")), ("a NUL alone", packet(b"\0")),
            ("another service", packet(b"git-receive-pack /r.git\0host=x\0\0version=2\0")),
            ("an unknown command", hello(b"/r.git") + packet(b"command=push\n") + b"0000"),
            ("half a request", hello(b"/r.git") + packet(b"command=ls-refs\n")),
            ("a want that no ref has", hello(b"/r.git") + request(b"want " + b"1" * 40, b"done")),
            ("100,000 prefixes", hello(b"/r.git") + refs_request(packet(b"ref-prefix x\n") * 100_000)),
        ):
            got = answer_to(server.port, said)
            last = got[-4:] == b"0000" or b"ERR " in got or got == b""
            check(f"a client that says {what}: an error, or the end", last and not got.endswith(b"PACK"), got[-200:])
            check(f"after a client that says {what}: the next is served", lists(server))
        limits_of_requests(server)
        limits_beside_others(server)
        for number in range(10):
            with socket.create_connection(("127.0.0.1", server.port)) as stream:
                stream.sendall(hello(b"/r.git") + request(b"want " + FIRST.tip.hex().encode(), b"done"))
                stream.recv(3_000 * number + 1)
        check("clients that go in the middle of a pack: the next is served", lists(server))
        log = server.log()
        check("the log: printable text alone", all(line.isprintable() and line.isascii() for line in log), log)


def limits_of_requests(server):
    """Requests at each limit are answered. One line more gets the ERR line that names the limits."""
    want = b"want " + FIRST.tip.hex().encode()
    haves = [b"have %040x" % number for number in range(HAVES + 1)]
    prefixes = packet(b"ref-prefix refs/heads/\n") * PREFIXES
    for what, said, more in (
        (f"{WANTS:,} wants", request(*[want] * WANTS, b"done"), request(*[want] * (WANTS + 1), b"done")),
        (f"{HAVES:,} haves", request(want, *haves[:HAVES]), request(want, *haves)),
        (f"{PREFIXES:,} prefixes", refs_request(prefixes), refs_request(prefixes + packet(b"ref-prefix HEAD\n"))),
    ):
        got = answer_to(server.port, hello(b"/r.git") + said)
        check(f"a request of {what}: answered", got.endswith(b"0000") and b"ERR " not in got, got[-200:])
        got = answer_to(server.port, hello(b"/r.git") + more)
        check(f"a request of {what} and one more: refused", got.endswith(packet(b"ERR " + LIMITS + b"\n")), got[-200:])
        check(f"after a request of {what} and one more: the next is served", lists(server))


def limits_beside_others(server):
    """Requests are smaller while many clients are connected, and may be large again afterwards."""
    want = b"want " + FIRST.tip.hex().encode()
    least, more = (hello(b"/r.git") + request(*[want] * count, b"done") for count in (BUSY_WANTS, BUSY_WANTS + 1))
    with contextlib.ExitStack() as others:
        for _ in range(BUSY):
            stream = others.enter_context(socket.create_connection(("127.0.0.1", server.port)))
            stream.sendall(hello(b"/r.git"))
            stream.recv(1)
        got = answer_to(server.port, least, "127.0.0.2")
        check(f"{BUSY_WANTS:,} wants beside {BUSY} clients: answered", got.endswith(b"0000") and b"ERR " not in got, got[-200:])
        got = answer_to(server.port, more, "127.0.0.2")
        check(f"{BUSY_WANTS + 1:,} wants beside {BUSY} clients: refused", got.endswith(packet(b"ERR " + LIMITS + b"\n")), got[-200:])
    time.sleep(SILENT)
    got = answer_to(server.port, more)
    check(f"{BUSY_WANTS + 1:,} wants, and no other client: answered", got.endswith(b"0000") and b"ERR " not in got, got[-200:])


def refs_request(lines):
    return packet(b"command=ls-refs\n") + b"0001" + lines + b"0000"


def request(*lines):
    return packet(b"command=fetch\n") + b"0001" + b"".join(packet(line) for line in lines) + b"0000"


def lists(server):
    """Whether a server lists the ref of its repository."""
    got = answer_to(server.port, hello(b"/r.git") + packet(b"command=ls-refs\n") + b"0000")
    return got.endswith(listing([(FIRST.tip, OLD.encode())]))


def shared_objects(folder):
    """Many clients of one repository share its open objects, also without a folder of packs and after its refs changed."""
    base = f"{folder}/shared"
    path = make(f"{base}/r.git")
    for kind, body in FIRST.objects:
        put_loose(path, kind, body)
    put_ref(path, OLD, FIRST.tip)
    with Gitrepo(PROGRAM, base, "--export-all") as server:
        for what, change in (("as it is", lambda: None), ("with no folder of packs", lambda: os.rmdir(f"{path}/objects/pack")),
                             ("after a change", lambda: put_ref(path, f"{OLD}-2", FIRST.tip))):
            with contextlib.ExitStack() as clients:
                streams = [clients.enter_context(socket.create_connection(("127.0.0.1", server.port), timeout=SOON)) for _ in range(SHARING)]
                for stream in streams:
                    heard(stream, hello(b"/r.git"))
                    heard(stream, refs_request(b""))
                change()
                got = answer_to(server.port, hello(b"/r.git") + refs_request(b""))
                check(f"{SHARING} clients, and one that lists a repository {what}", got.count(OLD.encode()) == len(refs_of(path)), got)
                want, have = b"want " + FIRST.tip.hex().encode(), b"have " + b"1" * 40
                answers = [heard(stream, request(want, have)) for stream in streams]
                check(f"{SHARING} clients of a repository {what}", all(b"NAK" in it for it in answers), answers[-1][-200:])


def heard(stream, said):
    """What a server answers to a client that says this, up to a flush."""
    stream.sendall(said)
    got = b""
    while not got.endswith(b"0000") and (piece := stream.recv(65_536)):
        got += piece
    return got


def silent_client(folder):
    """A client that says nothing is left after ten seconds, and the next one is served."""
    base = f"{folder}/silent"
    new_repository(f"{base}/r.git")
    with Gitrepo(PROGRAM, base, "--export-all") as server:
        with socket.create_connection(("127.0.0.1", server.port), timeout=60) as stream:
            began = time.monotonic()
            stream.sendall(hello(b"/r.git")[:7])
            waiting = Running(PROGRAM, "ls", server.url("r.git"))
            while stream.recv(65_536):
                pass
            seconds = time.monotonic() - began
        check("a silent client: for ten seconds", FIRST_LINE - 1 < seconds < FIRST_LINE + SOON, seconds)
        ended = waiting.end()
        check("a silent client: the next is served", ended.status == 0 and OLD.encode() in ended.out, ended)
        check("a silent client: the log", comes_true(lambda: is_logged(server)), server.log())


def is_logged(server):
    """Whether a server has written that a client said nothing in its time."""
    return any(" - 0 requests " in line and " its time" in line for line in server.log())


def comes_true(is_so):
    """Whether something comes true soon: a server may end a connection before it writes why."""
    until = time.monotonic() + SOON
    while not is_so():
        if time.monotonic() > until:
            return False
        time.sleep(0.02)
    return True


def wrong_urls(folder):
    for url in (
        "git://h:0/r", "git://h:65536/r", "git://h:/r", "git://h:x/r", "git:///r", "git://:1/r", "git://h", "git://", "git://u@h/r",
        "git://[::1/r", "git://h/a%2fb", "git://h/\x1b[31m", "git://h/" + "a" * 1_001, "git://" + "h" * 256 + "/r", "http://h/r",
        "ssh://h/r", "h:r", "/r", "", "git://h/\xff",
    ):
        for words in (["clone", url, f"{folder}/of-url"], ["ls", url]):
            ran = run(PROGRAM, *words)
            check(f"the URL {url[:40]!r}: wrong usage", ran.status == 2 and ran.told != b"", ran)
    check("URLs that are wrong: no clone", not os.path.exists(f"{folder}/of-url"))


# ---- trouble on the disk


def full_disks(folder):
    """Each file that is too long for a limit is an error in a sentence, and nothing is left behind."""
    tiny = History(1, 3, size=1)
    many = [(tiny.tip, f"refs/heads/b/{number:03}".encode()) for number in range(BRANCHES)]
    pack_length = len(tiny.pack())
    wholes = {}
    with Liar(refs=listing(many), pack=packfile(tiny.pack())) as server:
        base = new_repository(f"{folder}/full")
        for most in (0, 1, 20, 40, 64, 100, pack_length - 1, pack_length, 1_100, 1_300, 10_000_000):
            what = f"a limit of {most} bytes"
            path, clone = shutil.copytree(base, f"{folder}/full-{most}"), f"{folder}/full-clone-{most}"
            before = files_of(path)
            ran = run_limited(most, *fetch_words(path, server.url()))
            wholes[most] = judge_full(f"{what}, fetch", ran, has_only_packs_more(before, path), path)
            again = run(*fetch_words(path, server.url()))
            check(f"{what}: the next fetch", again.status == 0 and len(refs_of(path)) == BRANCHES + 1 and not faults_of(path), again)
            cloned = run_limited(most, *clone_words(clone, server.url()))
            judge_full(f"{what}, clone", cloned, not os.path.exists(clone), clone)
    check("limits: the first fails, and the last does not", not wholes[0] and wholes[10_000_000], wholes)
    with Liar(refs=listing(NEW), pack=packfile(LONG)) as server:
        for most in (0, 65_515, 100_000, len(LONG) - 1):
            what = f"a limit of {most} bytes on a long pack"
            path, clone = shutil.copytree(base, f"{folder}/long-{most}"), f"{folder}/long-clone-{most}"
            before = files_of(path)
            ran = run_limited(most, *fetch_words(path, server.url()))
            checks.refused(f"{what}, fetch", ran, f"cannot fetch into {path}: the temporary file of the pack: ")
            check(f"{what}: nothing is left of a fetch", files_of(path) == before)
            cloned = run_limited(most, *clone_words(clone, server.url()))
            checks.refused(f"{what}, clone", cloned, "cannot ", clone)
            check(f"{what}: nothing is left of a clone", not os.path.exists(clone))
    branches = listing([(tiny.tip, b"refs/heads/old"), (tiny.tip, b"refs/heads/b/1")])
    with Liar(refs=branches, pack=packfile(tiny.pack())) as server:
        path = new_repository(f"{folder}/full-refs", tiny)
        before = files_of(path)
        ran = run_limited(40, *fetch_words(path, server.url()))
        checks.refused("a limit on a ref's file", ran, "refs/heads/b/1")
        check("a limit on a ref's file: nothing is left", files_of(path) == before)


def has_only_packs_more(before, path):
    """Whether a repository is as before, but for a pack with its index: it stays if its refs could not be written."""
    after = files_of(path)
    more = {os.path.splitext(file)[1] for file in set(after) - set(before)}
    return all(after.get(file) == text for file, text in before.items()) and more in (set(), {".pack", ".idx"})


def judge_full(what, ran, is_clean, path, count=BRANCHES):
    """A run on a full disk is refused, with nothing left behind, or whole. It answers which."""
    checks.within_bounds(what, ran)
    if ran.status == 0:
        check(f"{what}: whole", faults_of(path) == "" and len(refs_of(path)) >= count, faults_of(path))
        return True
    checks.refused(what, ran, "cannot ")
    check(f"{what}: nothing is left", is_clean)
    return False


def closed_folders(folder):
    """Folders that a client may not write to, or that are files: nothing changes in them."""
    copies = Copies(folder)
    with Liar(refs=listing(NEW), pack=packfile(LONG)) as server:
        for part in ("objects/pack", "objects"):
            what, path = f"a fetch with a closed folder {part}", copies.new()
            before = files_of(path)
            if part == "objects":
                put_loose(path, "blob", b"loose")
                shutil.rmtree(f"{path}/objects/pack")
                put_packed(path, {})
                before = files_of(path)
            os.chmod(f"{path}/{part}", 0o555)
            ran = run_unprivileged(*fetch_words(path, server.url()))
            os.chmod(f"{path}/{part}", 0o755)
            checks.refused(what, ran, f"cannot fetch into {path}: the temporary file of the pack: permission denied")
            check(f"{what}: nothing is left", files_of(path) == before)
        what, closed = "a clone into a closed folder", f"{folder}/closed"
        os.mkdir(closed, 0o555)
        ran = run_unprivileged(*clone_words(f"{closed}/clone", server.url()))
        checks.refused(what, ran, "cannot ", closed)
        check(f"{what}: nothing is left", os.listdir(closed) == [])
        what, path = "a fetch where the folder of packs is a file", make(copies.free())
        os.rmdir(f"{path}/objects/pack")
        write(f"{path}/objects/pack", b"")
        before = files_of(path)
        ran = run(*fetch_words(path, server.url()))
        checks.refused(what, ran, "cannot ", path)
        check(f"{what}: nothing is left", files_of(path) == before)


def small_disks(folder):
    """The same on a disk that is full, which only root can mount. The largest one has room."""
    disk = f"{folder}/disk"
    os.mkdir(disk)
    with Liar(refs=listing([(FIRST.tip, MAIN.encode())]), pack=packfile(FIRST.pack())) as server:
        for size in (16, 60, 68, 72, 76, 120):
            mount = ["mount", "-t", "tmpfs", "-o", f"size={size}k", "tmpfs", disk]
            if os.geteuid() != 0 or subprocess.run(mount, stderr=subprocess.DEVNULL).returncode != 0:
                print("full disk: left out, since only root can mount one")
                return
            try:
                path = make(f"{disk}/r.git")
                before = files_of(path)
                ran = run(*fetch_words(path, server.url()))
                judge_full(f"a disk of {size} KiB, fetch", ran, has_only_packs_more(before, path), path, 1)
                shutil.rmtree(path)
                path = f"{disk}/c.git"
                ran = run(*clone_words(path, server.url()))
                judge_full(f"a disk of {size} KiB, clone", ran, os.listdir(disk) == [], path, 1)
            finally:
                subprocess.run(["umount", disk])


def kills(folder):
    """Kills at moments that are spread over a run, and as soon as a file of each kind is there."""
    base = new_repository(f"{folder}/killed-base")
    refs = {MAIN: NEXT.tip, OLD: NEXT.tips[3], "refs/tags/t": NEXT.tips[9]}
    listed = listing([(id, name.encode()) for name, id in refs.items()])
    for what, history in (("fetch", NEXT), ("clone", None)):
        objects = history.objects if history else FIRST.objects + NEXT.objects
        with Liar(refs=listed, pack=packfile(pack_of(objects))) as server:
            seconds = whole_run(what, folder, base, server)
            for number in range(KILLS):
                kill_one(what, f"{folder}/killed-{what}-{number}", base, server, refs, After(seconds * number / KILLS))
            for ending in (".keep", "tmp_", ".pack", ".idx", ".lock"):
                for number in range(2):
                    kill_one(what, f"{folder}/killed-{what}-at{ending}{number}", base, server, refs, Seen(ending))


def whole_run(what, folder, base, server):
    """How long a run takes that is not killed."""
    path = f"{folder}/killed-{what}-whole"
    if what == "fetch":
        shutil.copytree(base, path)
    ran = run(*(fetch_words if what == "fetch" else clone_words)(path, server.url()))
    check(f"{what}, which is not killed", ran.status == 0 and faults_of(path) == "", ran)
    return ran.seconds


class After:
    """A moment so many seconds after the beginning."""

    def __init__(self, seconds):
        self.seconds = seconds

    def wait(self, running, path, before):
        time.sleep(self.seconds)


class Seen:
    """The moment when a new file with this in its name is there."""

    def __init__(self, part):
        self.part = part

    def wait(self, running, path, before):
        while not running.is_over():
            for folder in ("", "refs/heads", "refs/tags", "objects/pack"):
                try:
                    found = os.listdir(f"{path}/{folder}")
                except FileNotFoundError:
                    continue
                if any(self.part in name and name not in before for name in found):
                    return


def kill_one(what, path, base, server, refs, moment):
    if what == "fetch":
        shutil.copytree(base, path)
    old = refs_of(base) if what == "fetch" else {}
    before = {os.path.basename(file) for file in files_of(path)}
    running = Running(*(fetch_words if what == "fetch" else clone_words)(path, server.url()))
    moment.wait(running, path, before)
    ended = running.kill()
    name = f"a kill of a {what} ({type(moment).__name__.lower()} {list(vars(moment).values())[0]})"
    check(f"{name}: it was killed, or was over", ended.status in (0, -9), ended)
    if not all(os.path.exists(f"{path}/{part}") for part in ("HEAD", "objects", "refs")):
        check(f"{name}: a clone alone is no repository yet", what == "clone")
        shutil.rmtree(path, ignore_errors=True)
        return
    found = refs_of(path)
    known = all(id in (old.get(ref), refs.get(ref)) for ref, id in found.items())
    check(f"{name}: refs are old or new", known and set(old) <= set(found), found)
    check(f"{name}: each object is there", faults_of(path) == "", faults_of(path))
    strange = [file for file in files_of(path) if os.path.basename(file) not in before and not may_be_left(path, file)]
    check(f"{name}: nothing else is left", not strange, strange)
    checked = run(PROGRAM, "check", path)
    check(f"{name}: gitrepo check", checked.status == 0, checked)
    if what == "fetch":
        for file in files_of(path):
            if file.endswith(".lock"):
                os.remove(f"{path}/{file}")
        again = run(*fetch_words(path, server.url()))
        check(f"{name}: the next fetch", again.status == 0 and refs_of(path) == refs and not faults_of(path), again)
    shutil.rmtree(path)


def may_be_left(path, file):
    """Whether a killed run may leave a file: a temporary one, a lock, a pack, or a ref and what a clone has besides."""
    name = os.path.basename(file)
    is_pack = name.endswith(".pack") or name.endswith(".idx") and os.path.exists(f"{path}/{file.removesuffix('idx')}pack")
    rest = name in ("HEAD", "config", "packed-refs") or file.startswith("refs/")
    return name.startswith("tmp_") or name.endswith((".lock", ".keep")) or is_pack or rest


def changing(folder):
    """A repository whose refs and packs change as git changes them: each clone is of such refs, or is refused."""
    path = new_repository(f"{folder}/changing/r.git")
    chains = [History(3, 100 + number, onto=FIRST) for number in range(40)]
    ids = {FIRST.tip, *(chain.tip for chain in chains)}
    is_over = threading.Event()

    def change():
        last = put_pack(path, FIRST.objects)
        for chain in itertools.cycle(chains):
            if is_over.wait(PAUSE):
                return
            for kind, body in chain.objects:
                put_loose(path, kind, body)
            put_ref(path, MAIN, chain.tip)
            new = put_pack(path, FIRST.objects + chain.objects)
            put_packed(path, {OLD: FIRST.tip, MAIN: chain.tip})
            for ending in (".idx", ".pack") if new != last else ():
                os.remove(f"{last}{ending}")
            last = new
            os.remove(f"{path}/{MAIN}")
            for file in files_of(f"{path}/objects"):
                if not file.startswith("pack/"):
                    os.remove(f"{path}/objects/{file}")

    changer = threading.Thread(target=change)
    changer.start()
    done = 0
    try:
        with Gitrepo(PROGRAM, f"{folder}/changing", "--export-all") as server:
            for number in range(CLONES):
                what, clone = "a repository that changes", f"{folder}/changing-{number}"
                ran = run(*clone_words(clone, server.url("r.git")))
                checks.within_bounds(what, ran)
                if ran.status == 0:
                    done += 1
                    right = set(refs_of(clone).values()) <= ids and not faults_of(clone)
                    check(f"{what}: the clone is whole", right, faults_of(clone))
                else:
                    checks.refused(what, ran, "cannot fetch from")
                    check(f"{what}: nothing is left", not os.path.exists(clone))
            is_over.set()
            changer.join()
            ran = run(*clone_words(f"{folder}/changed", server.url("r.git")))
            check("a repository that has changed: it is cloned", ran.status == 0 and not faults_of(f"{folder}/changed"), ran)
    finally:
        is_over.set()
        changer.join()
    print(f"a repository that changes: {done} of {CLONES} clones came through", flush=True)


def two_clones(folder):
    """Two clones into one directory at the same time: one is whole, and the other one is refused and leaves it alone."""
    base = f"{folder}/two"
    new_repository(f"{base}/r.git")
    with Gitrepo(PROGRAM, base, "--export-all") as server:
        for number in range(CLONES):
            clone, what = f"{folder}/two-{number}", "two clones into one directory"
            if number % 2:
                os.mkdir(clone)
            ended = [one.end() for one in [Running(*clone_words(clone, server.url("r.git"))) for _ in range(2)]]
            refused = [one for one in ended if one.status]
            check(f"{what}: one of them is refused", len(refused) == 1, ended)
            for one in refused:
                checks.refused(what, one, "exists and is not an empty directory")
            check(f"{what}: the other one is whole", refs_of(clone) == refs_of(f"{base}/r.git") and not faults_of(clone), ended)


# ---- terminals


def on_terminal(*words):
    """What a run shows on a terminal, which is its output and its errors."""
    ours, theirs = pty.openpty()
    process = subprocess.Popen([PROGRAM, *words], stdin=theirs, stdout=theirs, stderr=theirs)
    os.close(theirs)
    shown = b""
    try:
        while piece := os.read(ours, 65_536):
            shown += piece
    except OSError:
        pass
    os.close(ours)
    return process.wait(60), shown


def has_terminals():
    """Whether this machine gives out terminals."""
    try:
        for end in pty.openpty():
            os.close(end)
    except OSError:
        return False
    return True


def terminals(folder):
    """What a server says comes to a terminal as printable text: progress, errors, and the names of refs."""
    if not has_terminals():
        print("terminals: left out, since there are none here")
        return
    escape = b"\x1b]0;title\x07\x1b[31mred\x9b2J\xc2\x9b31m\x7f\x08\x00\xff"
    with progress() as server:
        status, shown = on_terminal("clone", server.url(), f"{folder}/shown")
        check("progress on a terminal: it comes", status == 0 and b"remote: counting ?[31mobjects" in shown, shown)
        check("progress on a terminal: printable text alone", is_printable(shown), shown)
    for what, said in (
        ("an ERR line as the advertisement", (packet(b"ERR " + escape), b"", b"")),
        ("an ERR line as the list", (ADVERT, packet(b"ERR " + escape), b"")),
        ("an ERR line as the pack", (ADVERT, listing(NEW), packet(b"ERR " + escape))),
        ("a fatal line", (ADVERT, listing(NEW), packet(b"packfile\n") + packet(b"\3" + escape))),
        ("a name with control bytes", (ADVERT, listing([(TIP, b"refs/heads/" + escape)]), b"")),
        ("progress alone", (ADVERT, listing(NEW), packet(b"packfile\n") + bands(escape, 2))),
        ("a capability", (packet(b"version 2\n") + packet(escape) + b"0000", b"", b"")),
    ):
        with Liar(*said) as server:
            for words in (["clone", server.url(), f"{folder}/shown-2"], ["ls", server.url()]):
                status, shown = on_terminal(*words)
                check(f"{what}, {words[0]} on a terminal: printable text alone", is_printable(shown), shown)
                check(f"{what}, {words[0]} on a terminal: an end", status in (0, 1), status)
        check(f"{what}: no clone", not os.path.exists(f"{folder}/shown-2"))
    # The bytes from 80 to 9f in hexadecimal, which a terminal may take for control bytes, as UTF-8 and alone.
    for name in (b"refs/heads/\xc2\x9b31mx", b"refs/heads/\x9b31mx"):
        with Liar(refs=listing([(TIP, name)]), pack=packfile(GOOD)) as server:
            path = make(f"{folder}/shown-{len(name)}")
            for words in (["ls", server.url()], ["fetch", path, server.url(), HEADS]):
                status, shown = on_terminal(*words)
                check(f"the name {name!r}, {words[0]} on a terminal: printable text alone", is_printable(shown), shown)
                check(f"the name {name!r}, {words[0]} on a terminal: it is shown, or refused", b"31mx" in shown or status == 1, shown)


def whole_lines(folder):
    """A line on standard error is one write. A pipe of packets keeps each write apart."""
    near, far = os.pipe2(os.O_DIRECT)
    with open(near, "rb", buffering=0) as pipe:
        subprocess.run([PROGRAM, "check", f"{folder}/none"], stdout=subprocess.DEVNULL, stderr=far)
        os.close(far)
        pieces = list(iter(lambda: pipe.read(4096), b""))
    check("a line on standard error is one write", len(pieces) == 1 and pieces[0].endswith(b"\n"), pieces)


# The longest come first.
STEPS = {
    "silent client": silent_client, "kills": kills, "changing": changing, "lying": lying_servers, "full": full_disks,
    "closing": servers_that_close, "silent": silent_servers, "paths": paths_of_clients, "small disks": small_disks,
    "terminals": terminals, "urls": wrong_urls, "two clones": two_clones, "closed folders": closed_folders,
    "whole lines": whole_lines, "shared objects": shared_objects,
}
# This one takes a minute, and so it is only tried if it is named.
SLOW = {"deadline": deadline}


def take(name, folder):
    """Takes a step in this process, and prints what was checked as its last line."""
    os.mkdir(folder)
    try:
        (STEPS | SLOW)[name](folder)
    except Exception as error:
        check(f"{name}: it comes to its end", False, repr(error))
    print(json.dumps(checks.take()), flush=True)


def take_apart(name, folder):
    """Takes a step in a process of its own. It answers what was checked, and what the step printed."""
    began = time.monotonic()
    ran = subprocess.run([sys.executable, "-B", os.path.abspath(__file__), PROGRAM, "--in", folder, name], stdout=subprocess.PIPE)
    *lines, last = ran.stdout.decode(errors="backslashreplace").splitlines() or [""]
    lines.append(f"{name}: {time.monotonic() - began:.1f} s")
    try:
        tried, wrong, most = json.loads(last)
    except ValueError:
        tried, wrong, most = 1, [f"{name}: it comes to its end"], (0, "")
        lines.append(f"WRONG {name}: it comes to its end: status {ran.returncode}, {last[-400:]}")
    return (tried, wrong, tuple(most)), lines


def take_all(asked, room):
    """Takes steps, some at a time. One with a wrong check is taken once more alone, as the others may have held it up."""
    with ThreadPoolExecutor(AT_A_TIME) as pool:
        taken = pool.map(take_apart, asked, [f"{room}/{name.replace(' ', '-')}" for name in asked])
        for name, (counts, lines) in zip(asked, taken):
            print(*lines, sep="\n", flush=True)
            yield name, counts


def main():
    if sys.argv[2:3] == ["--in"]:
        return take(sys.argv[4], sys.argv[3])
    began, again = time.monotonic(), []
    with tempfile.TemporaryDirectory(prefix="trouble-", ignore_cleanup_errors=True) as room:
        for name, counts in take_all(sys.argv[2:] or list(STEPS), room):
            if counts[1]:
                again.append(name)
            else:
                checks.add(*counts)
        for name in again:
            counts, lines = take_apart(name, f"{room}/{name.replace(' ', '-')}-again")
            print("taken again, alone:", *lines, sep="\n", flush=True)
            checks.add(*counts)
    return checks.end(f"{time.monotonic() - began:.0f} s")


if __name__ == "__main__":
    sys.exit(main())
