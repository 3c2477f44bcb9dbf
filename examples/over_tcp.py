"""Tries the commands of gitv2 that open sockets. usage: over_tcp.py PROGRAM; see over-tcp.sh."""

import os
import random
import select
import shutil
import socket
import struct
import subprocess
import sys
import tempfile
import time
from concurrent import futures

PROGRAM = os.path.abspath(sys.argv[1])
HERE = os.path.dirname(os.path.abspath(__file__))
SERVER = os.path.join(HERE, "server.repo")
CLIENT = os.path.join(HERE, "client.repo")
EMPTY = os.path.join(HERE, "empty.repo")
MAIN = "refs/heads/main:refs/remotes/origin/main"
A, B, C, D = (letter * 40 for letter in "abcd")

ADVERT = (
    b"000eversion 2\n0012agent=gitv2/1\n0013ls-refs=unborn\n000afetch\n"
    b"0017object-format=sha1\n0000"
)
FLUSH = b"0000"
failed = []
tried = 0


def check(what, got, want):
    global tried
    tried += 1
    if got != want:
        failed.append(what)
        print(f"WRONG {what}\n  got  {got!r}\n  want {want!r}")


def packet(payload):
    return b"%04x" % (len(payload) + 4) + payload


def hello(path=b"/p", host=b"127.0.0.1"):
    return packet(b"git-upload-pack %s\0host=%s\0\0version=2\0" % (path, host))


def refused(text):
    return packet(b"ERR upload-pack: " + text + b"\n")


REFS = b"0014command=ls-refs\n0001001fref-prefix refs/heads/main\n0000"
SHOWN = packet(C.encode() + b" refs/heads/main\n") + FLUSH
FETCH = (
    b"0012command=fetch\n00010010no-progress\n"
    + packet(b"want " + C.encode() + b"\n")
    + packet(b"have " + A.encode() + b"\n")
    + FLUSH
)
PACK = f"GPK1\nc {B} {A}\nc {C} {B}\nend 2\n".encode()
SENT = (
    b"0014acknowledgments\n"
    + packet(b"ACK " + A.encode() + b"\n")
    + b"000aready\n0001000dpackfile\n"
    + packet(b"\1" + PACK)
    + FLUSH
)


def run(*words, **more):
    done = subprocess.run([PROGRAM, *words], capture_output=True, timeout=600, **more)
    return done.returncode, done.stdout.decode(), done.stderr.decode()


class Listening:
    """A program that prints `listening PORT` and then serves so many connections."""

    def __init__(self, file, connections, *more, path="/p"):
        self.errors = tempfile.TemporaryFile()
        words = ["serve", "--listen", "127.0.0.1:0", "--path", path]
        words += ["--connections", str(connections), *more, file]
        self.process = subprocess.Popen(
            [PROGRAM, *words], stdout=subprocess.PIPE, stderr=self.errors
        )
        self.port = int(self.process.stdout.readline().split()[1])

    def connect(self):
        stream = socket.create_connection(("127.0.0.1", self.port))
        stream.settimeout(300)
        return stream

    def talk(self, *pieces, pause=0.0):
        with self.connect() as stream:
            for piece in pieces:
                stream.sendall(piece)
                time.sleep(pause)
            return read_all(stream)

    def memory(self):
        with open(f"/proc/{self.process.pid}/status") as status:
            return next(int(line.split()[1]) for line in status if line.startswith("VmRSS"))

    def end(self, seconds=300):
        status = self.process.wait(seconds)
        self.errors.seek(0)
        return status, self.errors.read().decode()


def read_all(stream):
    """What comes until the end. A reset is an error here."""
    got = b""
    while piece := stream.recv(65536):
        got += piece
    return got


def reset(stream):
    """Closes the connection with a reset."""
    stream.setsockopt(socket.SOL_SOCKET, socket.SO_LINGER, struct.pack("ii", 1, 0))
    stream.close()


# ---- one connection


TALKS = [
    ("refs and a pack", [hello(), REFS, FETCH, FLUSH], ADVERT + SHOWN + SENT, ""),
    ("all at once", [hello() + REFS + FETCH + FLUSH], ADVERT + SHOWN + SENT, ""),
    ("a lone flush", [hello(), FLUSH], ADVERT, ""),
    ("another host", [hello(host=b"[::1]"), FLUSH], ADVERT, ""),
    ("bytes after the end", [hello(), FLUSH, b"x" * 70000], ADVERT, ""),
    ("another path", [hello(b"/other")], refused(b"no such repository"), ""),
    ("another path and requests", [hello(b"/p/") + REFS + FETCH], refused(b"no such repository"), ""),
    ("no version", [packet(b"git-upload-pack /p\0host=h\0")], refused(b"bad line"), "42 BadText frame 0"),
    ("a flush first", [FLUSH + REFS], refused(b"unexpected packet"), "41 UnexpectedFrame frame 0"),
    ("no digits", [b"GET / HTTP/1.1\r\n\r\n"], refused(b"bad packet line"), "20 BadDigits frame 0"),
    ("a reserved length", [b"0003"], refused(b"bad packet line"), "21 Reserved frame 0"),
    ("a length too long", [b"ffff"], refused(b"bad packet line"), "22 TooLong frame 0"),
    ("an error first", [packet(b"ERR x")], refused(b"bad line"), "42 BadText frame 0"),
    ("no command", [hello(), packet(b"peel\n") + REFS], ADVERT + refused(b"bad line"), "42 BadText frame 0"),
    ("another format", [hello(), b"0012command=fetch\n0019object-format=sha256\n" + FLUSH],
     ADVERT + refused(b"object format mismatch"), "52 Format frame 1"),
    ("an object that is not there",
     [hello(), b"0012command=fetch\n0001" + packet(b"want " + D.encode() + b"\n") + b"0009done\n0000"],
     ADVERT + refused(b"not our ref " + D.encode()), f"74 NotOurs {D}"),
]


def conversations():
    for what, pieces, answer, fault in TALKS:
        for pause in (0.0, 0.02):
            listening = Listening(SERVER, 1)
            check(f"{what}: answer", listening.talk(*pieces, pause=pause), answer)
            told = f"gitv2: fault {fault}\n" if fault else ""
            check(f"{what}: end", listening.end(), (0, told))
    listening = Listening(SERVER, 1)
    check("a byte a call", listening.talk(*[bytes([b]) for b in hello() + REFS + FETCH + FLUSH]), ADVERT + SHOWN + SENT)
    listening.end()
    listening = Listening(SERVER, 1, "--response-end")
    check("response-end", listening.talk(hello(), REFS, FLUSH), ADVERT + SHOWN + b"0002")
    listening.end()
    for what, sent, fault in [("nothing", b"", "54 Ended"), ("half a line", hello()[:20], "23 Truncated")]:
        listening = Listening(SERVER, 1)
        stream = listening.connect()
        stream.sendall(sent)
        stream.shutdown(socket.SHUT_WR)
        check(f"{what}: answer", read_all(stream), refused(b"unexpected end"))
        check(f"{what}: end", listening.end(), (0, f"gitv2: fault {fault} frame 0\n"))


# ---- the other commands


def clients():
    listening = Listening(SERVER, 4)
    place = ["--tcp", f"127.0.0.1:{listening.port}", "--path", "/p"]
    head = f"{C} HEAD symref-target:refs/heads/main\n"
    check("ls", run("ls", *place), (0, head + f"{C} refs/heads/main\n", ""))
    check("ls of a prefix", run("ls", "refs/heads/", *place), (0, f"{C} refs/heads/main\n", ""))
    with tempfile.TemporaryDirectory() as folder:
        mine = shutil.copy(CLIENT, folder)
        moved = f"moved refs/remotes/origin/main {C}\n"
        check("fetch", run("fetch", *place, mine, MAIN), (0, moved, ""))
        check("what is fetched", run("check", mine), (0, "nodes 3 refs 1 closed yes safe yes\n", ""))
        check("fetch again", run("fetch", *place, mine, MAIN), (0, "same refs/remotes/origin/main\n", ""))
    check("clients served", listening.end(), (0, ""))
    listening = Listening(SERVER, 1)
    place = ["--tcp", f"127.0.0.1:{listening.port}", "--path", "/q"]
    gone = "gitv2: fault 49 RemoteErr frame 0 upload-pack: no such repository\n"
    check("another path", run("ls", *place), (1, "", gone))
    listening.end()
    nobody = ["--tcp", f"127.0.0.1:{listening.port}", "--path", "/p"]
    check("nobody there", run("ls", *nobody), (1, "", "gitv2: fault 96 Socket\n"))
    check("a bad prefix first", run("ls", *nobody, "a b"), (1, "", "gitv2: fault 13 BadByte at 1\n"))
    many = [f"refs/{number}" for number in range(65)]
    check("too many prefixes first", run("ls", *nobody, *many), (1, "", "gitv2: fault 48 Limit frame 0\n"))
    check("a bad refspec first", run("fetch", *nobody, CLIENT, "x"), (1, "", "gitv2: fault 87 BadSpec\n"))
    check("a bad file first", run("fetch", *nobody, SERVER, MAIN), (1, "", "gitv2: fault 67 Text line 6\n"))
    full = open("/dev/full", "w")
    words = [PROGRAM, "serve", "--listen", "127.0.0.1:0", "--path", "/p", "--connections", "1", SERVER]
    done = subprocess.run(words, stdout=full, stderr=subprocess.PIPE)
    check("no room for the port", (done.returncode, done.stderr), (1, b"gitv2: fault 27 Io\n"))
    words = ["serve", "--path", "/p", "--connections", "1", SERVER, "--listen"]
    with socket.create_server(("127.0.0.1", 0)) as taken:
        port = taken.getsockname()[1]
        check("a port that is taken", run(*words, f"127.0.0.1:{port}"), (1, "", "gitv2: fault 96 Socket\n"))
    for address in ["127.0.0.1", "127.0.0.1:", ":80", "a b:80", "a:65536", "a:+80"]:
        check(f"usage, {address}", run(*words, address), (2, "", "gitv2: usage\n"))


def chain(folder, commits):
    """A server of so many commits, each the parent of the next."""
    ids = [A] + [f"{number:040d}" for number in range(1, commits)]
    lines = [f"c {' '.join(pair)}" for pair in zip(ids, [""] + ids)]
    text = "gitv2 1\n" + "".join(line.rstrip() + "\n" for line in lines)
    name = os.path.join(folder, f"chain{commits}.repo")
    with open(name, "w") as file:
        file.write(f"{text}r {ids[-1]} refs/heads/main\nh none\nend\n")
    return name, ids[-1]


def pairs():
    with tempfile.TemporaryDirectory() as folder:
        check("pair", run("pair", SERVER, EMPTY, MAIN), (0, f"moved refs/remotes/origin/main {C}\n", ""))
        check("pair, nothing new", run("pair", SERVER, CLIENT, "refs/heads/x:refs/heads/x"), (0, "", ""))
        name, last = chain(folder, 390)
        check("a reply of 32,754 bytes", run("pair", name, EMPTY, MAIN), (0, f"moved refs/remotes/origin/main {last}\n", ""))
        name, last = chain(folder, 391)
        check("one that is longer", run("pair", name, EMPTY, MAIN), (1, "", "gitv2: fault 94 PairLimit\n"))
        long = os.path.join(folder, "sha256.repo")
        with open(SERVER) as source, open(long, "w") as file:
            text = source.read().replace("gitv2 1\n", "gitv2 2 sha256\n")
            for letter in "abc":
                text = text.replace(letter * 40, letter * 64)
            file.write(text)
        none = os.path.join(folder, "none.repo")
        with open(none, "w") as file:
            file.write("gitv2 2 sha256\nh none\nend\n")
        check("pair, sha256", run("pair", long, none, MAIN), (0, f"moved refs/remotes/origin/main {'c' * 64}\n", ""))
        check("pair, two formats", run("pair", long, EMPTY, MAIN), (1, "", "gitv2: fault 52 Format frame 0\n"))
        listening = Listening(long, 1)
        place = ["--tcp", f"127.0.0.1:{listening.port}", "--path", "/p"]
        check("ls, sha256", run("ls", *place, "refs/"), (0, f"{'c' * 64} refs/heads/main\n", ""))
        listening.end()


# ---- git at the other end


def git(folder, *words):
    plain = ["-c", "user.name=n", "-c", "user.email=e", "-c", "protocol.version=2", "-c", "init.defaultBranch=main"]
    done = subprocess.run(["git", *plain, *words], cwd=folder, capture_output=True, timeout=60)
    return done.returncode, done.stdout.decode(), done.stderr.decode()


def repository_of(folder, name, refs, head):
    """The text of a git repository's commits, with these refs."""
    listed = git(folder, "rev-list", "--parents", "--reverse", "--topo-order", "--all")[1]
    lines = [f"c {line}\n" for line in listed.splitlines()] + [f"r {id} {ref}\n" for id, ref in refs]
    with open(name, "w") as file:
        file.write("gitv2 1\n" + "".join(lines) + f"h {head}\nend\n")


def with_git(folder):
    work = os.path.join(folder, "work")
    os.mkdir(work)
    git(work, "init", "-q")
    for number in range(3):
        git(work, "commit", "-q", "--allow-empty", "-m", f"commit {number}")
    git(work, "branch", "side", "HEAD~1")
    refs = [tuple(line.split()) for line in git(work, "show-ref", "--heads")[1].splitlines()]
    served = os.path.join(folder, "served.repo")
    repository_of(work, served, refs, "ref refs/heads/main")
    listed = f"{refs[0][0]}\tHEAD\n" + "".join(f"{id}\t{ref}\n" for id, ref in refs)

    listening = Listening(served, 3, path="/work")
    url = f"git://127.0.0.1:{listening.port}/work"
    check("git ls-remote", git(work, "ls-remote", url)[:2], (0, listed))
    check("git fetch, nothing new", git(work, "fetch", url, "main:refs/remotes/o/main")[0], 0)
    check("what git fetched", git(work, "rev-parse", "refs/remotes/o/main")[1].strip(), refs[0][0])
    told = git(work, "ls-remote", url + "x")
    check("git, another path", told[0] != 0 and "no such repository" in told[2], True)
    check("git served", listening.end(), (0, ""))
    listening = Listening(served, 1, path="/work")
    url = f"git://127.0.0.1:{listening.port}/work"
    told = git(work, "-c", "protocol.version=0", "ls-remote", url)
    check("git, protocol 0", told[0] != 0 and "upload-pack: bad line" in told[2], True)
    check("git, protocol 0: end", listening.end(), (0, "gitv2: fault 42 BadText frame 0\n"))
    from_daemon(folder, work, refs)


def from_daemon(folder, work, refs):
    with socket.create_server(("127.0.0.1", 0)) as free:
        port = free.getsockname()[1]
    words = ["daemon", "--export-all", f"--base-path={folder}", "--listen=127.0.0.1", f"--port={port}", "--reuseaddr"]
    daemon = subprocess.Popen(["git", *words], stderr=subprocess.DEVNULL, start_new_session=True)
    try:
        wait_for(port)
        place = ["--tcp", f"127.0.0.1:{port}", "--path", "/work/.git"]
        listed = f"{refs[0][0]} HEAD symref-target:refs/heads/main\n" + "".join(f"{id} {ref}\n" for id, ref in refs)
        check("ls of a git daemon", run("ls", *place, "HEAD", "refs/heads/"), (0, listed, ""))
        mine = os.path.join(folder, "mine.repo")
        repository_of(work, mine, [(refs[1][0], "refs/remotes/origin/main")], "none")
        moved = f"moved refs/remotes/origin/main {refs[0][0]}\n"
        check("fetch of a git daemon, nothing new", run("fetch", *place, mine, MAIN), (0, moved, ""))
        shutil.copy(EMPTY, mine)
        check("a pack of git's own", run("fetch", *place, mine, MAIN), (1, "", "gitv2: fault 66 Index line 1\n"))
        shutil.copy(EMPTY, mine)
        gone = ["--tcp", f"127.0.0.1:{port}", "--path", "/nothing"]
        status, shown, told = run("ls", *gone)
        check("no such repository of a git daemon", (status, shown, told.startswith("gitv2: fault 49 RemoteErr frame 0")), (1, "", True))
    finally:
        daemon.terminate()
        daemon.wait()


def wait_for(port):
    for _ in range(100):
        try:
            return socket.create_connection(("127.0.0.1", port)).close()
        except OSError:
            time.sleep(0.1)


# ---- many connections, hostile ones among them


def leaves(listening):
    listening.connect().close()


def resets(listening):
    reset(listening.connect())


def resets_after_the_first_line(listening):
    stream = listening.connect()
    stream.sendall(hello())
    reset(stream)


def cuts_a_request(listening):
    stream = listening.connect()
    stream.sendall((hello() + REFS + FETCH)[: random.randrange(1, 200)])
    stream.close()


def sends_garbage(listening):
    stream = listening.connect()
    try:
        stream.sendall(random.randbytes(random.randrange(1, 2_000_000)))
        read_all(stream)
    except OSError:
        pass
    stream.close()


def changes_a_byte(listening):
    sent = bytearray(hello() + REFS + FETCH + FLUSH)
    sent[random.randrange(len(sent))] ^= 1 << random.randrange(8)
    stream = listening.connect()
    stream.sendall(sent)
    stream.shutdown(socket.SHUT_WR)
    read_all(stream)
    stream.close()


HOSTILE = [leaves, resets, resets_after_the_first_line, cuts_a_request, sends_garbage, changes_a_byte]


def endurance(connections=10_000):
    random.seed(1)
    listening = Listening(SERVER, connections)
    rests = []
    for number in range(connections):
        if number % 10 == 9:
            random.choice(HOSTILE)(listening)
        else:
            got = listening.talk(hello() + REFS + FETCH + FLUSH)
            check("one of many", got, ADVERT + SHOWN + SENT)
        if number + 1 in (connections // 10, connections - 1):
            rests.append(listening.memory())
    status, told = listening.end()
    check("many: status", status, 0)
    lines = told.splitlines()
    check("many: a line a fault", all(line.startswith("gitv2: fault ") for line in lines), True)
    check("many: no more than the hostile ones", 0 < len(lines) <= connections // 10, True)
    check("many: flat memory", rests[1] <= rests[0] + 256, True)
    print(f"{connections} connections: {rests[0]} KiB after a tenth of them, {rests[1]} KiB at the end; {len(lines)} faults")


# ---- peers that are silent or slow


def drip(stream, piece, seconds):
    """Sends a byte now and then, until the other end says something. Answers what it says."""
    for byte in piece:
        if select.select([stream], [], [], seconds)[0]:
            break
        stream.sendall(bytes([byte]))
    return read_all(stream)


def after_two_silent_ones(folder):
    listening = Listening(SERVER, 3)
    began = time.time()
    mute = [listening.connect(), listening.connect()]
    check("after two silent ones", listening.talk(hello(), FLUSH), ADVERT)
    check("after two silent ones: in time", 19 <= time.time() - began <= 25, True)
    for stream in mute:
        check("a silent one: answer", read_all(stream), refused(b"read failed"))
    check("silent ones: end", listening.end(), (0, "gitv2: fault 24 Io frame 0\n" * 2))


def slow_first_line(folder):
    listening = Listening(SERVER, 2)
    began = time.time()
    with listening.connect() as slow:
        check("a slow first line", drip(slow, hello(b"/" + b"x" * 900), 0.5), refused(b"read failed"))
        check("a slow first line: in time", 9 <= time.time() - began <= 14, True)
    check("after a slow first line", listening.talk(hello(), FLUSH), ADVERT)
    check("a slow first line: end", listening.end(), (0, "gitv2: fault 24 Io frame 0\n"))


def slow_request(folder):
    listening = Listening(SERVER, 2)
    began = time.time()
    with listening.connect() as slow:
        slow.sendall(hello())
        check("the advertisement of a slow one", slow.recv(len(ADVERT), socket.MSG_WAITALL), ADVERT)
        check("a slow request", drip(slow, packet(b"command=ls-refs") + b"0001", 5), refused(b"read failed"))
        check("a slow request: in time", 59 <= time.time() - began <= 75, True)
    check("after a slow request", listening.talk(hello(), FLUSH), ADVERT)
    check("a slow request: end", listening.end(), (0, "gitv2: fault 24 Io frame 0\n"))


def one_that_takes_nothing(folder):
    """The reply is longer than what finds room in the connection."""
    name, last = chain(folder, 60_000)
    listening = Listening(name, 2)
    began = time.time()
    with listening.connect() as deaf:
        deaf.setsockopt(socket.SOL_SOCKET, socket.SO_RCVBUF, 4096)
        want = packet(f"want {last}\n".encode())
        deaf.sendall(hello() + packet(b"command=fetch\n") + b"0001" + want + b"0009done\n0000")
        check("after one that takes nothing", listening.talk(hello(), FLUSH), ADVERT)
        # The last write that is taken in part waits for as long as the one after it.
        check("one that takes nothing: in time", 59 <= time.time() - began <= 75, True)
    check("one that takes nothing: end", listening.end(), (0, "gitv2: fault 27 Io\n"))


def silent_server(folder):
    """A server that accepts and says nothing, to both commands that connect."""
    with socket.create_server(("127.0.0.1", 0)) as mute:
        place = ["--tcp", f"127.0.0.1:{mute.getsockname()[1]}", "--path", "/p"]
        mine = shutil.copy(CLIENT, os.path.join(folder, "silent.repo"))
        runs = [["ls", *place], ["fetch", *place, mine, MAIN]]
        began = time.time()
        with futures.ThreadPoolExecutor() as threads:
            for words, got in zip(runs, threads.map(lambda words: run(*words), runs)):
                check(f"{words[0]} from a silent server", got, (1, "", "gitv2: fault 24 Io frame 0\n"))
        check("a silent server: in time", 59 <= time.time() - began <= 75, True)
        with open(mine) as file, open(CLIENT) as before:
            check("a silent server: the file", file.read(), before.read())
        check("a silent server: the lock", os.path.exists(mine + ".lock"), False)


def no_answer(folder):
    """A socket whose queue is full, so that nobody answers to a connection."""
    with socket.create_server(("127.0.0.1", 0), backlog=0) as full:
        waiting = [socket.socket() for _ in range(4)]
        for stream in waiting:
            stream.setblocking(False)
            stream.connect_ex(full.getsockname())
        began = time.time()
        place = ["--tcp", f"127.0.0.1:{full.getsockname()[1]}", "--path", "/p"]
        check("nobody answers", run("ls", *place), (1, "", "gitv2: fault 96 Socket\n"))
        check("nobody answers: in time", 59 <= time.time() - began <= 75, True)
        for stream in waiting:
            stream.close()


PATIENCE = [
    after_two_silent_ones, slow_first_line, slow_request, one_that_takes_nothing, silent_server, no_answer,
]


def deadlines(folder):
    """All at once, since each waits."""
    began = time.time()
    with futures.ThreadPoolExecutor(len(PATIENCE)) as threads:
        for done in [threads.submit(wait, folder) for wait in PATIENCE]:
            done.result()
    print(f"silent and slow peers: {time.time() - began:.0f} s")


def main():
    conversations()
    clients()
    pairs()
    with tempfile.TemporaryDirectory() as folder:
        with_git(folder)
        deadlines(folder)
    endurance()
    print(f"{tried} tried, {len(failed)} wrong")
    return 1 if failed else 0


if __name__ == "__main__":
    sys.exit(main())
