"""Tries gitrepo against peers that lie and against trouble. usage: hostile.py PROGRAM; see hostile.sh."""

import os
import random
import resource
import shutil
import signal
import socket
import subprocess
import sys
import tempfile
import threading
import time

from both_ends import (
    ENV, Gitrepo, GitDaemon, add_history, answer_to, attempt, faults_of, git, hello, left_behind, new_repository, objects,
    packet, refs, tip,
)
from lies import cases, progress, spoken, Liar, listing, packfile
from runs import MEMORY, SECONDS, Checks, is_sentence, run

PROGRAM = os.path.abspath(sys.argv[1])
HEADS, TAGS = "+refs/heads/*:refs/heads/*", "+refs/tags/*:refs/tags/*"
KILLS = 40
CHANGES = 12
checks = Checks()
check, within_bounds = checks.check, checks.within_bounds


def gitrepo(*words, **more):
    return run(PROGRAM, *words, **more)


def state_of(path):
    """The refs and the files of a repository."""
    return refs(path), sorted(os.path.join(at, name) for at, _, names in os.walk(path) for name in names)


def fetch(path, url, *more):
    return gitrepo("fetch", *more, path, url, HEADS, TAGS)


# ---- packs and servers that lie


def lying_packs(folder, base):
    worst = (0, "")
    for case in cases():
        path = shutil.copytree(base, tempfile.mkdtemp(dir=folder), dirs_exist_ok=True)
        before = state_of(path)
        with Liar(refs=listing(case.refs), pack=packfile(case.pack)) as server:
            ran = fetch(path, server.url())
            clone = gitrepo("clone", server.url(), f"{path}-clone")
        worst = max(worst, (ran.seconds, case.what))
        within_bounds(case.what, ran)
        after = state_of(path)
        if case.is_taken:
            check(f"{case.what}: taken", ran.status == 0 and after[0] != before[0] and not faults_of(path), ran)
        else:
            check(f"{case.what}: refused in a sentence", ran.status == 1 and is_sentence(ran.told), ran)
            check(f"{case.what}: no ref moves", after[0] == before[0], after[0])
            check(f"{case.what}: nothing left behind", after == before, set(after[1]) - set(before[1]))
            check(f"{case.what}: fsck", not faults_of(path), faults_of(path))
        if case.is_cloned:
            check(f"{case.what}: cloned", clone.status == 0 and not faults_of(f"{path}-clone"), clone)
        else:
            check(f"{case.what}: no clone", clone.status == 1 and not os.path.exists(f"{path}-clone"), clone)
        shutil.rmtree(path)
        shutil.rmtree(f"{path}-clone", ignore_errors=True)
    print(f"packs: the slowest in {worst[0]:.1f} s ({worst[1]})", flush=True)


def lying_servers(folder, base):
    for what, server in spoken():
        path = shutil.copytree(base, tempfile.mkdtemp(dir=folder), dirs_exist_ok=True)
        before = state_of(path)
        with server:
            ran = fetch(path, server.url())
            clone = gitrepo("clone", server.url(), f"{path}-clone")
            listed = gitrepo("ls", server.url())
        for how, one in (("fetch", ran), ("clone", clone), ("ls", listed)):
            within_bounds(f"{what}, {how}", one)
            check(f"{what}, {how}: a sentence, if it is refused", one.status == 0 or is_sentence(one.told), one)
        if ran.status == 0:
            check(f"{what}: fsck", not faults_of(path), faults_of(path))
        else:
            check(f"{what}: nothing left behind", state_of(path) == before)
        check(f"{what}: no folder of a clone that failed", clone.status == 0 or not os.path.exists(f"{path}-clone"), clone)
        shutil.rmtree(path)
        shutil.rmtree(f"{path}-clone", ignore_errors=True)
    path = shutil.copytree(base, tempfile.mkdtemp(dir=folder), dirs_exist_ok=True)
    with progress() as server:
        ran = fetch(path, server.url(), "--progress")
    within_bounds("progress with control bytes", ran)
    check("progress with control bytes: shown, and cleaned", ran.status == 0 and b"counting ?[31mobjects" in ran.told, ran)


def lying_clients(folder):
    """What a client may say that is no request: an ERR line or an end, and the server goes on."""
    base = f"{folder}/clients"
    os.mkdir(base)
    path = add_history(new_repository(f"{base}/r.git"), 200, 71)
    id = tip(path).encode()
    good = hello(b"/r.git")

    def request(*lines):
        return packet(b"command=fetch\n") + b"0001" + b"".join(packet(line) for line in lines) + b"0000"

    with Gitrepo(PROGRAM, base, "--export-all") as server:
        for what, said in (
            ("nothing", b""), ("half a length", b"00"), ("no packet", b"GET / HTTP/1.0\r\n\r\n"), ("a length of 3", b"0003"),
            ("the longest packet, cut", b"ffff"), ("no path", packet(b"git-upload-pack \0host=x\0\0version=2\0")),
            ("another service", packet(b"git-receive-pack /r.git\0host=x\0\0version=2\0")),
            ("control bytes", packet(b"git-upload-pack /\x1b[31m\0host=x\0\0version=2\0")), ("a NUL alone", packet(b"\0")),
            ("an unknown command", good + packet(b"command=push\n") + b"0000"), ("a flush", good + b"0000"),
            ("a want of an id that no ref has", good + request(b"want " + b"1" * 40, b"done")),
            ("a want that is no id", good + request(b"want x", b"done")),
            ("65,538 wants", good + request(*[b"want " + id] * 65_538, b"done")),
            ("65,537 haves", good + request(b"want " + id, *[b"have %040x" % number for number in range(65_537)], b"done")),
            ("a filter", good + request(b"want " + id, b"filter blob:none", b"done")),
            ("a depth", good + request(b"want " + id, b"deepen 1", b"done")),
            ("a request that is cut", good + request(b"want " + id)[:-10]),
            ("100,000 prefixes", good + packet(b"command=ls-refs\n") + b"0001" + packet(b"ref-prefix refs/heads/x\n") * 100_000 + b"0000"),
        ):
            got = answer_to(server.port, said)
            check(f"a client that says {what}: the server goes on", attempt("git", "ls-remote", server.url("r.git")), got[:200])
        for number in range(20):
            with socket.create_connection(("127.0.0.1", server.port)) as stream:
                stream.sendall(good + request(b"want " + id, b"done"))
                stream.recv(100 * number + 1)
        check("clients that go in the middle of a pack: the server goes on", attempt("git", "ls-remote", server.url("r.git")))
        clone = f"{folder}/after-clients"
        done = attempt("git", "clone", "--quiet", "--mirror", server.url("r.git"), clone)
        check("after all clients: a clone", done and objects(clone) == objects(path), done)
        check("the log: printable text alone", all(line.isprintable() and line.isascii() for line in server.log()), server.log())
        check(f"a server for all clients: {MEMORY} MB at most", memory_of(server.process) <= MEMORY, memory_of(server.process))


def memory_of(process):
    """The most memory that a process had, in MB."""
    with open(f"/proc/{process.pid}/status") as status:
        return next(int(line.split()[1]) for line in status if line.startswith("VmHWM")) / 1024


# ---- trouble


def changing(folder):
    """A repository that changes while it is read: each clone is one of a moment, or fails; it is never wrong."""
    base = f"{folder}/changing"
    os.mkdir(base)
    path = add_history(new_repository(f"{base}/r.git"), 300, 81)
    is_over = threading.Event()

    def change():
        for number in range(10_000):
            if is_over.is_set():
                return
            step = number % 4
            if step == 0:
                add_history(path, 15, 1_000 + number, f"refs/heads/new/{number}", tip(path))
            elif step == 1:
                git(path, "repack", "-adq")
            elif step == 2:
                git(path, "pack-refs", "--all", "--prune")
            else:
                git(path, "update-ref", "-d", f"refs/heads/new/{number - 3}")

    changer = threading.Thread(target=change)
    changer.start()
    ends = {True: 0, False: 0}
    try:
        with Gitrepo(PROGRAM, base, "--export-all") as ours, GitDaemon(base) as theirs:
            for number in range(CHANGES):
                for what, done, copy in (
                    ("git clones", attempt("git", "clone", "--quiet", "--mirror", ours.url("r.git"), f"{base}-{number}"), f"{base}-{number}"),
                    ("gitrepo clones", attempt(PROGRAM, "clone", theirs.url("r.git"), f"{base}-o{number}"), f"{base}-o{number}"),
                ):
                    ends[bool(done)] += 1
                    check(f"{what} what changes: fsck", not done or not faults_of(copy), faults_of(copy) if done else done)
    finally:
        is_over.set()
        changer.join()
    print(f"a repository that changes: {ends[True]} clones, {ends[False]} that failed", flush=True)
    check("a repository that changes: most clones come through", ends[True] >= ends[False], ends)


def full_disk(folder, source):
    """A disk without room: an error in a sentence, and nothing is left behind."""
    disk = f"{folder}/disk"
    os.mkdir(disk)
    mount = ["mount", "-t", "tmpfs", "-o", "size=300k", "tmpfs", disk]
    if os.geteuid() != 0 or subprocess.run(mount, stderr=subprocess.DEVNULL).returncode != 0:
        print("full disk: left out, since only root can mount one")
        return
    try:
        with GitDaemon(os.path.dirname(source)) as theirs:
            url = theirs.url(os.path.basename(source))
            ran = gitrepo("clone", url, f"{disk}/r.git")
            check("a full disk, clone: a sentence", ran.status == 1 and is_sentence(ran.told), ran)
            check("a full disk, clone: no folder", not os.path.exists(f"{disk}/r.git"), os.listdir(disk))
            git(None, "init", "--quiet", "--bare", f"{disk}/s.git")
            before = state_of(f"{disk}/s.git")
            ran = fetch(f"{disk}/s.git", url)
            check("a full disk, fetch: a sentence", ran.status == 1 and is_sentence(ran.told), ran)
            check("a full disk, fetch: as before", state_of(f"{disk}/s.git") == before)
    finally:
        subprocess.run(["umount", disk])


def limit_files():
    """The longest file: the system ends the run at a longer one, unless the write fails."""
    resource.setrlimit(resource.RLIMIT_FSIZE, (100_000, 100_000))


def small_limit(folder, source):
    with GitDaemon(os.path.dirname(source)) as theirs:
        path = f"{folder}/limited.git"
        new_repository(path)
        ran = gitrepo("fetch", path, theirs.url(os.path.basename(source)), HEADS, preexec_fn=limit_files)
        check("a limit on files: fails", ran.status != 0, ran)
        check("a limit on files: fsck", not faults_of(path), faults_of(path))
        check("a limit on files: no ref", refs(path) == "")
        only_left_overs("a limit on files", path, set())
        ran = gitrepo("fetch", path, theirs.url(os.path.basename(source)), HEADS)
        check("a limit on files: the next fetch", ran.status == 0 and not faults_of(path), ran)


def only_left_overs(what, path, before):
    """Each new file is a temporary one, a lock, part of a whole pack, a pack without its index, the file that keeps one, or a ref."""
    for at, _, names in os.walk(path):
        for name in names:
            file = os.path.join(at, name)
            known = name.startswith("tmp_") or name.endswith((".lock", ".pack", ".keep")) or "/refs/" in file
            index = name.endswith(".idx") and os.path.exists(file.removesuffix("idx") + "pack")
            rest = name in ("HEAD", "config", "packed-refs")
            check(f"{what}: nothing else is left", file in before or known or index or rest, file)


def kills(folder, source):
    """Kills at random moments of a clone and of a fetch."""
    with GitDaemon(os.path.dirname(source)) as theirs:
        url = theirs.url(os.path.basename(source))
        old = f"{folder}/old.git"
        git(None, "clone", "--quiet", "--bare", "--single-branch", "--branch=side/91-0", "--no-tags", url, old)
        whole = gitrepo("clone", url, f"{folder}/whole.git").seconds
        found = {"before": 0, "after": 0}
        for number in range(KILLS):
            path = f"{folder}/killed-{number}.git"
            if number % 2:
                words = ["clone", url, path]
            else:
                shutil.copytree(old, path)
                words = ["fetch", path, url, HEADS, TAGS]
            before = set(state_of(path)[1]) if os.path.exists(path) else set()
            process = subprocess.Popen([PROGRAM, *words], stdout=subprocess.DEVNULL, stderr=subprocess.DEVNULL, env=ENV)
            time.sleep(random.uniform(0, whole))
            process.kill()
            process.wait()
            if not os.path.exists(f"{path}/HEAD"):
                shutil.rmtree(path, ignore_errors=True)
                continue
            check(f"a kill of {words[0]}: fsck", not faults_of(path), faults_of(path))
            only_left_overs(f"a kill of {words[0]}", path, before)
            is_after = refs(path, "refs/heads") == refs(source, "refs/heads")
            found["after" if is_after else "before"] += 1
            if words[0] == "fetch":
                for lock in left_behind(path):
                    os.remove(lock)
                ran = fetch(path, url)
                check("after a kill: the next fetch", ran.status == 0 and refs(path, "refs/heads") == refs(source, "refs/heads"), ran)
                check("after a kill: fsck of the next fetch", not faults_of(path), faults_of(path))
            shutil.rmtree(path)
    print(f"{KILLS} kills in {whole:.2f} s: {found['before']} before the refs moved, {found['after']} after", flush=True)


def at_once(folder, source):
    """Fetches at once into one repository: one of them waits or is refused, and nothing is lost."""
    with GitDaemon(os.path.dirname(source)) as theirs:
        url = theirs.url(os.path.basename(source))
        for number in range(5):
            path = new_repository(f"{folder}/shared-{number}.git")
            words = [PROGRAM, "fetch", path, url, HEADS, TAGS]
            runs = [subprocess.Popen(words, stdout=subprocess.DEVNULL, stderr=subprocess.PIPE, env=ENV) for _ in range(3)]
            ends = [(run.communicate(timeout=SECONDS)[1], run.returncode) for run in runs]
            check("three at once: each is done or refused", all(status in (0, 1) for _, status in ends), ends)
            check("three at once: a sentence", all(status == 0 or is_sentence(told) for told, status in ends), ends)
            check("three at once: fsck", not faults_of(path), faults_of(path))
            check("three at once: nothing left behind", not left_behind(path), left_behind(path))
            last = fetch(path, url)
            check("three at once: one more", last.status == 0 and refs(path) == refs(source), last)


def main():
    random.seed()
    signal.signal(signal.SIGPIPE, signal.SIG_DFL)
    began = time.monotonic()
    with tempfile.TemporaryDirectory(prefix="hostile-") as folder:
        base = add_history(new_repository(f"{folder}/base.git"), 10, 61, branch="refs/heads/old")
        source = add_history(new_repository(f"{folder}/source/r.git"), 1_500, 91)
        git(source, "repack", "-adq")
        for step in (
            lambda: lying_packs(folder, base), lambda: lying_servers(folder, base), lambda: lying_clients(folder),
            lambda: changing(folder), lambda: full_disk(folder, source), lambda: small_limit(folder, source),
            lambda: kills(folder, source), lambda: at_once(folder, source),
        ):
            try:
                step()
            except (OSError, ValueError, subprocess.SubprocessError) as error:
                check("a step comes to its end", False, repr(error))
    return checks.end(f"{time.monotonic() - began:.0f} s")


sys.exit(main())
