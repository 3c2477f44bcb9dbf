"""What the scripts that try gitrepo share: git without anyone's settings, histories, and both servers."""

import os
import random
import shutil
import socket
import subprocess
import tempfile
import time

BRANCH = "refs/heads/trunk"
# The longest that a command may take.
SECONDS = 30

# A fetch keeps its pack, so that there are fewer files.
SETTINGS = {
    "gc.auto": "0", "maintenance.auto": "false", "fetch.unpackLimit": "1", "protocol.file.allow": "always",
    "advice.detachedHead": "false", "core.fsync": "none",
}
ENV = {
    "PATH": os.environ["PATH"],
    "HOME": "/nonexistent",
    "LC_ALL": "C",
    "TZ": "UTC",
    "GIT_CONFIG_NOSYSTEM": "1",
    "GIT_CONFIG_GLOBAL": "/dev/null",
    "GIT_TERMINAL_PROMPT": "0",
    "GIT_NO_REPLACE_OBJECTS": "1",
    "GIT_TEMPLATE_DIR": "",
    "GIT_AUTHOR_NAME": "A",
    "GIT_AUTHOR_EMAIL": "a@example.com",
    "GIT_COMMITTER_NAME": "C",
    "GIT_COMMITTER_EMAIL": "c@example.com",
    "GIT_CONFIG_COUNT": str(len(SETTINGS)),
}
for _place, (_key, _value) in enumerate(SETTINGS.items()):
    ENV.update({f"GIT_CONFIG_KEY_{_place}": _key, f"GIT_CONFIG_VALUE_{_place}": _value})


class Ended:
    """A command that ended: its status, what it wrote, and its errors as text."""

    def __init__(self, status, out, told):
        self.status, self.out, self.told = status, out, told

    def __bool__(self):
        return self.status == 0

    def __repr__(self):
        return f"status {self.status}, {self.out[-200:]!r}, {self.told[-600:]!r}"


def attempt(*words, data=b"", env=ENV, **more):
    """Runs a command, which may fail."""
    try:
        done = subprocess.run(words, input=data, env=env, capture_output=True, timeout=SECONDS, **more)
    except subprocess.TimeoutExpired:
        return Ended("none: it takes too long", b"", "")
    return Ended(done.returncode, done.stdout, done.stderr.decode(errors="backslashreplace"))


def git(folder, *words, data=b""):
    """What git writes, which must not fail."""
    done = attempt("git", *words, data=data, cwd=folder)
    if not done:
        raise OSError(f"git {' '.join(words)}: {done}")
    return done.out.decode(errors="surrogateescape").removesuffix("\n")


def has_git():
    """Whether git is there, with its daemon."""
    if not shutil.which("git"):
        return False
    folder = subprocess.run(["git", "--exec-path"], capture_output=True, text=True).stdout.strip()
    return os.path.exists(f"{folder}/git-daemon")


# ---- repositories


def new_repository(path):
    git(None, "init", "--quiet", "--bare", "--initial-branch=trunk", path)
    return path


FILES = [b"a", b"dir/b", b"dir/deep/er/c d", b"\xc3\xbc/n\xc3\xa4me", b"x" * 200, b"dir/exec", b"link"]


def file_of(chance, path, number, seed):
    """The mode and the bytes of a file: empty, small or large, an executable, or a symbolic link."""
    if path == b"link":
        return b"120000", b"dir/b%d" % number
    text = b"" if chance.random() < 0.05 else b"%s line %d %d\n" % (path, seed, number // 3) * chance.choice([1, 3, 50, 700])
    return (b"100755" if path.endswith(b"exec") else b"100644"), text


def history(commits, seed, branch, onto, submodule):
    """The lines of a history by chance, for `git fast-import`: merges, deep paths, odd names, and submodules."""
    chance = random.Random(seed)
    for number in range(commits):
        lines = b"commit %s\nmark :%d\n" % (branch.encode(), number + 1)
        lines += b"committer C <c@example.com> %d +0000\ndata 2\nm\n" % (1_700_000_000 + seed * 100_000 + number)
        if number == 0 and onto:
            lines += b"from %s\n" % onto.encode()
        elif number > 0:
            recent = range(max(1, number - 30), number + 1)
            parents = [number] if chance.random() < 0.7 else [chance.choice(recent)]
            if number % 7 == 0:
                parents += [it for it in chance.sample(recent, min(len(recent), 3)) if it not in parents]
            lines += b"from :%d\n" % parents[0] + b"".join(b"merge :%d\n" % parent for parent in parents[1:])
        for path in chance.sample(FILES, chance.randint(1, 3)):
            mode, text = file_of(chance, path, number, seed)
            lines += b'M %s inline "%s"\ndata %d\n%s\n' % (mode, path, len(text), text)
        if number % 97 == 5:
            lines += b"M 160000 %s submodule\n" % submodule
        yield lines + b"\n"
    for number in range(0, commits, 60):
        yield b"reset refs/heads/side/%d-%d\nfrom :%d\n\n" % (seed, number, number + 1)


def add_history(path, commits, seed, branch=BRANCH, onto=None):
    """Adds commits by chance to a repository, with a branch for each sixty of them, a tag, and a tag of that tag."""
    submodule = b"1" * (64 if git(path, "rev-parse", "--show-object-format") == "sha256" else 40)
    git(path, "fast-import", "--quiet", "--force", data=b"".join(history(commits, seed, branch, onto, submodule)))
    git(path, "tag", "--annotate", "--message=t", f"v{seed}", branch)
    git(path, "tag", "--annotate", "--message=of a tag", f"vv{seed}", f"v{seed}")
    return path


def tip(path, name=BRANCH):
    """The id at which a ref is, or nothing."""
    return attempt("git", "rev-parse", "--verify", "--quiet", name, cwd=path).out.decode().strip()


def refs(path, *prefixes):
    return git(path, "for-each-ref", "--format=%(objectname) %(refname)", *prefixes)


def objects(path, *which):
    """The ids of all objects that refs reach."""
    which = which or ["--all"]
    return sorted(git(path, "rev-list", "--objects", "--no-object-names", *which).split())


def stored(path):
    """The ids of all objects that are there."""
    return sorted(git(path, "cat-file", "--batch-all-objects", "--batch-check=%(objectname)").split())


def faults_of(path):
    """What `git fsck` finds wrong with a repository: nothing, if it accepts it."""
    done = attempt("git", "fsck", "--full", "--strict", "--no-dangling", "--no-progress", cwd=path)
    lines = (done.told + done.out.decode(errors="backslashreplace")).splitlines()
    found = [line for line in lines if not line.startswith("notice: ")]
    return "" if done and not found else f"status {done.status}: {found}"


def left_behind(path):
    """The temporary files, the locks and the `.keep` files in a repository."""
    names = (os.path.join(folder, name) for folder, _, names in os.walk(path) for name in names)
    return sorted(name for name in names if os.path.basename(name).startswith("tmp_") or name.endswith((".lock", ".keep")))


# ---- servers


class Server:
    """A program that serves all repositories below a folder at a port of 127.0.0.1, until the block ends."""

    def url(self, path):
        return f"git://127.0.0.1:{self.port}/{path}"

    def __enter__(self):
        return self

    def __exit__(self, *_):
        self.end()

    def end(self):
        self.process.terminate()
        try:
            self.process.wait(10)
        except subprocess.TimeoutExpired:
            self.process.kill()
            self.process.wait()


class Gitrepo(Server):
    """`gitrepo serve`. Its log is what it writes on standard error."""

    def __init__(self, program, base, *more):
        self.errors = tempfile.TemporaryFile()
        words = [program, "serve", "--listen", "127.0.0.1:0", *more, base]
        self.process = subprocess.Popen(words, stdout=subprocess.PIPE, stderr=self.errors, env=ENV)
        self.port = int(self.process.stdout.readline().split()[1])

    def log(self):
        """The lines that it wrote on standard error."""
        self.errors.seek(0)
        return self.errors.read().decode(errors="backslashreplace").splitlines()


class GitDaemon(Server):
    """`git daemon`, with words for Git before the command, such as `-c name=value`."""

    def __init__(self, base, *more, before=()):
        with socket.create_server(("127.0.0.1", 0)) as free:
            self.port = free.getsockname()[1]
        words = ["git", *before, "daemon", "--listen=127.0.0.1", f"--port={self.port}", "--reuseaddr", "--export-all"]
        words += ["--informative-errors", f"--base-path={base}", *more, base]
        self.process = subprocess.Popen(words, stderr=subprocess.DEVNULL, env=ENV)
        wait_for(self.port)


def wait_for(port):
    """Waits until someone listens."""
    for _ in range(500):
        try:
            socket.create_connection(("127.0.0.1", port)).close()
            return
        except OSError:
            time.sleep(0.02)
    raise OSError(f"nobody listens at port {port}")


def packet(payload):
    return b"%04x" % (len(payload) + 4) + payload


def hello(path, more=b"\0version=2\0"):
    """The first line of a connection."""
    return packet(b"git-upload-pack %s\0host=127.0.0.1\0%s" % (path, more))


def answer_to(port, sent, address="127.0.0.1"):
    """What a server writes to a client at this address that says this and closes its half, up to the end."""
    with socket.create_connection(("127.0.0.1", port), timeout=SECONDS, source_address=(address, 0)) as stream:
        stream.sendall(sent)
        stream.shutdown(socket.SHUT_WR)
        got = b""
        try:
            while piece := stream.recv(65_536):
                got += piece
        except ConnectionResetError:
            pass
        return got
