"""Runs of a program, and checks of what they bring, for the scripts that try gitrepo against trouble."""

import os
import re
import resource
import signal
import subprocess
import sys
import threading
import time
from concurrent.futures import ThreadPoolExecutor

from both_ends import ENV

# The most memory of a process, in MB, and the most seconds of a run.
MEMORY, SECONDS = 600, 90
# The system counts a script's own memory to the runs that it begins. One with more MB than these watches its runs instead.
WATCHED = 300


class Checks:
    """How many checks there were, and which were wrong."""

    def __init__(self):
        self.tried, self.wrong, self.most, self.lock = 0, [], (0, ""), threading.Lock()

    def check(self, what, is_right, got=""):
        """Counts a check, prints a line where it is wrong, and answers whether it is right."""
        with self.lock:
            self.tried += 1
            if not is_right:
                self.wrong.append(what)
                print(f"WRONG {what}: {str(got)[:900]}", flush=True)
        return is_right

    def within_bounds(self, what, ran):
        """Checks that a run was quick and small enough, and printed no byte that a terminal takes for more."""
        self.most = max(self.most, (ran.memory, what))
        self.check(f"{what}: {MEMORY} MB at most", ran.memory <= MEMORY, ran)
        self.check(f"{what}: ends by itself", ran.status >= 0 and ran.seconds < SECONDS, ran)
        self.check(f"{what}: printable text alone", is_printable(ran.told + ran.out), ran)

    def refused(self, what, ran, *words):
        """Checks that a run was refused within bounds, in one sentence that has these words."""
        self.within_bounds(what, ran)
        says = ran.status == 1 and is_sentence(ran.told) and all(word.encode() in ran.told for word in words)
        self.check(f"{what}: refused in a sentence", says, ran)

    def take(self):
        """What was counted, which begins anew: a process tells another one."""
        counts = self.tried, self.wrong, self.most
        self.tried, self.wrong, self.most = 0, [], (0, "")
        return counts

    def add(self, tried, wrong, most):
        """Counts what another process has counted."""
        self.tried, self.wrong, self.most = self.tried + tried, self.wrong + wrong, max(self.most, most)

    def end(self, *more):
        """Prints the counts, and returns the exit status."""
        print(f"at most {self.most[0]:.0f} MB ({self.most[1]})")
        print(f"{self.tried} checks, {len(self.wrong)} wrong", *more, sep=", ")
        return 1 if self.wrong or not self.tried else 0


def at_once(take, cases, most=4):
    """Takes cases, so many at a time."""
    with ThreadPoolExecutor(most) as pool:
        for _ in pool.map(take, cases):
            pass


def is_printable(text):
    """Whether a terminal shows these bytes as they are."""
    return all(32 <= byte < 127 or byte in b"\n\t\r" for byte in text)


def is_sentence(told):
    """Whether a text is one line of the program."""
    return told.startswith(b"gitrepo: ") and told.count(b"\n") == 1 and told.endswith(b"\n")


def own_peak():
    """The most memory that this script had, in MB."""
    return resource.getrusage(resource.RUSAGE_SELF).ru_maxrss / 1024


def peak_of(pid):
    """The most memory that a process had so far, in MB, or 0 if it has ended."""
    try:
        with open(f"/proc/{pid}/status") as file:
            found = re.search(r"^VmHWM:\s+(\d+) kB$", file.read(), re.M)
    except OSError:
        return 0
    return int(found[1]) / 1024 if found else 0


class Running:
    """A run that has begun. Its texts come through pipes, so that a limit on files is none on them."""

    def __init__(self, *words, **more):
        self.began = time.monotonic()
        self.process = subprocess.Popen(words, stdout=subprocess.PIPE, stderr=subprocess.PIPE, env=ENV, **more)
        self.seen, self.watcher = 0, None
        if own_peak() > WATCHED:
            self.watcher = threading.Thread(target=self.watch, daemon=True)
            self.watcher.start()
        self.texts = [b"", b""]
        pipes = self.process.stdout, self.process.stderr
        self.readers = [threading.Thread(target=self.read, args=pair, daemon=True) for pair in enumerate(pipes)]
        for reader in self.readers:
            reader.start()

    def read(self, place, pipe):
        with pipe:
            self.texts[place] = pipe.read()

    def watch(self):
        """Notes its memory until it ends."""
        while peak := peak_of(self.process.pid):
            self.seen = max(self.seen, peak)
            time.sleep(0.005)

    def is_over(self):
        """Whether it has ended. It is not waited for, so that its memory can be seen."""
        return os.waitid(os.P_PID, self.process.pid, os.WEXITED | os.WNOHANG | os.WNOWAIT) is not None

    def kill(self):
        self.stop()
        return self.end()

    def stop(self):
        # `Popen.kill` would wait for a run that is over, and its memory would be lost.
        os.kill(self.process.pid, signal.SIGKILL)

    def end(self):
        """What it was, once it has ended. It is killed after `SECONDS`."""
        timer = threading.Timer(SECONDS, self.stop)
        timer.start()
        _, status, used = os.wait4(self.process.pid, 0)
        timer.cancel()
        self.process.returncode = os.waitstatus_to_exitcode(status)
        for reader in self.readers:
            reader.join()
        memory = self.seen if self.watcher else used.ru_maxrss / 1024
        return Ended(self.process.returncode, time.monotonic() - self.began, memory, *self.texts)


class Ended:
    """A run that ended: its status, its seconds, its memory in MB, and its texts."""

    def __init__(self, status, seconds, memory, out, told):
        self.status, self.seconds, self.memory, self.out, self.told = status, seconds, memory, out, told

    def __repr__(self):
        return f"status {self.status} in {self.seconds:.1f} s with {self.memory:.0f} MB, {self.out[-200:]!r}, {self.told[-400:]!r}"


def run(*words, **more):
    return Running(*words, **more).end()


# A program that limits the length of each file, and becomes another one. A write past the limit fails then, as on a full disk.
LIMITED = """
import os, resource, signal, sys
signal.signal(signal.SIGXFSZ, signal.SIG_IGN)
resource.setrlimit(resource.RLIMIT_FSIZE, (int(sys.argv[1]),) * 2)
os.execv(sys.argv[2], sys.argv[2:])
"""


def run_limited(most, *words):
    """A run that can write no file of more bytes."""
    return run(sys.executable, "-S", "-c", LIMITED, str(most), *words)


# A program that gives up root's right to write into any folder, and becomes another one.
UNPRIVILEGED = """
import ctypes, os, sys
ctypes.CDLL(None).prctl(24, 1, 0, 0, 0)
os.execv(sys.argv[1], sys.argv[1:])
"""


def run_unprivileged(*words):
    """A run that can write only where the permissions of folders allow it, even as root."""
    return run(sys.executable, "-S", "-c", UNPRIVILEGED, *words)
