"""Compares what the pages show with the repository. usage: readme.py [PROGRAM...]

With no program it compares the blocks of code alone.

The pages are README.md, CONTRIBUTING.md and docs/*.md, and the examples of the manual pages docs/*.1.

- A block marked `console` has commands, each on a line that begins with `$ `, and what they print. The commands of a page run
  in one shell, in a temporary folder with a copy of examples/, with the programs on the PATH. Ports that the page names are
  exchanged for free ones. Blocks marked `console git` are left out if git or its daemon is not installed.
- A block marked with a language and a file, as `rust crates/samples/src/server.rt`, has parts of that file in their order,
  whatever their layout. A line `// ..` or `-- ..` is between two parts.
- A block marked `diff` and with a file of a must-fail/ folder has the lines of that edit.
- A block marked `text` and with a file is the whole file.
- The examples of docs/gitv2.1 end with status 0. Those of docs/gitrepo.1 need a host or a user, and are not run.
"""

import glob
import os
import re
import shutil
import signal
import socket
import subprocess
import sys
import tempfile
import time

TOP = os.path.dirname(os.path.dirname(os.path.abspath(__file__)))
SECONDS = 20
END = "end of a command"


def has_git():
    if not shutil.which("git"):
        return False
    folder = subprocess.run(["git", "--exec-path"], capture_output=True, text=True).stdout.strip()
    return os.path.exists(f"{folder}/git-daemon")


def commands_of(page):
    """The commands of the page, each with the text that it prints."""
    commands = []
    for needs_git, block in re.findall(r"^```console( git)?\n(.*?)^```$", page, re.M | re.S):
        if needs_git and not has_git():
            continue
        for line in block.splitlines(keepends=True):
            if line.startswith("$ "):
                commands.append([line[2:].rstrip("\n"), ""])
            else:
                commands[-1][1] += line
    return commands


def free_ports(page):
    """The page with free ports in the place of those that it names."""
    for port in sorted(set(re.findall(r"(?:127\.0\.0\.1:|localhost:|--port=)(\d+)", page))):
        with socket.create_server(("127.0.0.1", 0)) as free:
            page = re.sub(rf"\b{port}\b", str(free.getsockname()[1]), page)
    return page


class Shell:
    """A shell whose output is read command by command, what it runs in the background included."""

    def __init__(self, folder, programs):
        folders = [os.path.dirname(program) for program in programs]
        more = {"PATH": ":".join([*folders, os.environ["PATH"]]), "HOME": folder, "LC_ALL": "C"}
        self.process = subprocess.Popen(
            ["bash"], cwd=folder, env=os.environ | more, stdin=subprocess.PIPE, stdout=subprocess.PIPE,
            stderr=subprocess.STDOUT, start_new_session=True,
        )
        os.set_blocking(self.process.stdout.fileno(), False)

    def run(self, command, shown):
        """What a command prints. For one in the background it waits until that prints what is shown, or listens."""
        self.process.stdin.write(f"{command}\necho {END}\n".encode())
        self.process.stdin.flush()
        end, got = time.time() + SECONDS, ""
        while time.time() < end:
            got += (self.process.stdout.read() or b"").decode(errors="backslashreplace")
            printed = got.replace(f"{END}\n", "")
            if printed != got and (printed == shown or not command.endswith("&")):
                break
            time.sleep(0.02)
        port = re.search(r"--port=(\d+).*&$", command)
        if port:
            wait_for(port)
        return got.replace(f"{END}\n", "")

    def end(self):
        os.killpg(self.process.pid, signal.SIGTERM)
        self.process.wait()


def wait_for(port):
    """Waits until someone listens at a port, without connecting: a server would count that."""
    listening = f":{int(port[1]):04X} 00000000:0000 0A "
    for _ in range(SECONDS * 10):
        with open("/proc/net/tcp") as sockets:
            if listening in sockets.read():
                return
        time.sleep(0.1)


def run_page(name, page, programs):
    """Runs the commands of a page. Returns how many there are, and how many print something that is not shown."""
    commands = commands_of(free_ports(page))
    wrong = 0
    with tempfile.TemporaryDirectory() as folder:
        shutil.copytree(f"{TOP}/examples", f"{folder}/examples")
        shell = Shell(folder, programs)
        try:
            for command, shown in commands:
                got = shell.run(command, shown)
                if got != shown:
                    wrong += 1
                    print(f"{name}: $ {command}\nshows\n{shown}and it printed\n{got}", file=sys.stderr)
        finally:
            shell.end()
    return len(commands), wrong


# ---- code that a page shows


def packed(text):
    """Code without what a formatter decides: white space, and commas at the end of a list."""
    return re.sub(r"\s+", "", text).replace(",)", ")")


def edit_of(text):
    """The file of a must-fail/ folder as a page shows it."""
    lines = [line for line in text.splitlines() if line.startswith(("old:", "new:"))]
    return "\n".join("-+"[line.startswith("new:")] + line[4:] for line in lines)


def is_shown(language, text, block):
    """Whether a block shows what a file says."""
    if language == "diff":
        return packed(edit_of(text)) == packed(block)
    if language == "text":
        return text.strip() == block.strip()
    start, text = 0, packed(text)
    for part in re.split(r"^ *(?://|--) \.\.$", block, flags=re.M):
        start = text.find(packed(part), start)
        if start < 0:
            return False
    return True


def compare_blocks(name, page):
    """Compares the blocks of a page that name a file. Returns how many there are, and how many are wrong."""
    count = wrong = 0
    for language, path, block in re.findall(r"^```(\w+) ([\w./-]+/[\w./-]+)\n(.*?)^```$", page, re.M | re.S):
        count += 1
        file = f"{TOP}/{path}"
        if not os.path.isfile(file):
            wrong += 1
            print(f"{name}: there is no {path}", file=sys.stderr)
            continue
        with open(file) as opened:
            if not is_shown(language, opened.read(), block):
                wrong += 1
                print(f"{name} shows what is not in {path}:\n{block}", file=sys.stderr)
    return count, wrong


# ---- the examples of a manual page


def examples_of(manual):
    """The commands of the section EXAMPLES, in lists that belong together."""
    section = re.search(r"^\.Sh EXAMPLES\n(.*?)^\.Sh", manual, re.M | re.S)[1]
    for one, several in re.findall(r"^\.Dl ([^\n]*)$|^\.Bd [^\n]*\n(.*?)^\.Ed", section, re.M | re.S):
        text = (one or several).replace("\\e\n", "\\\n")
        yield [command.strip() for command in re.split(r"^\$ ", text, flags=re.M) if command.strip()]


def script_of(commands):
    """A script of the commands. It goes on once one in the background has printed something."""
    lines = ["set -eo pipefail"]
    for command in commands:
        is_behind = command.endswith("&")
        lines.append(f"{command[:-1]} > log &\nuntil [ -s log ]; do sleep 0.1; done" if is_behind else command)
    return "\n".join(lines)


def run_script(script, folder, env):
    """The status of a script, and what it printed. All that it started is ended."""
    process = subprocess.Popen(
        ["bash", "-c", script], cwd=folder, env=env, stdout=subprocess.PIPE, stderr=subprocess.STDOUT, start_new_session=True
    )
    try:
        said, _ = process.communicate(timeout=SECONDS)
        return process.returncode, said
    except subprocess.TimeoutExpired:
        os.killpg(process.pid, signal.SIGTERM)
        return "no end", process.communicate()[0]


def run_manual(programs):
    """Runs the examples of gitv2.1. Returns how many commands there are, and how many lists of them fail."""
    with open(f"{TOP}/docs/gitv2.1") as file:
        manual = free_ports(file.read())
    folders = [os.path.dirname(program) for program in programs]
    env = os.environ | {"PATH": ":".join([*folders, os.environ["PATH"]]), "LC_ALL": "C"}
    count = wrong = 0
    for commands in examples_of(manual):
        count += len(commands)
        with tempfile.TemporaryDirectory() as folder:
            for name, copy in ("server.repo", "server.repo"), ("client.repo", "client.repo"), ("ls-refs.request", "request"):
                shutil.copy(f"{TOP}/examples/{name}", f"{folder}/{copy}")
            script = script_of(commands)
            status, said = run_script(script, folder, env)
        if status:
            wrong += 1
            print(f"docs/gitv2.1: {script}\nended with {status}: {said}", file=sys.stderr)
    return count, wrong


def main(programs):
    names = ["README.md", "CONTRIBUTING.md", *sorted(glob.glob("docs/*.md", root_dir=TOP))]
    ran, wrong = run_manual(programs) if programs else (0, 0)
    blocks = 0
    for name in names:
        with open(f"{TOP}/{name}") as file:
            page = file.read()
        if programs:
            count, missed = run_page(name, page, programs)
            ran, wrong = ran + count, wrong + missed
        count, missed = compare_blocks(name, page)
        blocks, wrong = blocks + count, wrong + missed
    print(f"pages: {ran} commands, {blocks} blocks of code, {wrong} wrong")
    return 1 if wrong or not blocks or (programs and not ran) else 0


sys.exit(main([os.path.abspath(program) for program in sys.argv[1:]]))
