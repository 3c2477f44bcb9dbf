"""Reads the rows of crates/conformance/data. docs/CASES.md describes their format; here ids are those of SHA-1."""

import os
import re
from collections import namedtuple

DATA = os.path.join(os.path.dirname(os.path.abspath(__file__)), "..", "crates", "conformance", "data")
MARKS = {b"0000": "flush", b"0001": "delimiter", b"0002": "response-end"}

# One line of a conversation: `C` or `S`, one of `:.=123` for how the bytes are written, and the bytes.
Line = namedtuple("Line", "who how bytes")


class Row:
    """One row: its name, its file and line, the commands that it runs, and its lines with how often each counts."""

    def __init__(self, name, place):
        self.name, self.place = name, place
        self.runs, self.lines, self.options = [], [], set()

    def values(self, word):
        """The rest of each line that begins with this word."""
        return [line[len(word) + 1 :].decode() for line, _ in self.lines if line.startswith(word.encode() + b" ")]

    def has_fault(self):
        """Whether a fault is printed, so that the exit status is 1."""
        return any(line.startswith(b"! ") for line, _ in self.lines)


class Cases:
    """All texts, talks and rows, and the facts about ref names."""

    def __init__(self, folder=DATA):
        self.texts, self.talks, self.rows, self.names, self.long = {}, {}, [], [], set()
        with open(os.path.join(folder, "..", "args")) as args:
            files = args.read().split()
        for name in files:
            with open(os.path.join(folder, name), "rb") as file:
                self._read(name, file.read().split(b"\n"))

    def _read(self, file, lines):
        block, times = None, 1
        for number, line in enumerate(lines, 1):
            word, _, rest = line.partition(b" ")
            if word == b"times":
                times = int(rest)
                continue
            if not line:
                block = None
            elif word in (b"text", b"talk"):
                block = (self.texts if word == b"text" else self.talks)[rest.decode()] = []
            elif block is not None:
                block.append((line, times))
            elif word == b"row":
                self.rows.append(Row(rest.decode(), "%s:%d" % (file, number)))
            elif word == b"name":
                due, _, name = rest.partition(b": ")
                self.names.append((due.decode(), self.spelled(name, 1)))
            elif word == b"long" and rest:
                self.long.add(rest.decode())
            elif self.rows and not line.startswith(b"#"):
                self._add(self.rows[-1], line, times)
            times = 1

    def _add(self, row, line, times):
        word, _, rest = line.partition(b" ")
        if word == b"run":
            row.runs.append(rest.decode().split())
        elif word == b"use":
            row.lines += self.talks[rest.decode()]
        elif word in (b"words", b"packer", b"indexer"):
            row.options.add(word.decode())
        else:
            row.lines.append((line, times))

    def text(self, name):
        """The bytes of a text."""
        if name in self.long:
            return long_text(name)
        lines = [self.spelled(line, time + 1) for line, times in self.texts[name] for time in range(times)]
        return b"".join(line + b"\n" for line in lines)

    def said(self, row):
        """The lines of a row's conversation."""
        for line, times in row.lines:
            if re.match(rb"[CS][:.=123]", line):
                text = line[4:] if line[2:3] == b"*" else line[3:]
                for time in range(times):
                    yield Line(chr(line[0]), chr(line[1]), self.spelled(text, time + 1))

    def spelled(self, line, time):
        """The bytes that a line spells, where it counts for this time."""

        def one(match):
            escape, inside = match.groups()
            if escape is None:
                return self._inside(inside, time)
            if len(escape) == 3:
                return bytes([int(escape[1:], 16)])
            return {b"n": b"\n", b"0": b"\0"}.get(escape, escape)

        return re.sub(rb"\\(x[0-9a-f]{2}|.)|\{([^}]*)\}", one, line, flags=re.S)

    def _inside(self, inside, time):
        if inside[:2] == b"#=":
            return b"%040d" % int(inside[2:])
        number = re.fullmatch(rb"#([0-9]*)(?:\*([0-9]+))?(?:\+([0-9]+))?", inside)
        if number:
            width, factor, more = number.groups()
            return b"%0*d" % (int(width or 40), time * int(factor or 1) + int(more or 0))
        if inside[:1] == b"@":
            return inside[1:]
        if re.fullmatch(rb".[+-][0-9]+", inside, re.S):
            return inside[:1] * (40 + int(inside[1:]))
        part, star, count = inside.partition(b"*")
        if star:
            return part * int(count)
        return inside * 40 if len(inside) == 1 else self.text(inside.decode())


def long_text(name):
    """A chain of so many commits, each the parent of the one before, as a repository or as a pack."""
    count = int(re.sub(r"[^0-9]", "", name))
    commits = ["c %040d %040d\n" % (n, n + 1) for n in range(1, count)] + ["c %040d\n" % count]
    if not name.endswith("-late"):
        commits.reverse()
    if name.startswith("pack-"):
        return "".join(["GPK1\n", *commits, "end %d\n" % count]).encode()
    return "".join(["gitv2 1\n", *commits, "r %040d refs/heads/main\nh none\nend\n" % 1]).encode()


# ---- packets


def packet(payload):
    """A data packet."""
    return b"%04x" % (len(payload) + 4) + payload


def bytes_of(line):
    """The bytes that one line of a conversation sends. A side band keeps its number."""
    if line.how == "=":
        return line.bytes
    if line.how == ".":
        return packet(line.bytes)
    if line.how == ":":
        return line.bytes if line.bytes in MARKS else packet(line.bytes + b"\n")
    band, full = bytes([int(line.how)]), 65515
    return b"".join(packet(band + line.bytes[at : at + full]) for at in range(0, max(len(line.bytes), 1), full))


def printable(payload):
    """A payload as git's manual writes it: text, with `\\n`, `\\0` and `\\x1f` for other bytes."""
    text = payload.decode(errors="backslashreplace")
    text = text.replace("\n", "\\n").replace("\0", "\\0").replace("\r", "\\r").replace("\t", "\\t")
    return re.sub(r"[^ -~]", lambda found: "\\x%02x" % ord(found[0]), text)
