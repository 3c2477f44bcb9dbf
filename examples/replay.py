"""What conform.py's two sides share: packets as items that can be compared, outcomes, and repositories for a row's program."""

import os
import re
import subprocess
from collections import namedtuple

from both_ends import ENV
from cases import MARKS, bytes_of, printable
from twins import NoTwin, Twin, in_order, nodes_of, put, read_whole_text

# The most seconds that a program may take for one row.
LIMIT = {"seconds": 60}


class Item(namedtuple("Item", "text payload", defaults=(None,))):
    """A packet or a pack: the text by which it is compared, and a data packet's payload."""

    def shown(self):
        """The packet as git's manual shows it, or a pack in parentheses."""
        if self.payload is not None:
            return "%04x%s" % (len(self.payload) + 4, printable(self.payload))
        if self.text.startswith("pack of"):
            ids = self.text.split(" ")[2:]
            few = " ".join(ids) if len(ids) < 8 else "%s .. %s" % (ids[0], ids[-1])
            return "(a pack of %d commits and tags: %s)" % (len(ids), few or "none")
        return DIGITS.get(self.text, "(%s)" % self.text)


DIGITS = {name: digits.decode() for digits, name in MARKS.items()}


# What a row came to: `same`, `refused alike`, `accepted alike`, `asks otherwise`, `differs`, or `not plain`; why; what was
# sent; what the row has in reply, and what the program did.
Outcome = namedtuple("Outcome", "row kind why sent due got", defaults=("", (), (), ()))

FOLDER = os.path.dirname(os.path.abspath(__file__))
ALIKE = ("same", "accepted alike", "refused alike")
KINDS = (*ALIKE, "asks otherwise", "differs", "not plain")
# The place of a row that stands for all advertisements together.
ADVERTISEMENT = "of all advertisements"
PROGRAM_ENV = dict(ENV, GIT_PROTOCOL="version=2")


class NotPlain(Exception):
    """A row that cannot be replayed. The argument says why."""


def other_kind(row):
    """Why a row is neither a server's nor a client's, or nothing."""
    if "words" in row.options:
        return "a run of our program itself, with its files and steps"
    return {
        "simulate": "events between both ends, forged ones too",
        "lines": "packets that are printed",
        "check": "a repository text that is checked",
        "pair": "both ends in one process",
    }.get(row.runs[0][0], "")


class Known:
    """The differences that are known: examples/differences.txt."""

    def __init__(self):
        self.whys, self.rows = {}, {}
        with open(os.path.join(FOLDER, "differences.txt")) as file:
            for line in file:
                if line.strip() and not line.startswith("#"):
                    side, _, rest = line.rstrip("\n").partition(" ")
                    word, _, text = rest.partition(": ")
                    if side == "why":
                        self.whys[word] = text
                    else:
                        self.rows[side, text] = word

    def word(self, side, outcome):
        """The word for why a row differs, or nothing if that is not known."""
        return self.rows.get((side, outcome.row.name), "")


def replay(cases, side, only=""):
    """The outcomes of all rows, or of those with some text in their names."""
    return [side.play(row) for row in cases.rows if only in row.name]


# ---- packets as items


def item_of(payload):
    """A data packet. One line feed at its end does not count."""
    text = payload[:-1] if payload.endswith(b"\n") else payload
    return Item(text.decode(errors="backslashreplace"), payload)


def pack_item(ids):
    """A pack, as the commits and tags in it."""
    return Item(" ".join(["pack of", *sorted(ids)]))


def split_packets(data):
    """The packets of some bytes: the digits of a mark or none, and the payload. Bytes that are no packet end them."""
    at = 0
    while at < len(data):
        digits = data[at : at + 4]
        if digits in MARKS:
            yield digits, b""
            at += 4
            continue
        length = int(digits, 16) if re.fullmatch(rb"[0-9a-fA-F]{4}", digits) else 0
        if not 4 <= length <= len(data) - at:
            yield None, data[at:]
            return
        yield b"", data[at + 4 : at + length]
        at += length


def items_of(data, twin):
    """What a server wrote, as items with made-up ids. The side bands become a pack, without the progress."""
    items, pack = [], None
    for digits, payload in split_packets(data):
        if pack is not None and digits == b"":
            if payload[:1] == b"\3":
                items.append(item_of(payload))
            pack += payload[1:] if payload[:1] == b"\1" else b""
            continue
        if pack is not None:
            items.append(packed_item(pack, twin))
            pack = None
        if digits:
            items.append(Item(MARKS[digits]))
        elif digits is None:
            items.append(Item("no packet: %s" % printable(payload[:40])))
        else:
            items.append(item_of(twin.to_made_up(payload)))
            pack = b"" if items[-1].text == "packfile" else None
    return items


def packed_item(pack, twin):
    try:
        return pack_item(twin.packed(pack))
    except (ValueError, KeyError, IndexError):
        return Item("a pack that cannot be read, of %d bytes" % len(pack))


def shown_bytes(data):
    """Bytes as packets, one a line, as git's manual shows them."""
    shown = []
    for digits, payload in split_packets(data):
        if digits is None:
            shown.append("(no packet) " + printable(payload))
        else:
            shown.append(digits.decode() or item_of(payload).shown())
    return shown


def shortened(lines, most=14):
    """The same lines, with one line for those that repeat but for a number, and for the middle of very many."""
    runs = []
    for line in lines:
        alike = re.sub(r"[0-9]{40}", "", line)
        if runs and runs[-1][0] == alike:
            runs[-1][1].append(line)
        else:
            runs.append((alike, [line]))
    short = []
    for _, run in runs:
        short += run if len(run) < 4 else [run[0], "(and %d more such lines)" % (len(run) - 1)]
    if len(short) > most:
        short = short[: most - 3] + ["(and %d more lines)" % (len(short) - most + 1)] + short[-2:]
    return [line if len(line) < 120 else "%s.. (%d characters)" % (line[:100], len(line)) for line in short]


# ---- repositories


class AsWritten:
    """A text that the program reads itself: its ids and its plain packs are those of the row."""

    format = "sha1"

    def to_real(self, data):
        return data

    def to_made_up(self, data):
        return data

    def packed(self, pack):
        if not pack.startswith(b"GPK1\n"):
            raise ValueError("no plain pack")
        return sorted(id for _, id, _ in nodes_of(pack))


class Repositories:
    """The repository of each row: a file with its text for `{text}`, otherwise a twin, written when it is first needed."""

    def __init__(self, cases, folder, is_text=False):
        self.cases, self.folder, self.is_text, self.found = cases, folder, is_text, {}

    def of(self, name):
        """The twin, and the path of the repository."""
        if name not in self.found:
            self.found[name] = self._made(name)
        if isinstance(self.found[name], NoTwin):
            raise NotPlain(str(self.found[name]))
        return self.found[name]

    def _made(self, name):
        text = self.cases.text(name)
        path = os.path.join(self.folder, name if self.is_text else name + ".git")
        if self.is_text:
            put(path, text)
            return AsWritten(), path
        try:
            served = read_whole_text(text)
            twin = Twin(in_order(served.nodes), served.format)
        except NoTwin as why:
            return why
        if not os.path.exists(path):
            twin.write(path, served.nodes, served.refs, served.head)
        return twin, path


def filled(words, values):
    """The words of a command with each `{name}` replaced. A word `{specs}` alone becomes several."""
    out = []
    for word in words:
        if word == "{specs}":
            out += values["specs"]
        else:
            out.append(re.sub(r"\{(\w+)\}", lambda name: str(values.get(name[1], name[0])), word))
    return out


def end_of(process, errors):
    """How a program ended: nothing for status 0, otherwise the line of standard error that says most."""
    if process.returncode == -9:
        return "it takes too long"
    lines = errors.decode(errors="backslashreplace").splitlines()
    fatal = [line for line in lines if re.match(r"(fatal|BUG|error|ERR)", line)]
    return ((fatal or lines or ["status %d" % process.returncode])[-1]) if process.returncode else ""


def started(words):
    """Starts a program with its three streams."""
    return subprocess.Popen(
        words, stdin=subprocess.PIPE, stdout=subprocess.PIPE, stderr=subprocess.PIPE, env=PROGRAM_ENV, bufsize=0
    )


def due_items(said):
    """What a row has in reply, as items."""
    return items_of(b"".join(bytes_of(line) for line in said if line.who == "S"), AsWritten())
