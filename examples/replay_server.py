"""Replays what the clients of the rows send, and compares what a server answers."""

import re
import socket
import threading
from collections import namedtuple

from cases import Row, bytes_of, packet
from replay import ADVERTISEMENT, LIMIT, Item, NotPlain, Outcome, Repositories
from replay import due_items, end_of, filled, items_of, other_kind, started

HELLO = b"git-upload-pack /p\0host=h\0\0version=2\0"

# What a server wrote, and how it ended: "" for a good end, otherwise a sentence.
Answer = namedtuple("Answer", "written end")


class PipeServer:
    """A command that is started anew for each row, and speaks over its standard streams."""

    has_first_line = False

    def __init__(self, words, pieces):
        placeholders = ("{repository}", "{text}")
        self.words = words if any(name in word for word in words for name in placeholders) else [*words, "{repository}"]
        self.is_text, self.pieces = any("{text}" in word for word in self.words), pieces

    def answer(self, sent, path, _):
        """Sends all bytes, closes the input, and reads up to the end."""
        process = started(filled(self.words, {"repository": path, "text": path, "specs": []}))
        clock = threading.Timer(LIMIT["seconds"], process.kill)
        clock.start()
        errors = []
        threads = [
            threading.Thread(target=feed, args=(process.stdin.write, sent, self.pieces, process.stdin.close)),
            threading.Thread(target=lambda: errors.append(process.stderr.read())),
        ]
        for thread in threads:
            thread.start()
        written = process.stdout.read()
        for thread in threads:
            thread.join()
        process.wait()
        clock.cancel()
        process.stdout.close()
        process.stderr.close()
        return Answer(written, end_of(process, errors[0]))


class UrlServer:
    """A server that listens at a port of this machine. Each row has a connection."""

    has_first_line, is_text = True, False

    def __init__(self, url, pieces):
        found = re.fullmatch(r"git://(127\.0\.0\.1|localhost)(?::([0-9]+))?(/.*)?", url)
        if not found:
            raise SystemExit("conform.py: the URL has to be git://127.0.0.1:PORT/PATH, since some rows are hostile")
        self.address = (found[1], int(found[2] or 9418))
        self.base, self.pieces = (found[3] or "").rstrip("/"), pieces

    def answer(self, sent, _, name):
        """Sends all bytes in a connection, closes its half, and reads up to the end."""
        path = ("%s/%s.git" % (self.base, name)).encode()
        if sent.startswith(b"git-upload-pack /p\0", 4):
            end = int(sent[:4], 16)
            first = sent[4:end].replace(b" /p\0", b" " + path + b"\0", 1)
            sent = packet(first.replace(b"\0host=h\0", b"\0host=127.0.0.1\0")) + sent[end:]
        with socket.create_connection(self.address, timeout=LIMIT["seconds"]) as stream:
            end = lambda: stream.shutdown(socket.SHUT_WR)
            thread = threading.Thread(target=feed, args=(stream.sendall, sent, self.pieces, end))
            thread.start()
            written = b""
            why, piece = "", b"more"
            try:
                while piece:
                    piece = stream.recv(65536)
                    written += piece
            except ConnectionResetError:
                # Input that nobody reads resets a connection, so this is no more than its end.
                pass
            except socket.timeout:
                why = "it takes too long"
            thread.join()
        return Answer(written, why)


def feed(write, data, pieces, end):
    """Writes the bytes in one piece, or in as many as they are. A reader may go before it has all."""
    step = 1 if pieces else max(len(data), 1)
    try:
        for at in range(0, len(data), step):
            piece = memoryview(data)[at : at + step]
            while piece:
                taken = write(piece)
                piece = piece[taken:] if taken else b""
        end()
    except OSError:
        pass


# ---- rows


def is_served(run):
    """Whether a command is a server's. `ls --host` lists refs as a client."""
    return run[0] in ("upload", "serve") or run[0] == "ls" and "--stdio-server" in run


def served_run(row):
    """The server's command of a row that is a plain request."""
    other = other_kind(row)
    if other:
        raise NotPlain(other)
    if "packer" in row.options:
        raise NotPlain("a packer that fails or lies")
    runs = [run for run in row.runs if is_served(run)]
    if not runs:
        raise NotPlain("only a client's: see --client")
    return runs[0]


def sent_by(said, run, has_first_line):
    """What the client sends. Rows that stop at a refused packet get a flush, so that a server has a complete request."""
    sent = [line for line in said if line.who == "C"]
    is_usual = bool(sent) and sent[0].how == "." and sent[0].bytes == HELLO
    if run[0] == "serve" and not has_first_line:
        if not is_usual:
            raise NotPlain("the first line of a connection: see --git-url")
        sent = sent[1:]
    data = b"".join(bytes_of(line) for line in sent)
    if run[0] != "serve" and has_first_line:
        data = packet(HELLO) + data
    last = said[-2:]
    stops = [line.who + line.how for line in last] == ["C:", "S:"] and last[0].bytes != b"0000"
    if stops and last[1].bytes != b"ERR upload-pack: unexpected end":
        data += b"0000"
    return data


def without_advertisement(items):
    """The capabilities, without the value of the agent, and what follows them."""
    if not items or items[0].text != "version 2":
        return None, items
    end = [item.text for item in items].index("flush") if any(item.text == "flush" for item in items) else len(items) - 1
    return {one for item in items[1:end] for one in features(item.text)}, items[end + 1 :]


def features(capability):
    """A key alone, and the key with each word of its value. An agent may have any name."""
    key, _, value = capability.partition("=")
    return {key} if key == "agent" else {key} | {"%s=%s" % (key, word) for word in value.split()}


class ServerSide:
    """Replays rows with one server. `more` and `less` gather how its capabilities differ from those of the rows."""

    def __init__(self, cases, server, repositories):
        self.cases, self.server, self.repositories = cases, server, repositories
        self.same, self.more, self.less = set(), set(), set()

    def notes(self):
        """How the advertisements compare."""
        for found, text in ((self.same, "in both"), (self.more, "only the server's"), (self.less, "only in the rows")):
            yield "capabilities %s: %s" % (text, ", ".join(sorted(found)) or "none")

    def play(self, row):
        """The outcome of a row."""
        try:
            run = served_run(row)
            said = list(self.cases.said(row))
            sent = sent_by(said, run, self.server.has_first_line)
            twin, path = self.repositories.of(run[-1])
        except NotPlain as why:
            return Outcome(row, "not plain", str(why))
        answer = self.server.answer(twin.to_real(sent), path, run[-1])
        due, got = due_items(said), items_of(answer.written, twin)
        due_advert, due = without_advertisement(due)
        advert, got = without_advertisement(got)
        if due_advert is not None and advert is not None:
            self.same |= advert & due_advert
            self.more |= advert - due_advert
            self.less |= due_advert - advert
        # Git's HTTP helper writes the response-ends, and no program over pipes.
        due = [item for item in due if item.text != "response-end"]
        got = [item for item in got if item.text != "response-end"]
        kind, why = judged(row, due, got, answer.end)
        if due_advert is not None and advert is None and kind != "refused alike":
            kind, why = "differs", "no advertisement: " + (answer.end or "silence")
        if answer.end:
            got.append(Item("it ends: " + twin.to_made_up(answer.end.encode()).decode()))
        return Outcome(row, kind, why, sent, due, got)


def is_error(items):
    return len(items) == 1 and items[0].text.startswith("ERR ")


def judged(row, due, got, end):
    """Whether a server's answer is that of the row, and how it refuses where both refuse."""
    refuses = row.has_fault() or is_error(due[-1:])
    texts, got_texts = ([item.text for item in items] for items in (due, got))
    if texts == got_texts and not (end and not refuses) and (texts or not row.has_fault()):
        return "same", ""
    before = len(due) - is_error(due[-1:])
    rest = got[before:]
    if refuses and got_texts[:before] == texts[:before] and (not rest or is_error(rest)):
        return "refused alike", "an ERR line" if rest else "an exit status" if end else "silence"
    return "differs", ""


def server_side(cases, server, folder):
    return ServerSide(cases, server, Repositories(cases, folder, server.is_text))


def capability_rows(side):
    """A row for the capabilities that only the server has, and one for those that it lacks."""
    for name, found in (("more capabilities", side.more), ("fewer capabilities", side.less)):
        if found:
            yield Outcome(Row(name, ADVERTISEMENT), "differs", ", ".join(sorted(found)))
