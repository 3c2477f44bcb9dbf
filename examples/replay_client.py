"""Answers a client as the servers of the rows do, and compares what it asks and whether it accepts."""

import os
import socket
import threading
from collections import Counter, namedtuple

from cases import MARKS, Line, bytes_of
from replay import LIMIT, AsWritten, Item, NotPlain, Outcome, end_of, filled, item_of, other_kind, started
from twins import NoTwin, Twin, in_order, nodes_of, put, read_text

# A client's command in a row: its repository's text, and its refspecs.
Fetch = namedtuple("Fetch", "text specs")

# What a client did: its requests as lists of payloads, whether the row has no reply to one of them, and how it ended.
Heard = namedtuple("Heard", "requests strayed left end")


def fetch_of(row):
    """The client's command of a row that is plain replies."""
    other = other_kind(row)
    if other:
        raise NotPlain(other)
    if "indexer" in row.options:
        raise NotPlain("an indexer that fails or lies")
    runs = [run for run in row.runs if run[0] == "fetch"]
    if not runs:
        listed = any("--host" in run for run in row.runs)
        raise NotPlain("refs that a client lists" if listed else "only a server's: see --server")
    words = runs[0][1:]
    for option, why in (("--limit", "a limit on packs"), ("--response-end", "response-ends, as over HTTP")):
        if option in words:
            raise NotPlain(why)
    while words[0].startswith("--"):
        words = words[1 if words[0] == "--stdio" else 2 :]
    return Fetch(words[0], words[1:])


def exchanges_of(said):
    """The advertisement, and each request with its reply: pairs of lists of lines."""
    pairs, is_over = [([], [])], True
    for line in said:
        if line.who == "S":
            pairs[-1][1].append(line)
            is_over = True
        elif line.how == "." and line.bytes.startswith(b"git-upload-pack "):
            continue
        else:
            if is_over:
                pairs.append(([], []))
            pairs[-1][0].append(line)
            is_over = line.bytes == b"0000"
    return pairs


def completed(said, row):
    """A reply that stops at a refused packet gets a flush, so that the client has a complete one. One that is cut does not."""
    last = [line for line in said if line.who == "S"][-1]
    is_cut = any(fault.split(" ")[2] in ("23", "54") for fault in row.values("!"))
    return said if not row.has_fault() or is_cut or last.bytes == b"0000" else [*said, Line("S", "=", b"0000")]


def pack_pieces(lines, twin):
    """A reply whose plain pack is git's pack in as many pieces. What is no plain pack stays as it is."""
    whole = b"".join(line.bytes for line in lines if line.how == "1")
    if isinstance(twin, AsWritten) or not (whole.startswith(b"GPK1\n") and whole.splitlines()[-1].startswith(b"end ")):
        return lines
    pack, pieces = twin.pack([id for _, id, _ in nodes_of(whole)]), sum(line.how == "1" for line in lines)
    step, out = len(pack) // pieces + 1, []
    for line in lines:
        if line.how == "1":
            line, pack = Line("S", "1", pack[:step]), pack[step:]
        out.append(line)
    return out


# ---- the conversation


class Stream:
    """A client at the other end of a file for reading and a call for writing."""

    def __init__(self, source, write, end):
        self.source, self.write, self.end = source, write, end

    def packet(self):
        """The digits of a mark or none, and the payload; nothing at the end."""
        digits = self.source.read(4)
        if len(digits) < 4:
            return None
        length = int(digits, 16)
        return (digits, b"") if digits in MARKS else (b"", self.source.read(length - 4))

    def request(self):
        """The payloads of a request, without marks. An empty one ends the connection, as its end does."""
        payloads = []
        while True:
            packet = self.packet()
            if packet is None or packet[0] == b"0000":
                return payloads
            if not packet[0]:
                payloads.append(packet[1].rstrip(b"\n"))


def is_last_round(payloads):
    """Whether a pack has to follow this request for objects."""
    return b"done" in payloads or not any(payload.startswith(b"have ") for payload in payloads)


def fits(due, asked):
    """Whether the reply to one request is a reply to the other."""
    return due[:1] == asked[:1] and (due[:1] != [b"command=fetch"] or is_last_round(due) == is_last_round(asked))


def converse(stream, exchanges, twin, heard):
    """Says what the row's server says, while the client's requests lead there."""
    send = lambda lines: stream.write(twin.to_real_lines(lines))
    try:
        send(exchanges[0][1])
        left = [(payloads_of(asked), reply) for asked, reply in exchanges[1:]]
        left = [(asked, reply) for asked, reply in left if asked]
        heard["left"] = len(left)
        while True:
            if not left:
                stream.end()
            asked = stream.request()
            if not asked:
                break
            heard["requests"].append([twin.to_made_up(payload) for payload in asked])
            if not left or not fits(left[0][0], asked):
                heard["strayed"] = True
                break
            send(left.pop(0)[1])
            heard["left"] = len(left)
    except (OSError, ValueError):
        pass
    finally:
        stream.end()


def payloads_of(lines):
    return [line.bytes.rstrip(b"\n") for line in lines if line.bytes not in MARKS]


class ClientSide:
    """Replays rows with one client. `asked` counts the requests with lines that only the row or only the client has."""

    def __init__(self, cases, words, folder):
        self.cases, self.words, self.folder = cases, words, folder
        self.is_text = any("{text}" in word for word in words)
        self.is_new = any("{new}" in word for word in words)
        self.is_tcp = any("{url}" in word or "{address}" in word for word in words)
        self.asked = {"row": Counter(), "client": Counter()}

    def notes(self):
        """How the requests differ that were compared."""
        for who, text in (("row", "only in the rows"), ("client", "only in the client's requests")):
            words = ["%s %d" % (word, self.asked[who][word]) for word in sorted(self.asked[who])]
            yield "request lines %s: %s" % (text, ", ".join(words) or "none")

    def play(self, row):
        """The outcome of a row."""
        try:
            fetch = fetch_of(row)
            said = list(self.cases.said(row))
            if not any(line.who == "S" for line in said):
                raise NotPlain("a server says nothing in it")
            said = completed(said, row)
            text = self.cases.text(fetch.text)
            twin, path = self.repository(row, text, said)
        except (NotPlain, NoTwin) as why:
            return Outcome(row, "not plain", str(why))
        exchanges = [(asked, pack_pieces(reply, twin)) for asked, reply in exchanges_of(said)]
        heard = self.run(fetch, path, exchanges, Lines(twin))
        self.count(exchanges, heard)
        files = row.values("file")
        due = self.cases.text(files[0]) if files else text
        kind, why = self.judged(row, heard, self.refs_of(due), self.refs_of(text), self.refs_at(path, twin))
        said_bytes = b"".join(bytes_of(line) for line in said if line.who == "S")
        asked = [item for lines, _ in exchanges_of(said)[1:] for item in items_asked(payloads_of(lines))]
        got = [item for request in heard.requests for item in items_asked(request)]
        ends = Item("it accepts" if not heard.end else "it ends: " + twin.to_made_up(heard.end.encode()).decode())
        row_ends = Item("it accepts" if not row.has_fault() else "it refuses: " + row.values("!")[0])
        return Outcome(row, kind, why, said_bytes, [*asked, row_ends], [*got, ends])

    def repository(self, row, text, said):
        """The client's repository, and the twin that has what the server sends, too."""
        path = os.path.join(self.folder, row.place.replace(":", "-"))
        if self.is_text:
            put(path, text)
            return AsWritten(), path
        own = read_text(text)
        packs = [b"".join(line.bytes for line in reply if line.how == "1") for _, reply in exchanges_of(said)]
        sent = [node for pack in packs for node in nodes_of(pack)]
        twin = Twin(in_order(own.nodes + sent), own.format)
        if self.is_new and own.nodes:
            raise NotPlain("the client has a history")
        if not self.is_new:
            twin.write(path, own.nodes, own.refs, own.head)
        return twin, path

    def run(self, fetch, path, exchanges, lines):
        """Runs the client against a server that says what the row says."""
        heard = {"requests": [], "strayed": False, "left": len(exchanges) - 1}
        values = {"repository": path, "text": path, "new": path, "specs": fetch.specs}
        with socket.create_server(("127.0.0.1", 0)) as listener:
            listener.settimeout(LIMIT["seconds"])
            address = "127.0.0.1:%d" % listener.getsockname()[1]
            values.update(address=address, path="/p", url="git://%s/p" % address)
            process = started(filled(self.words, values))
            clock = threading.Timer(LIMIT["seconds"], process.kill)
            clock.start()
            serve = self.serve_tcp if self.is_tcp else self.serve_pipes
            talk = threading.Thread(target=serve, args=(listener, process, exchanges, lines, heard), daemon=True)
            talk.start()
            errors = process.stderr.read()
            process.wait()
            clock.cancel()
            half_closed(listener, socket.SHUT_RDWR)
            talk.join(LIMIT["seconds"])
        return Heard(heard["requests"], heard["strayed"], heard["left"], end_of(process, errors))

    def serve_tcp(self, listener, process, exchanges, lines, heard):
        # A client may list the refs in a connection of its own, so each connection begins anew.
        while True:
            try:
                connection, _ = listener.accept()
            except OSError:
                return
            with connection:
                connection.settimeout(LIMIT["seconds"])
                with connection.makefile("rb") as source:
                    stream = Stream(source, connection.sendall, lambda: half_closed(connection))
                    if stream.packet():
                        converse(stream, exchanges, lines, heard)

    def serve_pipes(self, _, process, exchanges, lines, heard):
        with os.fdopen(process.stdout.fileno(), "rb", closefd=False) as source:
            def write(data):
                while data:
                    data = data[process.stdin.write(data) :]

            converse(Stream(source, write, process.stdin.close), exchanges, lines, heard)

    def count(self, exchanges, heard):
        """Counts the first words of the lines in which a request is another than the row's."""
        for (lines, _), asked in zip(exchanges[1:], heard.requests):
            due = payloads_of(lines)
            if fits(due, asked):
                self.asked["row"].update(kinds_of(set(due) - set(asked)))
                self.asked["client"].update(kinds_of(set(asked) - set(due)))

    def refs_of(self, text):
        """What the client's repository has to be: the text itself, or its refs."""
        return text if self.is_text else sorted((name, id) for id, name in read_text(text).refs)

    def refs_at(self, path, twin):
        """What it is afterwards."""
        if self.is_text:
            with open(path, "rb") as file:
                return file.read()
        return sorted((name, twin.made_up.get(id, id)) for name, id in read_refs(path).items())

    def judged(self, row, heard, due, before, after):
        """Whether the client did what the row's did."""
        if heard.strayed and row.has_fault() and not heard.left:
            return "differs", "it goes on"
        if heard.strayed or (heard.left and not heard.end and not row.has_fault()):
            return "asks otherwise", "another request"
        is_moved = self.is_new or after == due
        if not row.has_fault() and is_moved and (not heard.end or due != before):
            return "accepted alike", ""
        if row.has_fault() and heard.end and (self.is_new or after == before):
            return "refused alike", ""
        return "differs", "" if is_moved else "its refs are others"


class Lines:
    """A twin that also writes lines with real ids. Packs are real already."""

    def __init__(self, twin):
        self.twin = twin

    def to_made_up(self, data):
        return self.twin.to_made_up(data)

    def to_real_lines(self, lines):
        return b"".join(bytes_of(line if line.how == "1" else self.changed(line)) for line in lines)

    def changed(self, line):
        return Line(line.who, line.how, self.twin.to_real(line.bytes))


def half_closed(stream, way=socket.SHUT_WR):
    try:
        stream.shutdown(way)
    except OSError:
        pass


def items_asked(payloads):
    return [item_of(payload + b"\n") for payload in payloads]


def kinds_of(payloads):
    """The words with which the lines begin."""
    return {payload.split(b" ")[0].split(b"=")[0].decode(errors="replace") for payload in payloads}


def read_refs(path):
    """The refs of a repository on the disk, without HEAD."""
    refs = {}
    if os.path.exists(path + "/packed-refs"):
        with open(path + "/packed-refs") as file:
            for line in file:
                if line[:1] not in "#^":
                    id, name = line.rstrip("\n").split(" ", 1)
                    refs[name] = id
    for folder, _, names in os.walk(path + "/refs"):
        for name in names:
            full = os.path.join(folder, name)
            with open(full) as file:
                refs[os.path.relpath(full, path)] = file.read().strip()
    return refs
