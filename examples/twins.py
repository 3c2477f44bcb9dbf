"""Git repositories with the histories of the rows, and the packs that go with them. No git is needed.

The ids of the rows are made up. A twin has the same history under ids that are right: each commit has the empty tree, and
its message is the made-up id. So each made-up id stands for one real id, and bytes can be changed in both directions.
"""

import bisect
import hashlib
import os
import re
import struct
import zlib
from collections import namedtuple

WHO = "A <a@example.com> 1 +0000"
TYPES = {1: "commit", 2: "tree", 3: "blob", 4: "tag"}
NUMBERS = {name: number for number, name in TYPES.items()}
LONE_ID = re.compile(rb"(?<![0-9a-fA-F])(?:[0-9a-fA-F]{64}|[0-9a-fA-F]{40})(?![0-9a-fA-F])")

# A repository text: its object format, its commits and tags as (kind, id, parents), its refs as (id, name), and HEAD.
Text = namedtuple("Text", "format nodes refs head")


class NoTwin(Exception):
    """Git cannot have this history. The argument says why."""


def nodes_of(text):
    """The commits and tags of a repository text, or of a plain pack."""
    lines = [line.split(" ") for line in text.decode(errors="replace").splitlines()]
    return [(parts[0], parts[1], parts[2:]) for parts in lines if parts[0] in ("c", "t") and len(parts) > 1]


def read_text(text):
    """Reads a repository text. Parents and the objects of refs may be missing."""
    lines = [line.split(" ") for line in text.decode(errors="replace").splitlines()]
    head = [parts[1:] for parts in lines if parts[0] == "h"]
    if not head or lines[-1] != ["end"] or lines[0][0] != "gitv2":
        raise NoTwin("its repository is no text of one")
    refs = [(parts[1], parts[2]) for parts in lines if parts[0] == "r"]
    return Text("sha256" if lines[0][1] == "2" else "sha1", nodes_of(text), refs, head[0])


def read_whole_text(text):
    """Reads a repository text in which nothing is missing and parents come first, as a server's must be."""
    served, ids = read_text(text), set()
    for _, id, parents in served.nodes:
        if not ids.issuperset(parents):
            raise NoTwin("its repository lacks a parent, or has it later")
        ids.add(id)
    tips = [id for id, _ in served.refs] + served.head[1:] * (served.head[0] == "id")
    if not ids.issuperset(tips):
        raise NoTwin("a ref of its repository has no object")
    return served


def in_order(nodes):
    """The same nodes, each once and after its parents."""
    by_id, children, missing = {}, {}, {}
    for node in nodes:
        if by_id.setdefault(node[1], node) != node:
            raise NoTwin("one id has two objects")
    for _, id, parents in by_id.values():
        held = [parent for parent in parents if parent in by_id]
        missing[id] = len(held)
        for parent in held:
            children.setdefault(parent, []).append(id)
    ordered = [id for id in by_id if not missing[id]]
    for id in ordered:
        for child in children.get(id, []):
            missing[child] -= 1
            if not missing[child]:
                ordered.append(child)
    if len(ordered) < len(by_id):
        raise NoTwin("commits are each other's ancestors")
    return [by_id[id] for id in ordered]


class Twin:
    """The history under real ids. `ids` has the real id of each made-up one, `objects` the kind and body of each real one."""

    def __init__(self, nodes, format="sha1"):
        self.format, self.ids, self.objects = format, {}, {}
        self.tree = self._add("tree", b"")
        for kind, id, parents in nodes:
            self.ids[id] = self._add(*self._object(kind, id, [self.ids.get(parent, parent) for parent in parents]))
        self.made_up = {real: id for id, real in self.ids.items()}

    def _object(self, kind, id, parents):
        if kind == "c":
            lines = ["tree " + self.tree] + ["parent " + parent for parent in parents]
            lines += ["author " + WHO, "committer " + WHO]
        elif not parents:
            raise NoTwin("a tag of no object")
        else:
            of = self.objects[parents[0]][0] if parents[0] in self.objects else "commit"
            lines = ["object " + parents[0], "type " + of, "tag " + id, "tagger " + WHO]
        return {"c": "commit", "t": "tag"}[kind], "\n".join([*lines, "", id, ""]).encode()

    def _add(self, kind, body):
        id = self.id_of(kind, body)
        self.objects[id] = (kind, body)
        return id

    def id_of(self, kind, body):
        """The id of an object."""
        return hashlib.new(self.format, b"%s %d\0" % (kind.encode(), len(body)) + body).hexdigest()

    def to_real(self, data):
        """Puts real ids in the place of made-up ones. An id in upper case stays in upper case."""
        return changed(data, self.ids)

    def to_made_up(self, data):
        """Puts made-up ids in the place of real ones."""
        return changed(data, self.made_up)

    def pack(self, ids):
        """Git's pack of the objects with these made-up ids, and of the empty tree if there is any."""
        real = [self.ids[id] for id in ids]
        return written_pack([self.objects[id] for id in real + [self.tree] * bool(real)], self.format)[0]

    def packed(self, pack):
        """The commits and tags in one of git's packs, by their made-up ids. `ValueError` if it is no such pack."""
        found = [self.id_of(kind, body) for kind, body in read_pack(pack, self.objects, self.format)]
        return sorted(self.made_up.get(id, id) for id in found if id != self.tree)

    def write(self, folder, nodes, refs, head):
        """Writes a bare repository of these nodes: one pack with its index, the packed refs, and HEAD."""
        version = "0\n" if self.format == "sha1" else "1\n[extensions]\n\tobjectformat = sha256\n[core]\n"
        os.makedirs(folder + "/objects/pack")
        os.makedirs(folder + "/refs")
        put(folder + "/config", "[core]\n\trepositoryformatversion = %s\tbare = true\n" % version)
        lines = sorted("%s %s\n" % (self.ids[id], name) for id, name in refs)
        put(folder + "/packed-refs", "".join(sorted(lines, key=lambda line: line.split(" ")[1].encode())))
        # Git needs a HEAD: without one here, it points at a branch that is not there.
        value = self.ids[head[1]] if head[0] == "id" else "ref: " + (head[1:] or ["refs/heads/none"])[0]
        put(folder + "/HEAD", value + "\n")
        if nodes:
            held = [self.objects[self.ids[id]] for _, id, _ in nodes] + [self.objects[self.tree]]
            pack, index = written_pack(held, self.format)
            put(folder + "/objects/pack/pack-%s.pack" % self.tree, pack)
            put(folder + "/objects/pack/pack-%s.idx" % self.tree, index)


def put(path, data):
    """Writes a file."""
    with open(path, "wb") as file:
        file.write(data if isinstance(data, bytes) else data.encode())


def changed(data, ids):
    """Puts other ids in the place of those that have no more hexadecimal digits beside them."""

    def other(match):
        id = match[0].decode()
        real = ids.get(id.lower(), id)
        return (real.upper() if id != id.lower() else real).encode()

    return LONE_ID.sub(other, data)


# ---- git's packs (gitformat-pack(5))


def written_pack(objects, format):
    """A pack of these objects, given as kinds and bodies, and its index."""
    pack, entries = b"PACK" + struct.pack(">II", 2, len(objects)), []
    parts = [pack]
    at = len(pack)
    for kind, body in objects:
        entry = entry_head(NUMBERS[kind], len(body)) + zlib.compress(body)
        id = hashlib.new(format, b"%s %d\0" % (kind.encode(), len(body)) + body).digest()
        entries.append((id, zlib.crc32(entry), at))
        parts.append(entry)
        at += len(entry)
    pack = b"".join(parts)
    pack += hashlib.new(format, pack).digest()
    return pack, written_index(sorted(entries), pack[-hashlib.new(format).digest_size :], format)


def entry_head(number, size):
    """The type and the size at the head of an entry."""
    bits, size = [(number << 4) | (size & 15)], size >> 4
    while size:
        bits[-1] |= 128
        bits.append(size & 127)
        size >>= 7
    return bytes(bits)


def written_index(entries, trailer, format):
    """The index, version 2, of entries that are sorted by id."""
    firsts = bytes(id[0] for id, _, _ in entries)
    index = b"\377tOc" + struct.pack(">I", 2)
    index += b"".join(struct.pack(">I", bisect.bisect_right(firsts, byte)) for byte in range(256))
    index += b"".join(id for id, _, _ in entries)
    index += b"".join(struct.pack(">I", crc) for _, crc, _ in entries)
    index += b"".join(struct.pack(">I", at) for _, _, at in entries) + trailer
    return index + hashlib.new(format, index).digest()


def read_pack(data, held, format):
    """The kind and body of each object of a pack. Bases of deltas are in the pack, or among the objects that are held."""
    size = hashlib.new(format).digest_size
    if data[:4] != b"PACK" or len(data) < 12 + size or hashlib.new(format, data[:-size]).digest() != data[-size:]:
        raise ValueError("no pack")
    by_id = {bytes.fromhex(id): it for id, it in held.items()}
    by_offset, at = {}, 12
    for _ in range(struct.unpack(">I", data[8:12])[0]):
        start = at
        number, at = read_head(data, at)
        if number == 6:
            back, at = read_back(data, at)
            base = by_offset[start - back]
        elif number == 7:
            base = by_id[data[at : at + size]]
            at += size
        body, at = inflated(data, at)
        kind, body = (TYPES[number], body) if number in TYPES else (base[0], patched(base[1], body))
        by_offset[start] = (kind, body)
        by_id[hashlib.new(format, b"%s %d\0" % (kind.encode(), len(body)) + body).digest()] = (kind, body)
    return list(by_offset.values())


def read_head(data, at):
    """The type of an entry, and where its size ends."""
    number = data[at] >> 4 & 7
    while data[at] & 128:
        at += 1
    return number, at + 1


def read_back(data, at):
    """How many bytes before an entry its base begins, and where this number ends."""
    value = data[at] & 127
    while data[at] & 128:
        at += 1
        value = ((value + 1) << 7) | (data[at] & 127)
    return value, at + 1


def inflated(data, at):
    """What the deflated bytes at this offset make, and where they end."""
    stream, made = zlib.decompressobj(), []
    while not stream.eof:
        if at >= len(data):
            raise ValueError("an entry that does not end")
        piece = data[at : at + 512]
        made.append(stream.decompress(piece))
        at += len(piece) - len(stream.unused_data)
    return b"".join(made), at


def patched(base, delta):
    """What a delta makes of its base."""
    at, made = 0, []
    for _ in range(2):
        while delta[at] & 128:
            at += 1
        at += 1
    while at < len(delta):
        code, at = delta[at], at + 1
        if code & 128:
            values = []
            for bit in range(7):
                here = code >> bit & 1
                values.append(delta[at] if here else 0)
                at += here
            offset = int.from_bytes(bytes(values[:4]), "little")
            length = int.from_bytes(bytes(values[4:]), "little") or 0x10000
            made.append(base[offset : offset + length])
        else:
            made.append(delta[at : at + code])
            at += code
    return b"".join(made)
