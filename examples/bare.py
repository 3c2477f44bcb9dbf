"""Bare repositories that are made, read and checked by python alone: gitrepository-layout(5), gitformat-pack(5)."""

import functools
import hashlib
import os
import random
import struct
import zlib
from bisect import bisect_right

from lies import id_of, pack, whole

MAIN, OLD = "refs/heads/main", "refs/heads/old"
KINDS = {1: "commit", 2: "tree", 3: "blob", 4: "tag"}
WHO = b"A <a@example.com> %d +0000"


# ---- histories


class History:
    """A chain of commits with files by chance, which goes on from another one. `objects` are those of the chain alone."""

    def __init__(self, commits, seed, size=2_000, onto=None):
        chance = random.Random(seed)
        self.objects, self.tips, last = [], [], onto and onto.tip
        for number in range(commits):
            blob = self.add("blob", chance.randbytes(chance.randrange(size) + 1))
            inner = self.add("tree", b"100644 a\0" + blob)
            tree = self.add("tree", b"100644 a\0" + blob + b"40000 d\0" + inner)
            parent = b"parent %s\n" % last.hex().encode() if last else b""
            who = WHO % (1_700_000_000 + number)
            body = b"tree %s\n%sauthor %s\ncommitter %s\n\nm\n" % (tree.hex().encode(), parent, who, who)
            last = self.add("commit", body)
            self.tips.append(last)

    def add(self, kind, body):
        self.objects.append((kind, body))
        return id_of(kind, body)

    @property
    def tip(self):
        return self.tips[-1]

    def pack(self):
        return pack_of(self.objects)


def pack_of(objects):
    return pack([entry_of(kind, body) for kind, body in objects])


@functools.lru_cache(maxsize=None)
def entry_of(kind, body):
    """An object's entry in a pack, which is made once."""
    return whole(kind, body)


# ---- writing


def make(path):
    """An empty repository, whose HEAD points at `main`."""
    for name in ("objects/pack", "objects/info", "refs/heads", "refs/tags"):
        os.makedirs(f"{path}/{name}")
    write(f"{path}/HEAD", f"ref: {MAIN}\n".encode())
    write(f"{path}/config", b"[core]\n\trepositoryformatversion = 0\n\tfilemode = true\n\tbare = true\n")
    return path


def write(path, data):
    """Puts a file in place, whole."""
    os.makedirs(os.path.dirname(path), exist_ok=True)
    with open(f"{path}.new", "wb") as file:
        file.write(data)
    os.replace(f"{path}.new", path)


def put_ref(path, name, id):
    write(f"{path}/{name}", id.hex().encode() + b"\n")


def put_packed(path, refs):
    lines = [f"{refs[name].hex()} {name}\n" for name in sorted(refs)]
    write(f"{path}/packed-refs", "".join(["# pack-refs with: sorted \n", *lines]).encode())


def put_loose(path, kind, body):
    id = id_of(kind, body).hex()
    write(f"{path}/objects/{id[:2]}/{id[2:]}", zlib.compress(b"%s %d\0" % (kind.encode(), len(body)) + body))


def put_pack(path, objects):
    """Puts a pack and its index in place, the pack first. It returns the path of both, without an ending."""
    return put_entries(path, [(id_of(kind, body), entry_of(kind, body)) for kind, body in objects])


def put_entries(path, entries):
    """The same, for entries and the ids of their objects. Of several entries with one id, the index has the first one first."""
    rows, text, start = [], pack([entry for _, entry in entries]), 12
    for id, entry in entries:
        rows.append((id, zlib.crc32(entry), start))
        start += len(entry)
    rows.sort(key=lambda row: row[0])
    firsts = [row[0][0] for row in rows]
    fans = [bisect_right(firsts, first) for first in range(256)]
    index = b"\xfftOc\0\0\0\2" + struct.pack(">256I", *fans) + b"".join(row[0] for row in rows)
    index += b"".join(struct.pack(">I", row[1]) for row in rows) + b"".join(struct.pack(">I", row[2]) for row in rows)
    index += text[-20:]
    name = f"{path}/objects/pack/pack-{text[-20:].hex()}"
    write(f"{name}.pack", text)
    write(f"{name}.idx", index + hashlib.sha1(index).digest())
    return name


# ---- reading


def refs_of(path):
    """The ids of all refs below `refs/`; a loose one goes before a packed one."""
    found = {}
    if os.path.exists(f"{path}/packed-refs"):
        for line in read(f"{path}/packed-refs").decode(errors="surrogateescape").split("\n"):
            if line and not line.startswith(("#", "^")):
                found[line[41:]] = bytes.fromhex(line[:40])
    for folder, _, names in os.walk(f"{path}/refs"):
        for name in names:
            if not name.endswith(".lock"):
                file = os.path.join(folder, name)
                found[os.path.relpath(file, path)] = bytes.fromhex(read(file).decode().strip())
    return found


def read(path):
    with open(path, "rb") as file:
        return file.read()


def files_of(path):
    """All files below a folder, with what is in them."""
    paths = (os.path.join(folder, name) for folder, _, names in os.walk(path) for name in names)
    return {os.path.relpath(file, path): read(file) for file in paths}


class Objects:
    """The objects of a repository: those that are loose, and those that an index leads to. No pack here has deltas."""

    def __init__(self, path):
        self.path, self.packs, self.places = path, {}, {}
        folder = f"{path}/objects/pack"
        for name in os.listdir(folder):
            if name.endswith(".idx"):
                self.add_pack(f"{folder}/{name.removesuffix('.idx')}")

    def add_pack(self, name):
        text, index = read(f"{name}.pack"), read(f"{name}.idx")
        count = struct.unpack(">I", index[1028:1032])[0]
        sums = [hashlib.sha1(one[:-20]).digest() == one[-20:] for one in (text, index)]
        if not all(sums) or index[-40:-20] != text[-20:] or struct.unpack(">I", text[8:12])[0] < count:
            raise ValueError(f"{name} is no pack with its index")
        self.packs[name] = text
        offsets = index[1032 + 24 * count:]
        for place in range(count):
            id = index[1032 + 20 * place:1052 + 20 * place]
            self.places[id] = (name, struct.unpack(">I", offsets[4 * place:4 * place + 4])[0])

    def get(self, id):
        """The kind and the body of an object, whose id is computed again."""
        if id in self.places:
            kind, body = self.entry(*self.places[id])
        else:
            file = f"{self.path}/objects/{id.hex()[:2]}/{id.hex()[2:]}"
            head, body = zlib.decompress(read(file)).split(b"\0", 1)
            kind = head.split()[0].decode()
        if id_of(kind, body) != id:
            raise ValueError(f"{id.hex()} has another id")
        return kind, body

    def entry(self, name, start):
        text = self.packs[name]
        number, size, at = self.head(text, start)
        body = zlib.decompressobj().decompress(text[at:])
        if number not in KINDS or len(body) != size:
            raise ValueError(f"{name} has no whole object at {start}")
        return KINDS[number], body

    @staticmethod
    def head(text, at):
        byte, at = text[at], at + 1
        number, size, shift = byte >> 4 & 7, byte & 15, 4
        while byte & 128:
            byte, at = text[at], at + 1
            size, shift = size | (byte & 127) << shift, shift + 7
        return number, size, at


def links_of(kind, body):
    """The ids that an object names."""
    if kind == "tree":
        while body:
            entry, rest = body.split(b"\0", 1)
            if not entry.startswith(b"160000 "):
                yield rest[:20]
            body = rest[20:]
    elif kind != "blob":
        for line in body.split(b"\n\n", 1)[0].splitlines():
            word, value = line.split(b" ", 1)
            if word in (b"tree", b"parent", b"object"):
                yield bytes.fromhex(value.decode())


def faults_of(path):
    """What is wrong with a repository: an object that a ref leads to is not there, or a file is malformed."""
    try:
        store, seen = Objects(path), set()
        todo = list(refs_of(path).values())
        while todo:
            id = todo.pop()
            if id not in seen:
                seen.add(id)
                todo.extend(links_of(*store.get(id)))
    except (OSError, ValueError, KeyError, IndexError, struct.error, zlib.error) as error:
        return repr(error)
    return ""
