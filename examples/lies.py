"""Packs that lie, and servers that send them. See hostile.py."""

import hashlib
import random
import socket
import struct
import threading
import zlib

from both_ends import packet

KINDS = {"commit": 1, "tree": 2, "blob": 3, "tag": 4}
MEGABYTE = 1 << 20
# The most deltas of a chain.
LONGEST = 8_191
# How many places of a pack are changed by chance.
CHANGES = 60


def id_of(kind, body):
    return hashlib.sha1(b"%s %d\0" % (kind.encode(), len(body)) + body).digest()


def head(number, size):
    byte, size, out = (number << 4) | (size & 15), size >> 4, b""
    while size:
        out += bytes([byte | 128])
        byte, size = size & 127, size >> 7
    return out + bytes([byte])


def whole(kind, body, size=None):
    return head(KINDS[kind], len(body) if size is None else size) + zlib.compress(body)


def size_of(number):
    out = b""
    while number > 127:
        out += bytes([number & 127 | 128])
        number >>= 7
    return out + bytes([number])


def by_id(base, delta):
    return head(7, len(delta)) + base + zlib.compress(delta)


def by_offset(back, delta):
    """A delta whose base begins so many bytes before it, 127 at most."""
    return head(6, len(delta)) + bytes([back]) + zlib.compress(delta)


def with_trailer(text):
    return text + hashlib.sha1(text).digest()


def pack(entries, count=None):
    return with_trailer(b"PACK" + struct.pack(">II", 2, len(entries) if count is None else count) + b"".join(entries))


BLOB = bytes(range(256)) * 8
TREE = b"100644 file\0" + id_of("blob", BLOB)
WHO = b"author A <a@example.com> 1 +0000\ncommitter A <a@example.com> 1 +0000\n"
COMMIT = b"tree %s\n%s\nm\n" % (id_of("tree", TREE).hex().encode(), WHO)
TIP = id_of("commit", COMMIT)
ALL = [whole("commit", COMMIT), whole("tree", TREE), whole("blob", BLOB)]
GOOD = pack(ALL)
# A pack of several packets: a client stores the first of them before the last ones arrive.
LONG = pack(ALL + [whole("blob", random.Random(5).randbytes(300_000))])
NEW = [(TIP, b"refs/heads/new")]


class Case:
    """A pack, the refs that its server has, and whether it is taken.

    A clone takes what a fetch takes, unless it is said whether it does.
    """

    def __init__(self, what, pack, refs=NEW, is_taken=False, is_cloned=None):
        self.what, self.pack, self.refs, self.is_taken = what, pack, refs, is_taken
        self.is_cloned = bool(is_taken) if is_cloned is None else is_cloned


def zip_bomb(megabytes):
    """A zlib stream of so many megabytes of zeros. No block refers to one before it, so one is made, and repeated."""
    deflate = zlib.compressobj(9, wbits=-15)
    block = deflate.compress(bytes(MEGABYTE)) + deflate.flush(zlib.Z_FULL_FLUSH)
    # The first half of the Adler-32 stays 1, which is added to the second half at each byte.
    adler = struct.pack(">HH", megabytes * MEGABYTE % 65_521, 1)
    return b"\x78\xda" + block * megabytes + deflate.flush() + adler


def broken_packs():
    for cut in range(0, len(GOOD), 13):
        yield Case(f"cut at {cut}", GOOD[:cut])
    for cut in range(12, len(GOOD) - 20, 13):
        yield Case(f"cut at {cut}, with the right trailer", with_trailer(GOOD[:cut]))
    chance = random.Random(3)
    for _ in range(CHANGES):
        text = bytearray(GOOD[:-20])
        place = chance.randrange(len(text))
        text[place] ^= 1 << chance.randrange(8)
        yield Case(f"a bit changed at {place}, with the right trailer", with_trailer(bytes(text)))
    for left in range(3):
        yield Case(f"without object {left}", pack([entry for place, entry in enumerate(ALL) if place != left]))
    yield Case("no objects", pack([]))
    yield Case("no bytes", b"")
    yield Case("bytes after the end", GOOD + b"x")
    yield Case("a count of one more", pack(ALL, 4))
    yield Case("a count of one less", pack(ALL, 2))
    yield Case("a count of 4,294,967,295", pack(ALL, 0xFFFFFFFF))
    yield Case("a size of one less", pack([*ALL[:2], whole("blob", BLOB, len(BLOB) - 1)]))
    yield Case("a size of one more", pack([*ALL[:2], whole("blob", BLOB, len(BLOB) + 1)]))
    yield Case("a tree where a blob is named", pack([*ALL[:2], whole("tree", BLOB)]))
    yield Case("a base that is not there", pack(ALL + [by_id(b"\x11" * 20, size_of(5) + size_of(5) + b"\x05abcde")]))
    yield Case("a delta of two bytes", pack(ALL + [whole("blob", b"base"), by_id(id_of("blob", b"base"), size_of(4) + size_of(0))]))


def wrong_ends():
    """Packs of several packets that are cut, or whose trailer is wrong."""
    yield Case("a long pack", LONG, is_taken=True)
    yield Case("a long pack, cut in the middle", LONG[:len(LONG) // 2])
    yield Case("a long pack, cut in the middle, with the right trailer", with_trailer(LONG[:len(LONG) // 2]))
    yield Case("a long pack without its last byte", LONG[:-1])
    yield Case("a long pack with a byte more", LONG + b"x")
    yield Case("a long pack with a wrong trailer", LONG[:-1] + bytes([LONG[-1] ^ 1]))
    yield Case("a long pack with a bit changed", LONG[:200_000] + bytes([LONG[200_000] ^ 1]) + LONG[200_001:])


def bombs(megabytes):
    """Streams of so many megabytes, more than 256, and a delta that makes 4 GB."""
    bomb = zip_bomb(megabytes)
    yield Case(f"a zip bomb of {megabytes} MB, declared as 20 bytes", pack(ALL + [head(3, 20) + bomb]))
    yield Case(f"a zip bomb of {megabytes} MB, declared so", pack(ALL + [head(3, megabytes * MEGABYTE) + bomb]))
    base = bytes(65_536)
    copies = b"\xb0\xff\xff" * 60_000
    delta = size_of(65_536) + size_of(65_535 * 60_000) + copies
    yield Case("a delta bomb of 4 GB", pack(ALL + [whole("blob", base), by_id(id_of("blob", base), delta)]))


def many_bombs():
    """Objects of which each is small enough."""
    half = zip_bomb(256)
    yield Case("seventeen bombs of 256 MB", pack(ALL + [head(3, 256 * MEGABYTE) + half] * 17))
    base = bytes(65_536)
    copies = b"\xb0\xff\xff" * 4_000
    delta = size_of(65_536) + size_of(65_535 * 4_000) + copies
    deltas = [by_id(id_of("blob", base), delta + b"\x01" * 0) for _ in range(40)]
    # 10 GB in all, which is within the limit of 64 GiB.
    yield Case("forty deltas of 262 MB", pack(ALL + [whole("blob", base), *deltas]), is_taken=True)


def compressed(*parts):
    """A zlib stream of these parts, which may have a GB together."""
    deflate = zlib.compressobj(9)
    return b"".join(deflate.compress(part) for part in parts) + deflate.flush()


def large(kind, first, line, count, last=b""):
    """An entry of a kind whose body has a line so many times."""
    size = len(first) + len(line) * count + len(last)
    return head(KINDS[kind], size) + compressed(first, line * count, last)


def by_copies(size, last):
    """A delta of a base of zeros that has four other bytes at its end."""
    delta, at = size_of(size) + size_of(size), 0
    while at < size - 4:
        count = min(size - 4 - at, 0xFFFFFF)
        delta += b"\xff" + struct.pack("<I", at) + struct.pack("<I", count)[:3]
        at += count
    return delta + b"\x04" + last


def stored(megabytes):
    """An entry with so many megabytes of zeros that are not compressed."""
    deflate, size = zlib.compressobj(0), megabytes * MEGABYTE
    return head(3, size) + deflate.compress(bytes(size)) + deflate.flush()


def long_entries():
    """Entries that a client keeps in memory until they are whole: at most 128 MiB of a pack."""
    yield Case("an entry of 126 MiB", pack(ALL + [stored(126)]), is_taken=True)
    yield Case("an entry of 129 MiB", pack(ALL + [stored(129)]))


def hogs():
    """Small packs that take much memory, if they are not refused in time."""
    empty = whole("blob", b"")
    yield Case("as many empty objects as 64 MiB have", with_trailer(b"PACK" + struct.pack(">II", 2, 7_456_000) + empty * 7_456_000))
    yield Case("a tree of 8,000,000 entries", pack(ALL + [large("tree", b"", TREE, 8_000_000)]))
    tree, parent = COMMIT[:46], b"parent %s\n" % TIP.hex().encode()
    yield Case("a commit of 5,000,000 parents", pack(ALL + [large("commit", tree, parent, 5_000_000, WHO + b"\nm\n")]))
    size = 254 * MEGABYTE
    zeros = bytes(size)
    of_zeros = hashlib.sha1(b"blob %d\0" % size)
    first, made = of_zeros.copy(), of_zeros.copy()
    first.update(zeros)
    made.update(zeros[4:] + b"one\n")
    inserts = size_of(size) + size_of(size // 128 * 127) + (b"\x7f" + bytes(127)) * (size // 128)
    entries = [head(3, size) + compressed(zeros)]
    entries += [by_id(first.digest(), by_copies(size, last)) for last in (b"one\n", b"two\n")]
    entries += [by_id(made.digest(), inserts[:-1] + last) for last in (b"a", b"b")]
    yield Case("bases and deltas of 254 MB", pack(ALL + entries))


def copy_of(offset, size):
    """What copies so many bytes, 255 at most, from an offset of at most 65,535 of a delta's base."""
    return b"\x93" + struct.pack("<HB", offset, size)


def merges(count, parents):
    """Commits that each name one parent so many times."""
    line = b"parent %s\n" % TIP.hex().encode()
    for number in range(count):
        yield large("commit", COMMIT[:46], line, parents, WHO + b"\n%d\n" % number)


def octopuses(count):
    """Deltas that make commits of 64 parents each, which is the most."""
    body = COMMIT[:46] + b"parent %s\n" % TIP.hex().encode() * 64 + WHO + b"\n"
    base, sizes = id_of("commit", body), size_of(len(body)) + size_of(len(body) + 4)
    copies = b"\xb0" + struct.pack("<H", len(body))
    yield whole("commit", body)
    for number in range(count):
        yield by_id(base, sizes + copies + b"\x04" + struct.pack(">I", number))


def many_names(trees, names):
    """Deltas that make trees of so many entries each, all of different names, from trees of few."""
    entry, few = b"100644 f\0", 1_000
    length = (len(entry) + 20) * few
    insert = bytes([len(entry)]) + entry
    # Ten bytes of one place, and ten of another one, name an object.
    places = ((number % (length - 40), (number // (length - 40) * 37 + number * 7) % (length - 40)) for number in range(names))
    copies = b"".join(insert + copy_of(one, 10) + copy_of(other, 10) for one, other in places)
    delta = size_of(length) + size_of((len(entry) + 20) * names) + copies
    stream = head(7, len(delta)), zlib.compress(delta)
    chance = random.Random(7)
    for _ in range(trees):
        body = b"".join(entry + chance.randbytes(20) for _ in range(few))
        yield whole("tree", body)
        yield stream[0] + id_of("tree", body) + stream[1]


def waiting(count):
    """Chains of small blobs. Each has two deltas, so that it is held until its chain is applied."""
    base = b"00000000"
    for number in range(count // 2):
        if number % LONGEST == 0:
            base = b"base%04x" % (number // LONGEST)
            yield whole("blob", base)
        text = b"%08x" % (number + 1)
        id, sizes = id_of("blob", base), size_of(8)
        yield by_id(id, sizes + sizes + b"\x08" + text)
        yield by_id(id, sizes + size_of(9) + b"\x09" + text + b"x")
        base = text


def last_bomb(megabytes):
    """An object of zeros, and a delta of it, which is applied after all others."""
    size, zeros = megabytes * MEGABYTE, hashlib.sha1(b"blob %d\0" % (megabytes * MEGABYTE))
    for _ in range(megabytes):
        zeros.update(bytes(MEGABYTE))
    return [head(3, size) + zip_bomb(megabytes), by_id(zeros.digest(), size_of(size) + size_of(4) + b"\x04tiny")]


def full_tables():
    """Small packs of which each table is as large as it may be."""
    yield Case("twenty merges of 1,300,000 parents", pack(ALL + list(merges(20, 1_300_000))))
    yield Case("300,000 merges of 64 parents", pack(ALL + list(octopuses(300_000))))
    yield Case("trees that name 4,000,000 objects", pack(ALL + list(many_names(100, 40_000))))
    for objects, megabytes in ((1_000, 255), (524_000, 143), (1_048_000, 31)):
        named = list(many_names(51, 40_000))
        entries = ALL + named + list(waiting(objects - len(named))) + last_bomb(megabytes)
        yield Case(f"{objects:,} objects, with 2,000,000 names and {megabytes} MB that are held", pack(entries))


def chains(count, is_taken):
    base = last = bytes(65_536)
    entries, before = [whole("blob", base)], id_of("blob", base)
    for number in range(count):
        last = last[:65_530] + struct.pack(">IH", number, 7)
        delta = size_of(65_536) + size_of(65_536) + b"\xb0\xfa\xff" + b"\x06" + last[65_530:]
        entries.append(by_id(before, delta))
        before = id_of("blob", last)
    yield Case(f"a chain of {count:,} deltas of 64 KiB", pack(ALL + entries), is_taken=is_taken)


def names():
    for name in (
        b"refs/heads/../../x", b"refs/heads/../../../../tmp/x", b"refs/heads/x.lock", b"refs/heads/.x", b"refs/heads//x",
        b"refs/heads/x/", b"refs/heads/a\tb", b"/etc/x", b"../x", b"refs/heads/a\x1b[2Jb", b"refs/heads/" + b"a" * 2000,
    ):
        yield Case(f"a ref named {name[:40]!r}", GOOD, [(TIP, name)])
    yield Case("a ref below a ref", GOOD, [(TIP, b"refs/heads/d"), (TIP, b"refs/heads/d/e")])
    escape = b"refs/heads/\xc2\x9b31m"
    yield Case("a ref below a ref, with control bytes", GOOD, [(TIP, escape), (TIP, escape + b"/e")])
    yield Case("a name that is not UTF-8", GOOD, [(TIP, b"refs/heads/\x9b31m")], is_cloned=True)
    for what, kind, body in (("tree", "tree", TREE), ("blob", "blob", BLOB)):
        yield Case(f"HEAD at a {what}", GOOD, [(id_of(kind, body), b"HEAD"), *NEW], is_taken=True, is_cloned=False)
    yield Case("a ref below one that is here", GOOD, [(TIP, b"refs/heads/old/e")], is_cloned=True)
    # Its first line counts.
    yield Case("a ref twice", GOOD, [(TIP, b"refs/heads/d"), (id_of("tree", TREE), b"refs/heads/d")], is_taken=True)
    yield Case("a branch at a tree that is not sent", GOOD, [(b"\x12" * 20, b"refs/heads/d")])


def cases():
    yield Case("the right pack", GOOD, is_taken=True)
    yield Case("an object twice", pack(ALL + [ALL[2]]), is_taken=True)
    yield from broken_packs()
    yield from wrong_ends()
    yield from bombs(1024)
    yield from many_bombs()
    yield from long_entries()
    yield from hogs()
    yield from full_tables()
    yield from chains(LONGEST, True)
    yield from chains(LONGEST + 1, False)
    yield from names()


# ---- servers


FLUSH = b"0000"
ADVERT = packet(b"version 2\n") + packet(b"ls-refs\n") + packet(b"fetch\n") + packet(b"object-format=sha1\n") + b"0000"


def listing(refs):
    return b"".join(packet(id.hex().encode() + b" " + name + b"\n") for id, name in refs) + b"0000"


def bands(data, band=1):
    return b"".join(packet(bytes([band]) + data[at:at + 65_515]) for at in range(0, len(data), 65_515))


def packfile(data):
    return packet(b"packfile\n") + bands(data) + b"0000"


class Liar:
    """A server at 127.0.0.1 that says these bytes: first, to `ls-refs`, and to `fetch`. It sees what clients want."""

    def __init__(self, advert=ADVERT, refs=b"0000", pack=b""):
        self.said = (advert, refs, pack)
        self.socket = socket.create_server(("127.0.0.1", 0))
        self.port = self.socket.getsockname()[1]
        self.thread = threading.Thread(target=self.accept, daemon=True)
        self.thread.start()

    def url(self):
        return f"git://127.0.0.1:{self.port}/x"

    def __enter__(self):
        return self

    def __exit__(self, *_):
        # The thread ends before the socket closes: the next server's socket might get its number.
        self.socket.shutdown(socket.SHUT_RDWR)
        self.thread.join()
        self.socket.close()

    def send(self, stream, place, said):
        """Sends what is said at a place: `advert`, `refs` or `pack`. It ends the connection after what is no whole message."""
        stream.sendall(said)
        if not said.endswith(FLUSH):
            raise OSError("it says no more")

    def accept(self):
        while True:
            try:
                stream, _ = self.socket.accept()
            except OSError:
                return
            threading.Thread(target=self.talk, args=(stream,), daemon=True).start()

    def talk(self, stream):
        advert, refs, pack = self.said
        try:
            with stream, stream.makefile("rb") as file:
                file.read(int(file.read(4), 16) - 4)
                self.send(stream, "advert", advert)
                while message := read_message(file):
                    if message[0].startswith(b"command=ls-refs"):
                        self.send(stream, "refs", refs)
                    else:
                        is_done = any(line.startswith(b"done") for line in message)
                        acks = b"" if is_done else packet(b"acknowledgments\n") + packet(b"ready\n") + b"0001"
                        self.send(stream, "pack", acks + pack)
        except (OSError, ValueError):
            pass


def read_message(file):
    """The lines of a message, or none at the end."""
    lines = []
    while len(length := file.read(4)) == 4:
        number = int(length, 16)
        if number == 0:
            return lines
        if number > 3:
            lines.append(file.read(number - 4))
    return None


def spoken():
    """What a server may say that is no answer, with what it stands in: the advertisement, the list of refs, the pack."""
    escape = b"\x1b]0;title\x07\x1b[31mred\r\n\xff\x80"
    good = listing(NEW)
    for what, advert in (
        ("nothing", b""), ("an ERR line", packet(b"ERR " + escape)), ("no packet", b"HTTP/1.1 200 OK\r\n\r\n"),
        ("a length of 3", b"0003"), ("a length that is no number", b"00zz"), ("version 1", packet(b"version 1\n") + b"0000"),
        ("protocol version 0", packet(b"1" * 40 + b" HEAD\0side-band-64k\n") + b"0000"),
        ("sha256", packet(b"version 2\n") + packet(b"ls-refs\n") + packet(b"fetch\n") + packet(b"object-format=sha256\n") + b"0000"),
        ("no fetch", packet(b"version 2\n") + packet(b"ls-refs\n") + b"0000"), ("control bytes", packet(escape) + b"0000"),
        ("a packet without an end", b"ffffversion 2\n"), ("delimiters", b"0001" * 1000), ("a capability of 60,000 bytes", packet(b"version 2\n") + packet(b"x" * 60_000)),
    ):
        yield f"{what} as the advertisement", Liar(advert, good, packfile(GOOD))
    for what, refs in (
        ("nothing", b""), ("an ERR line", packet(b"ERR " + escape)), ("a short id", packet(b"1234 refs/heads/x\n") + b"0000"),
        ("a name with control bytes", packet(TIP.hex().encode() + b" refs/heads/" + escape) + b"0000"),
        ("100,000 refs", b"".join(packet(b"%040x refs/heads/%d\n" % (n + 1, n)) for n in range(100_000)) + b"0000"),
        ("an attribute that climbs", packet(TIP.hex().encode() + b" HEAD symref-target:../../x\n") + b"0000"),
        ("a list that is cut", good[:-6]),
    ):
        yield f"{what} as the list", Liar(ADVERT, refs, packfile(GOOD))
    for what, answer in (
        ("nothing", b""), ("an ERR line", packet(b"ERR " + escape)), ("a fatal line", packet(b"packfile\n") + packet(b"\3" + escape)),
        ("band 4", packet(b"packfile\n") + packet(b"\4x") + b"0000"), ("a pack without its head", bands(GOOD) + b"0000"),
        ("a pack that is cut", packfile(GOOD)[:-30]), ("packets of no band", packet(b"packfile\n") + packet(b"") + b"0000"),
        ("acknowledgments", packet(b"acknowledgments\n") + packet(b"ACK " + b"1" * 40 + b"\n") + b"0000"),
        ("a section that is not known", packet(b"shallow-info\n") + packet(b"shallow " + b"1" * 40 + b"\n") + b"0001" + packfile(GOOD)),
        ("a pack of 65 MiB", packet(b"packfile\n") + bands(bytes(65 << 20)) + b"0000"),
    ):
        yield f"{what} as the pack", Liar(ADVERT, good, answer)


def progress():
    """A server whose progress has control bytes."""
    escape = b"counting \x1b[31mobjects\x1b[0m\x07 \x9b2J\xff\x00 10%\r"
    return Liar(ADVERT, listing(NEW), packet(b"packfile\n") + bands(escape, 2) + bands(GOOD) + bands(b"done\n", 2) + b"0000")
