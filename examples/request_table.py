#!/usr/bin/env python3
"""What a server answers to a request that is cut, or of which a byte is changed: the lines of `data/swept` of the crate
`conformance`, worked out from gitprotocol-v2(5) and docs/PROTOCOL.md alone, apart from the libraries.

    examples/request_table.py > table     and then into crates/conformance/data/swept, after the row
"""

A, B, C = "a" * 40, "b" * 40, "c" * 40
HELD = {A, B, C}
# Which of them an id reaches.
REACHED = {A: {A}, B: {A, B}, C: {A, B, C}}

MARKS = {0: "flush", 1: "delimiter", 2: "response-end"}
FETCH_FLAGS = {b"thin-pack", b"no-progress", b"include-tag", b"ofs-delta", b"done"}
NAMES = {
    20: ("BadDigits", "bad packet line"),
    21: ("Reserved", "bad packet line"),
    22: ("TooLong", "bad packet line"),
    23: ("Truncated", "unexpected end"),
    41: ("UnexpectedFrame", "unexpected packet"),
    42: ("BadText", "bad line"),
    43: ("UnknownCommand", "unknown command"),
    44: ("UnknownCapability", "unknown capability"),
    45: ("UnknownArgument", "unknown argument"),
    46: ("BadId", "bad object id"),
    47: ("BadName", "bad ref name"),
    49: ("RemoteErr", "peer reported an error"),
    52: ("Format", "object format mismatch"),
    54: ("Ended", "unexpected end"),
}


class Refused(Exception):
    """The number of the fault."""


def packet(text):
    return b"%04x" % (len(text) + 5) + text + b"\n"


REQUEST = b"".join(
    [
        packet(b"command=fetch"),
        b"0001",
        packet(b"no-progress"),
        packet(b"want " + C.encode()),
        packet(b"have " + A.encode()),
        b"0000",
    ]
)


def next_packet(data):
    """A mark or a payload, and what follows it."""
    if not data:
        raise Refused(54)
    if len(data) < 4:
        raise Refused(23)
    digits = data[:4]
    if any(byte not in b"0123456789abcdefABCDEF" for byte in digits):
        raise Refused(20)
    number = int(digits, 16)
    if number in MARKS:
        return MARKS[number], data[4:]
    if number == 3:
        raise Refused(21)
    if number > 65520:
        raise Refused(22)
    if len(data) < number:
        raise Refused(23)
    return data[4:number], data[number:]


def text_of(payload):
    if payload.startswith(b"ERR "):
        raise Refused(49)
    return payload[:-1] if payload.endswith(b"\n") else payload


def is_key(text):
    return 0 < len(text) <= 1000 and all(
        chr(byte).isascii() and (chr(byte).isalnum() or byte in b"-_") for byte in text
    )


def is_value(text):
    return 0 < len(text) <= 1000 and all(32 <= byte <= 126 for byte in text)


def judge_command(text):
    if not text.startswith(b"command=") or not is_key(text[8:]):
        raise Refused(42)
    if text[8:] not in (b"fetch", b"ls-refs"):
        raise Refused(43)
    return text[8:]


def judge_capability(text, seen):
    key, equals, value = text.partition(b"=")
    if not is_key(key) or (equals and not is_value(value)):
        raise Refused(42)
    if key not in (b"agent", b"object-format"):
        raise Refused(44)
    if not equals or key in seen or (key == b"agent" and b" " in value):
        raise Refused(42)
    if key == b"object-format" and value != b"sha1":
        raise Refused(52)
    seen.add(key)


def judge_id(text):
    if len(text) != 40 or any(byte not in b"0123456789abcdefABCDEF" for byte in text):
        raise Refused(46)
    return text.decode().lower()


def judge_argument(text, request):
    if text in FETCH_FLAGS:
        request["flags"].add(text)
    elif text.startswith(b"want "):
        request["wants"].append(judge_id(text[5:]))
    elif text.startswith(b"have "):
        request["haves"].append(judge_id(text[5:]))
    else:
        raise Refused(45)


def read(data):
    """The request at the front of the data, or the fault and its packet."""
    request = {"flags": set(), "wants": [], "haves": []}
    place, seen, frame = "command", set(), 0
    while True:
        try:
            line, data = next_packet(data)
            if line == "flush":
                if place == "command":
                    return "empty"
                return request
            if line == "delimiter":
                if place != "capabilities":
                    raise Refused(41)
                place = "arguments"
            elif line == "response-end":
                raise Refused(41)
            elif place == "command":
                judge_command(text_of(line))
                place = "capabilities"
            elif place == "capabilities":
                judge_capability(text_of(line), seen)
            else:
                judge_argument(text_of(line), request)
        except Refused as fault:
            return (fault.args[0], frame)
        frame += 1


def answer(data, original):
    """The outcome, as a line of the table has it."""
    if not data:
        return "nothing"
    request = read(data)
    if isinstance(request, tuple):
        number, frame = request
        name, text = NAMES[number]
        if number == 49:
            raise SystemExit("no change of a byte makes an error")
        return f"{text} | {number} {name} frame {frame}"
    if request == "empty":
        return "nothing"
    if not request["wants"]:
        return "no wants | 73 NoWants"
    for want in request["wants"]:
        if want not in HELD:
            return "not our ref {} | 74 NotOurs {}"
    common = [have for have in request["haves"] if have in HELD]
    if not common and "done" not in request["flags"] and request["haves"]:
        return "use swept-nothing-common"
    if request == original:
        return "as it stands"
    raise SystemExit(f"an answer that has no name: {request}")


def token(byte):
    if 0x21 <= byte <= 0x7E and chr(byte) not in "-=|\\":
        return chr(byte)
    return f"x{byte:02x}"


def ranges(values):
    out, values = [], sorted(values)
    while values:
        first = last = values.pop(0)
        while values and values[0] == last + 1:
            last = values.pop(0)
        if last - first > 1:
            out.append(f"{token(first)}-{token(last)}")
        else:
            out += [token(value) for value in range(first, last + 1)]
    return " ".join(out)


def outcomes(at, original):
    """What each byte at a place makes; the most frequent last."""
    by_outcome = {}
    for value in range(256):
        if value != REQUEST[at]:
            changed = REQUEST[:at] + bytes([value]) + REQUEST[at + 1 :]
            by_outcome.setdefault(answer(changed, original), set()).add(value)
    ordered = sorted(by_outcome.items(), key=lambda pair: len(pair[1]))
    return [(out, ranges(values)) for out, values in ordered[:-1]] + [(ordered[-1][0], "other")]


def merged(rows):
    """The same outcomes at places one after the other are one line."""
    spans = []
    for place, row in rows:
        if spans and spans[-1][2] == row and spans[-1][1] + 1 == place:
            spans[-1][1] = place
        else:
            spans.append([place, place, row])
    return spans


def places(first, last):
    return f"{first}" if first == last else f"{first}-{last}"


def main():
    original = read(REQUEST)
    print("# The request is cut after so many of its %d bytes." % len(REQUEST))
    cuts = [(len_, answer(REQUEST[:len_], original)) for len_ in range(len(REQUEST))]
    for first, last, out in merged(cuts):
        print(f"cut {places(first, last)} = {out}")
    print("# A byte of it is changed: " + ", ".join(repr(REQUEST)[2:-1].split("\\n")))
    changes = [(at, outcomes(at, original)) for at in range(len(REQUEST))]
    for first, last, row in merged(changes):
        for out, values in row:
            print(f"change {places(first, last)} {values} = {out}")


main()
