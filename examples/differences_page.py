"""Writes the lists and tables of docs/DIFFERENCES.md: how the answers and requests of stock git differ, and why."""

import os
import re
import shlex
import subprocess
import tempfile
from collections import Counter

from replay import ADVERTISEMENT, FOLDER, PROGRAM_ENV, replay
from replay_client import ClientSide
from replay_server import PipeServer, capability_rows, server_side

PAGE = os.path.join(FOLDER, "..", "docs", "DIFFERENCES.md")
README = os.path.join(FOLDER, "..", "README.md")
BEGIN, END = "<!-- conform.py writes what follows -->\n", "<!-- conform.py wrote what precedes -->\n"
SERVER = "git upload-pack"
CLIENT = "git -C {repository} fetch --quiet --no-tags {url} {specs}"
# How the page names the version of git.
VERSION = "The script tests Git %s with"

NAME_REASONS = {
    "ok": "`git check-ref-format` accepts names without a slash only with `--allow-onelevel`. Here `HEAD` is a ref name.",
    "11 TooLong": "Ref names have at most 1,000 bytes here.",
}


def write(cases, known, is_compared):
    """Writes the section between the two marks, and the two lines of README; or compares them. Answers the exit status."""
    version = subprocess.check_output(["git", "version"], env=PROGRAM_ENV).decode().split()[2]
    with open(PAGE) as file:
        if is_compared and VERSION % version not in file.read():
            print("docs/DIFFERENCES.md is not compared: it is of another git than %s" % version)
            return 0
    server, client, notes = outcomes_of_git(cases)
    unknown = [
        (side, outcome.row.name)
        for side, outcomes in (("server", server), ("client", client))
        for outcome in differing(outcomes)
        if not known.word(side, outcome)
    ]
    for side, name in unknown:
        print("no reason is known why git's %s differs: %s" % (side, name))
    tables = "\n".join(section(cases, known, version, server, client, notes))
    lines = list(summary_lines(server, client))
    changes = ((PAGE, with_tables(tables)), (README, with_lines(lines)))
    stale = [path for path, change in changes if is_stale(path, change, is_compared)]
    for path in stale:
        print("%s is not what examples/conform.py --differences writes" % os.path.relpath(path, os.path.dirname(FOLDER)))
    print("\n".join(lines))
    return 1 if unknown or stale else 0


def is_stale(path, change, is_compared):
    """Changes a page, or answers whether it would change."""
    with open(path) as file:
        page = file.read()
    if is_compared:
        return change(page) != page
    with open(path, "w") as file:
        file.write(change(page))
    return False


def with_tables(tables):
    """Puts the tables between the marks of a page."""

    def change(page):
        head, _, rest = page.partition(BEGIN)
        return head + BEGIN + tables + "\n" + END + rest.partition(END)[2]

    return change


def with_lines(lines):
    """Puts each line in the place of the one that begins as it does, if there is any."""

    def change(page):
        for line in lines:
            page = re.sub(re.escape(line.partition(":")[0]) + ":.*", lambda _: line, page)
        return page

    return change


def summary_lines(server, client):
    """The two lines of README."""
    counts = [Counter(it.kind for it in side if it.row.place != ADVERTISEMENT) for side in (server, client)]
    lines = (
        ("- **git's server** (`git upload-pack`): of %d rows %d are answered the same, %d are refused by both, and %d differ.", "same"),
        ("- **git's client** (`git fetch`): of %d rows %d are accepted by both, %d are refused by both, and %d differ.", "accepted alike"),
    )
    for (text, kind), count in zip(lines, counts):
        differ = count["differs"] + count["asks otherwise"]
        played = count[kind] + count["refused alike"] + differ
        yield text % (played, count[kind], count["refused alike"], differ)


def outcomes_of_git(cases):
    """The outcomes of stock git as a server and as a client, and notes on its requests."""
    with tempfile.TemporaryDirectory() as folder:
        side = server_side(cases, PipeServer(shlex.split(SERVER), False), folder)
        server = replay(cases, side)
        server += capability_rows(side)
    with tempfile.TemporaryDirectory() as folder:
        side = ClientSide(cases, shlex.split(CLIENT), folder)
        client = replay(cases, side)
    return server, client, list(side.notes())


def differing(outcomes):
    return [outcome for outcome in outcomes if outcome.kind in ("differs", "asks otherwise")]


# ---- the section


def section(cases, known, version, server, client, notes):
    """The lines of the section."""
    yield "%s `--server '%s'` and `--client '%s'`.\n" % (VERSION % version, SERVER, CLIENT)
    yield from answered_alike(server, client)
    yield "\n## How Git's server differs\n"
    yield "For the named row, the parentheses show the packets in which the answers differ, with ` / ` between packets.\n"
    yield from reasons_of(known, "server", server)
    yield "\n## How Git's client differs\n"
    yield from reasons_of(known, "client", client)
    yield "\nGit's requests also differ from the rows' requests. Each number counts the compared requests with such a line.\n"
    yield from ("- %s" % note for note in notes)
    yield "\n## What both servers refuse\n"
    yield "Each item begins with the answer here.\n"
    yield from refused_rows(server)
    yield "\n## Ref names\n\n`{x*996}` is 996 times `x`.\n"
    yield "| Name | Here | git | Why |\n|---|---|---|---|"
    yield from name_rows(cases.names)


def refused_rows(server):
    """A line for each answer to rows that both servers refuse."""
    refused = {}
    for outcome in server:
        if outcome.kind == "refused alike":
            refused.setdefault(parted(outcome)[0], []).append(outcome.row.name)
    for here, names in refused.items():
        yield "- %s (%s)" % (code(here), rows_named(names))


def answered_alike(server, client):
    """The table of counts."""
    yield "| Rows | Server | Client |\n|---|---|---|"
    lines = [
        ("answered the same, or accepted by both clients", ("same", "accepted alike")),
        ("refused by both", ("refused alike",)),
        ("different", ("differs",)),
        ("not comparable: Git's client makes other requests", ("asks otherwise",)),
        ("not replayed: not plain requests and replies", ("not plain",)),
    ]
    for text, kinds in lines:
        counts = [sum(it.kind in kinds and it.row.place != ADVERTISEMENT for it in side) for side in (server, client)]
        yield "| %s | %d | %d |" % (text, *counts)


def rows_named(names):
    """How many rows there are, and one row's name."""
    if len(names) == 1:
        return '1 row, "%s"' % names[0]
    return '%d rows, e.g. "%s"' % (len(names), names[0])


def reasons_of(known, side, outcomes):
    """A line for each reason why rows differ."""
    for word, why in known.whys.items():
        rows = [outcome for outcome in differing(outcomes) if known.word(side, outcome) == word]
        if rows:
            names = [outcome.row.name for outcome in rows]
            yield "- %s (%s%s)" % (why, rows_named(names), answers_of(rows[0]) if side == "server" else "")


def answers_of(outcome):
    """The differing parts of our server's answer and of the answer by git's server."""
    if outcome.row.place == ADVERTISEMENT:
        return ": `%s`" % outcome.why
    return ": here %s; Git %s" % tuple(code(part) for part in parted(outcome))


def parted(outcome):
    """What is left of two answers without what they begin and end with alike."""
    here, there = ([item.text for item in items] for items in (outcome.due, outcome.got))
    while here and there and here[0] == there[0]:
        here, there = here[1:], there[1:]
    while here and there and here[-1] == there[-1]:
        here, there = here[:-1], there[:-1]
    return " / ".join(here), " / ".join(there)


def code(text):
    """A text in a table: an id as in the cases, and no more than a line of it."""
    text = re.sub(r"(.)\1{39,}", lambda run: "{%s*%d}" % (run[1], len(run[0])), text).replace("*40}", "}")
    text = re.sub(r"\s", " ", text)
    text = text if len(text) <= 130 else text[:127] + "..."
    return ("`%s`" % text).replace("|", "\\|") if text else "nothing"


def name_rows(names):
    """The ref names that git's check takes otherwise."""
    for due, name in names:
        # No argument of a program has the byte 0.
        if b"\0" not in name:
            status = subprocess.run(["git", "check-ref-format", name], env=PROGRAM_ENV).returncode
            if (status == 0) != (due == "ok"):
                text = name.decode(errors="backslashreplace")
                yield "| %s | %s | %s | %s |" % (code(text), due, "refused" if status else "ok", NAME_REASONS[due])
