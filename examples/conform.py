#!/usr/bin/env python3
"""Replays the rows of crates/conformance/data against any server or client of Git's protocol, version 2.

    examples/conform.py --server 'git upload-pack'
    examples/conform.py --server 'gitv2 upload {text}'
    examples/conform.py --client 'git -C {repository} fetch --quiet --no-tags {url} {specs}'
    examples/conform.py --client 'gitv2 fetch --tcp {address} --path {path} {text} {specs}'
    examples/conform.py --repositories FOLDER; git daemon --base-path=FOLDER --export-all FOLDER &
    examples/conform.py --git-url git://127.0.0.1:9418/

It needs Python alone. It prints how many rows come out the same, are refused alike, and differ, then each row that differs.
The status is 0 if all rows that differ are in examples/differences.txt, and otherwise 1. docs/CASES.md has the rest.
"""

import argparse
import json
import shlex
import sys
import tempfile
from collections import Counter

import differences_page
from cases import Cases
from replay import ADVERTISEMENT, KINDS, LIMIT, Known, NotPlain, Repositories, replay, shortened, shown_bytes
from replay_client import ClientSide
from replay_server import PipeServer, UrlServer, capability_rows, is_served, server_side


def write_repositories(cases, folder):
    """Writes the repository of each text that a row serves, for a server of the user's own."""
    repositories, written = Repositories(cases, folder), 0
    for name in sorted({run[-1] for row in cases.rows for run in row.runs if is_served(run)}):
        try:
            repositories.of(name)
            written += 1
        except NotPlain:
            pass
    print("%d repositories in %s" % (written, folder))


# ---- the report


def summary(outcomes, side, known):
    """The lines of the table: how many rows of each kind, and why."""
    for kind in KINDS:
        found = [outcome for outcome in outcomes if outcome.kind == kind]
        if kind in ("differs", "asks otherwise"):
            whys = Counter("known" if known.word(side, outcome) else "not known" for outcome in found)
        else:
            whys = Counter(outcome.why for outcome in found if outcome.why)
        if found:
            yield "%-15s%5d" % (kind, len(found))
        for why, count in sorted(whys.items(), key=lambda item: (-item[1], item[0])):
            yield "%22d  %s" % (count, why)


def details(outcome, why):
    """The lines about a row that differs: what was sent, and what each said."""
    yield "%s: %s (%s)%s" % (outcome.kind, outcome.row.name, outcome.row.place, ", known: " + why if why else "")
    if outcome.why:
        yield "  " + outcome.why
    parts = [("sent", shown_bytes(outcome.sent)), ("row", shown(outcome.due)), ("here", shown(outcome.got))]
    for name, lines in parts:
        for line in shortened(lines):
            yield "  %-5s %s" % (name, line)


def shown(items):
    return [item.shown() for item in items]


def report(command, outcomes, notes, side, known, is_quiet):
    """Prints all, or all but the known differences. Answers the exit status."""
    print("%s: %d rows\n" % (command, sum(outcome.row.place != ADVERTISEMENT for outcome in outcomes)))
    print("\n".join([*summary(outcomes, side, known), "", *notes]))
    differing = [outcome for outcome in outcomes if outcome.kind in ("differs", "asks otherwise")]
    for outcome in sorted(differing, key=lambda it: (known.word(side, it) != "", it.row.name)):
        if not is_quiet or not known.word(side, outcome):
            print("\n" + "\n".join(details(outcome, known.word(side, outcome))))
    return 0 if all(known.word(side, outcome) for outcome in differing) else 1


def as_json(outcomes, side, known):
    return [
        {
            "row": outcome.row.name,
            "place": outcome.row.place,
            "kind": outcome.kind,
            "why": outcome.why,
            "known": known.word(side, outcome),
            "sent": shown_bytes(outcome.sent),
            "due": shown(outcome.due),
            "got": shown(outcome.got),
        }
        for outcome in outcomes
    ]


# ---- the command line


def options():
    parser = argparse.ArgumentParser(description=__doc__, formatter_class=argparse.RawDescriptionHelpFormatter)
    what = parser.add_mutually_exclusive_group(required=True)
    what.add_argument("--server", metavar="COMMAND", help="speaks over its standard streams, with {repository} or {text}")
    what.add_argument("--git-url", metavar="URL", help="a server of the folder that --repositories wrote")
    what.add_argument("--client", metavar="COMMAND", help="fetches {specs} into {repository}, {text} or {new}")
    what.add_argument("--repositories", metavar="FOLDER", help="writes the repositories for --git-url")
    what.add_argument("--differences", action="store_true", help="writes docs/DIFFERENCES.md, with stock git")
    parser.add_argument("--pieces", action="store_true", help="sends a server one byte at a time")
    parser.add_argument("--compare", action="store_true", help="with --differences: writes nothing, and fails if it would")
    parser.add_argument("--quiet", action="store_true", help="says nothing more about differences that are known")
    parser.add_argument("--seconds", type=int, default=60, help="the most that one row may take")
    parser.add_argument("--rows", metavar="TEXT", default="", help="only rows with this text in their names")
    parser.add_argument("--json", metavar="FILE", help="writes all outcomes to a file, too")
    return parser.parse_args()


def main():
    asked, cases, known = options(), Cases(), Known()
    LIMIT["seconds"] = asked.seconds
    if asked.repositories:
        return write_repositories(cases, asked.repositories)
    if asked.differences:
        return differences_page.write(cases, known, asked.compare)
    with tempfile.TemporaryDirectory() as folder:
        if asked.client:
            side = ClientSide(cases, shlex.split(asked.client), folder)
        elif asked.server:
            side = server_side(cases, PipeServer(shlex.split(asked.server), asked.pieces), folder)
        else:
            side = server_side(cases, UrlServer(asked.git_url, asked.pieces), folder)
        outcomes = replay(cases, side, asked.rows)
    name = "client" if asked.client else "server"
    if not asked.client:
        outcomes += capability_rows(side)
    if asked.json:
        with open(asked.json, "w") as file:
            json.dump(as_json(outcomes, name, known), file, indent=1)
    return report(asked.client or asked.server or asked.git_url, outcomes, side.notes(), name, known, asked.quiet)


if __name__ == "__main__":
    sys.exit(main())
