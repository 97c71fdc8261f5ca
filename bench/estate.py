#!/usr/bin/env python3
"""A load as real teams have it: 500 workspaces with states of 20 KB to 2 MB, and 20,000 exchanges of a mixed kind.

Build the program, and run it from the top of the repository:

    (cd crates/custody && rt run -- --help)
    python3 bench/estate.py [--exchanges N] [--workspaces N] [--shifting PERCENT] [--seed N] [--folder FOLDER]

Who works on what is drawn with a fixed seed: few workspaces are changed often, most now and then. An apply is GET, LOCK,
GET, POST of a state in which a few resources differ, UNLOCK; a plan is LOCK, GET, UNLOCK; besides, runs are made and end,
pages of workspaces and of versions are looked at. Of so many applies in a hundred (50) a value gets longer or shorter, so
all that follows is shifted, and its pages are new; in the others values of the same length differ. Ten times in a run a line shows what was exchanged so far, how much the
program has to keep (the distinct pages of the versions that are kept, as this script counts them), the size of the file
and of its log, the memory of the process, and medians in milliseconds. In the end the service is stopped, and SQLite's
own library finds in the file exactly the versions and pages that are to be kept: else the script ends with status 1.
"""
import argparse
import collections
import contextlib
import hashlib
import json
import os
import random
import re
import shutil
import sqlite3
import statistics
import sys
import tempfile
import time

import exchanges
from pages import PAGE_BYTES

KEPT = 100
LEAST, MOST = 20_000, 2_000_000
LINES = 10
# how many bytes of a value a change overwrites
DIGITS = 4


class Workspace:
    """A workspace as its team sees it: its state, and which pages its versions have."""

    def __init__(self, name, size, chance, shifting):
        self.name, self.chance, self.shifting, self.serial, self.number = name, chance, shifting, 0, 0
        state = exchanges.state_of(1_000_000, size).replace(exchanges.LINEAGE.encode(), f"{chance.getrandbits(128):032x}".encode())
        self.text = bytearray(state)
        self.places = [found.start() for found in re.finditer(b'"one-', state)]
        self.longer = [0] * len(self.places)
        self.versions = collections.deque()

    def shift(self):
        """A value gets longer by up to 200 bytes, or as short again as it was."""
        which = self.chance.randrange(len(self.places))
        at, more = self.places[which] + 1 + DIGITS, self.longer[which]
        fewer = 0 if more else self.chance.randrange(1, 201)
        self.text[at:at + more] = b"y" * fewer
        self.longer[which] = fewer
        self.places[which + 1:] = [place + fewer - more for place in self.places[which + 1:]]

    def changed(self):
        """The next state: the serial, and the values of one to three resources, differ."""
        self.serial += 1
        at = self.text.index(b'"serial": ') + len(b'"serial": ')
        self.text[at:at + 7] = b"%d" % (1_000_000 + self.serial)
        for _ in range(self.chance.randrange(1, 4)):
            place = self.chance.choice(self.places) + 1
            self.text[place:place + DIGITS] = b"%04x" % self.chance.getrandbits(16)
        if self.chance.randrange(100) < self.shifting:
            self.shift()
        return bytes(self.text)

    def keep(self, text):
        """Counts a version that was accepted, and lets the oldest go while more than 100 are kept."""
        self.versions.append([hashlib.sha256(text[at:at + PAGE_BYTES]).digest() for at in range(0, len(text), PAGE_BYTES)])
        if len(self.versions) > KEPT:
            self.versions.popleft()


def kept_pages(workspaces, lengths):
    """The distinct pages of all versions that are kept, and their bytes."""
    found = {page for ws in workspaces for version in ws.versions for page in version}
    return len(found), sum(lengths[page] for page in found)


class Load:
    def __init__(self, server, workspaces, chance):
        self.server, self.workspaces, self.chance = server, workspaces, chance
        self.count, self.locks, self.runs, self.lengths = 0, 0, 0, {}
        self.spent = collections.defaultdict(list)
        self.often = [1 / (place + 1) for place in range(len(workspaces))]

    def ask(self, kind, method, path, body=b"", wanted=b"200"):
        spent, reply = self.server.exchange(exchanges.request(method, path, body))
        self.spent[kind].append(spent)
        self.count += 1
        if reply.split(b" ", 2)[1] != wanted:
            sys.exit(f"{method} {path}: {reply[:200]}")
        return reply.partition(b"\r\n\r\n")[2]

    def lock(self, ws):
        self.locks += 1
        name = f"lock-{self.locks}"
        body = json.dumps({"ID": name, "Operation": "OperationTypeApply", "Who": "ci"}).encode()
        self.ask("LOCK", "LOCK", f"state/{ws.name}", body)
        return name, body

    def get(self, ws):
        if ws.versions and self.ask("GET", "GET", f"state/{ws.name}") != bytes(ws.text):
            sys.exit(f"{ws.name} was read with another text")

    def post(self, ws, lock):
        text = ws.changed()
        self.ask("POST", "POST", f"state/{ws.name}?ID={lock}", text)
        self.lengths.update((hashlib.sha256(text[at:at + PAGE_BYTES]).digest(), len(text[at:at + PAGE_BYTES])) for at in range(0, len(text), PAGE_BYTES))
        ws.keep(text)

    def apply(self, ws):
        self.get(ws)
        name, body = self.lock(ws)
        self.get(ws)
        self.post(ws, name)
        self.ask("UNLOCK", "UNLOCK", f"state/{ws.name}", body)

    def plan(self, ws):
        name, body = self.lock(ws)
        self.get(ws)
        self.ask("UNLOCK", "UNLOCK", f"state/{ws.name}", body)

    def run(self, ws):
        self.runs += 1
        made = self.ask("run", "POST", f"runs/{ws.name}", b'{"key":"key-%d"}' % self.runs)
        number = json.loads(made)["number"]
        self.ask("run", "POST", f"runs/{ws.name}/{number}/actions/unchanged")

    def look(self, ws):
        self.ask("list", "GET", f"workspaces?after={ws.name}")
        self.ask("list", "GET", f"versions/{ws.name}")

    def turn(self):
        ws = self.chance.choices(self.workspaces, self.often)[0]
        self.chance.choices([self.apply, self.plan, self.run, self.look], [5, 3, 1, 1])[0](ws)


def middle(spans):
    return statistics.median(spans) * 1000 if spans else 0


def show(load, began):
    server = load.server
    pages, size = kept_pages(load.workspaces, load.lengths)
    versions = sum(len(ws.versions) for ws in load.workspaces)
    file = os.path.getsize(server.path) / 1e6
    cells = [f"{load.count:,}", f"{time.perf_counter() - began:.0f}", f"{versions:,}", f"{pages:,}", f"{size / 1e6:.1f}", f"{file:.1f}",
             f"{server.log():.1f}", f"{server.memory('VmRSS'):.1f}", *(f"{middle(load.spent[kind]):.2f}" for kind in ("GET", "POST", "LOCK", "list"))]
    print(f"| {' | '.join(cells)} |", flush=True)
    load.spent.clear()


def is_kept(path, load):
    """Whether the file has the versions and the pages that are to be kept, and no others."""
    pages, size = kept_pages(load.workspaces, load.lengths)
    for end in ("", "-wal"):
        # (sqlite3 spoils the sums of a file that it writes to, so it looks at a copy)
        if os.path.exists(path + end):
            shutil.copy(path + end, path + ".copied" + end)
    with contextlib.closing(sqlite3.connect(path + ".copied")) as db:
        found = db.execute("SELECT count(*), sum(length(bytes)) FROM page").fetchone()
        versions = db.execute("SELECT count(*) FROM version").fetchone()[0]
        uses = db.execute("SELECT sum(uses) FROM page").fetchone()[0], db.execute("SELECT count(*) FROM vpage").fetchone()[0]
        whole = db.execute("PRAGMA integrity_check").fetchone()[0]
    wanted = sum(len(ws.versions) for ws in load.workspaces)
    print(f"\nin the file: {versions:,} versions, {found[0]:,} pages of {found[1]:,} bytes, {uses[0]:,} uses, {uses[1]:,} places, integrity {whole}")
    print(f"to be kept:  {wanted:,} versions, {pages:,} pages of {size:,} bytes")
    return (versions, *found) == (wanted, pages, size) and uses[0] == uses[1] and whole == "ok"


def main():
    parser = argparse.ArgumentParser()
    parser.add_argument("--exchanges", type=int, default=20_000)
    parser.add_argument("--workspaces", type=int, default=500)
    parser.add_argument("--shifting", type=int, default=50)
    parser.add_argument("--seed", type=int, default=1)
    parser.add_argument("--folder")
    words = parser.parse_args()
    if not os.path.isfile(exchanges.PROGRAM):
        sys.exit(f"build the program first: {exchanges.PROGRAM}")
    chance = random.Random(words.seed)
    with tempfile.TemporaryDirectory(dir=words.folder) as inner:
        path = f"{inner}/t.db"
        exchanges.admin(path, "org-add", "--limit", "100000", "acme")
        exchanges.admin(path, "token-add", "acme", "root", "admin", fed=exchanges.SECRET.encode())
        sizes = [round(LEAST * (MOST / LEAST) ** chance.random()) for _ in range(words.workspaces)]
        workspaces = [Workspace(f"team-{place:03}", size, chance, words.shifting) for place, size in enumerate(sizes)]
        server = exchanges.Server(exchanges.SERVERS["program"], path)
        load, began = Load(server, workspaces, chance), time.perf_counter()
        for ws in workspaces:
            load.ask("PUT", "PUT", f"workspaces/{ws.name}")
        load.count = 0
        print("| exchanges | s | versions | pages | kept, MB | file, MB | log, MB | memory, MB | GET, ms | POST, ms | LOCK, ms | list, ms |")
        print("|" + "---:|" * 12, flush=True)
        for line in range(1, LINES + 1):
            while load.count < words.exchanges * line // LINES:
                load.turn()
            show(load, began)
        server.end()
        sys.exit(0 if is_kept(path, load) else 1)


if __name__ == "__main__":
    main()
