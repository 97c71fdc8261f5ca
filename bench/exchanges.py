#!/usr/bin/env python3
"""Cost of exchanges: the program on a file beside the reference (bench/reference.py) on a copy of it, over loopback.

Build the program, and run it from the top of the repository:

    (cd crates/custody && rt run -- --help)
    python3 bench/exchanges.py [--folder FOLDER] [--processors CLIENT,SERVER,SERVER] [--also SQL]

FOLDER is where the files are made, since what a sync costs is the disk's; on a tmpfs it costs nothing. SQL is run on the
files first, so that an index can be tried before the program makes it. Each exchange has a connection of its own, from
`connect` to the end of the reply. Batches of the two servers alternate, and they have to reply alike. A table is printed
for each scene: medians in microseconds, and the program's over the reference's. Equal programs differ by up to 7% in such
a median, and by more where others use the processors. Beside them stand the seconds until a server listens, the most
memory that it had and the size of its log.
"""
import argparse
import base64
import contextlib
import hashlib
import json
import os
import re
import shutil
import socket
import sqlite3
import statistics
import subprocess
import sys
import tempfile
import time

import pages as texts
from top import TOP
from sums import put_sums

sys.path.append(f"{TOP}/tools")
from harness import free_port

PROGRAM = f"{TOP}/crates/custody/out/custody"
REFERENCE = f"{TOP}/bench/reference.py"
SERVERS = {
    "program": [PROGRAM, "serve", "--db", "{path}", "--port", "{port}", "--count", "1000000"],
    "reference": [sys.executable, REFERENCE, "{path}", "{port}", "1000000"],
}
SECRET = "adminadminadmin1"
BATCHES = 10
BUFFER = memoryview(bytearray(32 * 1024 * 1024))
LINEAGE = "6bc94f0f-8d26-ded0-6ef8-661124def35b"


class Server:
    """A server on a file."""

    def __init__(self, command, path):
        self.path, self.port = path, free_port()
        start = time.perf_counter()
        words = [word.format(path=path, port=self.port) for word in command]
        self.process = subprocess.Popen(words, stdout=subprocess.PIPE)
        self.process.stdout.readline()
        self.opening = time.perf_counter() - start

    def exchange(self, request):
        """The seconds that an exchange takes, and the reply."""
        start = time.perf_counter()
        with socket.socket() as link:
            link.connect(("127.0.0.1", self.port))
            link.sendall(request)
            size = 0
            while count := link.recv_into(BUFFER[size:]):
                size += count
            spent = time.perf_counter() - start
        return spent, bytes(BUFFER[:size])

    def memory(self, field="VmHWM"):
        """The most memory that the process had, in MB; with the field VmRSS, what it has."""
        with open(f"/proc/{self.process.pid}/status", encoding="utf-8") as it:
            return next(int(line.split()[1]) / 1000 for line in it if line.startswith(field))

    def spent(self):
        """The seconds of the processor that the process has taken."""
        with open(f"/proc/{self.process.pid}/stat", encoding="utf-8") as it:
            words = it.read().rpartition(")")[2].split()
        return (int(words[11]) + int(words[12])) / os.sysconf("SC_CLK_TCK")

    def log(self):
        """The size of the log, in MB."""
        return os.path.getsize(f"{self.path}-wal") / 1e6

    def end(self):
        self.process.terminate()
        self.process.wait()


def request(method, path, body=b""):
    md5 = base64.b64encode(hashlib.md5(body).digest()).decode()
    head = f"{method} /v1/acme/{path} HTTP/1.1\r\nHost: c\r\nAuthorization: Bearer acme.{SECRET}\r\n"
    return f"{head}Content-Length: {len(body)}\r\nContent-MD5: {md5}\r\n\r\n".encode() + body


def state_of(serial, size):
    """A state of about so many bytes, as Terraform writes them."""
    resources = []
    for number in range(size // 500):
        value = {"value": f"one-{number}", "type": "string"}
        attributes = {"id": f"0be2ee93-eea3-49b6-fed0-{number:012}", "input": value, "output": value, "triggers_replace": None}
        instance = {"index_key": number, "schema_version": 0, "attributes": attributes, "sensitive_attributes": []}
        resources.append({"mode": "managed", "type": "terraform_data", "name": "many", "instances": [instance]})
    state = {"version": 4, "serial": serial, "lineage": LINEAGE, "resources": resources}
    return json.dumps(state, indent=1).encode().ljust(size)


def states(name, ws, size):
    """A state is posted, and read."""
    pattern = state_of(1_000_000, size)

    def turn(number):
        text = pattern.replace(b'"serial": 1000000', b'"serial": %d' % (1_000_001 + number), 1)
        return [(f"POST {name}", request("POST", f"state/{ws}", text)), (f"GET {name}", request("GET", f"state/{ws}"))]

    return turn


def locks(ws):
    """A workspace is locked, and unlocked."""

    def turn(number):
        lock = {"ID": f"0be2ee93-eea3-49b6-fed0-{number:012}", "Operation": "OperationTypeApply", "Info": "", "Who": "ci"}
        text = json.dumps({**lock, "Version": "1.9.0", "Created": "2026-01-01T00:00:00Z", "Path": ""}).encode()
        return [("LOCK", request("LOCK", f"state/{ws}", text)), ("UNLOCK", request("UNLOCK", f"state/{ws}", text))]

    return turn


def pages(after):
    """A page of workspaces."""
    return lambda number: [("page of workspaces", request("GET", f"workspaces?after={after}"))]


def runs(ws, first, keyed=True):
    """A run is made, starts at once, and ends."""

    def turn(number):
        ask = {"key": f"key-{number}"} if keyed else {}
        text = json.dumps({**ask, "message": "A change of the network"}).encode()
        return [("run made" if keyed else "run made, no key", request("POST", f"runs/{ws}", text)),
                ("run ended", request("POST", f"runs/{ws}/{first + number}/actions/unchanged"))]

    return turn


def makings():
    """A workspace is looked for, and made."""
    return lambda number: [("GET, no workspace", request("GET", f"state/new-{number:06}")),
                           ("workspace made", request("PUT", f"workspaces/new-{number:06}"))]


ADD_WS = "INSERT INTO ws (org, name, auto, kind, next_version, next_run) VALUES (?, ?, 0, 0, ?, 1)"
ADD_KEEPING = "INSERT INTO keeping (org, ws, keep) VALUES (?, ?, 100)"
ADD_VERSION = """INSERT INTO version (org, ws, number, serial, lineage, created, size)
    VALUES (?, ?, ?, ?, ?, 1700000000, ?)"""
ADD_RUN = """INSERT INTO run (org, ws, number, plan_only, message, created, status, action)
    VALUES (?, ?, ?, 0, '', 1700000000, 5, 1)"""


def add_version(db, org, ws, number, text):
    db.execute(ADD_VERSION, (org, ws, number, number, LINEAGE, len(text)))
    texts.add_text(db, org, ws, number, text)


def add_workspaces(db, org, names, following):
    """Workspaces that keep 100 versions, with the number of the next one."""
    db.executemany(ADD_WS, ((org, name, following) for name in names))
    db.executemany(ADD_KEEPING, ((org, name) for name in names))


def fill(db, workspaces=(), versions=(), ended=()):
    """Puts rows beside those that the program made: (ORG, COUNT) of workspaces, each with a version; (WS, COUNT, SIZE) of
    versions, and (WS, COUNT) of runs that ended, in acme."""
    for org, count in workspaces:
        names = [f"w{number:06}" for number in range(count)]
        add_workspaces(db, org, names, 2)
        for name in names:
            add_version(db, org, name, 1, b"{}")
    for ws, count, size in versions:
        for number in range(1, count + 1):
            add_version(db, "acme", ws, number, state_of(number, size))
        db.execute("UPDATE ws SET next_version = ? WHERE org = 'acme' AND name = ?", (count + 1, ws))
    for ws, count in ended:
        db.executemany(ADD_RUN, (("acme", ws, number) for number in range(1, count + 1)))
        db.execute("UPDATE ws SET next_run = ? WHERE org = 'acme' AND name = ?", (count + 1, ws))


def admin(path, *words, fed=b""):
    subprocess.run([PROGRAM, words[0], "--db", path, *words[1:]], input=fed, capture_output=True, check=True)


def make(path, also, **rows):
    """Makes a file with two organizations, the workspaces that are measured, and these rows, after a statement."""
    for org in ("acme", "zeta"):
        admin(path, "org-add", "--limit", "100000", org)
        admin(path, "token-add", org, "root", "admin", fed=SECRET.encode())
    with contextlib.closing(sqlite3.connect(path)) as db, db:
        db.execute(also)
        add_workspaces(db, "acme", ("big", "medium", "run", "small"), 1)
        fill(db, **rows)
    put_sums(path)


def digest_of(reply):
    """The digest of what two servers have to reply alike: the status and the body, but for its moments."""
    head, _, body = reply.partition(b"\r\n\r\n")
    status = head.split(b" ")[1]
    if status not in (b"200", b"404"):
        sys.exit(f"refused: {reply[:300]}")
    return hashlib.sha256(status + re.sub(rb'"created":\d+', b"", body)).digest()


def measure(servers, processors, scenes):
    """The seconds of each exchange of each server, by its name. A scene is turns, and how many of them are in a batch.

    Each server has a processor of its own, and the two change places after each batch.
    """
    spans, digests = {}, {}
    for batch in range(-1, BATCHES):
        for place, server in enumerate(servers):
            os.sched_setaffinity(server.process.pid, {processors[(place + batch) % 2]})
            for at, (turn, count) in enumerate(scenes):
                for number in range((batch + 1) * count, (batch + 2) * count):
                    for name, text in turn(number):
                        spent, reply = server.exchange(text)
                        digest = digest_of(reply)
                        if digests.setdefault((at, name, number), digest) != digest:
                            sys.exit(f"another reply: {name} {number}: {reply[:300]}")
                        # The first batch warms up.
                        if batch >= 0:
                            spans.setdefault(name, ([], []))[place].append(spent)
    return spans


def show(title, words, scenes, **rows):
    client, *processors = (int(word) for word in words.processors.split(","))
    os.sched_setaffinity(0, {client})
    with tempfile.TemporaryDirectory(dir=words.folder) as inner, contextlib.ExitStack() as stack:
        make(f"{inner}/program", words.also, **rows)
        shutil.copy(f"{inner}/program", f"{inner}/reference")
        servers = []
        for name, command in SERVERS.items():
            servers.append(Server(command, f"{inner}/{name}"))
            stack.callback(servers[-1].end)
        print(f"\n{title}\n{'':20} program   reference   ratio   exchanges")
        for name, pair in measure(servers, processors, scenes).items():
            program, reference = (statistics.median(each) * 1e6 for each in pair)
            print(f"{name:20} {program:7.0f} {reference:11.0f} {program / reference:7.2f} {len(pair[0]):11}")
        program, reference = servers
        print(f"{'opening':20} {program.opening:7.2f} {reference.opening:11.2f}   s")
        print(f"{'memory':20} {program.memory():7.1f} {reference.memory():11.1f}   MB")
        print(f"{'log':20} {program.log():7.1f} {reference.log():11.1f}   MB", flush=True)


def main():
    parser = argparse.ArgumentParser()
    parser.add_argument("--folder")
    parser.add_argument("--processors", default="0,1,2")
    parser.add_argument("--also", default="SELECT 1")
    words = parser.parse_args()
    if not os.path.isfile(PROGRAM):
        sys.exit(f"build the program first: {PROGRAM}")
    small = [(states("1 KB", "small", 1_000), 20), (locks("small"), 20), (pages("a"), 10), (runs("run", 1), 20)]
    small.append((makings(), 10))
    medium = [(states("40 KB", "medium", 40_000), 20), (locks("medium"), 20)]
    big = [(states("4 MB", "big", 4_000_000), 3)]
    show("60 workspaces", words, small + medium[:1] + big, workspaces=[("acme", 60)])
    for count in (10, 1_000, 99_800):
        show(f"{count:,} workspaces in the organization", words, small, workspaces=[("acme", count)])
    show("99,800 workspaces in another organization", words, small, workspaces=[("acme", 10), ("zeta", 99_800)])
    show("100 versions of 40 KB", words, medium, workspaces=[("acme", 10)], versions=[("medium", 100, 40_000)])
    others = [(locks("big"), 3), (pages("a"), 3)]
    show("25 versions of 4 MB", words, big + others, workspaces=[("acme", 60)], versions=[("big", 25, 4_000_000)])
    ended = [(runs("run", 3_001, False), 20)]
    show("3,000 runs that ended, without keys", words, ended, workspaces=[("acme", 10)], ended=[("run", 3_000)])


if __name__ == "__main__":
    main()
