#!/usr/bin/env python3
"""One service for all organizations, beside a service for each: what both take behind nginx, and what one organization does to the others.

    python3 bench/apart.py PROGRAM [--parts load,restart,noise,many] [--turns N] [--seconds S] [--folder FOLDER] [--quick]
                           [--clients N] [--pace S] [--size BYTES] [--big BYTES] [--runs N] [--removed MB] [--many N] [--preload LIBRARY]

Needs nginx, on PATH or in /usr/sbin. It runs twice with docs/operating/nginx.conf: before one service with all organizations, and before
services apart, by the lines of functions.sh. All services run all the time, and the two layouts work in turns, so that a busy machine
disturbs both alike. Each of N organizations has a client with a connection to nginx, which posts its state and reads it by turns. Nobody
else uses its workspace, so no POST needs a lock. Each POST changes each page of the state; ten versions are kept.

- load: each client sends as soon as it has its reply.
- restart: each client has a request to send each 0.5 s (--pace). A service is killed and started again meanwhile: the one, or that of one
  organization. A client that gets 503 with Retry-After sends its request again, after 50 ms.
- noise: as there, without a noise and with each. An organization posts states of 16 MB without pause; makes and cancels runs without a
  key, up to 3,000; and one with 100 MB of states is removed, at the operator's door. Beside them, in place of a service: a process that
  hashes, writes and syncs as many bytes without pause. At last the service that has 3,000 runs starts again.
- many: 200 organizations, their services started at once: the memory, and the seconds until each has answered.

Times count from the moment at which a request was due to its whole reply. So a client that waits counts what it could not send, too. `nginx`
is a reply of nginx alone, 404, asked as often: what it takes longer, no service is to blame for. `service` and `front` are milliseconds of
the processor for a request, of the services whose clients are counted and of nginx; `wait` is what these services waited for a processor
that others had. `others` is how many processors worked for anything but services, nginx and this script; `noises` counts what a noise did,
in `s` seconds. Each row has the medians of the turns, and the least and the greatest 99 of 100. `times` is the median of it over that
without noise, in the same layout.

Prints one table. Ends with status 1 if a reply is not as expected, or if with services apart a noise changes the time of 99 of 100 of the
others' requests by more than half. With --quick, which has too few requests for that, everything is done once with small sizes.
"""
import argparse
import collections
import concurrent.futures
import contextlib
import hashlib
import json
import math
import multiprocessing
import os
import platform
import re
import shutil
import signal
import socket
import statistics
import subprocess
import sys
import tempfile
import threading
import time

import load
from pages import PAGE_BYTES
from top import TOP

sys.path.append(f"{TOP}/tools")
import fronts
from harness import NEW_FILE, OPERATOR, Wrong, connected, said, secret_file

FORK = multiprocessing.get_context("fork")
# The two layouts, and what the noise may change in the second.
ONE, APART, MOST_CHANGED = "one service", "services apart", 1.5
# Those of whom no client is counted: who posts much and makes runs, and who is removed. NONE has an empty file.
NOISY, REMOVED, NONE = "noisy", "removed", fronts.NONE
# Versions that a workspace keeps, and states that each client has posted before anything counts.
KEPT, BEFORE = 10, 12
# Seconds after which a request that got 503 is sent again; and those that a noise may take.
AGAIN, LONGEST = 0.05, 300
# How many times longer than others the part with runs may last.
SLOWER = 3
# Clients of nginx alone, and the most others.
PROBES, MOST_CLIENTS = 20, 60
MEGABYTE = 1_000_000
# Megabytes that must be free for each of many services.
ROOM_EACH = 40
QUICK = {"clients": 4, "turns": 1, "seconds": 1.0, "big": 2 * MEGABYTE, "runs": 20, "removed": 5, "many": 5}
PARTS = ["load", "restart", "noise", "many"]


# ----------------------------------------------------------------------------------------------------
# Requests
# ----------------------------------------------------------------------------------------------------


class Link:
    """A connection that stays as long as the other side lets it."""

    def __init__(self, address):
        self.address, self.stream = address, None

    def __enter__(self):
        return self

    def __exit__(self, *_):
        self.close()

    def close(self):
        if self.stream:
            self.stream.close()
            self.stream = None

    def received(self):
        piece = self.stream.recv(65536)
        if not piece:
            raise ConnectionResetError("a reply was cut")
        return piece

    def ask(self, head, body=b""):
        """The status, the head and the body of the reply."""
        try:
            if not self.stream:
                self.stream = connected(self.address)
                if self.stream.family == socket.AF_INET:
                    self.stream.setsockopt(socket.IPPROTO_TCP, socket.TCP_NODELAY, 1)
            self.stream.sendall(head)
            if body:
                self.stream.sendall(body)
            came = self.received()
            while b"\r\n\r\n" not in came:
                came += self.received()
            told, _, rest = came.partition(b"\r\n\r\n")
            length = re.search(rb"\r\nContent-Length: (\d+)", told)
            if not length:
                raise Wrong(f"a reply without a length: {told!r}")
            pieces, size = [rest], len(rest)
            while size < int(length[1]):
                pieces.append(self.received())
                size += len(pieces[-1])
        except BaseException:
            self.close()
            raise
        if b"\r\nConnection: close" in told:
            self.close()
        return int(told[9:12]), told, b"".join(pieces)

    def due(self, what, head, body=b"", status=200, reply=None):
        """The body of a reply that has to have this status, and this body."""
        came, _, rest = self.ask(head, body)
        if came != status or reply not in (None, rest):
            raise Wrong(f"{what}: expected {status}, came {came} {rest[:200]!r}")
        return rest


def head(method, path, token, length=None):
    lines = [f"{method} {path} HTTP/1.1", "Host: c", f"Authorization: Bearer {token}"] + ([] if length is None else [f"Content-Length: {length}"])
    return "\r\n".join([*lines, "", ""]).encode()


def of_org(method, org, path, body=None, name="root"):
    """A request of an organization, by one of its tokens: its head, and its body."""
    return head(method, f"/v1/{org}/{path}", fronts.token(org, name), None if body is None else len(body)), body or b""


class Text:
    """A state of a fixed size. Another serial changes each of its pages, but perhaps the last."""

    def __init__(self, size, salt):
        self.text = bytearray(load.state_text(size, salt))
        self.places = [self.text.index(b'"serial": ') + len(b'"serial": ')]
        for page in range(PAGE_BYTES, size, PAGE_BYTES):
            place = self.text.find(b'"id": "i-', page)
            if place >= 0:
                self.places.append(place + len(b'"id": "i-'))

    def of(self, serial):
        digits = b"%010d" % (1_000_000_000 + serial)
        for place in self.places:
            self.text[place:place + len(digits)] = digits
        return bytes(self.text)


class Client:
    """What the client of an organization sends next, and what is due to it."""

    def __init__(self, org, size, salt):
        self.org, self.text, self.serial, self.last, self.posts = org, Text(size, salt), 0, b"", False

    def turn(self, link, may_wait=False):
        """A POST of a new state, or a GET of the last: how often it had to be sent again."""
        self.posts = not self.posts
        if self.posts:
            self.serial += 1
            self.last = self.text.of(self.serial)
            asked, due = of_org("POST", self.org, "state/net", self.last, "ci"), b""
        else:
            asked, due = of_org("GET", self.org, "state/net", None, "ci"), self.last
        again = 0
        while True:
            try:
                status, told, body = link.ask(*asked)
            except ConnectionError:
                if not may_wait:
                    raise
                status, told, body = 503, b"\r\nRetry-After: 15", b""
            if status == 200 and body == due:
                return again
            if not (may_wait and status == 503 and b"\r\nRetry-After: 15" in told):
                raise Wrong(f"{'POST' if self.posts else 'GET'} of {self.org}: {status} {body[:200]!r}")
            again += 1
            time.sleep(AGAIN)


# ----------------------------------------------------------------------------------------------------
# Services and fronts
# ----------------------------------------------------------------------------------------------------


def made(program, path, orgs):
    """A file with these organizations; without any, an empty one."""
    if not orgs:
        os.close(os.open(path, os.O_CREAT | os.O_EXCL, 0o600))
        return path
    done = subprocess.run([program, "admin", "--db", path], input=fronts.commands(orgs), capture_output=True, check=False)
    said("organizations", (done.returncode, done.stderr), (0, NEW_FILE))
    return path


class Service:
    """`serve` at a socket, by the words of its unit."""

    def __init__(self, asked, path, socket):
        self.words = [asked.program, "serve", "--db", path, "--socket", socket, "--unlimited", "--log", "--operator"]
        self.socket, self.env = socket, dict(os.environ, **({"LD_PRELOAD": asked.preload} if asked.preload else {}))
        self.start()

    def start(self):
        with secret_file() as given:
            self.process = subprocess.Popen(self.words, stdin=given, stdout=subprocess.DEVNULL, env=self.env)

    def kill(self):
        self.process.kill()
        self.process.wait()

    def answers(self, org=None):
        """Waits until it answers: to the organization, if one is named."""
        end = time.monotonic() + LONGEST
        asked, status = (b"GET /v1/health HTTP/1.1\r\nHost: c\r\n\r\n", 404) if org is None else (of_org("GET", org, "workspaces")[0], 200)
        while True:
            try:
                with Link(self.socket) as link:
                    return link.due("a service that starts", asked, status=status)
            except (ConnectionRefusedError, FileNotFoundError):
                if self.process.poll() is not None or time.monotonic() > end:
                    raise Wrong("a service does not start") from None
                time.sleep(0.002)

    def command(self, line):
        """Sends a command to its operator's door, which has to carry it out."""
        body = line.encode()
        with Link(self.socket) as link:
            asked = b"POST /operator HTTP/1.1\r\nHost: c\r\nAuthorization: Operator %s\r\nContent-Length: %d\r\n\r\n" % (OPERATOR, len(body))
            link.due(line, asked, body, reply=b"ok\n")


def children(pid):
    """The processes that a process has started."""
    found = []
    for other in filter(str.isdigit, os.listdir("/proc")):
        with contextlib.suppress(OSError), open(f"/proc/{other}/stat", encoding="utf-8") as it:
            if int(it.read().rpartition(")")[2].split()[1]) == pid:
                found.append(int(other))
    return found


class Layout:
    """A front, and behind it the services: one, or one for each organization. `services` has that of each organization."""

    def __init__(self, name, asked, folder, orgs, opened):
        self.name, self.folder, self.services = name, folder, {}
        groups = {"one": orgs} if name == ONE else {**{org: [org] for org in orgs}, NONE: []}
        opened.callback(lambda: [service.kill() for service in self.all()])
        for group, inside in groups.items():
            os.makedirs(f"{folder}/{group}")
            service = Service(asked, made(asked.program, f"{folder}/{group}/custody.db", inside), f"{folder}/{group}/socket")
            self.services.update(dict.fromkeys(inside or [group], service))
        lines = {} if name == ONE else fronts.lines_of(folder, list(groups))
        self.front = opened.enter_context(fronts.Front(asked.nginx, f"{folder}/front", f"{folder}/one/socket", lines, workers="auto"))
        self.clients = [Client(org, asked.size, salt) for salt, org in enumerate(orgs) if org not in (NOISY, REMOVED)]
        for service in self.all():
            service.answers()
        self.begin()
        self.workers = [self.front.process.pid, *children(self.front.process.pid)]

    def all(self):
        return list(dict.fromkeys(self.services.values()))

    def counted(self):
        """The processes of the services whose clients are counted."""
        return list(dict.fromkeys(self.services[client.org].process.pid for client in self.clients))

    def asks(self, what, method, org, path, body=None, status=200, name="root"):
        with Link(self.front.port) as link:
            return link.due(what, *of_org(method, org, path, body, name), status=status)

    def begin(self):
        """The workspaces, and the states before."""
        for client in self.clients:
            self.asks("a workspace", "PUT", client.org, "workspaces/net", b'{"keep_versions":%d}' % KEPT)
            with Link(self.front.port) as link:
                for _ in range(2 * BEFORE):
                    client.turn(link)
        self.asks("a workspace", "PUT", NOISY, "workspaces/big", b'{"keep_versions":1}')

    def fill(self, megabytes):
        """Gives the organization that is removed its states, by its service."""
        service, text = self.services[REMOVED], Text(MEGABYTE, 7)
        with Link(service.socket) as link:
            for number in range(megabytes):
                if number % KEPT == 0:
                    link.due("a workspace", *of_org("PUT", REMOVED, f"workspaces/w{number // KEPT}", b'{"keep_versions":%d}' % KEPT))
                link.due("a state", *of_org("POST", REMOVED, f"state/w{number // KEPT}", text.of(number)), reply=b"")

    def add_removed(self):
        for line in fronts.commands([REMOVED]).decode().splitlines():
            self.services[REMOVED].command(line)


# ----------------------------------------------------------------------------------------------------
# Noises
# ----------------------------------------------------------------------------------------------------


def big_posts(layout, text, serial):
    """Posts a large state again and again."""
    with Link(layout.front.port) as link:
        yield
        while True:
            serial += 1
            link.due("a large POST", *of_org("POST", NOISY, "state/big", text.of(serial), "ci"), reply=b"")
            yield


def imitation(layout, size):
    """Hashes, writes and syncs as many bytes again and again, without a service."""
    text = os.urandom(size)
    with open(f"{layout.folder}/imitation", "wb") as out:
        yield
        while True:
            for _ in range(4):
                hashlib.sha256(text).digest()
            for _ in range(2):
                os.pwrite(out.fileno(), text, 0)
                os.fdatasync(out.fileno())
            yield


def runs(address, count, ws):
    """Makes runs without a key, and cancels each."""
    with Link(address) as link:
        yield
        for _ in range(count):
            made_run = json.loads(link.due("a run", *of_org("POST", NOISY, f"runs/{ws}", b"{}", "ci")))
            said("a run", (made_run["status"], made_run["key"]), ("planning", None))
            ended = json.loads(link.due("its end", *of_org("POST", NOISY, f"runs/{ws}/{made_run['number']}/actions/cancel", b"", "ci")))
            said("a run's end", ended["status"], "canceled")
            yield


def removal(layout):
    """Removes an organization at the operator's door."""
    yield
    layout.services[REMOVED].command(f"org-remove {REMOVED}")
    yield


class Noise:
    """Steps of one of these, in a process of its own."""

    def __init__(self, steps):
        self.ours, theirs = FORK.Pipe()
        self.begins, self.ends = FORK.Event(), FORK.Event()
        self.process = FORK.Process(target=self.run, args=(steps, theirs), daemon=True)
        self.process.start()
        said("a noise", self.told(), "ready")

    def run(self, steps, theirs):
        try:
            next(steps)
            theirs.send("ready")
            self.begins.wait()
            count = 0
            for count, _ in enumerate(steps, 1):
                if self.ends.is_set():
                    break
            theirs.send(count)
        except BaseException as fault:
            theirs.send(f"{type(fault).__name__}: {fault}")

    def told(self):
        if not self.ours.poll(LONGEST):
            raise Wrong("a noise does not end")
        return self.ours.recv()

    def end(self):
        """How many steps it made."""
        self.ends.set()
        count = self.told()
        self.process.join()
        if not isinstance(count, int) or count == 0:
            raise Wrong(f"a noise ended: {count}")
        return count


# ----------------------------------------------------------------------------------------------------
# Measuring
# ----------------------------------------------------------------------------------------------------


def schedule(pids):
    """The seconds that processes of one thread ran, and those for which they waited for a processor."""
    ran = waited = 0
    for pid in pids:
        with open(f"/proc/{pid}/schedstat", encoding="utf-8") as it:
            words = it.read().split()
        ran, waited = ran + int(words[0]), waited + int(words[1])
    return ran / 1e9, waited / 1e9


def busy():
    """The seconds for which the machine's processors have worked, or its host took them."""
    with open("/proc/stat", encoding="utf-8") as it:
        user, nice, system, _, _, irq, soft, stolen = map(int, it.readline().split()[1:9])
    return (user + nice + system + irq + soft + stolen) / os.sysconf("SC_CLK_TCK")


def memory(services):
    """Megabytes that services have, what they share counted once."""
    size = 0
    for service in services:
        with open(f"/proc/{service.process.pid}/smaps_rollup", encoding="utf-8") as it:
            size += int(re.search(r"^Pss: +(\d+) kB", it.read(), re.M)[1])
    return size / 1000


class Window:
    """All clients of a layout work meanwhile. With a pace each has a request in so many seconds, otherwise the next after the last.
    Those of `may_wait` send again what gets 503."""

    def __init__(self, layout, pace, may_wait=()):
        self.layout, self.pace, self.may_wait, self.begins = layout, pace, set(may_wait), threading.Event()
        self.end, self.faults, self.took, self.alone, self.again = math.inf, [], collections.defaultdict(list), [], []
        count = len(layout.clients)
        self.threads = [threading.Thread(target=self.works, args=(self.client, client, place / count)) for place, client in enumerate(layout.clients)]
        if pace:
            self.threads += [threading.Thread(target=self.works, args=(self.probe, None, place / PROBES)) for place in range(PROBES)]

    def __enter__(self):
        for thread in self.threads:
            thread.start()
        self.begun = time.monotonic() + 0.05
        self.begins.set()
        return self

    def __exit__(self, kind, *_):
        self.end = min(self.end, time.monotonic() if kind is None else 0)
        for thread in self.threads:
            thread.join()
        self.lasted = time.monotonic() - self.begun
        if self.faults and kind is None:
            raise Wrong(self.faults[0])

    def works(self, step, client, share):
        """Takes a step whenever one is due, and notes the seconds since then."""
        self.begins.wait()
        due = self.begun + share * self.pace
        try:
            with Link(self.layout.front.port) as link:
                while True:
                    time.sleep(max(0, due - time.monotonic()))
                    if not self.pace:
                        due = time.monotonic()
                    if due >= self.end:
                        return
                    step(link, client, due)
                    due += self.pace
        except (Wrong, OSError) as fault:
            self.faults.append(f"{client.org if client else 'nginx'}: {fault}")
            self.end = 0

    def client(self, link, client, due):
        self.again.append(client.turn(link, client.org in self.may_wait))
        self.took[client.org].append(time.monotonic() - due)

    def probe(self, link, _, due):
        link.due("nginx", b"GET / HTTP/1.1\r\nHost: c\r\n\r\n", status=404)
        self.alone.append(time.monotonic() - due)

    def times(self, orgs):
        """A row of the times of these organizations' requests, in milliseconds."""
        taken = sorted(1000 * each for org in orgs for each in self.took[org])
        if not taken:
            raise Wrong("no request was made")
        row = {"n": len(taken), "p50": statistics.median(taken), "p99": share_of(taken, 0.99), "worst": taken[-1]}
        return row | ({"alone": 1000 * share_of(sorted(self.alone), 0.99)} if self.alone else {})


def share_of(ordered, share):
    return ordered[min(len(ordered) - 1, int(len(ordered) * share))]


def measured(layout, seconds, pace, noise=None, is_finite=False):
    """A row: the clients work for some seconds. A finite noise has them work until it ends, at most so many seconds."""
    orgs, services = [client.org for client in layout.clients], layout.all()
    noisy = [service.process.pid for service in services if service.process.pid not in layout.counted()] + ([noise.process.pid] if noise else [])

    def spent():
        (ran, waited), (front, _), (other, _) = schedule(layout.counted()), schedule(layout.workers), schedule(noisy)
        return [ran, waited, front, other + time.process_time(), busy()]

    before = spent()
    with Window(layout, pace) as window:
        if noise:
            noise.begins.set()
        if is_finite:
            noise.ours.poll(seconds)
        else:
            time.sleep(seconds)
        if noise:
            noise.ends.set()
    ran, waited, front, other, worked = (now - then for now, then in zip(spent(), before))
    row = window.times(orgs)
    row |= {"rate": row["n"] / window.lasted, "service": 1000 * ran / row["n"], "front": 1000 * front / row["n"], "wait": 1000 * waited / row["n"]}
    row |= {"others": max(0, worked - ran - front - other) / window.lasted, "MB": memory(services)}
    if noise:
        row |= {"count": noise.end(), "s": window.lasted}
    return row


def restarted(layout, org, seconds, pace):
    """Rows of those whose service is killed and started again, and of the others."""
    service = layout.services[org]
    hit = [client.org for client in layout.clients if layout.services[client.org] is service]
    with Window(layout, pace, hit) as window:
        time.sleep(seconds / 4)
        service.kill()
        begun = time.monotonic()
        service.start()
        service.answers()
        took = time.monotonic() - begun
        time.sleep(3 * seconds / 4)
    others = [client.org for client in layout.clients if client.org not in hit]
    if hit:
        yield "its clients", window.times(hit) | {"s": took, "again": sum(window.again)}
    if others:
        yield "the others", window.times(others) | {"s": took}


# ----------------------------------------------------------------------------------------------------
# The parts, and the table
# ----------------------------------------------------------------------------------------------------


class Table:
    """The rows of each measurement, of which there is one in each turn."""

    COLUMNS = [("n", "requests", 9, ",.0f"), ("rate", "a second", 9, ",.0f"), ("p50", "50 of 100", 10, ".1f"), ("p99", "99 of 100", 10, ".1f"), ("range", "its range", 14, ""),
               ("worst", "worst", 8, ".1f"), ("times", "times", 6, ".2f"), ("alone", "nginx", 7, ".1f"), ("service", "service", 8, ".2f"), ("front", "front", 7, ".2f"),
               ("wait", "wait", 7, ".2f"), ("others", "others", 7, ".1f"), ("count", "noises", 7, ",.0f"), ("again", "503", 6, ".0f"), ("MB", "MB", 7, ",.0f"), ("s", "s", 7, ".2f")]

    def __init__(self):
        self.rows, self.quiet = collections.defaultdict(list), {}

    def add(self, what, layout, row):
        self.rows[what, layout].append(row)

    def median(self, what, layout, key):
        found = [row[key] for row in self.rows.get((what, layout), ()) if key in row]
        return sum(found) if key == "n" and found else statistics.median(found) if found else None

    def times(self, what, layout):
        """The 99 of 100 over that without noise."""
        return self.median(what, layout, "p99") / self.median(QUIET, layout, "p99") if what in NOISES else None

    def cells(self, what, layout):
        for key, _, width, form in self.COLUMNS:
            if key == "range":
                found = [row["p99"] for row in self.rows[what, layout] if "p99" in row]
                text = f"{min(found):.1f}-{max(found):.1f}" if len(found) > 1 else ""
            else:
                value = self.times(what, layout) if key == "times" else self.median(what, layout, key)
                text = "" if value is None else format(value, form)
            yield text.rjust(width)

    def print(self):
        print("times in milliseconds".ljust(53) + "".join(title.rjust(width) for _, title, width, _ in self.COLUMNS))
        for what, layout in self.rows:
            print(f"{what:38}{layout:15}" + "".join(self.cells(what, layout)))


LOAD, QUIET, RESTART, AFTER_RUNS = "without pause", "at a pace", "a restart", "a restart with the runs"
BIG, IMITATION, RUNS, REMOVAL = "large POSTs", "a process that imitates these", "runs without a key", "a removal"
NOISES = [BIG, IMITATION, RUNS, REMOVAL]


def noises(table, layout, asked, turn, large):
    """Each noise, and none, once."""
    table.add(QUIET, layout.name, measured(layout, asked.seconds, asked.pace))
    table.add(BIG, layout.name, measured(layout, asked.seconds, asked.pace, Noise(big_posts(layout, large, turn * MEGABYTE))))
    table.add(IMITATION, layout.name, measured(layout, asked.seconds, asked.pace, Noise(imitation(layout, asked.big))))
    layout.asks("a workspace", "PUT", NOISY, f"workspaces/runs{turn}")
    row = measured(layout, SLOWER * asked.seconds, asked.pace, Noise(runs(layout.front.port, asked.runs, f"runs{turn}")), True)
    table.add(RUNS, layout.name, row)
    if turn == asked.turns - 1:
        collections.deque(runs(layout.services[NOISY].socket, asked.runs - row["count"], f"runs{turn}"), 0)
        for who, row in restarted(layout, NOISY, asked.seconds, asked.pace):
            table.add(f"{AFTER_RUNS}: {who}", layout.name, row)
    layout.asks("a workspace", "DELETE", NOISY, f"workspaces/runs{turn}")
    if turn:
        layout.add_removed()
    layout.fill(asked.removed)
    table.add(REMOVAL, layout.name, measured(layout, LONGEST, asked.pace, Noise(removal(layout)), True))


def in_turns(table, asked, folder):
    """The parts in which the two layouts take turns."""
    orgs = [f"t{number:03}" for number in range(asked.clients)]
    with contextlib.ExitStack() as opened:
        large = Text(asked.big, len(orgs)) if "noise" in asked.parts else None
        layouts = [Layout(name, asked, f"{folder}/{place}", [*orgs, NOISY, REMOVED], opened) for place, name in enumerate([ONE, APART])]
        for turn in range(asked.turns):
            for layout in layouts[::-1] if turn % 2 else layouts:
                print(f"turn {turn + 1} of {asked.turns}: {layout.name}", file=sys.stderr, flush=True)
                if "load" in asked.parts:
                    table.add(LOAD, layout.name, measured(layout, asked.seconds, 0))
                if "restart" in asked.parts:
                    for who, row in restarted(layout, orgs[0], asked.seconds, asked.pace):
                        table.add(f"{RESTART}: {who}", layout.name, row)
                if "noise" in asked.parts:
                    noises(table, layout, asked, turn, large)


def many(table, asked, folder):
    """Memory and starts of many organizations, in both layouts."""
    with open("/proc/meminfo", encoding="utf-8") as it:
        free = int(re.search(r"^MemAvailable: +(\d+) kB", it.read(), re.M)[1]) / 1000
    if free < ROOM_EACH * asked.many:
        raise Wrong(f"{asked.many} services may need {ROOM_EACH * asked.many:,} MB, but {free:,.0f} are free")
    orgs = [f"m{number:03}" for number in range(asked.many)]
    for name, groups in [(ONE, {"all": orgs}), (APART, {org: [org] for org in orgs})]:
        print(f"{asked.many} organizations: {name}", file=sys.stderr, flush=True)
        with contextlib.ExitStack() as opened, concurrent.futures.ThreadPoolExecutor(os.cpu_count()) as pool:
            for group in groups:
                os.makedirs(f"{folder}/many/{group}")
            paths = list(pool.map(lambda group: made(asked.program, f"{folder}/many/{group}/custody.db", groups[group]), groups))
            services, begun = [], time.monotonic()
            opened.callback(lambda services=services: [service.kill() for service in services])
            for group, path in zip(groups, paths):
                services.append(Service(asked, path, f"{folder}/many/{group}/socket"))
            for service, inside in zip(services, groups.values()):
                for org in inside:
                    service.answers(org)
            table.add(f"{asked.many} organizations start", name, {"s": time.monotonic() - begun, "MB": memory(services)})


def host(asked, folder):
    with open("/proc/cpuinfo", encoding="utf-8") as it:
        model = re.search(r"^model name\s*: (.*)$", it.read(), re.M)
    version = subprocess.run([asked.nginx, "-v"], capture_output=True, text=True, check=True).stderr.strip().rpartition("/")[2]
    kind = subprocess.run(["stat", "-f", "-c", "%T", folder], capture_output=True, text=True, check=True).stdout.strip()
    usable = len(os.sched_getaffinity(0))
    print(f"{os.cpu_count()} processors{f', of which this may use {usable}' if usable < os.cpu_count() else ''}, {model[1] if model else platform.machine()}; load average {os.getloadavg()[0]:.1f}; Linux {platform.release()}; nginx {version}; files on {kind}"
          + (f"; services with {asked.preload}" if asked.preload else ""))
    print(f"{asked.clients} clients, POST and GET of {asked.size:,} bytes by turns; {asked.turns} turns of {asked.seconds:g} s; at a pace: a request each {asked.pace:g} s; "
          f"large POSTs: {asked.big:,} bytes; {asked.runs:,} runs; removed: {asked.removed:,} MB")


class Ended(BaseException):
    """The script got SIGTERM."""


def end_early(*_):
    raise Ended


def told(table, asked):
    """Whether the aim holds: a noise changes the others' times by at most a half."""
    if "noise" not in asked.parts or asked.quick:
        return True
    changed = {noise: table.times(noise, APART) for noise in (BIG, RUNS, REMOVAL)}
    missed = [f"{noise} {times:.2f}" for noise, times in changed.items() if times > MOST_CHANGED]
    print("with services apart, the others' 99 of 100 beside a noise: " + (f"more than 1.5 times that without: {', '.join(missed)}" if missed else "at most 1.5 times that without"))
    return not missed


def arguments():
    words = argparse.ArgumentParser(description=__doc__.partition("\n")[0])
    words.add_argument("program", type=os.path.abspath)
    words.add_argument("--parts", type=lambda text: text.split(","), default=PARTS)
    words.add_argument("--folder")
    words.add_argument("--preload")
    words.add_argument("--quick", action="store_true")
    for name, kind, default in [("turns", int, 3), ("clients", int, 40), ("seconds", float, 4.0), ("pace", float, 0.5), ("size", int, 40_000), ("big", int, 16 * MEGABYTE),
                                ("runs", int, 3000), ("removed", int, 100), ("many", int, 200)]:
        words.add_argument(f"--{name}", type=kind, default=default)
    if words.parse_args().quick:
        words.set_defaults(**QUICK)
    asked = words.parse_args()
    unknown = [part for part in asked.parts if part not in PARTS]
    if unknown:
        words.error(f"no part {unknown[0]}; there are {', '.join(PARTS)}")
    if asked.clients > MOST_CLIENTS:
        words.error(f"nginx.conf lets few more than {MOST_CLIENTS} requests of one address in")
    asked.nginx = shutil.which("nginx", path=os.environ["PATH"] + ":/usr/sbin") or sys.exit("apart.py: install nginx")
    return asked


def main():
    asked, table = arguments(), Table()
    signal.signal(signal.SIGTERM, end_early)
    with tempfile.TemporaryDirectory(dir=asked.folder, prefix="apart") as folder:
        host(asked, folder)
        try:
            if asked.parts != ["many"]:
                in_turns(table, asked, folder)
            if "many" in asked.parts:
                many(table, asked, folder)
        except (Wrong, OSError, subprocess.SubprocessError, Ended) as wrong:
            table.print()
            print("WRONG:", wrong or "it was ended early")
            return 1
        table.print()
        return 0 if told(table, asked) else 1


if __name__ == "__main__":
    sys.exit(main())
