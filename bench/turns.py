#!/usr/bin/env python3
"""Servers by turns, one request at a time: what a state's POST and GET take, at any size.

    python3 bench/turns.py [--folder FOLDER] [--sizes 40000,4194304,16700000] [--turns N] [--before N] SERVER SERVER ..

A SERVER is a program of this tree, or of an earlier one under another name (custody...), or a reference: `anchor`, the server
in C, or `baseline`, that in Python, both with room for a body of 16 MB. In each turn every server gets the same POST, and then
every one a GET of it, each on a connection of its own; who comes first changes. Behind each, of large states, it waits (50 ms), so
that what a server does behind its reply is of no other request; the processor's time has it. With --pause 0 and one server the
GET comes right behind the POST. All servers stand on one processor, this script on another.
Sizes are in bytes. Each has turns in which all pages are new, and turns in which the serial alone differs; N of them (20), of
small states 16 times as many. With --before 100 so many states are posted first, and a version goes with each that counts.

Prints a row of markdown a server: median, mean, 95 of 100 and the worst in microseconds, and the first server's over its own of median,
mean and processor time. Ends with status 1 where a reply was wrong. Nothing else should run meanwhile.
"""
import argparse
import os
import shutil
import statistics
import subprocess
import sys
import tempfile
import time

import load

BENCH = os.path.dirname(os.path.abspath(__file__))
sys.path.append(f"{BENCH}/../tools")
from harness import free_port

SMALL = 100_000
# what stands before the limit of a body in each reference, and the limit
LIMITS = {"anchor.c": "BODY_MOST = {}", "baseline.py": "length > ({} if"}
LIMIT, ROOM = 4_194_304, 16_777_216
TOKENS = (("root", "admin", load.ADMIN), ("ci", "write", load.WRITE))
load.BUFFER = memoryview(bytearray(2 * ROOM))


def roomy(name, folder):
    """A reference with room for a body of 16 MB: its path."""
    with open(f"{BENCH}/{name}", encoding="utf-8") as it:
        text = it.read()
    limit = LIMITS[name]
    if text.count(limit.format(LIMIT)) != 1:
        sys.exit(f"{name}: {limit.format(LIMIT)!r} doesn't stand once in it")
    with open(f"{folder}/{name}", "w", encoding="utf-8") as it:
        it.write(text.replace(limit.format(LIMIT), limit.format(ROOM)))
    return f"{folder}/{name}"


def command(server, folder):
    """The words by which a server is called."""
    if server == "baseline":
        return [sys.executable, roomy("baseline.py", folder)]
    if server != "anchor":
        return [server]
    if not os.path.exists(f"{folder}/anchor"):
        subprocess.run(["cc", "-O2", "-Wall", "-o", f"{folder}/anchor", roomy("anchor.c", folder), "-lsqlite3", "-lcrypto"], check=True)
    return [f"{folder}/anchor"]


class Side:
    """A server on a file of its own."""

    def __init__(self, server, folder, place):
        self.name, self.command, path = os.path.basename(server), command(server, folder), f"{folder}/{place}.db"
        if server in ("anchor", "baseline"):
            self.run("setup", "--db", path)
        else:
            self.run("org-add", "--db", path, "--limit", "100000", "acme")
            for name, role, token in TOKENS:
                self.run("token-add", "--db", path, "acme", name, role, fed=token.partition(".")[2].encode())
        self.port = free_port()
        words = [*self.command, "serve", "--db", path, "--port", str(self.port), "--count", "1000000"]
        self.process = subprocess.Popen(words, stdout=subprocess.PIPE)
        self.process.stdout.readline()
        self.begin()

    def run(self, *words, fed=b""):
        ran = subprocess.run([*self.command, *words], input=fed, capture_output=True)
        if ran.returncode:
            sys.exit(f"{self.name} {words[0]}: {(ran.stdout + ran.stderr).decode(errors='replace')}")

    def begin(self):
        self.times, self.spent = {"POST": [], "GET": []}, {"POST": [], "GET": []}

    def ask(self, method, message, body, counts):
        self.before = load.cpu(self.process.pid)
        taken, reply = load.exchange(self.port, message)
        load.check(reply, 200, body)
        if counts:
            self.times[method].append(taken / 1e3)

    def settle(self, method, counts):
        """The processor's time since the request, what came behind its reply with it."""
        if counts:
            self.spent[method].append((load.cpu(self.process.pid) - self.before) / 1e3)


def in_turn(sides, ws, size, changed, before, turns, pause):
    """Posts and reads states by turns; the first ones aren't counted. A pause, in seconds, stands behind each."""
    for side in sides:
        side.begin()
        side.ask("PUT", *load.put_step(ws)[::2], False)
    for serial in range(before + turns):
        text = load.state_text(size, serial, changed)
        post, _, empty = load.post_step(ws, text)
        get, _, whole = load.get_step(ws, text)
        first = serial % len(sides)
        for method, message, body in (("POST", post, empty), ("GET", get, whole)):
            for side in sides[first:] + sides[:first]:
                side.ask(method, message, body, serial >= before)
            time.sleep(pause)
            for side in sides:
                side.settle(method, serial >= before)


def row(request, side, one):
    """What a server took for a request, and the first one's over it."""
    times = sorted(side.times[request])
    median, mean = statistics.median(times), statistics.fmean(times)
    cells = [f"{median:,.0f}", f"{mean:,.0f}", f"{times[len(times) * 95 // 100]:,.0f}", f"{times[-1]:,.0f}"]
    ratios = (statistics.median(one.times[request]) / median, statistics.fmean(one.times[request]) / mean,
              statistics.fmean(one.spent[request]) / statistics.fmean(side.spent[request]))
    return " | ".join([*cells, *(f"{it:.2f}" for it in ratios)])


def main():
    words = argparse.ArgumentParser(description=__doc__.partition("\n")[0])
    words.add_argument("--folder")
    words.add_argument("--sizes", default="40000,4194304,16700000")
    words.add_argument("--turns", type=int, default=20)
    words.add_argument("--before", type=int, default=2)
    words.add_argument("--pause", type=float, default=0.05)
    words.add_argument("servers", nargs="+")
    asked = words.parse_args()
    folder = tempfile.mkdtemp(dir=asked.folder)
    sides = []
    try:
        for place, server in enumerate(asked.servers):
            sides.append(Side(server, folder, place))
        load.pin([side.process.pid for side in sides])
        print("| Request | server | median | mean | 95 of 100 | worst | median over it | mean | processor |\n|---|---|---:|---:|---:|---:|---:|---:|---:|")
        for size in map(int, asked.sizes.split(",")):
            turns = asked.turns * (16 if size < SMALL else 1)
            for changed, kind in ((True, "each page new"), (False, "the serial alone differs")):
                in_turn(sides, f"w{size}-{changed}", size, changed, asked.before, turns, asked.pause if size >= SMALL else 0)
                for request in ("POST", "GET"):
                    for side in sides:
                        print(f"| {request} {size:,}, {kind} | {side.name} | {row(request, side, sides[0])} |", flush=True)
    except load.Wrong as fault:
        print(f"a wrong reply: {fault}")
        return 1
    finally:
        for side in sides:
            side.process.terminate()
            side.process.wait()
        shutil.rmtree(folder)
    return 0


if __name__ == "__main__":
    sys.exit(main())
