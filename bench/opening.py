#!/usr/bin/env python3
"""What it takes to open a file: seconds, memory, and how many pages are read.

    python3 bench/opening.py [--folder FOLDER] [--program PROGRAM] [--megabytes 10,100] [--runs 1000,2000,3000] [--keep]

A file is made by posts of states of 1 MB whose pages all differ, until it has so many megabytes, and then a service is
begun on it, nine times (three times where a start takes a second). Shown are the medians of the seconds until it listens and
of those of the processor, the most memory that it had until then and what it has then, and the reads of an `org-list`, as
strace counts them (none without strace). With --keep files are left in the folder, and taken again. With --runs the files have
so many ended runs without a key, of one workspace, in place of states.
"""
import argparse
import os
import re
import shutil
import statistics
import subprocess
import sys
import tempfile

import exchanges

SIZE = 1_000_000
STARTS, FEWER, SLOW = 9, 3, 1.0
# So few versions of each workspace that none goes.
EACH = 90


def fill(path, megabytes):
    exchanges.admin(path, "org-add", "acme")
    exchanges.admin(path, "token-add", "acme", "root", "admin", fed=exchanges.SECRET.encode())
    server = exchanges.Server(exchanges.SERVERS["program"], path)
    pattern = exchanges.state_of(1_000_000, SIZE)
    number = 0
    while os.path.getsize(path) < megabytes * 1_000_000:
        ws = f"ws-{number // EACH}"
        if number % EACH == 0:
            ask(server, "PUT", f"workspaces/{ws}")
        number += 1
        text = pattern.replace(b'"serial": 1000000', b'"serial": %d' % (1_000_000 + number), 1).replace(b'"one-', b'"%03x-' % number)
        ask(server, "POST", f"state/{ws}", text)
    server.end()
    exchanges.admin(path, "org-add", "last")


def fill_runs(path, runs):
    exchanges.admin(path, "org-add", "acme")
    exchanges.admin(path, "token-add", "acme", "root", "admin", fed=exchanges.SECRET.encode())
    server = exchanges.Server(exchanges.SERVERS["program"], path)
    ask(server, "PUT", "workspaces/ws")
    for number in range(1, runs + 1):
        ask(server, "POST", "runs/ws", b"{}")
        ask(server, "POST", f"runs/ws/{number}/actions/cancel")
    server.end()


def ask(server, method, path, body=b""):
    reply = server.exchange(exchanges.request(method, path, body))[1]
    if not reply.startswith(b"HTTP/1.1 200 "):
        sys.exit(reply.decode(errors="replace"))


def reads(path):
    """How often an open reads."""
    if not shutil.which("strace"):
        return None
    words = [exchanges.PROGRAM, "org-list", "--db", path]
    told = subprocess.run(["strace", "-f", "-c", "-e", "trace=pread64", *words], capture_output=True, text=True, check=True)
    found = re.search(r"^\s*[\d.]+\s+[\d.]+\s+\d+\s+(\d+)\s.*pread64$", told.stderr, re.M)
    return int(found.group(1))


def measure(path):
    """The medians of both times, the most memory, and the memory in the end."""
    waited, took, most, left = [], [], 0, 0
    while len(waited) < (FEWER if waited and waited[0] > SLOW else STARTS):
        server = exchanges.Server(exchanges.SERVERS["program"], path)
        waited.append(server.opening)
        took.append(server.spent())
        most, left = max(most, server.memory()), server.memory("VmRSS")
        server.end()
    return statistics.median(waited), statistics.median(took), most, left


def main():
    words = argparse.ArgumentParser(description=__doc__.partition("\n")[0])
    words.add_argument("--folder")
    words.add_argument("--program", default=exchanges.PROGRAM)
    words.add_argument("--megabytes", default="10,100")
    words.add_argument("--runs")
    words.add_argument("--keep", action="store_true")
    words = words.parse_args()
    if words.keep and not words.folder:
        sys.exit("--keep needs --folder")
    exchanges.PROGRAM = os.path.abspath(words.program)
    exchanges.SERVERS["program"][0] = exchanges.PROGRAM
    kind, counts, make = ("runs", words.runs, fill_runs) if words.runs else ("megabytes", words.megabytes, fill)
    print(f"{'| runs ' * bool(words.runs)}| the file, MB | opening, s | of the processor, s | most memory, MB | memory then, MB | reads |\n{'|---:' * bool(words.runs)}|---:|---:|---:|---:|---:|---:|")
    folder = words.folder if words.keep else tempfile.mkdtemp(dir=words.folder)
    try:
        for number in map(int, counts.split(",")):
            path = f"{folder}/opening-{kind}-{number}.db"
            if not os.path.exists(path):
                make(path, number)
            waited, took, most, left = measure(path)
            count = reads(path)
            count = "" if count is None else f"{count:,}"
            size = f"| {os.path.getsize(path) / 1e6:,.0f}" if not words.runs else f"| {number:,} | {os.path.getsize(path) / 1e6:,.1f}"
            print(f"{size} | {waited:.2f} | {took:.2f} | {most:,.0f} | {left:,.0f} | {count} |", flush=True)
    finally:
        if not words.keep:
            shutil.rmtree(folder)


if __name__ == "__main__":
    main()
