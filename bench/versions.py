#!/usr/bin/env python3
"""What an exchange costs beside the versions that a workspace keeps, in the processor's time of the program.

    python3 bench/versions.py [--folder FOLDER] [--program PROGRAM]

Workspaces keep 1, 100 and 1,000 versions of 1 KB. Of each a state is read, and one posted, by which the oldest version
goes; then all its versions are removed at once. A file is made for each, and the times are means over many exchanges.
"""
import argparse
import contextlib
import os
import shutil
import sqlite3
import tempfile

import exchanges
from sums import put_sums

KEPT = (1, 100, 1000)
SIZE = 1000
TURNS = 1000


def cost(server, requests, status):
    """The milliseconds of the processor that one of these requests takes."""
    before = server.spent()
    for one in requests:
        reply = server.exchange(one)[1]
        if not reply.startswith(b"HTTP/1.1 %d " % status):
            raise SystemExit(reply.decode(errors="replace"))
    return (server.spent() - before) * 1000 / len(requests)


def measure(path, kept):
    exchanges.admin(path, "org-add", "--limit", "10", "acme")
    exchanges.admin(path, "token-add", "acme", "root", "admin", fed=exchanges.SECRET.encode())
    with contextlib.closing(sqlite3.connect(path)) as db, db:
        exchanges.add_workspaces(db, "acme", ("small",), 1)
        db.execute("UPDATE keeping SET keep = ?", (kept,))
        exchanges.fill(db, versions=(("small", kept, SIZE),))
    put_sums(path)
    server = exchanges.Server(exchanges.SERVERS["program"], path)
    read = [exchanges.request("GET", "state/small")] * TURNS
    posted = [exchanges.request("POST", "state/small", exchanges.state_of(kept + turn, SIZE)) for turn in range(1, TURNS + 1)]
    costs = cost(server, read, 200), cost(server, posted, 200), cost(server, [exchanges.request("DELETE", "state/small")], 200)
    server.end()
    return costs


def main():
    words = argparse.ArgumentParser(description=__doc__.partition("\n")[0])
    words.add_argument("--folder")
    words.add_argument("--program", default=exchanges.PROGRAM)
    words = words.parse_args()
    exchanges.PROGRAM = os.path.abspath(words.program)
    exchanges.SERVERS["program"][0] = exchanges.PROGRAM
    print("| versions kept | GET, ms | POST, ms | all removed, ms |\n|---:|---:|---:|---:|")
    for kept in KEPT:
        folder = tempfile.mkdtemp(dir=words.folder)
        try:
            got = measure(f"{folder}/custody", kept)
        finally:
            shutil.rmtree(folder)
        print(f"| {kept:,} | {got[0]:.2f} | {got[1]:.2f} | {got[2]:.0f} |")


if __name__ == "__main__":
    main()
