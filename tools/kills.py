#!/usr/bin/env python3
"""Kills a service at random moments, and counts what was acknowledged and is lost: nothing may be.

    python3 tools/kills.py PROGRAM [ROUNDS [SEED]]    PROGRAM is crates/custody/out/custody, as `rt run` leaves it

Each round starts `custody serve` over one file, sends requests (LOCK, states, UNLOCK, runs), and sends it SIGKILL at a
moment between 0 and 150 ms later. The next round looks at the state, the holder and the runs: they have to be those
after the last reply of 200, or those after the request that was under way. The file is read by SQLite's own library
once in ten rounds, with its log, and at the end.

The service has `--log`. Its lines have to be those of the acknowledged requests in turn, where the last may be missing; and
where they tell that the request under way was done, the next round has to find it done.
"""

import atexit
import http.client
import json
import os
import random
import shutil
import sqlite3
import subprocess
import sys
import threading
import time

from harness import Program, Service, Wrong, bytes_of, connected, said

ORG, WS = "acme", "net"
# The act of a request, as its line has it.
ACTS = {"LOCK": "lock", "UNLOCK": "unlock", "/state": "update state", "/runs": "make run", "/actions": "unchanged"}
ROOT, WRITER = "adminadminadmin1", "writewritewrite1"


class Model:
    """What one workspace has: its newest state, its holder, its runs."""

    def __init__(self):
        self.state, self.holder, self.runs, self.serial = b"", "", 0, 0

    def copy(self):
        other = Model()
        other.__dict__.update(self.__dict__)
        return other

    def seen(self):
        return self.state, self.holder, self.runs


# How many connections the service has had.
made = 0


def ask(port, method, path, body=b"", secret=WRITER, field=None):
    global made
    made += 1
    link = http.client.HTTPConnection("127.0.0.1", timeout=20)
    link.sock = connected(port, 20)
    try:
        head = {"Authorization": f"Bearer {ORG}.{secret}", **(field or {})}
        link.request(method, f"/v1/{ORG}{path}", body, head)
        reply = link.getresponse()
        return reply.status, reply.read()
    finally:
        link.close()


def act_of(method, target):
    part = "/actions" if "/actions/" in target else target[: target.index("/", 1)]
    return ACTS.get(method) or ACTS[part]


def told(path, first):
    """The acts, and the statuses of their replies, that the lines of a service tell behind so many connections."""
    rows = [json.loads(line) for line in bytes_of(path).split(b"\n")[1:-1]]
    return [(row["act"], row["status"]) for row in rows if row["connection"] > first]


def started(program, path, log):
    """A service whose lines go to the file `log`."""
    global made
    made = 0
    service = Service(program, path, 1_000_000, "--log", lines=log, errors=subprocess.DEVNULL)
    atexit.register(service.kill)
    return service


def requests(model, chance):
    """Requests in turn, each with the model that its reply of 200 leaves."""
    while True:
        lock = f"k{chance.getrandbits(64):x}"
        after = model.copy()
        after.holder = lock
        yield "LOCK", f"/state/{WS}", json.dumps({"ID": lock}).encode(), after
        model = after
        for _ in range(chance.randrange(1, 4)):
            after = model.copy()
            after.serial += 1
            after.state = json.dumps({"version": 4, "serial": after.serial, "lineage": "a1", "x": "y" * chance.randrange(70_000)}).encode()
            yield "POST", f"/state/{WS}?ID={lock}", after.state, after
            model = after
        after = model.copy()
        after.holder = ""
        yield "UNLOCK", f"/state/{WS}", json.dumps({"ID": lock}).encode(), after
        model = after
        after = model.copy()
        after.runs += 1
        yield "POST", f"/runs/{WS}", b'{"plan_only":true}', after
        model = after
        after = model.copy()
        yield "POST", f"/runs/{WS}/{model.runs}/actions/unchanged", b"", after


def looked_at(port):
    state = ask(port, "GET", f"/state/{WS}")
    workspace = ask(port, "GET", f"/workspaces/{WS}")
    runs, after = 0, 0
    while True:
        page = json.loads(ask(port, "GET", f"/runs/{WS}?after={after}")[1])
        runs += len(page["items"])
        if not page["more"]:
            break
        after = page["items"][-1]["number"]
    holder = json.loads(workspace[1])["holder"]
    return (state[1] if state[0] == 200 else b"", holder or "", runs), runs


def sound(path, folder):
    copied = folder + "/copied.db"
    for end in ("", "-wal"):
        if os.path.exists(path + end):
            shutil.copy(path + end, copied + end)
    conn = sqlite3.connect(copied)
    told = conn.execute("PRAGMA integrity_check").fetchall(), conn.execute("PRAGMA foreign_key_check").fetchall()
    conn.close()
    for end in ("", "-wal", "-shm"):
        if os.path.exists(copied + end):
            os.remove(copied + end)
    if told != ([("ok",)], []):
        sys.exit(f"SQLite's own library says {told}")


def look_at_kills(program, rounds, chance):
    acknowledged = under_way = applied = untold = 0
    path, log = program.folder + "/custody.db", program.folder + "/log"
    said("an organization", program.run(["org-add", "--db", path, ORG], errors=None)[:2], (0, b"ok\n"))
    for name, secret, role in (("root", ROOT, "admin"), ("ci", WRITER, "write")):
        words = ["token-add", "--db", path, ORG, name, role]
        said("a token", program.run(words, secret.encode() + b"\n")[:2], (0, b"ok\n"))
    service = started(program, path, log)
    if ask(service.port, "PUT", f"/workspaces/{WS}", secret=ROOT)[0] != 200:
        sys.exit("no workspace was made")
    before, maybe = Model(), None
    for at in range(rounds):
        end = time.monotonic() + chance.random() * 0.15
        killer = threading.Timer(max(end - time.monotonic(), 0), service.process.kill)
        killer.start()
        maybe, first, due = None, made, []
        for method, target, body, after in requests(before, chance):
            due.append((act_of(method, target), 200))
            try:
                status, text = ask(service.port, method, target, body)
            except (OSError, http.client.HTTPException):
                maybe = after
                under_way += 1
                break
            if status != 200:
                sys.exit(f"round {at}: {method} {target} was answered {status} {text[:80]}")
            acknowledged += 1
            before = after
        killer.join()
        service.process.wait()
        lines = told(log, first)
        # (the last of these was under way)
        if lines not in (due, due[:-1], due[:-2]):
            sys.exit(f"round {at}: the log has {lines[-3:]} at its end, where {due[-3:]} were asked")
        untold += len(lines) < len(due) - 1
        done = lines == due
        if at % 10 == 0:
            sound(path, program.folder)
        service = started(program, path, log)
        seen, runs = looked_at(service.port)
        if done and maybe and seen != maybe.seen():
            sys.exit(f"round {at}: the log tells a change that wasn't made")
        if maybe and seen == maybe.seen():
            applied += seen != before.seen()
            before = maybe
        elif seen != before.seen():
            sys.exit(f"round {at}: lost: {seen} where {before.seen()} was acknowledged")
        # free what holds, so that the next round begins by a lock
        if before.holder:
            status, _ = ask(service.port, "UNLOCK", f"/state/{WS}", b"", secret=ROOT)
            if status != 200:
                sys.exit(f"round {at}: the lock couldn't be freed: {status}")
            before = before.copy()
            before.holder = ""
        for number in range(max(runs - 2, 1), runs + 1):
            ask(service.port, "POST", f"/runs/{WS}/{number}/actions/unchanged")
    service.kill()
    sound(path, program.folder)
    if acknowledged == 0:
        sys.exit(f"{rounds} kills, and no request was acknowledged: nothing is shown")
    print(f"{rounds} kills, {acknowledged} requests acknowledged and kept, {under_way} under way when the service was killed, {applied} of them applied; the last acknowledged has no line in {untold} rounds")


def main():
    rounds = int(sys.argv[2]) if len(sys.argv) > 2 else 200
    seed = int(sys.argv[3]) if len(sys.argv) > 3 else 1
    with Program(sys.argv[1]) as program:
        try:
            look_at_kills(program, rounds, random.Random(seed))
        except Wrong as wrong:
            sys.exit(str(wrong))


if __name__ == "__main__":
    main()
