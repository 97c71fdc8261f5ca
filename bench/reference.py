#!/usr/bin/env python3
"""The reference of bench/exchanges.py: the same exchanges by python3's http.server and sqlite3, on a file of the same schema.

As the program it answers one connection after the other, each with one exchange, and a change is one transaction
with one sync (WAL, synchronous=FULL). It knows the requests of the benchmark alone.
"""
import base64
import hashlib
import json
import sqlite3
import sys
import time
from http.server import BaseHTTPRequestHandler, HTTPServer

import pages

STATUSES = ("pending", "planning", "planned", "applying", "applied", "planned_and_finished", "errored", "discarded", "canceled")
ROLES = {"GET": 0, "POST": 1, "LOCK": 1, "UNLOCK": 1, "PUT": 2}
ITEMS, KEPT, RUNS = 50, 100, 100
ROLE = "SELECT role FROM token WHERE org = ? AND digest = ?"
WORKSPACE = "SELECT kind, lock_id, lock_text, run, next_version, next_run FROM ws WHERE org = ? AND name = ?"
KEEP = "SELECT keep FROM keeping WHERE org = ? AND ws = ?"
COUNT = "SELECT count(*) FROM version WHERE org = ? AND ws = ?"
NEWEST = "SELECT number, serial, lineage, size FROM version WHERE org = ? AND ws = ? ORDER BY number DESC LIMIT 1"
ADD_VERSION = "INSERT INTO version (org, ws, number, serial, lineage, created, size) VALUES (?, ?, ?, ?, ?, ?, ?)"
GOING = "SELECT number FROM version WHERE org = ? AND ws = ? AND number <= ?"
REMOVE_VERSION = "DELETE FROM version WHERE org = ? AND ws = ? AND number = ?"
RUN = "SELECT number, plan_only, rkey, message, created, status, action FROM run WHERE org = ? AND ws = ?"
ADD_RUN = "INSERT INTO run (org, ws, number, plan_only, rkey, message, created, status) VALUES (?, ?, ?, ?, ?, ?, ?, ?)"
PAGE = """SELECT auto, kind, lock_id, run,
    (SELECT keep FROM keeping WHERE keeping.org = ws.org AND keeping.ws = ws.name), name,
    (SELECT max(number) FROM version WHERE version.org = ws.org AND version.ws = ws.name)
    FROM ws WHERE org = ? AND name > ? ORDER BY name LIMIT ?"""


class Refusal(Exception):
    """A status, and a body."""


def text_of(value):
    return json.dumps(value, sort_keys=True, separators=(",", ":")).encode()


def workspace_of(auto, kind, lock, run, keep, name, version):
    holder = (None, lock, f"run-{run}")[kind]
    return {"auto_apply": bool(auto), "holder": holder, "keep_versions": keep, "name": name, "version": version}


def run_text(row):
    number, plan_only, key, message, created, status, action = row
    return text_of({"action": None if action is None else "unchanged", "created": created, "key": key, "message": message,
                    "number": number, "plan_only": bool(plan_only), "status": STATUSES[status]})


class Exchange(BaseHTTPRequestHandler):
    protocol_version, wbufsize, disable_nagle_algorithm = "HTTP/1.1", -1, True

    def log_message(self, *_):
        pass

    def answer(self, status, body):
        self.send_response(status)
        self.send_header("Connection", "close")
        self.send_header("Content-Length", str(len(body)))
        self.end_headers()
        self.wfile.write(body)

    def do(self):
        path, _, query = self.path.partition("?")
        _, _, org, what, *rest = path.split("/")
        body = self.rfile.read(int(self.headers.get("Content-Length", 0)))
        try:
            self.check(org, body)
            self.one("BEGIN" if self.command == "GET" else "BEGIN IMMEDIATE")
            with self.server.db:
                text = getattr(self, f"{self.command}_{what}")(org, rest, query.partition("=")[2], body)
            self.answer(200, text)
        except Refusal as refusal:
            self.answer(*refusal.args)

    do_GET = do_POST = do_PUT = do_LOCK = do_UNLOCK = do

    def check(self, org, body):
        of, _, secret = self.headers["Authorization"].removeprefix("Bearer ").partition(".")
        role = self.one(ROLE, of, hashlib.sha256(secret.encode()).digest())
        if role is None or of != org or role[0] < ROLES[self.command]:
            raise Refusal(403, b"")
        md5 = self.headers.get("Content-MD5")
        if md5 and base64.b64encode(hashlib.md5(body).digest()).decode() != md5:
            raise Refusal(400, b"")

    def one(self, sql, *values):
        return self.server.db.execute(sql, values).fetchone()

    def set(self, org, ws, what, *values):
        self.one(f"UPDATE ws SET {what} WHERE org = ? AND name = ?", *values, org, ws)

    def workspace(self, org, ws):
        row = self.one(WORKSPACE, org, ws)
        if row is None:
            raise Refusal(404, text_of({"error": "not-found"}))
        return row

    def GET_workspaces(self, org, rest, after, body):
        rows = self.server.db.execute(PAGE, (org, after, ITEMS + 1)).fetchall()
        return text_of({"items": [workspace_of(*row) for row in rows[:ITEMS]], "more": len(rows) > ITEMS})

    def PUT_workspaces(self, org, rest, query, body):
        ws, ask = rest[0], json.loads(body) if body else {}
        auto, keep = ask.get("auto_apply", False), ask.get("keep_versions")
        if self.one(WORKSPACE, org, ws) is None:
            count = self.one("SELECT count(*) FROM ws WHERE org = ?", org)[0]
            if count >= self.one("SELECT cap FROM org WHERE name = ?", org)[0]:
                raise Refusal(409, b"")
            self.one("INSERT INTO ws (org, name, auto, kind, next_version, next_run) VALUES (?, ?, ?, 0, 1, 1)", org, ws, auto)
            self.one("INSERT INTO keeping (org, ws, keep) VALUES (?, ?, ?)", org, ws, KEPT if keep is None else keep)
        else:
            self.configure(org, ws, auto, keep)
        kind, lock, _, run, *_ = self.workspace(org, ws)
        newest = self.one(NEWEST, org, ws)
        return text_of(workspace_of(auto, kind, lock, run, *self.one(KEEP, org, ws), ws, newest and newest[0]))

    def configure(self, org, ws, auto, keep):
        if keep is not None:
            kind, _, holder, _, number, *_ = self.workspace(org, ws)
            if kind and self.one(COUNT, org, ws)[0] > keep:
                raise Refusal(423, holder or b"")
            self.forget(org, ws, number - 1 - keep)
            self.one("UPDATE keeping SET keep = ? WHERE org = ? AND ws = ?", keep, org, ws)
        self.set(org, ws, "auto = ?", auto)

    def forget(self, org, ws, last):
        for going, in self.server.db.execute(GOING, (org, ws, last)).fetchall():
            self.one(REMOVE_VERSION, org, ws, going)
            pages.remove_text(self.server.db, org, ws, going)

    def GET_state(self, org, rest, query, body):
        self.workspace(org, *rest)
        newest = self.one(NEWEST, org, *rest)
        if newest is None:
            raise Refusal(204, b"")
        return pages.text_of(self.server.db, org, *rest, newest[0])

    def POST_state(self, org, rest, lock, body):
        ws, state = rest[0], json.loads(body)
        serial, lineage = state["serial"], state.get("lineage", "")
        kind, held, holder, _, number, *_ = self.workspace(org, ws)
        if kind == 2 or (kind == 1 and held != lock):
            raise Refusal(423, holder or b"")
        newest = self.one(NEWEST, org, ws)
        if newest and newest[1:] == (serial, lineage, len(body)) and pages.text_of(self.server.db, org, ws, newest[0]) == body:
            return b""
        if newest and (newest[2] != lineage or serial <= newest[1]):
            raise Refusal(409, b"")
        keep, = self.one(KEEP, org, ws)
        if self.one(COUNT, org, ws)[0] >= keep:
            self.forget(org, ws, number - keep)
        self.one(ADD_VERSION, org, ws, number, serial, lineage, int(time.time()), len(body))
        pages.add_text(self.server.db, org, ws, number, body)
        self.set(org, ws, "next_version = ?", number + 1)
        return b""

    def LOCK_state(self, org, rest, query, body):
        lock = json.loads(body)["ID"]
        kind, held, holder, *_ = self.workspace(org, *rest)
        if kind == 2 or (kind == 1 and held != lock):
            raise Refusal(423, holder or b"")
        self.set(org, *rest, "kind = 1, lock_id = ?, lock_text = ?", lock, body)
        return b""

    def UNLOCK_state(self, org, rest, query, body):
        lock = json.loads(body)["ID"]
        kind, held, holder, *_ = self.workspace(org, *rest)
        if kind != 1 or held != lock:
            raise Refusal(423 if kind else 409, holder or b"")
        self.set(org, *rest, "kind = 0, lock_id = NULL, lock_text = NULL, released = ?", lock)
        self.start(org, *rest)
        return b""

    def POST_runs(self, org, rest, query, body):
        return self.make(org, *rest, json.loads(body)) if len(rest) == 1 else self.report(org, *rest)

    def make(self, org, ws, ask):
        kind, _, _, _, _, number = self.workspace(org, ws)
        known = self.one(f"{RUN} AND rkey = ?", org, ws, ask["key"]) if "key" in ask else None
        if known:
            return run_text(known)
        if self.one("SELECT count(*) FROM run WHERE org = ? AND ws = ? AND status < 4", org, ws)[0] >= RUNS:
            raise Refusal(409, b"")
        plan_only = ask.get("plan_only", False)
        self.one(ADD_RUN, org, ws, number, plan_only, ask.get("key"), ask.get("message", ""), int(time.time()), plan_only)
        self.set(org, ws, "next_run = ?", number + 1)
        if kind == 0:
            self.start(org, ws)
        return run_text(self.one(f"{RUN} AND number = ?", org, ws, number))

    def report(self, org, ws, number, _, action):
        kind, _, _, run, *_ = self.workspace(org, ws)
        found = self.one(f"{RUN} AND number = ?", org, ws, int(number))
        if action != "unchanged" or found is None or found[5] != 1:
            raise Refusal(409, b"")
        self.one("UPDATE run SET status = 5, action = 1 WHERE org = ? AND ws = ? AND number = ?", org, ws, int(number))
        if kind == 2 and run == int(number):
            self.set(org, ws, "kind = 0, run = NULL")
            self.start(org, ws)
        return run_text(self.one(f"{RUN} AND number = ?", org, ws, int(number)))

    def start(self, org, ws):
        first = self.one("SELECT min(number) FROM run WHERE org = ? AND ws = ? AND status = 0", org, ws)[0]
        if first is not None:
            self.set(org, ws, "kind = 2, run = ?", first)
            self.one("UPDATE run SET status = 1 WHERE org = ? AND ws = ? AND number = ?", org, ws, first)


def main():
    _, path, port, count = sys.argv
    server = HTTPServer(("127.0.0.1", int(port)), Exchange)
    server.db = sqlite3.connect(path, isolation_level=None)
    server.db.execute("PRAGMA journal_mode = WAL")
    server.db.execute("PRAGMA synchronous = FULL")
    print(f"listening 127.0.0.1:{port}", flush=True)
    for _ in range(int(count)):
        server.handle_request()
    server.db.close()


main()
