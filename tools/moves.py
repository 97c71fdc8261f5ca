#!/usr/bin/env python3
"""Moves an organization from one file to another in the middle of its history, and looks at what comes of it.

    python3 tools/moves.py CUSTODY    the program as `rt ci` or `rt run` leaves it

The requests of the story that history.py makes are asked of a service that nothing is moved from. Behind each tenth its file
is taken, the organization acme is copied from it to a new file (`org-copy`) and removed at the old one (`org-remove`), and
what follows is asked of two services: what has a token of acme of the one over the new file, all else of the one over the
old. Each reply has to be the one that the first service gave, but for the moments of what came behind the copy. The rows of
acme have to be in the new file as they were in the old one, by SQLite's own library, and all others as before. Behind the
last request acme is copied back.

With `--copied-to` an organization is removed only where the other file has the same of it: a copy that lacks something or has more is refused, and so
is the file itself, one that isn't there, and one with faults; neither file changes then.

The words of the three commands are refused as they have to be. A copy and a removal are killed at each call that changes a
file (calls.c): the organization is there whole or not at all, all else is as it was, and sent again it is done. So is
`compact`: what it left has to be deleted where it has an organization, and then it is done. What is compacted has the same rows,
sums, and no free pages but those few that the last page of a text leaves. Where its target has an organization `compact` is
refused, and leaves it as it is: what was changed, revoked or removed since would be missed there.

Each request for memory of `org-copy` and `compact` is refused in turn (of many alike in a row some, refuse.c): it ends as it is due, or with `refused
down`, when of an organization nothing was copied; and sent again it is done, of `compact` to a new file. (Those of `org-remove`: refusals.py.) So it is where a link leads to an empty
file beside a log: no byte of either changes.

It prints a line for each thing that holds, and ends with status 1 at the first that doesn't.
"""

import os
import re
import shutil
import sqlite3
import tempfile

import refusals
import stories
from files import MISSING, TEAM, greatest, greatest_read, last_numbers, read_all
from harness import DISK, IN_USE, LOG_ALONE, LOG_STAYS, NEW_FILE, UNFINISHED, Service, Wrong, bytes_of, compiled, look_at, request, said

STORY = "a long history of two organizations that share texts"
# How many requests stand between two files that are taken.
STRIDE = 10
TOKEN = re.compile(rb"\r\nAuthorization: Bearer ([a-z0-9-]+)\.")
CREATED = re.compile(rb'"created":(\d+)')
KILLED = -9
# (a file that memory didn't suffice to look at may be the one that is open: no other is opened then, and the system is said to refuse)
CAUSES = [*refusals.CAUSES, DISK, UNFINISHED]
# A page of a text whose uses are counted once more leaves the file's pages that its bytes were in; the next one takes them.
MOST_FREE = 4
NOT_COPIED = b"custody: the --copied-to file does not hold the same organization, so nothing is removed\n"
COPY_FAULTS = b"custody: the tables of the --copied-to file have faults, so nothing is removed:\n"
# The tables, each with the column that names the organization; of a text its pages, with their bytes.
ROWS = {
    "org": "SELECT name, cap FROM org WHERE name = ?",
    "token": "SELECT name, digest, role FROM token WHERE org = ?",
    "bound": "SELECT name, until, prefix FROM bound WHERE org = ?",
    "ws": "SELECT name, auto, kind, lock_id, lock_text, run, released, next_version, next_run FROM ws WHERE org = ?",
    "keeping": "SELECT ws, keep FROM keeping WHERE org = ?",
    "version": "SELECT ws, number, serial, lineage, created, size FROM version WHERE org = ?",
    "run": "SELECT ws, number, plan_only, rkey, message, created, status, action FROM run WHERE org = ?",
    "text": "SELECT ws, number, place, pkey, bytes FROM vpage JOIN page USING (pkey, twin) WHERE org = ?",
}


def opened(path):
    return sqlite3.connect("file:%s?mode=ro" % path, uri=True)


def rows_of(path, org):
    """What a file has of an organization, by table, in an order that no rowid makes."""
    with opened(path) as conn:
        found = {table: sorted(conn.execute(text, (org,)), key=repr) for table, text in ROWS.items()}
    conn.close()
    return found


def orgs_in(path):
    with opened(path) as conn:
        found = [name for (name,) in conn.execute("SELECT name FROM org ORDER BY name")]
    conn.close()
    return found


def all_rows(path):
    return {org: rows_of(path, org) for org in orgs_in(path)}


def look_at_form(what, path):
    """SQLite finds the file whole; each page has the uses that name it, no page is free, and each ends with a sum."""
    with opened(path) as conn:
        said("the form of " + what, conn.execute("PRAGMA integrity_check").fetchall(), [("ok",)])
        said("the references of " + what, conn.execute("PRAGMA foreign_key_check").fetchall(), [])
        uses = "SELECT count(*) FROM page WHERE uses <> (SELECT count(*) FROM vpage WHERE vpage.pkey = page.pkey AND vpage.twin = page.twin)"
        said("pages of other uses in " + what, conn.execute(uses).fetchall(), [(0,)])
        ((free,),) = conn.execute("PRAGMA freelist_count")
    conn.close()
    said("the bytes that each page keeps for its sum in " + what, bytes_of(path)[20], 8)
    return free


def asked():
    """The requests of the history, each with the organization whose token it has, and the words that come before it."""
    steps = stories.steps_of(stories.all_stories()[STORY])
    words = [sent for _, sent, _ in steps if isinstance(sent, str)]
    return words, [(TOKEN.search(sent).group(1), sent) for _, sent, _ in steps if isinstance(sent, bytes)]


def begin(program, path, words):
    for line in words:
        parts = line.split(" ")
        given = b""
        if parts[0] == "token-add":
            given, parts = parts[-1].encode() + b"\n", parts[:-1]
        status, output, _ = program.run([parts[0], "--db", path, *parts[1:]], given)
        said(line, (status, output), (0, b"ok\n"))


def ask(program, path, requests):
    if not requests:
        return []
    with Service(program, path, len(requests)) as service:
        replies = [service.asked(sent) for _, sent in requests]
        service.ends()
    return replies


def small(program):
    """A file with two organizations, of which one has a bit of everything: tokens, a lock, runs, versions that share pages."""
    words, requests = asked()
    path = program.folder + "/small.db"
    begin(program, path, [*words, "token-add --until 4000000000 --prefix ne acme ends write endsendsendsends"])
    texts = [b'{"serial":%d,"x":"%s"}' % (serial, b"x" * 20000) for serial in (1, 2)]
    acts = [(b"PUT", b"workspaces/" + name, b"") for name in (b"net", b"app", b"old")]
    acts += [(b"POST", b"state/net", text) for text in texts]
    acts += [(method, b"state/net", b'{"ID":"held"}') for method in (b"LOCK", b"UNLOCK")]
    acts += [(b"POST", b"runs/" + run, b"") for run in (b"app", b"app/1/actions/fail", b"app")]
    acts += [(b"POST", b"state/old", texts[0]), (b"DELETE", b"state/old", b""), (b"LOCK", b"state/net", b'{"ID":"x9"}')]
    sent = [by_admin(words, *act) for act in acts]
    for one, came in zip(sent, ask(program, path, [(b"acme", one) for one in sent])):
        said("the reply to %s" % one[:60], came[:12], b"HTTP/1.1 200")
    return path


def by_admin(words, method, path, body=b""):
    """A request by an admin of acme, whom these words add."""
    secret = next(line.split(" ")[4].encode() for line in words if line.startswith("token-add acme") and line.split(" ")[3] == "admin")
    return request(b"%s /v1/acme/%s HTTP/1.1" % (method, path), body, b"acme." + secret)


def masked(reply):
    """A reply without moments: what came behind a copy came later than it did where nothing was moved."""
    return CREATED.sub(b'"created":AT', reply)


def look_at_history(program):
    words, requests = asked()
    path, new = program.folder + "/stays.db", program.folder + "/moved.db"
    begin(program, path, words)
    replies, taken = [], []
    for at in range(0, len(requests), STRIDE):
        replies += ask(program, path, requests[at : at + STRIDE])
        taken.append("%s/taken%d.db" % (program.folder, at + STRIDE))
        shutil.copy(path, taken[-1])
    print("right: %d requests were asked of a service that nothing is moved from" % len(requests))
    for number, old in enumerate(taken[:-1]):
        before = all_rows(old)
        said("a copy", program.run(["org-copy", "--db", old, "--to", new, "acme"]), (0, b"ok\n", NEW_FILE))
        said("what the copied file has", all_rows(old), before)
        said("what the new file has", all_rows(new), {"acme": before["acme"]})
        said("a removal", program.run(["org-remove", "--db", old, "--force", "acme"]), (0, b"ok\n", b""))
        said("what the old file has then", all_rows(old), {"beta": before["beta"]})
        for what, file in [("the new file", new), ("the old file", old)]:
            look_at_form(what, file)
        behind = [(place, org, sent) for place, (org, sent) in enumerate(requests)][(number + 1) * STRIDE :]
        for file, is_ours in [(new, lambda org: org == b"acme"), (old, lambda org: org != b"acme")]:
            ours = [(place, (org, sent)) for place, org, sent in behind if is_ours(org)]
            for (place, (_, sent)), came in zip(ours, ask(program, file, [it for _, it in ours])):
                said("the reply to %s" % sent[:60], masked(came), masked(replies[place]))
        said("a copy back", program.run(["org-copy", "--db", new, "--to", old, "acme"]), (0, b"ok\n", b""))
        said("what is copied back", rows_of(old, "acme"), rows_of(new, "acme"))
        forget(new, old)
    print("right: %d times acme was moved on its way, and each reply is the one that it got where it stayed" % (len(taken) - 1))
    return path


def forget(*paths):
    for path in paths:
        for file in (path, path + "-wal"):
            if os.path.exists(file):
                os.remove(file)


def look_at_words(program, path):
    """What is refused changes nothing."""
    new, before = program.folder + "/to.db", all_rows(path)
    copy = ["org-copy", "--db", path, "--to", new]
    program.is_due("an organization that isn't there isn't copied", [*copy, "gamma"], 1, b"refused absent\n", NEW_FILE)
    said("what a file has that was made for it", all_rows(new), {})
    program.is_due("one that is there is copied", [*copy, "acme"], 0, b"ok\n")
    there = all_rows(new)
    program.is_due("and not twice", [*copy, "acme"], 1, b"refused exists\n")
    said("what stands there then", all_rows(new), there)
    for words in ([*copy, "Acme"], copy, [*copy[:-2], "acme"], ["compact", *copy[1:], "acme"]):
        said("words that aren't those of a command", program.run(words)[:2], (2, b"refused usage\n"))
    os.symlink(path, program.folder + "/link.db")
    for other in (path, program.folder + "/link.db", program.folder + "/../" + os.path.basename(program.folder) + "/" + os.path.basename(path)):
        for words in (["org-copy", "--db", path, "--to", other, "acme"], ["compact", "--db", path, "--to", other]):
            said("a file copied to itself", program.run(words), (3, b"refused down\n", IN_USE))
    print("right: a file isn't copied to itself, by whatever path")
    os.mkdir(program.folder + "/none")
    for words in (["org-copy", "--db", path, "--to", program.folder + "/none", "acme"], ["compact", "--db", path, "--to", program.folder + "/none"]):
        status, output, _ = program.run(words)
        said("a copy to what is no file", (status, output), (3, b"refused down\n"))
    with open(program.folder + "/other.db", "wb"):
        pass
    with sqlite3.connect(program.folder + "/other.db") as conn:
        conn.execute("CREATE TABLE org (a)")
    conn.close()
    status, output, _ = program.run(["org-copy", "--db", path, "--to", program.folder + "/other.db", "acme"])
    said("a copy to a file of another schema", (status, output), (3, b"refused schema\n"))
    said("what the copied file has", all_rows(path), before)
    print("right: where the other file doesn't open nothing is copied")
    forget(new)


def look_at_targets(program, path):
    """All are copied only to where there is no organization: what changed since would be missed there. Once the new file is deleted they are."""
    old, new = program.folder + "/from.db", program.folder + "/to.db"
    shutil.copy(path, old)
    compact, first = ["compact", "--db", old, "--to", new], all_rows(path)
    program.is_due("all are copied to a new file", compact, 0, b"ok\n", NEW_FILE)
    said("what it has", all_rows(new), first)
    words, _ = asked()
    (came,) = ask(program, old, [(b"acme", by_admin(words, b"PUT", b"workspaces/late"))])
    said("a change behind it", came[:12], b"HTTP/1.1 200")
    program.is_due("a token is revoked", ["token-revoke", "--db", old, "acme", "ends"], 0, b"ok\n")
    program.is_due("an organization is removed", ["org-remove", "--db", old, "--force", "beta"], 0, b"ok\n")
    second = all_rows(old)
    said("whether the old file has less and more", (sorted(second), len(second["acme"]["ws"])), (["acme"], len(first["acme"]["ws"]) + 1))
    program.is_due("all aren't copied to where one is", compact, 1, b"refused exists\n")
    said("what the new file has then", all_rows(new), first)
    said("what the old file has then", all_rows(old), second)
    program.is_due("nor where another is", ["org-remove", "--db", new, "--force", "acme"], 0, b"ok\n")
    program.is_due("but the one that is left", compact, 1, b"refused exists\n")
    said("what the new file has", all_rows(new), {"beta": first["beta"]})
    forget(new)
    program.is_due("once the new file is deleted they are", compact, 0, b"ok\n", NEW_FILE)
    said("what it has in the end", all_rows(new), second)
    look_at_form("it", new)
    print("right: all organizations are copied to a file without one, and each record there is that of the old file")
    forget(old, new)


def look_at_removals(program, path):
    """An organization goes with all that it has and nothing else, where it isn't in use or by force."""
    file, before = program.folder + "/from.db", all_rows(path)
    left = {org: rows for org, rows in before.items() if org != "acme"}
    shutil.copy(path, file)
    remove = ["org-remove", "--db", file]
    program.is_due("one that isn't there isn't removed", [*remove, "gamma"], 1, b"refused absent\n")
    program.is_due("nor one in which a lock holds", [*remove, "acme"], 1, b"refused in-use\n")
    for words in (remove, [*remove, "--force"], [*remove, "Acme"], [*remove, "acme", "beta"]):
        said("words that aren't those of a removal", program.run(words)[:2], (2, b"refused usage\n"))
    said("what the file has", all_rows(file), before)
    program.is_due("by force it is", [*remove, "--force", "acme"], 0, b"ok\n")
    said("what the file has then", all_rows(file), left)
    look_at_form("it", file)
    _, requests = asked()
    (came,) = ask(program, file, [next(one for one in requests if one[0] == b"acme")])
    said("the reply to whom it had let in", came[:12], b"HTTP/1.1 401")
    program.is_due("and not twice", [*remove, "--force", "acme"], 1, b"refused absent\n")
    program.is_due("its name is added anew", ["org-add", "--db", file, "--limit", "3", "acme"], 0, b"ok\n")
    program.is_due("and has nothing", ["org-list", "--db", file], 0, b"acme 0 3\nbeta %d %d\n" % (len(left["beta"]["ws"]), left["beta"]["org"][0][1]))
    program.is_due("nor is it in use", [*remove, "acme"], 0, b"ok\n")
    said("what the file has in the end", all_rows(file), left)
    forget(file)


def look_at_copied_removals(program, path):
    """With --copied-to an organization goes only where the other file has the same of it. Neither file changes otherwise."""
    old, copy, before = program.folder + "/from.db", program.folder + "/to.db", all_rows(path)
    left = {org: rows for org, rows in before.items() if org != "acme"}
    words, _ = asked()

    def copied(org="acme"):
        forget(old, copy)
        shutil.copy(path, old)
        program.is_due("a copy of " + org, ["org-copy", "--db", old, "--to", copy, org], 0, b"ok\n", NEW_FILE)

    def removes(file, *more):
        return ["org-remove", "--db", old, "--copied-to", file, *more, "acme"]

    def is_refused(what, command, status, answer, *why):
        files = [file for file in (old, copy) if os.path.exists(file)]
        there = [all_rows(file) for file in files]
        program.is_due(what, command, status, answer, *why)
        said("what the files have behind " + what, [all_rows(file) for file in files], there)

    def differs(what, *more):
        is_refused(what, removes(copy, "--force", *more), 3, b"refused down\n", NOT_COPIED)

    copied()
    is_refused("a removal of one in which a lock holds", removes(copy), 1, b"refused in-use\n")
    program.is_due("one that is copied is removed by force", removes(copy, "--force"), 0, b"ok\n")
    said("what the file has then", all_rows(old), left)
    said("what the copy has then", all_rows(copy), {"acme": before["acme"]})
    look_at_form("the file", old)
    differs("a removal of one that is there no more")
    changes = {
        "a copy that lacks a token": lambda file: program.run(["token-revoke", "--db", file, "acme", "ends"]),
        "a copy with another limit": lambda file: program.run(["org-limit", "--db", file, "acme", "77"]),
        "a copy with one more workspace": lambda file: ask(program, file, [(b"acme", by_admin(words, b"PUT", b"workspaces/late"))]),
        "a copy with one more version": lambda file: ask(program, file, [(b"acme", by_admin(words, b"POST", b"state/net?ID=x9", b'{"serial":3,"x":"y"}'))]),
        "a copy whose lock is released": lambda file: ask(program, file, [(b"acme", by_admin(words, b"UNLOCK", b"state/net", b'{"ID":"x9"}'))]),
        "a copy whose run went on": lambda file: ask(program, file, [(b"acme", by_admin(words, b"POST", b"runs/app/2/actions/cancel"))]),
    }
    for what, change in changes.items():
        for changed in (lambda: copy, lambda: old):
            copied()
            there = rows_of(changed(), "acme")
            change(changed())
            said("whether there is a change for " + what, rows_of(changed(), "acme") != there, True)
            differs(what)
    copied()
    program.is_due("a token is revoked", ["token-revoke", "--db", copy, "acme", "ends"], 0, b"ok\n")
    other = ["token-add", "--db", copy, "--until", "4000000000", "--prefix", "ne", "acme", "ends", "write"]
    program.is_due("and added with another secret", other, 0, b"ok\n", b"", b"otherotherother1\n")
    differs("a copy whose token has another secret")
    copied("beta")
    differs("a copy of another organization")
    with opened(copy) as conn:
        text = "\n".join(conn.iterdump())
    conn.close()
    forget(copy)
    with sqlite3.connect(copy) as conn:
        conn.executescript(text)
        conn.execute("DELETE FROM bound")
    conn.close()
    os.chmod(copy, 0o600)
    status, output, errors = program.run(removes(copy, "--force"))
    said("a copy with faults", (status, output, errors.startswith(COPY_FAULTS), len(errors) > len(COPY_FAULTS)), (3, b"refused down\n", True, True))
    said("what the file has", all_rows(old), before)
    os.symlink(old, program.folder + "/same.db")
    for same in (old, program.folder + "/same.db"):
        is_refused("a copy that is the file itself", removes(same, "--force"), 3, b"refused down\n", IN_USE)
    forget(copy)
    is_refused("a copy that isn't there", removes(copy, "--force"), 3, b"refused down\n", MISSING)
    said("whether there is one then", os.path.exists(copy), False)
    said("words without a file", program.run(["org-remove", "--db", old, "acme", "--copied-to"])[:2], (2, b"refused usage\n"))
    said("what the file has in the end", all_rows(old), before)
    forget(old)
    print("right: with --copied-to an organization is removed only where the other file has the same")


def look_at_killed_removals(program, path):
    """A removal is killed at each call that changes a file: the organization is there whole or not at all."""
    env = {**os.environ, "LD_PRELOAD": compiled("calls", program.folder)}
    file, before = program.folder + "/from.db", all_rows(path)
    left = {org: rows for org, rows in before.items() if org != "acme"}
    remove = ["org-remove", "--db", file, "--force", "acme"]
    kills, seen = 0, set()
    while True:
        shutil.copy(path, file)
        status, output, _ = program.run(remove, env={**env, "ENDS": str(kills + 1)})
        has = all_rows(file)
        said("what a removal that was killed leaves", has, before if "acme" in has else left)
        look_at_form("it", file)
        if status != KILLED:
            said("a removal that isn't killed", (status, output), (0, b"ok\n"))
            break
        kills += 1
        seen.add("acme" in has)
        said("a removal behind one that was killed", program.run(remove)[:2], (0, b"ok\n") if "acme" in has else (1, b"refused absent\n"))
        said("what the file has then", all_rows(file), left)
        forget(file)
    said("what a removal that is killed leaves", seen, {True, False})
    print("right: org-remove was killed at each of %d calls, and left an organization whole or not at all" % kills)
    forget(file)


def look_at_kills(program, path):
    """A copy is killed at each call that changes a file: it is whole or it isn't there."""
    env = {**os.environ, "LD_PRELOAD": compiled("calls", program.folder)}
    before = all_rows(path)
    for words, parts in [(["org-copy"], ["acme"]), (["compact"], [])]:
        kills, seen = 0, set()
        while True:
            old, new = program.folder + "/from.db", program.folder + "/to.db"
            shutil.copy(path, old)
            words = [words[0], "--db", old, "--to", new, *parts]
            status, output, _ = program.run(words, env={**env, "ENDS": str(kills + 1)})
            said("what the copied file has", all_rows(old), before)
            if status != KILLED:
                said("a copy that isn't killed", (status, output), (0, b"ok\n"))
                break
            kills += 1
            has = all_rows(new) if has_tables(new) else {}
            seen.add(tuple(has))
            for org, rows in has.items():
                said("an organization of a copy that was killed", rows, before[org])
            status, output, _ = program.run(words)
            said("a copy behind one that was killed", (status, output), (1, b"refused exists\n") if has else (0, b"ok\n"))
            if has and not parts:
                said("what it leaves", all_rows(new), has)
                forget(new)
                said("all once more, to a new file", program.run(words), (0, b"ok\n", NEW_FILE))
            said("what stands there then", all_rows(new), {org: before[org] for org in (parts or before)})
            look_at_form("it", new)
            forget(old, new)
        due = {(), ("acme",)} if parts else {(), ("acme",), ("acme", "beta")}
        said("what a copy that is killed leaves", seen, due)
        free = look_at_form("it", program.folder + "/to.db")
        if free > MOST_FREE:
            raise Wrong("it has %d free pages" % free)
        print("right: %s was killed at each of %d calls, and left an organization whole or not at all" % (words[0], kills))
        forget(program.folder + "/from.db", program.folder + "/to.db")


def has_tables(path):
    """Whether a file has our tables: one that is being made has another first byte until it is whole."""
    if not os.path.exists(path):
        return False
    if not bytes_of(path).startswith(b"SQLite format 3\0"):
        return False
    with opened(path) as conn:
        found = conn.execute("SELECT count(*) FROM sqlite_schema WHERE name = 'keeping'").fetchall()
    conn.close()
    return found == [(1,)]


class Both(refusals.File):
    """Two files with their logs, of which a copy is made from the first to the second."""

    def __init__(self, folder):
        super().__init__(folder)
        self.parts = ["%s/%s.db%s" % (folder, name, end) for name in ("from", "to") for end in ("", "-wal")]

    def copied(self, room, found):
        """The files once more in another folder: whose locks the program has."""
        for path, part in zip(self.parts, found):
            if part is not None:
                with os.fdopen(os.open("%s/%s" % (room, os.path.basename(path)), os.O_WRONLY | os.O_CREAT, 0o600), "wb") as file:
                    file.write(part)
        return [all_rows(path) if has_tables(path) else {} for path in (room + "/from.db", room + "/to.db")]


class Refused:
    """Two files of which a copy is made, a request for memory refused: what comes of it, and whether it is due."""

    def __init__(self, program, words, orgs, path, folder):
        shutil.copy(path, folder + "/from.db")
        self.program, self.words, self.files = program, words, Both(folder)
        self.before = all_rows(path)
        self.whole, self.is_one = {org: self.before[org] for org in orgs}, len(orgs) == 1
        # What was looked at already.
        self.good = []

    def judge(self, status, out, errors):
        is_right = (status, out) == (0, b"ok\n")
        if not is_right and (status, out) != refusals.REFUSED:
            raise Wrong("status %d, %s, %s" % (status, out, errors))
        told = [line for line in errors.splitlines(True) if line not in (NEW_FILE, LOG_STAYS)]
        if len(told) != (0 if is_right else 1) or not all(refusals.is_cause(line, CAUSES) for line in told):
            raise Wrong("after %s the error stream has %s" % (out, errors))
        found = self.files.bytes()
        if (is_right, found) not in self.good:
            self.look_at(is_right, found)
            self.good.append((is_right, found))
        return is_right

    def look_at(self, is_right, found):
        """The rows of both files, and the same words once more, with memory."""
        with tempfile.TemporaryDirectory(dir=self.program.folder) as room:
            left, came = self.files.copied(room, found)
            is_due = came == self.whole if is_right else all(self.before[org] == rows for org, rows in came.items())
            if left != self.before or not is_due or not is_right and self.is_one and came:
                raise Wrong("the files have %s and %s" % (list(left), list(came)))
            if not is_right and came and not self.is_one:
                if self.program.run(self.words, under=["env", "-C", room])[:2] != (1, b"refused exists\n"):
                    raise Wrong("it goes on where an organization was copied")
                forget(room + "/to.db")
            if not is_right and self.program.run(self.words, under=["env", "-C", room])[:2] != (0, b"ok\n"):
                raise Wrong("it isn't done again with memory")

    def refuse_each(self, library, counts):
        """Refuses each request for memory in turn, and gives how many there were."""
        with refusals.Program(library, "request", [self.program.path, *self.words], self.files.folder) as run:
            return refusals.refuse_run(run, counts, self.judge, self.files)


def look_at_memory(program, path):
    """Each request for memory is refused in turn, of many alike in a row some."""
    library, counts = compiled("refuse", program.folder), refusals.Counts()
    for words, orgs in [(["org-copy", "--db", "from.db", "--to", "to.db", "acme"], ["acme"]), (["compact", "--db", "from.db", "--to", "to.db"], ["acme", "beta"])]:
        with tempfile.TemporaryDirectory(dir=program.folder) as folder:
            many = Refused(program, words, orgs, path, folder).refuse_each(library, counts)
        print("right: %s with each of %d requests for memory refused" % (words[0], many))


def look_at_lone_logs(program, path):
    """A log beside an empty file, to which a link leads, stays as it is, whichever request for memory is refused."""
    library, counts = compiled("refuse", program.folder), refusals.Counts()
    for words in (["org-add", "--db", "link.db", "acme"], ["org-copy", "--db", "from.db", "--to", "link.db", "acme"], ["compact", "--db", "from.db", "--to", "link.db"]):
        with tempfile.TemporaryDirectory(dir=program.folder) as folder:
            shutil.copy(path, folder + "/from.db")
            os.mkdir(folder + "/there")
            os.symlink("there/to.db", folder + "/link.db")
            due = {"to.db": b"", "to.db-wal": os.urandom(2000)}
            for name, content in due.items():
                with open(os.open("%s/there/%s" % (folder, name), os.O_CREAT | os.O_WRONLY, 0o600), "wb") as file:
                    file.write(content)

            def judge(status, out, errors):
                found = {name: bytes_of("%s/there/%s" % (folder, name)) for name in os.listdir(folder + "/there")}
                if (status, out) != refusals.REFUSED or found != due:
                    raise Wrong("status %d, %s, %s, and there are %s" % (status, out, errors, {name: len(content) for name, content in found.items()}))
                return errors == LOG_ALONE

            source = refusals.File(folder)
            source.parts = [folder + "/from.db", folder + "/from.db-wal"]
            try:
                with refusals.Program(library, "request", [program.path, *words], folder) as run:
                    many = refusals.refuse_run(run, counts, judge, source)
            except Wrong as wrong:
                raise Wrong("%s: %s" % (words[0], wrong)) from None
        print("right: %s beside a log behind a link to an empty file, with each of %d requests for memory refused" % (words[0], many))


# How many versions there were: the number of the next one is above what a workspace may keep.
VERSIONS = 1_001


def look_at_many_versions(program):
    """What is copied goes on: behind 1,001 versions, and behind the greatest value of each column."""
    words, _ = asked()
    path = "versions.db"
    begin(program, path, words)
    acts = [(b"PUT", b"workspaces/net", b'{"keep_versions":3}')] + [(b"POST", b"state/net", b'{"serial":%d}' % serial) for serial in range(1, VERSIONS + 1)]
    for came in ask(program, path, [(b"acme", by_admin(words, *act)) for act in acts]):
        said("the reply to one of them", came[:12], b"HTTP/1.1 200")
    last = by_admin(words, b"POST", b"state/net", b'{"serial":%d}' % (VERSIONS + 1))
    read = by_admin(words, b"GET", b"versions/net/%d" % (VERSIONS + 1))
    great = greatest(program, "greatest.db")
    for name, org, orgs, further in [(path, "acme", words_orgs(words), [last, read]), (great, TEAM, [TEAM], [])]:
        before = all_rows(program.folder + "/" + name)
        said("the organizations of " + name, sorted(before), sorted(orgs))
        for copy in (["org-copy", "--db", name, "--to", "copy.db", org], ["compact", "--db", name, "--to", "copy.db"]):
            said("%s of %s" % (copy[0], name), program.run(copy), (0, b"ok\n", NEW_FILE))
            new = program.folder + "/copy.db"
            said("what %s copies of %s" % (copy[0], name), all_rows(new), {one: before[one] for one in ([org] if copy[0] == "org-copy" else orgs)})
            look_at_form("it", new)
            if further:
                said("how it goes on", [came.startswith(b"HTTP/1.1 200 ") for came in ask(program, new, [(b"acme", one) for one in further])], [True] * len(further))
            else:
                read_all(program, "the greatest values behind " + copy[0], "copy.db", greatest_read(last_numbers(1)))
            forget(new)
    print("right: org-copy and compact behind %d versions, and of the greatest value of each column" % VERSIONS)
    forget(*(program.folder + "/" + name for name in (path, "greatest.db", great)))


def words_orgs(words):
    """The organizations that these words add."""
    return [line.split(" ")[1] for line in words if line.startswith("org-add ")]


def look_at_all(program):
    path = look_at_history(program)
    look_at_words(program, path)
    look_at_many_versions(program)
    some = small(program)
    for look in (look_at_targets, look_at_removals, look_at_copied_removals, look_at_kills, look_at_killed_removals, look_at_memory, look_at_lone_logs):
        look(program, some)


if __name__ == "__main__":
    look_at(__doc__, look_at_all)
