#!/usr/bin/env python3
"""Refuses each request for memory in turn, and looks at what comes of it.

    python3 tools/refusals.py CUSTODY STORIES    the two programs as `rt ci` or `rt run` leaves them
    python3 tools/refusals.py CUSTODY            all but the replays that the program `stories` tells
    python3 tools/refusals.py --each ..          those too that an earlier run came to alike

Request for memory number N is refused, for each N; and N and the one behind it. (Of many alike in a row, of a command or a replay,
some: refuse.c. And one in eight of those that an earlier command, or an earlier request of a service without its log, came to alike:
the 32 up to it were for as many bytes each. So the opening of a file is refused throughout once, and in part for each command.)
tools/refusals.txt has what is done meanwhile: requests of a service over a file, each by itself, over what the requests
before it left; frames over a database in memory; commands on a file. Commands at the operator's door stand below. Each run has to end in the right reply, with the
rows of the tables that are due, or in a 503 (`refused down`), with the rows as before; and what was refused is sent
again and has its right reply. Rows are read by SQLite's own library.

With `--log` a service prints the line of either reply, by the rules of model.py. The line of a 503 names what had been read: of each
request and each command at the operator's door, the later memory is refused, the more it names, up to all of it. Where memory for the
line is refused the service prints nothing of it, says so, and ends with status 3; that has to be met behind both replies of each request.
"""

import collections
import concurrent.futures
import hashlib
import os
import re
import select
import shutil
import signal
import sqlite3
import subprocess
import sys
import tempfile

import doors
import model
import stories
from harness import ANSWERED_503, HERE, LOG_STAYS, NEW_FILE, UNCHANGED, UNLOGGED, UNREAD, Wrong, answered, compiled

TEXT = HERE + "/refusals.txt"
# Seconds after which a program that says nothing is held for hanging.
PATIENCE = 300
# Of how many contents of a file the rows are remembered.
KNOWN = 20
# The moment at which each program runs (refuse.c).
MOMENT = 1_700_000_000
# More requests for memory than any run makes.
MOST = 1000000
# How many requests for memory in a row are refused, of a request to a service; of a longer one, and of a whole run, one.
WIDTHS = [1, 2]
LONG = 100000

DOWN_HEAD = (
    b"HTTP/1.1 503 Service Unavailable\r\nDate: Tue, 14 Nov 2023 22:13:20 GMT\r\nConnection: close\r\n"
    b"Cache-Control: private, no-store\r\nContent-Type: application/json\r\nContent-Length: 16\r\n\r\n"
)
DOWN = DOWN_HEAD + b'{"error":"down"}'
LENGTHS = [len(DOWN), len(DOWN_HEAD), len(model.CONTINUE + DOWN)]
REFUSED = (3, b"refused down\n")
# Why `refused down`, as regular expressions. Where memory is refused the line that a file was made may be missing. No other program
# has the file: a copy is made with the locks of the process that it was made from, and each process opens a file once.
CAUSES = [
    b"custody: out of memory\n",
    b"custody: out of memory while opening the file of [0-9]+ bytes\n",
    UNCHANGED,
    UNREAD,
]

# The stories whose requests are sent to a service with `--log` too.
LOGGED = ["a stock client locks, updates and unlocks", "a run begins to hold where a lock is released"]

# The stories whose frames are replayed too; the first one from its first frame on.
REPLAYED = [
    "a state goes in and comes out",
    "a stock client locks, updates and unlocks",
    "one queued run is active and the others wait",
    "a run writes by its ID, while it applies",
    "two organizations share the pages of one text",
    "ten runs with keys",
]

# An operator who may only list. Commands at the operator's door, the replies, and what they leave in the tables; one without a reply
# is that operator's, and refused.
LISTER = doors.Operator(["eye", "listlistlistlist1", "list"])
AT_DOOR = [
    (b"org-add acme", b"ok\n", "INSERT INTO org VALUES ('acme', 200)"),
    (
        b"token-add acme ci write writewritewrite1 until=253402300799 prefix=ne",
        b"ok\n",
        "INSERT INTO token VALUES ('acme', 'ci', sha('writewritewrite1'), 1)",
        "INSERT INTO bound VALUES ('acme', 'ci', 253402300799, 'ne')",
    ),
    (b"token-list acme", b"ci write 253402300799 ne\n"),
    (b"org-limit acme 3", b"ok\n", "UPDATE org SET cap = 3"),
    (b"org-list", b"acme 0 3\n"),
    (b"token-revoke acme ci", None),
    (b"stop", None),
    (b"token-revoke acme ci", b"ok\n", "DELETE FROM token", "DELETE FROM bound"),
    (b"org-remove acme", b"ok\n", "DELETE FROM org"),
    (b"org-remove acme", b"refused absent\n"),
]

# How many requests for memory in a row, for as many bytes each, show that an earlier run came to the last of them alike; and of how many
# such ones one is refused, by turns.
ROW, TURNS = 32, 8

# No replay asks for memory so often once its last step is taken.
BEHIND = 200
# The stories that the program `stories` replays, over so many stores, where a replay is gone on with.
LEFT = "steps that a replay left are taken once"
ALIKE = "pages of two organizations begin alike"
RESUMED = REPLAYED[:5] + [LEFT, ALIKE]
STORES = 4

# The tables of the file, of the first version, of the second and of the third, and those in which the rows that are due
# are told: a version with its text, in a file of the first version each token with no end and the empty prefix, and in
# one of the first or the second each workspace with 100 versions to keep.
FIRST = ["meta", "org", "token", "ws", "version", "run", "page", "vpage"]
SECOND = FIRST + ["bound", "edition"]
TABLES = SECOND + ["keeping"]
TOLD = """
    CREATE TABLE org (name, cap);
    CREATE TABLE token (org, name, digest, role);
    CREATE TABLE bound (org, name, until, prefix);
    CREATE TABLE ws (org, name, auto, kind, lock_id, lock_text, run, released, next_version, next_run);
    CREATE TABLE keeping (org, ws, keep);
    CREATE TABLE version (org, ws, number, serial, lineage, created, body);
    CREATE TABLE run (org, ws, number, plan_only, rkey, message, created, status, action);
"""
COLUMNS = {"org": "*", "token": "*", "bound": "*", "ws": "*", "keeping": "*", "version": "org, ws, number, serial, lineage, created", "run": "*"}
PAGE = 16384


def is_cause(line, causes=CAUSES):
    """Whether a line tells one of these causes."""
    return any(re.fullmatch(cause, line) for cause in causes)


def sha(text):
    return hashlib.sha256(text.encode() if isinstance(text, str) else text).digest()


def rows_of(db, columns):
    return {name: sorted(db.execute("SELECT %s FROM %s" % (columns[name], name)), key=repr) for name in columns}


class Due:
    """The rows that are due, step by step."""

    def __init__(self):
        self.db = sqlite3.connect(":memory:", check_same_thread=False)
        self.db.create_function("sha", 1, sha)
        self.db.executescript(TOLD)

    def take(self, part):
        for sql in part.leaves:
            self.db.execute(sql, {"body": part.bytes})

    def rows(self):
        return rows_of(self.db, {name: "*" for name in COLUMNS})


def text_of(db, version, size):
    """The text of a version, of its pages."""
    pages = db.execute(
        "SELECT place, bytes FROM vpage JOIN page USING (pkey, twin) WHERE org = ? AND ws = ? AND number = ? ORDER BY place", version
    ).fetchall()
    text = b"".join(page for _, page in pages)
    if [place for place, _ in pages] != list(range(len(pages))) or len(text) != size:
        raise Wrong("the pages of %s" % (version,))
    if any(len(page) != PAGE for _, page in pages[:-1]) or any(len(page) == 0 for _, page in pages):
        raise Wrong("the lengths of the pages of %s" % (version,))
    return text


def look_at_pages(db):
    """Each page has its key, stands once, and tells how many rows name it; and no row names one that isn't there."""
    if db.execute("PRAGMA integrity_check").fetchall() != [("ok",)] or db.execute("PRAGMA foreign_key_check").fetchall():
        raise Wrong("the file")
    for key, twin, page, uses in db.execute("SELECT pkey, twin, bytes, uses FROM page"):
        named = db.execute("SELECT count(*) FROM vpage WHERE pkey = ? AND twin = ?", (key, twin)).fetchone()[0]
        if key != sha(page) or twin != 0 or uses != named:
            raise Wrong("page %s" % key.hex())


def tell_version(db, names):
    """A file tells one version of the three, by the tables that it has; one of an earlier version gets the rows that are due, in memory."""
    if names not in [sorted(FIRST), sorted(SECOND), sorted(TABLES)]:
        raise Wrong("the tables are %s" % names)
    if names == sorted(FIRST):
        told, due = db.execute("SELECT one, version FROM meta").fetchall(), [(1, 1)]
        db.execute("CREATE TEMP TABLE bound AS SELECT org, name, NULL AS until, '' AS prefix FROM token")
    else:
        told = db.execute("SELECT one, version FROM edition UNION ALL SELECT one, version FROM meta").fetchall()
        due = [(1, 2 if names == sorted(SECOND) else 3)]
    if "keeping" not in names:
        db.execute("CREATE TEMP TABLE keeping AS SELECT org, name AS ws, 100 AS keep FROM ws")
    if told != due:
        raise Wrong("the version told is %s" % told)


def rows_in_tables(db):
    names = sorted(name for (name,) in db.execute("SELECT name FROM sqlite_master WHERE type = 'table'"))
    if not names:
        return {name: [] for name in COLUMNS}
    tell_version(db, names)
    look_at_pages(db)
    rows = rows_of(db, COLUMNS)
    if db.execute("SELECT count(*) FROM vpage WHERE (org, ws, number) NOT IN (SELECT org, ws, number FROM version)").fetchone()[0]:
        raise Wrong("a text without a version")
    sizes = dict(((org, ws, number), size) for org, ws, number, size in db.execute("SELECT org, ws, number, size FROM version"))
    rows["version"] = [row + (text_of(db, row[:3], sizes[row[:3]]),) for row in rows["version"]]
    return rows


class File:
    """A database in a file, with its log. Of the same bytes the rows are read once."""

    def __init__(self, folder):
        self.folder = folder
        self.parts = [folder + "/t.db", folder + "/t.db-wal"]
        self.known = []
        # What was found last, or put back since.
        self.held = [None, None]

    def bytes(self):
        found = []
        for part in self.parts:
            try:
                with open(part, "rb", 0) as file:
                    found.append(file.read())
            except FileNotFoundError:
                found.append(None)
        if found != self.held:
            self.held = found
        return self.held

    def put_back(self, before):
        """Writes the bytes into the files that are there, which a process may have open, where others were found last."""
        found, self.held = self.held, before
        for part, was, now in zip(self.parts, before, found):
            if was is None and now is not None:
                os.remove(part)
            elif was != now:
                # (a file that is made again is its owner's alone, as the program makes it)
                with os.fdopen(os.open(part, os.O_RDWR | os.O_CREAT, 0o600), "r+b") as file:
                    file.write(was)
                    file.truncate()

    def rows(self, found):
        for known, rows in reversed(self.known):
            if known == found:
                return rows
        rows = self.rows_of(found)
        self.known = self.known[-KNOWN:] + [(found, rows)]
        return rows

    def rows_of(self, found):
        with tempfile.TemporaryDirectory(dir=self.folder) as room:
            for path, part in zip(self.parts, found):
                if part is not None:
                    with open(room + "/" + os.path.basename(path), "wb") as file:
                        file.write(part)
            db = sqlite3.connect(room + "/t.db")
            try:
                return rows_in_tables(db)
            finally:
                db.close()


class Program:
    """A program of which copies are made, at its start or where it accepts a connection."""

    def __init__(self, library, moment, words, folder, given=b""):
        with open(folder + "/in", "wb") as file:
            file.write(given)
        self.streams = [os.open(folder + name, os.O_RDWR | os.O_APPEND | os.O_CREAT, 0o600) for name in ("/out", "/errors")]
        asks, self.asks = os.pipe()
        self.tells, tells = os.pipe()
        self.told = b""
        # (a copy of few large pages is made in less time than one of many small pages)
        env = {"LD_PRELOAD": library, "REFUSE": moment, "ASKED": str(asks), "TOLD": str(tells), "GLIBC_TUNABLES": "glibc.malloc.hugetlb=1"}
        with open(folder + "/in", "rb") as into:
            how = {"stdin": into, "stdout": self.streams[0], "stderr": self.streams[1], "cwd": folder, "env": env, "pass_fds": [asks, tells]}
            self.process = subprocess.Popen(words, start_new_session=True, **how)
        os.close(asks)
        os.close(tells)
        # The bytes of the request for memory before which it waits.
        self.size = 0

    def __enter__(self):
        return self

    def __exit__(self, *_):
        for descriptor in [self.asks, self.tells, *self.streams]:
            os.close(descriptor)
        try:
            self.process.wait(PATIENCE if _[0] is None else 0)
        except subprocess.TimeoutExpired:
            os.killpg(self.process.pid, signal.SIGKILL)
            self.process.wait()

    def ask(self, line):
        os.write(self.asks, line.encode() + b"\n")

    def line(self):
        """What is told next; nothing once the program has ended."""
        while b"\n" not in self.told:
            if not select.select([self.tells], [], [], PATIENCE)[0]:
                raise Wrong("the program hangs")
            more = os.read(self.tells, 4096)
            if not more:
                return ""
            self.told += more
        line, self.told = self.told.split(b"\n", 1)
        return line.decode()

    def is_ready(self):
        """Whether it waits; it has ended otherwise."""
        line = self.line()
        word, _, size = line.partition(" ")
        if word not in ["ready", ""]:
            raise Wrong("the program told " + line)
        self.size = int(size or 0)
        return word == "ready"

    def await_ready(self):
        if not self.is_ready():
            raise Wrong("the program ended")

    def counted(self):
        """What a copy did, the number behind it, and how many requests it made and how many were refused."""
        line = self.line()
        if not line:
            raise Wrong("the program ended")
        word, number, asked, refused = line.split(" ")
        return word, int(number), int(asked), int(refused)

    def sizes(self):
        """The bytes that each request of the last copy was for."""
        self.ask("sizes")
        return [int(size) for size in self.line().split()]

    def said(self):
        """What came on the output and the error stream since it was asked last."""
        found = [os.pread(stream, os.fstat(stream).st_size, 0) for stream in self.streams]
        for stream in self.streams if any(found) else []:
            os.truncate(stream, 0)
        return found


class Counts(collections.Counter):
    """Runs that were refused, runs that were right though something was refused, and those that met no refusal."""

    def of(self, met, is_right):
        self["refused" if not is_right else "right" if met else "unrefused"] += 1


# ----------------------------------------------------------------------------------------------------
# Requests of a service
# ----------------------------------------------------------------------------------------------------


def exchanged(port, sent):
    """What a request gets. The peer resets the connection at its end, so that the system keeps nothing of it."""
    return answered(port, sent, stays=True, patience=PATIENCE, resets=True)


class Asked:
    """A request and its reply, the rows before it and after it, and its exchange in the log of a service that has one."""

    def __init__(self, sent, due, before, rows, told=None):
        self.sent, self.due, self.rows, self.told = sent, due, {False: before, True: rows}, told
        # Behind which replies the log lacked the line, the right one or the 503; and, for each width, which of its rows it had of the 503.
        self.untold, self.told_down = set(), []

    def downs(self):
        """Its 503: for HEAD without its body, where the head was read; behind the line, where one was due."""
        return [DOWN] + [DOWN_HEAD] * self.sent.startswith(b"HEAD ") + [model.CONTINUE + DOWN] * self.due.startswith(model.CONTINUE)

    def widths(self):
        return WIDTHS if len(self.sent) < LONG and len(self.due) < LONG else [1]

    def rows_told(self, is_right):
        """The rows that the log may have: of the right reply, or of its 503."""
        return [self.told.row] if is_right else model.rows_of_503(self.sent, self.told.row)

    def lines(self, place, is_right=True):
        """Its line in the log: each that may be there."""
        return [model.line_of(place, "ok", row) for row in self.rows_told(is_right)] if self.told else [b""]

    def look_at_told(self):
        """The later memory is refused, the more a 503's line names: all that was read up to then, and where only the change is left, all."""
        if not self.told:
            return
        rows, places = self.rows_told(False), self.told_down[0]
        if any(found != sorted(found) for found in self.told_down):
            raise Wrong("the lines of its 503s name more, and then less: %s" % self.told_down)
        # (where two requests in a row are refused, the line of such a 503 may be the second)
        if not places or rows[places[-1]] != rows[-1]:
            raise Wrong("no line of a 503 tells all that was read; the last tells: %s" % (places and rows[places[-1]]))


class Service:
    """A service over a file, of which a copy is made for each run; with its log each request for memory is refused, else those not left."""

    def __init__(self, program, file, counts, earlier):
        self.program, self.file, self.counts, self.earlier, self.place = program, file, counts, earlier, 1
        program.await_ready()
        out, _ = program.said()
        if not out.startswith(b"listening 127.0.0.1:"):
            raise Wrong("the service said %s" % out)
        self.port = int(out.split(b":")[1])
        file.bytes()

    def run(self, asked, first, last):
        """One request of a copy; how many requests for memory it made, whether one was refused, and whether all of it was right."""
        was = self.file.held
        self.program.ask("try %d %d" % (first, last))
        came = exchanged(self.port, asked.sent)
        word, status, made, met = self.program.counted()
        found = self.file.bytes()
        rows = asked.rows[False] if found == was else self.file.rows(found)
        is_right = came == asked.due
        if not is_right and came not in asked.downs():
            raise Wrong("it was answered %s" % came[:400])
        if rows != asked.rows[is_right]:
            raise Wrong("after %s the rows are %s" % (came[:40], rows))
        is_told = self.is_told(asked, is_right, word, status)
        if not is_right:
            self.counts[len(came)] += 1
        if is_told:
            self.end(asked, not is_right and first == last)
        self.file.put_back(was)
        return made, met, is_right and is_told

    def is_told(self, asked, is_right, word, status):
        """Whether a copy said what is due of a reply, and goes on; it may end where the log lacks the line alone."""
        out, errors = self.program.said()
        reason = b"" if is_right else ANSWERED_503 % self.place
        lines = asked.lines(self.place, is_right)
        if (word, errors) == ("accepts", reason) and out in lines:
            if asked.told and not is_right:
                asked.told_down[-1].append(lines.index(out))
            return True
        if asked.told and (word, (status, out), errors) == ("ended", REFUSED, reason + UNLOGGED):
            asked.untold.add(is_right)
            self.counts["untold"] += 1
            return False
        raise Wrong("behind its reply, right: %s, it %s with %d, and said %s and %s" % (is_right, word, status, out, errors))

    def end(self, asked, is_sent_again):
        if is_sent_again:
            self.send_again(asked)
        self.program.ask("end")
        word, status, _, _ = self.program.counted()
        if word != "ended" or status:
            raise Wrong("a copy %s with %d" % (word, status))

    def send_again(self, asked):
        self.program.ask("go")
        came = exchanged(self.port, asked.sent)
        word, status, _, _ = self.program.counted()
        if word != "accepts" or came != asked.due:
            raise Wrong("sent again it %s and was answered %s" % (word, came[:400]))
        self.look(asked, self.place + 1, "sent again")

    def go(self, asked):
        """The service itself takes a request."""
        self.program.ask("go")
        came = exchanged(self.port, asked.sent)
        self.program.await_ready()
        if came != asked.due:
            raise Wrong("with memory it was answered %s" % came[:400])
        self.look(asked, self.place, "with memory")
        self.place += 1

    def look(self, asked, place, how):
        """What a right reply leaves in the file and on both streams."""
        if self.file.rows(self.file.bytes()) != asked.rows[True]:
            raise Wrong("%s it left other rows" % how)
        said = self.program.said()
        if said != [asked.lines(place)[0], b""]:
            raise Wrong("%s it said %s" % (how, said))

    def refuse_each(self, asked):
        """Each request for memory in turn, and it and the one behind it. (Where it made none behind it, these two are one run.)"""
        made, _, is_right = self.run(asked, MOST, MOST)
        if not is_right:
            raise Wrong("no memory was refused, and the run was")
        self.counts.of(0, True)
        sizes = self.program.sizes()
        if len(sizes) != made:
            raise Wrong("of %d requests for memory the sizes of %d are told" % (made, len(sizes)))
        firsts = [place for place, size in enumerate(sizes, 1) if not self.earlier.is_left(size) or asked.told]
        self.earlier.end()
        for width in asked.widths():
            asked.told_down.append([])
            before, firsts = firsts, []
            for first in before:
                try:
                    made, met, is_right = self.run(asked, first, first + width - 1)
                    self.counts.of(met, is_right)
                    if met == 0:
                        raise Wrong("it was not asked for")
                    if made > first:
                        firsts.append(first)
                except Wrong as wrong:
                    raise Wrong("request %d for memory refused, %d in a row: %s" % (first, width, wrong))
        asked.look_at_told()
        if asked.told and asked.untold != {True, False}:
            raise Wrong("the line was left out behind these replies alone, right or not: %s" % asked.untold)


def asked_in(story):
    """The requests and commands of a story with their parts."""
    return [(parts, step) for parts, step in zip(story.plots, story.steps) if step]


def steps_before(story):
    return steps_before(story.after) + asked_in(story.after) if story.after else []


def words_of(sent):
    """The words of a command, as the program takes them, and its standard input."""
    words = sent.split(" ")
    bounds = ["--" + words.pop() for word in words[5:]][::-1]
    secret = words.pop() + "\n" if words[0] == "token-add" else ""
    return [words[0], "--db", "t.db"] + bounds + words[1:], secret.encode()


def asked_next(parts, step, due, rules):
    """The next request, with what is due of it; its exchange by the rules of the log, where there are any."""
    at, sent, reply = step
    before = due.rows()
    due.take(parts[0])
    return Asked(sent, reply, before, due.rows(), rules and rules.exchange(at, sent))


def rooms_of(told, folder):
    """Stories, each with a folder of its own."""
    for number, story in enumerate(told):
        room = "%s/%d" % (folder, number)
        os.mkdir(room)
        yield story, room


def refuse_services(custody, library, told, folder):
    """Each request of these stories in turn, over what the steps of its story before it left."""
    counts, earlier = Counts(), Earlier()
    for story, room in rooms_of(told, folder):
        refuse_service(custody, library, story, room, counts, earlier)
    return counts


def refuse_service(custody, library, story, folder, counts, earlier, *options, rules=None):
    due, file = Due(), File(folder)
    before = steps_before(story)
    commands = [(parts, step) for parts, step in before if isinstance(step[1], str)]
    for parts, (_, sent, _) in commands:
        words, secret = words_of(sent)
        subprocess.run([custody] + words, input=secret, stdout=subprocess.DEVNULL, stderr=subprocess.DEVNULL, check=True, cwd=folder)
        due.take(parts[0])
        if rules:
            rules.operate(sent)
    words = [custody, "serve", "--db", "t.db", "--port", "8090", "--count", "1000000", "--idle", "3600", "--most", "3600", *options]
    with Program(library, "accept", words, folder) as program:
        service = Service(program, file, counts, earlier)
        for parts, step in before[len(commands) :]:
            service.go(asked_next(parts, step, due, rules))
        for place, (parts, step) in enumerate(asked_in(story)):
            asked = asked_next(parts, step, due, rules)
            try:
                service.refuse_each(asked)
                service.go(asked)
            except Wrong as wrong:
                raise Wrong("%s, step %d, %s: %s" % (story.name, place + 1, parts[0].line, wrong))


def refuse_logged(custody, library, story, folder):
    """The same of a service with its log."""
    counts = Counts()
    refuse_service(custody, library, story, folder, counts, Earlier(), "--log", rules=model.Custody())
    return counts


def told_at_door(command, text):
    """The exchange of a command at the door, with its row of the log."""
    word, *names = command.split(b" ")
    org = names[0].decode() if names else None
    subject = names[1].decode() if word in (b"token-add", b"token-revoke") else None
    if text is None:
        told = doors.turned(command, doors.by(LISTER, command), "need-admin", LISTER.name)
    else:
        told = doors.done(command, text, doors.ACTS[word], org, subject)
    told.row = model.row_of(MOMENT, **{key: told.row[key] for key in told.row if key != "end"})
    return told


def refuse_door(custody, library, story, folder, *options):
    """Each command at the operator's door in turn, over a new file. (The story tells only its name.)"""
    counts, due, file = Counts(), Due(), File(folder)
    words = [custody, "serve", "--db", "t.db", "--port", "8090", "--count", "1000000", "--idle", "3600", "--most", "3600", "--operator", *options]
    with Program(library, "accept", words, folder, doors.SECRET + b"\neye listlistlistlist1 list\n") as program:
        service = Service(program, file, counts, Earlier())
        for command, text, *leaves in AT_DOOR:
            before = due.rows()
            for sql in leaves:
                due.db.execute(sql)
            told = told_at_door(command, text)
            reply = told.due.replace(b"Date: DATE", b"Date: " + doors.DATE)
            asked = Asked(told.sent, reply, before, due.rows(), told if options else None)
            try:
                service.refuse_each(asked)
                service.go(asked)
            except Wrong as wrong:
                raise Wrong("%s: %s" % (command.decode(), wrong))
    return counts


def refuse_logged_door(custody, library, story, folder):
    """The same of a service with its log."""
    return refuse_door(custody, library, story, folder, "--log")


# ----------------------------------------------------------------------------------------------------
# Runs of a program, refused at each of its requests
# ----------------------------------------------------------------------------------------------------


class Earlier:
    """What earlier commands, or requests of a service, asked for: each row of sizes, in bytes."""

    turns = TURNS

    def __init__(self):
        self.rows, self.own, self.last, self.turn = set(), set(), collections.deque(maxlen=ROW), 0

    def is_left(self, size):
        """Whether the next request, for so many bytes, isn't refused, since an earlier one came to it alike."""
        self.last.append(size)
        row = tuple(self.last)
        self.own.add(row)
        self.turn += row in self.rows
        return row in self.rows and self.turn % self.turns != 0

    def end(self):
        """A command is over: what it asked for is earlier from now on."""
        self.rows |= self.own
        self.own.clear()
        self.last.clear()


def refuse_run(program, counts, judge, file=None, first=1, is_left=lambda errors: False):
    """A copy is made before each request for memory of a run, from the `first` on. `judge` says of the exit status, of all that
    was printed and of what came on the error stream whether they are right; it is asked of the run itself too, to which
    nothing is refused. What the run asks for where it `is_left`, by what it said on its error stream, is not refused. How many
    requests there were."""
    printed, place = b"", 0
    while program.is_ready():
        place += 1
        out, errors = program.said()
        printed += out
        if is_left(errors) or place < first:
            program.ask("go")
            continue
        stood = file and file.bytes()
        program.ask("try 1 1")
        _, status, _, met = program.counted()
        out, errors = program.said()
        try:
            counts.of(met, judge(status, printed + out, errors))
        except Wrong as wrong:
            raise Wrong("request %d for memory refused: %s" % (place, wrong))
        if file:
            file.put_back(stood)
        program.ask("go")
    out, errors = program.said()
    if not judge(program.process.wait(PATIENCE), printed + out, errors):
        raise Wrong("no memory was refused, and the run was")
    return place


def refuse_frames(custody, library, steps, folder, counts, first):
    """Steps replayed, refused from a request for memory on; how many there were."""
    due = stories.printed(steps)

    def judge(status, out, errors):
        if (status, out) not in [(0, due), REFUSED] or (not is_cause(errors) if status else errors):
            raise Wrong("status %d, %s, %s" % (status, out[:400], errors))
        return status == 0

    with Program(library, "request", [custody, "replay"], folder, stories.framed(steps)) as program:
        return refuse_run(program, counts, judge, first=first)


def refuse_replay(custody, library, story, folder):
    """The frames of a story, replayed. What a replay of the steps before its own asks for is refused in one story alone."""
    counts, first = Counts(), 1
    if story.name != REPLAYED[0]:
        first = refuse_frames(custody, library, stories.steps_of(story.after), folder, Counts(), MOST) - BEHIND
    refuse_frames(custody, library, stories.steps_of(story), folder, counts, first)
    return counts


class Command:
    """A command on a file, with what it has to print and the rows before it and after it."""

    def __init__(self, custody, parts, file, before, after):
        self.words, self.given = [custody] + parts[0].line.split(" ")[1:], parts[0].bytes or b""
        self.status, self.printed = int(parts[1].line[2:]), parts[1].bytes or b""
        self.whys = [part.line[len("? contains ") :].encode() for part in parts[2:]]
        self.file, self.rows = file, {False: before, True: after}
        # What a refused run may leave, of which it is known that the command is right over it.
        self.good = []
        self.errors = self.run_over(file.bytes())

    def run_over(self, found):
        """Runs the command over another file of these bytes; what came on the error stream."""
        with tempfile.TemporaryDirectory(dir=self.file.folder) as room:
            file = File(room)
            file.put_back(found)
            done = subprocess.run(self.words, input=self.given, capture_output=True, cwd=room)
            made = NEW_FILE if found[0] is None else b""
            rows = file.rows(file.bytes())
            if (done.returncode, done.stdout) != (self.status, self.printed) or rows != self.rows[True]:
                raise Wrong("with memory: status %d, %s, rows %s" % (done.returncode, done.stdout, rows))
        told = done.stderr.removeprefix(made)
        if not all(why in told for why in self.whys) or told and not self.whys:
            raise Wrong("with memory the error stream has %s" % done.stderr)
        return done.stderr

    def judge(self, status, out, errors):
        is_right = (status, out) == (self.status, self.printed)
        if not is_right and (status, out) != REFUSED:
            raise Wrong("status %d, %s, %s" % (status, out, errors))
        found = self.file.bytes()
        rows = self.file.rows(found)
        if rows != self.rows[is_right]:
            raise Wrong("after %s the rows are %s" % (out, rows))
        told = errors.removeprefix(NEW_FILE).removesuffix(LOG_STAYS)
        if told != self.errors.removeprefix(NEW_FILE) if is_right else not is_cause(told):
            raise Wrong("after %s the error stream has %s" % (out, errors))
        if not is_right:
            self.look_again(found)
        return is_right

    def look_again(self, found):
        """After a refusal the command has its right answer, over what was left."""
        if found not in self.good:
            self.run_over(found)
            self.good.append(found)


def copy(folder, line):
    """A file of crates/stories/data, at a path in the folder."""
    _, name, path = line.split(" ")
    shutil.copyfile(os.path.join(os.path.dirname(stories.TEXT), "data", name), os.path.join(folder, path))


def refuse_commands(custody, library, told, folder):
    """Each command of these stories in turn, on the file that the commands of its story before it left."""
    counts, earlier = Counts(), Earlier()
    for story, room in rooms_of(told, folder):
        refuse_commands_of(custody, library, story, room, counts, earlier)
    return counts


def refuse_commands_of(custody, library, story, folder, counts, earlier):
    due, file = Due(), File(folder)
    for parts in story.plots:
        if parts[0].line.startswith("copy "):
            due.take(parts[0])
            copy(folder, parts[0].line)
        if not parts[0].line.startswith("$ "):
            continue
        before = due.rows()
        due.take(parts[0])
        try:
            command = Command(custody, parts, file, before, due.rows())
            with Program(library, "request", command.words, folder, command.given) as program:
                refuse_run(program, counts, command.judge, file, is_left=lambda _, program=program: earlier.is_left(program.size))
            earlier.end()
        except Wrong as wrong:
            raise Wrong("%s, %s: %s" % (story.name, parts[0].line, wrong))


# ----------------------------------------------------------------------------------------------------
# The program `stories`
# ----------------------------------------------------------------------------------------------------

# What a story says that fails for want of memory, beside the 503 that came.
WANT = [b"memory was refused", b"memory or the store refused", b"the file doesn't", b"the tables don't"]


def shown(text):
    return text.replace(b"\r", b"\\r").replace(b"\n", b"\\n")


class Taken:
    """Behind how many of a story's own steps its replays gave up, in the order of the requests that were refused, store by store."""

    def __init__(self):
        self.store, self.found, self.steps = None, collections.defaultdict(list), None

    def is_left(self, errors):
        """Whether the run itself is past a replay of its own steps, or before the first."""
        for line in errors.split(b"\n"):
            if line.startswith(b"replay over "):
                self.store = line
            elif line == b"replayed":
                self.store = None
        return self.store is None

    def add(self, errors):
        for taken, steps in re.findall(rb"^gave up behind (\d+) of (\d+) steps$", errors, re.M):
            self.found[self.store].append(int(taken))
            self.steps = int(steps)

    def look(self, stores):
        """Each step asks for memory: as later and later requests are refused, each number of steps before them is told, rising from 0."""
        for store, found in self.found.items():
            if found != sorted(found) or set(found) != set(range(self.steps)):
                raise Wrong("%s gave up behind %s of %s steps" % (store.decode(), sorted(set(found)), self.steps))
        if len(self.found) != stores:
            raise Wrong("replays over %d stores gave up" % len(self.found))


def refuse_told(program, library, story, folder):
    """A story's own steps replayed over each store in memory: where a replay is refused, the steps that are left are sent again.
    The program compares all rows, where the last of the stores gave up and at the end of each over tables."""
    counts, taken, earlier, text = Counts(), Taken(), Earlier(), told_text(story)
    names = [before.name.encode() for before in chain_of(story)]
    whole = b"".join(b"passed %s\n" % name for name in names) + b"%d stories passed\n" % len(names)

    def judge(status, out, errors):
        if (status, out) == (0, whole):
            taken.add(errors)
            return True
        lines = out.split(b"\n")
        is_down = b"came: " + shown(DOWN) in lines or any(word in out for word in WANT)
        if not (status in [1, 2] and is_down) and (status, out) != (2, b""):
            raise Wrong("status %d, %s" % (status, out))
        return False

    with Program(library, "request", [program], folder, text) as told:

        def is_left(errors):
            """What a replay over an earlier store came to alike is refused in part."""
            store = taken.store
            if taken.is_left(errors):
                return True
            if taken.store != store:
                earlier.end()
            return earlier.is_left(told.size)

        refuse_run(told, counts, judge, is_left=is_left)
    taken.look(STORES)
    return counts


def chain_of(story):
    """The stories before it, and it."""
    return (chain_of(story.after) if story.after else []) + [story]


def told_text(story):
    """A story as the program takes it, below the definitions and the stories before it."""
    with open(stories.TEXT, encoding="utf-8") as file:
        text = file.read().split("\nstory ")[0] + "\n"
    with open(TEXT, encoding="utf-8") as file:
        parts = file.read().split("\nstory ")
    own = dict(part.split("\n", 1) for part in parts[1:])
    for one in chain_of(story):
        lines = [line for line in own[one.name].split("\n") if not line.startswith(("now ", "after ", "resumes"))]
        after = ["after " + one.after.name] if one.after else []
        text += "\n".join(["story " + one.name] + after + ["resumes"] * (one is story) + lines) + "\n"
    return text.encode()


# ----------------------------------------------------------------------------------------------------
# All
# ----------------------------------------------------------------------------------------------------


def read_stories():
    with open(stories.TEXT, encoding="utf-8") as file:
        definitions = file.read().split("\nstory ")[0]
    with open(TEXT, encoding="utf-8") as file:
        return stories.read(definitions + "\n" + file.read())


def jobs_of(told, custody, program):
    """What is to be run: a kind, its function, its program, and a story, or a list of them."""
    of_commands = [story for story in told.values() if any(parts[0].line.startswith("$") for parts in story.plots)]
    of_requests = [story for story in told.values() if story.name not in [LEFT, ALIKE] and story not in of_commands]
    last = [story for story in of_requests if not any(story is later.after for later in told.values())]
    jobs = [("commands on a file", refuse_commands, custody, of_commands), ("requests of a service", refuse_services, custody, last)]
    for story in told.values():
        if story.name in RESUMED and program:
            jobs.append(("steps that a replay left", refuse_told, program, story))
        if story.name in REPLAYED:
            jobs.append(("frames replayed", refuse_replay, custody, story))
        if story.name in LOGGED:
            jobs.append(("requests of a service with its log", refuse_logged, custody, story))
    jobs.append(("commands at the operator's door", refuse_door, custody, told["two organizations"]))
    jobs.append(("commands at the operator's door of a service with its log", refuse_logged_door, custody, told["two organizations"]))
    return jobs


def run_job(library, room, number, job):
    kind, refuse, program, story = job
    folder = "%s/%d" % (room, number)
    os.mkdir(folder)
    name = "%d stories" % len(story) if isinstance(story, list) else story.name
    try:
        return kind, name, refuse(program, library, story, folder), None
    except (Wrong, OSError, sqlite3.Error, subprocess.SubprocessError) as error:
        return kind, name, Counts(), error


def tell(kind, name, counts, error):
    runs = "%d runs refused, %d right" % (counts["refused"], counts["right"] + counts["unrefused"])
    print("memory refused, %s, %s: %s" % (kind, name, error or runs), flush=True)


def main():
    words = sys.argv[1:]
    if words[:1] == ["--each"]:
        words, Earlier.turns = words[1:], 1
    if len(words) not in (1, 2):
        sys.exit(__doc__)
    # (a file that others may read is told of)
    os.umask(0o077)
    custody, *programs = map(os.path.abspath, words)
    program = programs[0] if programs else None
    total, failed = Counts(), 0
    with tempfile.TemporaryDirectory(prefix="refusals-") as room:
        library = compiled("refuse", room)
        told = read_stories()
        jobs = jobs_of(told, custody, program)
        failed += not set(LOGGED + REPLAYED + RESUMED) <= set(told)
        with concurrent.futures.ThreadPoolExecutor(len(os.sched_getaffinity(0))) as pool:
            runs = [pool.submit(run_job, library, room, number, job) for number, job in enumerate(jobs)]
            for run in concurrent.futures.as_completed(runs):
                kind, name, counts, error = run.result()
                tell(kind, name, counts, error)
                # (a story in which no request for memory was refused shows nothing)
                failed += error is not None or counts["refused"] + counts["right"] == 0
                total.update(counts)
    for length in LENGTHS:
        failed += total[length] == 0
        print("memory refused: %d replies of the status 503 of %d bytes" % (total[length], length))
    print("memory refused: %d replies of which there is no line, and the service ended" % total["untold"])
    print("memory refused, in all: %d runs refused, %d right" % (total["refused"], total["right"] + total["unrefused"]))
    if failed:
        sys.exit("memory refused: %d FAILED" % failed)


if __name__ == "__main__":
    main()
