#!/usr/bin/env python3
"""Damages files of the program `custody`, and looks at what `serve` answers from them.

    python3 tools/flips.py CUSTODY    the program as `rt ci` or `rt run` leaves it

One file has what a service keeps: two organizations, tokens, versions of one page and of several, a lock and runs. It has the
sums of SQLite's cksumvfs, as each new file; a second has the same rows and no sums. Each is closed, and damaged by a fixed
seed: bits are flipped one at a time, pages are zeroed, swapped or set back to an older form, and the end is cut off. Then the
log is damaged that lies beside the file of a killed service. Each time `serve` is asked for all that the file has, and of
damaged pages `serve --check`, too. Rows are changed by SQL, and `check` has to tell each fault, and `compact` to copy nothing. Bits
of files without sums are flipped, which `org-copy` and `compact` copy to a new file. At last pages are swapped beneath a service
that has the file open, one so large that it doesn't keep all pages in memory.

Allowed is a file that is refused, a 503, and the right answer. A wrong answer fails where a bit of a file with sums was
flipped, where the end of a file was cut off, and where what a damaged log gives isn't a state that was once acknowledged. To
pages of zeros, swapped or older ones, whose sums are right, it is counted and printed, and so is each of a file without sums.
Of `serve --check` a wrong answer fails, but where a page was set back, and its rows fit; and so does one of a file without sums
where the bit stands in a state's text. So does a state of a copy that isn't the one that was posted, wherever the bit stands; and
a copy where the bit stands in a state's text. Beneath a running service a wrong answer fails: each page that it reads has to be the
one that it read at the open, or wrote.
It prints a line for each thing that holds or is counted, and ends with status 1 at the first that doesn't hold.
"""

import os
import random
import re
import sqlite3

import harness
from files import counted
from harness import DOWN, NEW_FILE, Wrong, bytes_of, free_port, look_at, ok, request, said

SEED = 49
FLIPS, PAGES, CUTS, COPIES = 300, 60, 30, 40

# What the error stream tells first where nothing is copied.
UNCOPIED = b"custody: the file's tables have faults, so nothing is copied:\n"

# The bytes of a page, how many of them at its end are the sum, and where the header says so.
PAGE = 1024
SUM_BYTES = 8
RESERVED_AT = 20

SECRETS = {"acme": b"adminadminadmin1", "beta": b"betabetabetabet1"}
ORGS = sorted(SECRETS)


def asking(org, method, path, body=b""):
    return request(b"%s /v1/%s%s HTTP/1.1" % (method, org.encode(), path), body, b"%s.%s" % (org.encode(), SECRETS[org]))


def state(serial, size):
    return b'{"serial":%d,"lineage":"l1","x":"%s"}' % (serial, (b"%d," % serial * size)[:size])


# What makes the older file, and what makes the newer one of it: each request with its organization.
OLDER = [(org, b"PUT", b"/workspaces/%s" % ws, b"") for org in ORGS for ws in (b"app", b"net")]
OLDER += [(org, b"POST", b"/state/net", state(serial, size)) for org in ORGS for serial, size in ((1, 60), (2, 40_000))]
NEWER = [
    ("acme", b"PUT", b"/workspaces/net", b'{"auto_apply":true,"keep_versions":7}'),
    ("acme", b"POST", b"/state/net", state(3, 70_000)),
    ("acme", b"POST", b"/state/app", state(1, 9_000)),
    ("beta", b"POST", b"/state/net", state(3, 41_000)),
    ("acme", b"LOCK", b"/state/app", b'{"ID":"lock-of-app","Who":"somebody"}'),
    ("acme", b"POST", b"/runs/net", b'{"key":"k1","message":"first"}'),
    ("acme", b"POST", b"/runs/net/1/actions/planned", b""),
    ("beta", b"POST", b"/runs/app", b'{"plan_only":true,"message":"a look"}'),
    ("beta", b"POST", b"/runs/app", b'{"key":"k2"}'),
]

# What is acknowledged one after the other by a service that is killed then.
LOGGED = [("beta", b"POST", b"/state/net", state(serial, 100 * serial)) for serial in range(4, 24)]

# All that is asked of a file.
QUESTIONS = [(org, b"GET", b"/workspaces", b"") for org in ORGS]
QUESTIONS += [(org, b"GET", b"/%s/%s" % (kind, ws), b"") for org in ORGS for ws in (b"app", b"net") for kind in (b"workspaces", b"state", b"versions", b"runs")]
QUESTIONS += [(org, b"GET", b"/versions/net/%d" % number, b"") for org in ORGS for number in (1, 2)]


class Service(harness.Service):
    """A service over a file that it may refuse."""

    def begins(self, line):
        self.is_refused = not line.startswith(b"listening ")

    def answer(self, question):
        """The answer, or none where the service has ended."""
        try:
            return self.asked(asking(*question))
        except ConnectionError:
            return None

    def ends_with(self, *statuses):
        status, _, _ = self.left()
        if status not in statuses:
            raise Wrong("a service ended by status %s" % status)


def answers(program, path, questions=QUESTIONS, more=()):
    """What a service over a file answers to each question, none where it refuses or has ended."""
    with Service(program, path, len(questions), *more) as service:
        if service.is_refused:
            service.ends_with(3)
            return [None] * len(questions)
        came = [service.answer(question) for question in questions]
        service.ends_with(0, 3)
    return came


def accepted(service, question):
    """A request that has to be acknowledged."""
    came = service.answer(question)
    if came is None or not came.startswith(b"HTTP/1.1 200 "):
        raise Wrong("%s: %s" % (question[:3], came))


def taken(program, path, asked):
    """Requests that are all acknowledged; the service ends by its count."""
    with Service(program, path, len(asked)) as service:
        for question in asked:
            accepted(service, question)
        service.ends_with(0)


def read(program, name):
    return bytes_of(program.folder + "/" + name)


def write(program, name, content):
    with open(program.folder + "/" + name, "wb") as file:
        file.write(content)
    os.chmod(program.folder + "/" + name, 0o600)


def forget(program, name):
    for end in ("", "-wal"):
        if os.path.exists(program.folder + "/" + name + end):
            os.remove(program.folder + "/" + name + end)


# ----------------------------------------------------------------------------------------------------
# Files that are closed
# ----------------------------------------------------------------------------------------------------


def made(program, name):
    """An older and a newer file with sums, both closed."""
    for org in ORGS:
        said("an organization", program.run(["org-add", "--db", name, org])[:2], (0, b"ok\n"))
        words = ["token-add", "--db", name, "--prefix", "", org, "root", "admin"]
        said("a token", program.run(words, SECRETS[org] + b"\n")[:2], (0, b"ok\n"))
    taken(program, name, OLDER)
    older = read(program, name)
    taken(program, name, NEWER)
    return older, read(program, name)


def made_in(reader):
    return reader.execute("SELECT type, name FROM sqlite_schema ORDER BY rowid").fetchall()


def dumped(reader):
    """SQL that makes tables and indexes in the order in which they were made, then the rows in the order of their rowids. (`iterdump`
    of Python sorts the tables by their names.)"""
    made = reader.execute("SELECT type, name, sql FROM sqlite_schema WHERE sql IS NOT NULL ORDER BY rowid").fetchall()
    yield "BEGIN;"
    yield from (text + ";" for _, _, text in made)
    for kind, table, _ in made:
        if kind == "table":
            columns = [row[1] for row in reader.execute("SELECT * FROM pragma_table_info(?)", [table])]
            values = " || ',' || ".join("quote(%s)" % column for column in columns)
            for rowid, row in reader.execute("SELECT rowid, %s FROM %s ORDER BY rowid" % (values, table)):
                yield "INSERT INTO %s (rowid, %s) VALUES (%d, %s);" % (table, ", ".join(columns), rowid, row)
    yield "COMMIT;"


def without_sums(program, name, content):
    """The same rows in a file that sqlite3 made, which has no sums."""
    write(program, "from.db", content)
    reader = sqlite3.connect("file:%s/from.db?mode=ro&immutable=1" % program.folder, uri=True)
    forget(program, name)
    fresh = sqlite3.connect(program.folder + "/" + name, isolation_level=None)
    fresh.executescript("PRAGMA page_size = %d;\n" % PAGE + "\n".join(dumped(reader)))
    said("the tables and indexes of one that sqlite3 made, in their order", made_in(fresh), made_in(reader))
    fresh.close()
    reader.close()
    os.chmod(program.folder + "/" + name, 0o600)
    return read(program, name)


def flipped(content, chance):
    place = chance.randrange(len(content) * 8)
    damaged = bytearray(content)
    damaged[place // 8] ^= 1 << place % 8
    return "bit %d flipped" % place, bytes(damaged)


def page_of(content, number):
    return content[number * PAGE : (number + 1) * PAGE]


def with_page(content, number, page):
    return content[: number * PAGE] + page + content[(number + 1) * PAGE :]


def zeroed(content, older, chance):
    number = chance.randrange(len(content) // PAGE)
    return "page %d of zeros" % (number + 1), with_page(content, number, bytes(PAGE))


def swapped(content, older, chance):
    one, other = chance.sample(range(len(content) // PAGE), 2)
    first = with_page(content, one, page_of(content, other))
    return "pages %d and %d swapped" % (one + 1, other + 1), with_page(first, other, page_of(content, one))


def set_back(content, older, chance):
    changed = [number for number in range(len(older) // PAGE) if page_of(older, number) != page_of(content, number)]
    number = chance.choice(changed)
    return "page %d set back" % (number + 1), with_page(content, number, page_of(older, number))


def repaged(content, older, chance):
    return chance.choice([zeroed, swapped, set_back])(content, older, chance)


def cut(content, chance):
    length = chance.randrange(1, len(content))
    return "cut to %d bytes" % length, content[:length]


class Counts:
    """How damaged files were answered."""

    def __init__(self, what):
        self.what, self.refused, self.right, self.wrong = what, 0, 0, []

    def take(self, damage, came, due):
        if all(answer is None for answer in came):
            self.refused += 1
        elif all(answer in (None, DOWN, right) for answer, right in zip(came, due)):
            self.right += 1
        else:
            self.wrong.append(damage)

    def tell(self, allows_wrong):
        if self.wrong and not allows_wrong:
            raise Wrong("%s, answered wrongly: %s" % (self.what, ", ".join(self.wrong)))
        kind = "counted" if allows_wrong else "right"
        print("%s: %s: %d refused, %d answered rightly or by 503, %d wrongly" % (kind, self.what, self.refused, self.right, len(self.wrong)))


def damage_all(program, what, content, older, due, kinds):
    """Kinds of damage: what it is, how often, a function that damages, whether a wrong answer is only counted, further words of `serve`."""
    for kind, count, damaged, allows_wrong, more in kinds:
        counts = Counts("%s of %d bytes, %s%s" % (what, len(content), kind, ", over serve --check" if more else ""))
        for _ in range(count):
            damage, bytes_left = damaged()
            write(program, "damaged.db", bytes_left)
            with program.damaged():
                counts.take(damage, answers(program, "damaged.db", more=more), due)
            forget(program, "damaged.db")
        counts.tell(allows_wrong)


def kinds_of(content, older, has_sums):
    chance = random.Random(SEED)
    return [
        ("%d bits flipped one at a time" % FLIPS, FLIPS, lambda: flipped(content, chance), not has_sums, ()),
        ("%d pages zeroed, swapped or set back" % PAGES, PAGES, lambda: repaged(content, older, chance), True, ()),
        ("cut off %d times" % CUTS, CUTS, lambda: cut(content, chance), False, ()),
    ]


def texts_in(content):
    """Where pieces of states' texts stand in a file: each place of the long runs of digits that they have."""
    return [(found.start(), found.end()) for found in re.finditer(rb"[0-9,]{400,}", content)]


def flipped_in_text(content, texts, chance):
    start, end = chance.choice(texts)
    place = chance.randrange(start * 8, end * 8)
    damaged = bytearray(content)
    damaged[place // 8] ^= 1 << place % 8
    return "bit %d of a text flipped" % place, bytes(damaged)


def checked_kinds(content, older, has_sums):
    """The same where `serve` looks for faults first."""
    chance, texts = random.Random(SEED), texts_in(content)
    shuffled = lambda: chance.choice([zeroed, swapped])(content, older, chance)
    kinds = [
        ("%d pages zeroed or swapped" % PAGES, PAGES, shuffled, False, ("--check",)),
        ("%d pages set back" % (PAGES // 2), PAGES // 2, lambda: set_back(content, older, chance), True, ("--check",)),
    ]
    if not has_sums:
        kinds.append(("%d bits of texts flipped one at a time" % (FLIPS // 3), FLIPS // 3, lambda: flipped_in_text(content, texts, chance), False, ("--check",)))
    return kinds


def many(text, count):
    """SQL that goes over the numbers 1 to `count`."""
    return "WITH RECURSIVE many (n) AS (SELECT 1 UNION ALL SELECT n + 1 FROM many WHERE n < %d) %s" % (count, text)


# Each workspace has a row of keeping; acme has two of them before.
MANY_WORKSPACES = many("INSERT INTO ws SELECT 'acme', 'w' || n, 0, 0, NULL, NULL, NULL, NULL, 1, 1 FROM many", 100_001 - 2)
MANY_WORKSPACES += "; " + many("INSERT INTO keeping SELECT 'acme', 'w' || n, 5 FROM many", 100_001 - 2)

# What is changed by SQL in a file whose tables are sound, and the lines that `check` tells then, each once for each row that breaks a
# law, by the laws (tables/specs/Sound.antt); none where the open refuses the file, or a row can't be read.
NET, APP, HELD = "org = 'acme' AND ws = 'net'", "org = 'acme' AND ws = 'app'", "org = 'beta' AND ws = 'app'"
# Three runs, which ended, in a workspace that has none.
RUNS = many("INSERT INTO run SELECT 'beta', 'net', n, 1, NULL, '', 0, 8, 6 FROM many", 3)
RUNS += "; UPDATE ws SET next_run = 4 WHERE org = 'beta' AND name = 'net'"
THEIR = "org = 'beta' AND ws = 'net'"
BREAKS = [
    ("UPDATE version SET size = size + 1 WHERE %s AND number = 2" % NET, [b"text acme net 2"]),
    ("UPDATE version SET size = 1152921504606846976 WHERE %s AND number = 2" % NET, [b"text acme net 2"]),
    ("UPDATE version SET size = size - 16384 WHERE %s AND number = 3" % NET, [b"place acme net 3", b"text acme net 3"]),
    ("UPDATE version SET number = 9 WHERE %s AND number = 3" % NET, 5 * [b"place acme net 3"] + [b"text acme net 9", b"versions acme net -"]),
    ("UPDATE version SET lineage = '%s' WHERE %s AND number = 3" % ("l" * 257, NET), [b"versions acme net 3"]),
    ("UPDATE version SET ws = 'nat' WHERE %s" % NET, [b"ownerless acme nat 1", b"ownerless acme nat 2", b"ownerless acme nat 3", b"place acme net 1"] + 3 * [b"place acme net 2"] + 5 * [b"place acme net 3"] + [b"text acme nat 1", b"text acme nat 2", b"text acme nat 3"]),
    ("UPDATE version SET created = 253402300800 WHERE %s AND number = 3" % NET, None),
    ("UPDATE version SET serial = -1 WHERE %s AND number = 3" % NET, None),
    ("DELETE FROM version WHERE %s AND number = 2" % NET, 3 * [b"place acme net 2"] + [b"versions acme net -"]),
    ("DELETE FROM version WHERE %s AND number = 3" % NET, 5 * [b"place acme net 3"] + [b"versions acme net -"]),
    ("UPDATE page SET bytes = zeroblob(length(bytes)) WHERE rowid = 1", [b"key acme net 1"]),
    ("UPDATE page SET bytes = zeroblob(16384) WHERE rowid = (SELECT max(rowid) FROM page)", [b"key beta net 3", b"text beta net 3"]),
    ("UPDATE page SET bytes = substr(bytes, 2) WHERE rowid = 2", [b"key acme net 2", b"text acme net 2", b"text beta net 2"]),
    ("UPDATE page SET pkey = zeroblob(32) WHERE rowid = 1", None),
    ("UPDATE page SET uses = uses + 1 WHERE rowid = 2", [b"uses acme net 2"]),
    ("UPDATE page SET uses = 9 WHERE rowid = 1", [b"uses acme net 1"]),
    ("INSERT INTO page SELECT pkey, twin + 1, bytes, 1 FROM page WHERE rowid = 1", [b"same-page - - -", b"uses - - -"]),
    ("INSERT INTO page SELECT zeroblob(32), 0, bytes, 1 FROM page WHERE rowid = 1", [b"key - - -", b"uses - - -"]),
    ("DELETE FROM page WHERE rowid = 3", None),
    ("DELETE FROM vpage WHERE %s AND number = 3 AND place = 1" % NET, [b"uses acme net 3", b"text acme net 3"]),
    ("UPDATE vpage SET place = 9 WHERE %s AND number = 3 AND place = 4" % NET, [b"place acme net 3", b"text acme net 3"]),
    ("UPDATE vpage SET place = place + 1 WHERE %s AND number = 1" % NET, [b"place acme net 1", b"text acme net 1"]),
    ("UPDATE vpage SET number = 7 WHERE %s AND number = 1" % NET, [b"place acme net 7", b"text acme net 1"]),
    ("UPDATE vpage SET (pkey, twin) = (SELECT pkey, twin FROM page WHERE rowid = 1) WHERE %s AND number = 3 AND place = 0" % NET, [b"uses acme net 1", b"uses beta net 3", b"text acme net 3"]),
    ("UPDATE ws SET next_version = 3 WHERE org = 'acme' AND name = 'net'", [b"versions acme net -"]),
    ("UPDATE ws SET next_version = 9 WHERE org = 'acme' AND name = 'net'", [b"versions acme net -"]),
    ("UPDATE ws SET next_run = 1 WHERE org = 'acme' AND name = 'net'", [b"runs acme net -"]),
    ("UPDATE ws SET kind = 0, run = NULL WHERE org = 'acme' AND name = 'net'", [b"runs acme net 1"]),
    ("UPDATE ws SET run = 7 WHERE org = 'acme' AND name = 'net'", [b"runs acme net 1"]),
    ("UPDATE ws SET run = 1 WHERE org = 'beta' AND name = 'app'", [b"runs beta app 2"]),
    ("UPDATE ws SET lock_id = 'run-1' WHERE org = 'acme' AND name = 'app'", [b"runs acme app -"]),
    ("UPDATE ws SET lock_id = NULL WHERE org = 'acme' AND name = 'app'", None),
    ("UPDATE ws SET name = 'n t' WHERE org = 'beta' AND name = 'net'", None),
    ("INSERT INTO ws SELECT 'zeta', name, auto, 0, NULL, NULL, NULL, NULL, 1, 1 FROM ws WHERE org = 'acme' AND name = 'net'", [b"unkept zeta net -", b"ownerless zeta net -"]),
    ("UPDATE run SET status = 1 WHERE %s AND number = 1" % NET, [b"runs acme net 1"]),
    ("UPDATE run SET status = 4, action = 4 WHERE %s AND number = 1" % NET, [b"runs acme net 1"]),
    ("UPDATE run SET rkey = '%s' WHERE %s AND number = 1" % ("k" * 65, NET), [b"runs acme net 1"]),
    ("UPDATE run SET message = '%s' WHERE %s AND number = 1" % ("m" * 1001, NET), [b"runs acme net 1"]),
    ("UPDATE run SET plan_only = 1 WHERE %s AND number = 1" % NET, [b"runs acme net 1"]),
    ("UPDATE run SET number = 0 WHERE %s AND number = 1" % NET, None),
    ("UPDATE run SET status = 9 WHERE %s AND number = 1" % NET, None),
    ("DELETE FROM run WHERE %s AND number = 2" % HELD, [b"runs beta app -", b"missing-run beta app 2"]),
    ("UPDATE run SET ws = 'nat' WHERE %s" % HELD, [b"ownerless beta nat 1", b"ownerless beta nat 2", b"runs beta app -", b"missing-run beta app 1"]),
    ("DELETE FROM run", [b"runs acme net -", b"runs beta app -", b"missing-run acme net 1", b"missing-run beta app 1"]),
    ("%s; DELETE FROM run WHERE %s" % (RUNS, THEIR), [b"missing-run beta net 1"]),
    ("%s; DELETE FROM run WHERE %s AND number = 2" % (RUNS, THEIR), [b"missing-run beta net 2"]),
    ("%s; DELETE FROM run WHERE %s AND number = 3" % (RUNS, THEIR), [b"missing-run beta net 3"]),
    ("%s; UPDATE ws SET next_run = 9 WHERE org = 'beta' AND name = 'net'" % RUNS, [b"missing-run beta net 4"]),
    ("DELETE FROM bound WHERE org = 'acme'", [b"unbounded acme root -"]),
    ("UPDATE bound SET prefix = 'a b' WHERE org = 'acme'", [b"range acme root -"]),
    ("UPDATE bound SET until = -1 WHERE org = 'acme'", None),
    ("DELETE FROM keeping WHERE org = 'beta' AND ws = 'net'", [b"unkept beta net -"]),
    ("UPDATE keeping SET keep = 2 WHERE %s" % NET, [b"versions acme net -"]),
    ("UPDATE keeping SET keep = 1001 WHERE %s" % NET, None),
    ("UPDATE token SET digest = zeroblob(31) WHERE org = 'acme'", [b"range acme root -"]),
    ("UPDATE token SET name = 'Root' WHERE org = 'acme'", None),
    ("INSERT INTO token SELECT 'zeta', name, digest, role FROM token WHERE org = 'acme'", [b"unbounded zeta root -", b"ownerless zeta root -"]),
    ("DELETE FROM org WHERE name = 'beta'", [b"ownerless beta root -", b"ownerless beta app -", b"ownerless beta net -"]),
    ("UPDATE org SET name = 'Beta' WHERE name = 'beta'", [b"ownerless beta root -", b"ownerless beta app -", b"ownerless beta net -", b"range Beta - -"]),
    ("UPDATE org SET cap = 100001 WHERE name = 'beta'", None),
    ("INSERT INTO meta VALUES (1, 1)", [b"version - - -"]),
    ("UPDATE ws SET released = 'run-1' WHERE org = 'acme' AND name = 'net'", [b"unlawful acme net -"]),
    ("UPDATE ws SET next_run = 4294967297 WHERE org = 'beta' AND name = 'net'", [b"unlawful beta net -", b"missing-run beta net 1"]),
    (MANY_WORKSPACES, [b"too-many acme - -"]),
    (many("INSERT INTO org SELECT 'Org' || n, 5 FROM many", 49), [b"range Org%d - -" % number for number in range(1, 50)]),
    (many("INSERT INTO org SELECT 'Org' || n, 5 FROM many", 50), [b"range Org%d - -" % number for number in range(1, 51)]),
]

# A second row of one key, which SQLite takes where the table is defined without its keys: the table, and what is added. The open refuses
# each of these files, so no line tells `twice` or `digest-twice` of a file.
TWICE = [
    ("org", "INSERT INTO org SELECT * FROM org WHERE name = 'beta'"),
    ("token", "INSERT INTO token SELECT org, name, zeroblob(32), role FROM token WHERE org = 'acme'"),
    ("token", "INSERT INTO token SELECT org, 'second', digest, role FROM token WHERE org = 'acme'"),
    ("ws", "INSERT INTO ws SELECT * FROM ws WHERE org = 'beta' AND name = 'app'"),
    ("bound", "INSERT INTO bound SELECT * FROM bound WHERE org = 'acme'"),
    ("keeping", "INSERT INTO keeping SELECT * FROM keeping WHERE %s" % NET),
    ("page", "INSERT INTO page SELECT * FROM page WHERE rowid = 1"),
    ("vpage", "INSERT INTO vpage SELECT * FROM vpage WHERE %s AND number = 3 AND place = 1" % NET),
]

# So many faults are told at most.
MOST_FAULTS = 50


def broken(program, name, content, text):
    """The file with its rows changed by SQL, which asks neither for what rows refer to nor for their rules."""
    write(program, name, content)
    writer = sqlite3.connect(program.folder + "/" + name, isolation_level=None)
    writer.execute("PRAGMA ignore_check_constraints = ON")
    writer.executescript("BEGIN; %s; COMMIT" % text)
    if writer.total_changes == 0:
        raise Wrong("it changes nothing: %s" % text)
    writer.close()


def with_twins(program, name, content, table, text):
    """The file with rows of one key: while they are added the table stands there without its keys, and without their indexes."""
    write(program, name, content)
    path = program.folder + "/" + name
    writer = sqlite3.connect(path, isolation_level=None)
    (definition,) = writer.execute("SELECT sql FROM sqlite_schema WHERE type = 'table' AND name = ?", [table]).fetchone()
    indexes = writer.execute("SELECT rowid, * FROM sqlite_schema WHERE type = 'index' AND sql IS NULL AND tbl_name = ?", [table]).fetchall()
    writer.execute("PRAGMA writable_schema = ON")
    writer.execute("UPDATE sqlite_schema SET sql = ? WHERE type = 'table' AND name = ?", [re.sub(r", (PRIMARY KEY|UNIQUE) \([^)]*\)| PRIMARY KEY", "", definition), table])
    writer.execute("DELETE FROM sqlite_schema WHERE type = 'index' AND sql IS NULL AND tbl_name = ?", [table])
    writer.close()
    writer = sqlite3.connect(path, isolation_level=None)
    writer.execute(text)
    if writer.total_changes == 0:
        raise Wrong("it changes nothing: %s" % text)
    writer.execute("PRAGMA writable_schema = ON")
    writer.execute("UPDATE sqlite_schema SET sql = ? WHERE type = 'table' AND name = ?", [definition, table])
    writer.executemany("INSERT INTO sqlite_schema (rowid, type, name, tbl_name, rootpage, sql) VALUES (?, ?, ?, ?, ?, ?)", indexes)
    writer.close()


def copies_of(name):
    """The words that copy a file, or an organization in it, to a new one."""
    to = ["--db", name, "--to", "copy.db"]
    return [["compact", *to], *(["org-copy", *to, org] for org in ORGS)]


def not_copied(program, what, name, why):
    """Nothing of a file is copied, and no file is made for it; why is told."""
    for words in copies_of(name):
        status, output, errors = program.run(words)
        if (status, output) != (3, b"refused down\n") or not why(errors):
            raise Wrong("%s, %s: %d %s %s" % (words[0], what, status, output, errors))
        said("%s, %s: a file that is made" % (words[0], what), [end for end in ("", "-wal") if os.path.exists(program.folder + "/copy.db" + end)], [])


def look_at_rows(program, plain):
    write(program, "sound.db", plain)
    said("check of sound tables", program.run(["check", "--db", "sound.db"])[:2], (0, b"ok\n" + counted(program.folder + "/sound.db")))
    broken(program, "sound.db", plain, RUNS)
    said("check of three runs more", program.run(["check", "--db", "sound.db"])[:2], (0, b"ok\n" + counted(program.folder + "/sound.db")))
    refused, most = 0, 0
    breaks = [(broken, (text,), line) for text, line in BREAKS] + [(with_twins, (table, text), None) for table, text in TWICE]
    for breaking, words, line in breaks:
        text = words[-1]
        breaking(program, "broken.db", plain, *words)
        status, output, errors = program.run(["check", "--db", "broken.db"])
        lines = output.splitlines()
        most = max(most, len(lines))
        if line is None:
            said(text, (status, output), (3, b"refused down\n"))
            refused += 1
        else:
            said(text, (status, sorted(lines)), (1, sorted(b"fault " + fault for fault in line)))
        words = ["serve", "--check", "--db", "broken.db", "--port", str(free_port()), "--count", "1"]
        said("serve --check, " + text, program.run(words)[:2], (3, b"refused down\n"))
        not_copied(program, text, "broken.db", lambda errors: errors == (UNCOPIED + output if line else errors) != b"")
        forget(program, "broken.db")
    print("right: of %d changes by SQL `check` tells the fault of %d and refuses %d files; `serve --check` and copies refuse each" % (len(breaks), len(breaks) - refused, refused))
    for count in (MOST_FAULTS - 1, MOST_FAULTS, MOST_FAULTS + 1):
        broken(program, "broken.db", plain, many("INSERT INTO org SELECT 'Org' || n, 5 FROM many", count))
        status, output, _ = program.run(["check", "--db", "broken.db"])
        due = [b"fault range Org%d - -\n" % number for number in range(1, count + 1)][:MOST_FAULTS]
        said("%d faults" % count, (status, output), (1, b"".join(due)))
        forget(program, "broken.db")
    said("the most lines", most, MOST_FAULTS)
    print("right: of %d faults all are told, of %d the first %d" % (MOST_FAULTS, MOST_FAULTS + 1, MOST_FAULTS))


# What is asked of a copy: the texts, each of which has to be what was posted.
TEXTS_ASKED = [question for question in QUESTIONS if question[2].startswith((b"/state/", b"/versions/net/"))]


def look_at_copies(program, plain, due):
    """A copy of a file without sums in which a bit was flipped has what was posted, or there is none."""
    due = [answer for question, answer in zip(QUESTIONS, due) if question in TEXTS_ASKED]
    chance, texts, copied, refused = random.Random(SEED), texts_in(plain), 0, 0
    for _ in range(COPIES):
        damage, content = flipped_in_text(plain, texts, chance)
        write(program, "damaged.db", content)
        status, output, _ = program.run(["check", "--db", "damaged.db"])
        said("check, %s" % damage, (status, output.startswith(b"fault key ")), (1, True))
        not_copied(program, damage, "damaged.db", lambda errors: errors == UNCOPIED + output)
        forget(program, "damaged.db")
    print("right: of files without sums, %d bits of texts flipped one at a time, nothing is copied, and the faults are told" % COPIES)
    for _ in range(FLIPS // 3):
        damage, content = flipped(plain, chance)
        for words in copies_of("damaged.db"):
            write(program, "damaged.db", content)
            status, output, errors = program.run(words)
            if status == 0:
                said("%s, %s" % (words[0], damage), (output, errors), (b"ok\n", NEW_FILE))
                asked = [(question, answer) for question, answer in zip(TEXTS_ASKED, due) if words[0] == "compact" or question[0] == words[-1]]
                came = answers(program, "copy.db", [question for question, _ in asked])
                said("a copy, %s" % damage, came, [answer for _, answer in asked])
                copied += 1
            elif status == 3:
                said("%s, %s" % (words[0], damage), output in (b"refused down\n", b"refused schema\n"), True)
                refused += 1
            else:
                # (the name of an organization was damaged)
                said("%s, %s" % (words[0], damage), (status, output), (1, b"refused absent\n"))
                refused += 1
            forget(program, "damaged.db")
            forget(program, "copy.db")
    print("right: of files without sums, %d bits flipped one at a time, each copy has the states that were posted: %d copies made, %d refused" % (FLIPS // 3, copied, refused))


def look_at_files(program):
    older, newer = made(program, "whole.db")
    said("a new file has sums", newer[RESERVED_AT], SUM_BYTES)
    due = answers(program, "whole.db")
    if None in due or not all(answer.startswith(b"HTTP/1.1 20") for answer in due):
        raise Wrong("the file as it was left: %s" % due)
    damage_all(program, "a file with sums", newer, older, due, kinds_of(newer, older, True) + checked_kinds(newer, older, True))
    plain_older, plain = without_sums(program, "older.db", older), without_sums(program, "plain.db", newer)
    said("one that sqlite3 made has none", plain[RESERVED_AT], 0)
    said("the same rows", answers(program, "plain.db"), due)
    damage_all(program, "a file without sums", plain, plain_older, due, kinds_of(plain, plain_older, False) + checked_kinds(plain, plain_older, False))
    with program.damaged():
        look_at_rows(program, plain)
        look_at_copies(program, plain, due)


# ----------------------------------------------------------------------------------------------------
# The log beside the file of a killed service
# ----------------------------------------------------------------------------------------------------


def logged(program, name):
    """A file and its log, as a kill leaves them, and all that was acknowledged, one answer after the other."""
    question = [("beta", b"GET", b"/state/net", b"")]
    made(program, name)
    seen = answers(program, name, question)
    with Service(program, name, 1 + 2 * len(LOGGED)) as service:
        for asked in LOGGED:
            accepted(service, asked)
            seen.append(service.answer(question[0]))
    return read(program, name), read(program, name + "-wal"), seen


def look_at_logs(program):
    content, log, seen = logged(program, "killed.db")
    write(program, "left.db", content)
    write(program, "left.db-wal", log)
    question = [("beta", b"GET", b"/state/net", b"")]
    said("what a killed service acknowledged last", answers(program, "left.db", question), seen[-1:])
    forget(program, "left.db")
    chance = random.Random(SEED)
    counts, older = {"refused": 0, "the newest": 0, "an older one": 0}, []
    damages = [flipped(log, chance) for _ in range(FLIPS // 3)] + [cut(log, chance) for _ in range(CUTS)]
    for damage, bytes_left in damages:
        write(program, "left.db", content)
        write(program, "left.db-wal", bytes_left)
        with program.damaged():
            (came,) = answers(program, "left.db", question)
        forget(program, "left.db")
        if came is None or came == DOWN:
            counts["refused"] += 1
        elif came not in seen:
            raise Wrong("a log with %s gives what was never acknowledged: %s" % (damage, came[:200]))
        else:
            counts["the newest" if came == seen[-1] else "an older one"] += 1
    told = ", ".join("%d %s" % (count, what) for what, count in counts.items())
    print("right: a log of %d bytes beside the file of a killed service, %d bits flipped and cut off %d times: each gives a state that was once acknowledged, or none: %s" % (len(log), FLIPS // 3, CUTS, told))


# ----------------------------------------------------------------------------------------------------
# A file that a running service has open
# ----------------------------------------------------------------------------------------------------

# So many workspaces, each with a state of so many bytes, have more pages than a service has in memory whose file was small when it
# was opened (20 MB).
WORKSPACES, STATE_BYTES = 15, 4_000_000


def midst_of(content, text):
    """The page that has the midst of a text, or some bytes behind it: those of the midst may stand in two pages."""
    half, some = len(text) // 2, 50
    return max(content.find(text[start : start + some]) for start in (half, half + some)) // PAGE


def swap_beneath(path, due):
    """Each second of these texts has a page of its midst swapped with the next one's, in a file that somebody has open."""
    with open(path, "r+b") as file:
        content = file.read()
        at = [midst_of(content, text) for text in due]
        said("whether each state is in the file", min(at) >= 0, True)
        for one, other in zip(at[0::2], at[1::2]):
            for number, from_number in ((one, other), (other, one)):
                file.seek(number * PAGE)
                file.write(page_of(content, from_number))


def look_at_open_files(program):
    chance, name = random.Random(SEED), "large.db"
    made(program, name)
    due = [b'{"serial":1,"lineage":"l1","x":"%s"}' % chance.randbytes(STATE_BYTES // 2).hex().encode() for _ in range(WORKSPACES)]
    places = [b"/%%s/large-%d" % number for number in range(WORKSPACES)]
    questions = [("acme", b"GET", place % b"state", b"") for place in places]
    with program.damaged(), Service(program, name, 3 * WORKSPACES + 1) as service:
        for place, text in zip(places, due):
            accepted(service, ("acme", b"PUT", place % b"workspaces", b""))
            accepted(service, ("acme", b"POST", place % b"state", text))
        # What follows a state of 4 MB finds the log copied into the file.
        said("the last state", service.answer(questions[-1]), ok(due[-1]))
        swap_beneath(program.folder + "/" + name, due)
        came = [service.answer(question) for question in questions]
        service.ends_with(0, 3)
    right = sum(answer is not None and answer == ok(text) for answer, text in zip(came, due))
    refused = sum(answer in (None, DOWN) for answer in came)
    if right + refused < WORKSPACES or not refused:
        raise Wrong("pages swapped beneath a service: of %d states %d were answered rightly and %d by 503" % (WORKSPACES, right, refused))
    print("right: pages of %d states swapped beneath a service: %d answered rightly, from memory, %d by 503, none wrongly" % (WORKSPACES, right, refused))


if __name__ == "__main__":
    look_at(__doc__, look_at_files, look_at_logs, look_at_open_files)
