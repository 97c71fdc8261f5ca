#!/usr/bin/env python3
"""Looks at files that another program made: `check` of the program `custody` finds each table that is defined otherwise than ours.

    python3 tools/foreign.py CUSTODY    the program as `rt ci` or `rt run` leaves it

It makes a file by SQLite for each part of a definition, by our own texts (those of crates/statements/src/making.rt) with one part of
one text changed: a collation, a type, NOT NULL, a default, a key, a CHECK, a foreign key, STRICT, a trigger. `check` has to name the
table, or, where the columns tell that the tables are those of no version, to refuse the file. If several tables are others, it has to
name each. Our own definitions are ours however their texts are spelled, in whatever order they were made, and whatever else stands
beside them. A row may have a number where ours have a flag: that is refused, too.

Every command with --db, and each line of `admin`, has to answer `refused schema` to a file of another schema, and to leave it as it is.
So have the commands that only read a file of an older schema (crates/stories/data), with its version; all others raise it.
Lists of 1 to 100,000 rows are whole. It prints a line for each file, and ends with status 1 at the first that is wrong.
"""

import hashlib
import itertools
import os
import re
import shutil
import sqlite3

from doors import at_door, done
from files import all_in, looking, making
from harness import HERE, Service, Wrong, bytes_of, look_at, ok, request, said, secret_file

SOURCE = HERE + "/../crates/statements/src/making.rt"
ORDER = ["META", "ORG", "TOKEN", "WS", "VERSION", "RUN", "RUN_INDEX", "PAGE", "VPAGE", "VPAGE_INDEX", "BOUND", "EDITION", "KEEPING"]
BY_NAME = sorted(one for one in ORDER if "INDEX" not in one) + ["RUN_INDEX", "VPAGE_INDEX"]

# The version of the schema.
NEWEST = 3

# What is beside our tables in a file, and is nobody's business.
BESIDE = ["CREATE TABLE aside (a)", "CREATE INDEX aside_a ON aside (a)", "CREATE VIEW v AS SELECT 1", "CREATE INDEX org_cap ON org (cap)"]

# Files of ours: what is changed in which text, which changes no definition.
SPELLED = [
    ("a text that is spelled otherwise", "ORG", None, 'create  table "org" (\n  name text not null primary key,\n  cap int not null check ("cap" between 0 and 100000)\n) strict'),
]

# Files of others: what is changed in the text of which table.
OTHERS = [
    ("a collation of a column in a key", "VERSION", "ws TEXT NOT NULL", "ws TEXT NOT NULL COLLATE NOCASE"),
    ("a collation of a name", "WS", "name TEXT NOT NULL", "name TEXT NOT NULL COLLATE NOCASE"),
    ("a collation of a primary key", "ORG", "name TEXT NOT NULL", "name TEXT NOT NULL COLLATE RTRIM"),
    ("a collation of a column in no key", "RUN", "message TEXT NOT NULL", "message TEXT NOT NULL COLLATE NOCASE"),
    ("a type", "PAGE", "bytes BLOB NOT NULL", "bytes ANY NOT NULL"),
    ("a CHECK that is missing", "ORG", " CHECK (cap BETWEEN 0 AND 100000)", ""),
    ("a CHECK of another number", "ORG", "100000", "100001"),
    ("a CHECK on a page that is missing", "PAGE", " CHECK (uses >= 1)", ""),
    ("a CHECK of a holder that is missing", "WS", " CHECK ((run IS NOT NULL) = (kind = 2))", ""),
    ("a CHECK of another form", "KEEPING", "keep BETWEEN 1 AND 1000", "keep > 0 AND keep < 1001"),
    ("a CHECK of the first table", "META", "version = 1", "version = 2"),
    ("a foreign key that is missing", "VPAGE", ", FOREIGN KEY (pkey, twin) REFERENCES page (pkey, twin) ON DELETE RESTRICT", ""),
    ("a foreign key that is missing beside a key", "BOUND", ", FOREIGN KEY (org, name) REFERENCES token (org, name) ON DELETE CASCADE", ""),
    ("an action that is missing", "KEEPING", " ON DELETE CASCADE", ""),
    ("another action", "VPAGE", "ON DELETE RESTRICT", "ON DELETE CASCADE"),
    ("a foreign key that waits", "BOUND", "ON DELETE CASCADE", "ON DELETE CASCADE DEFERRABLE INITIALLY DEFERRED"),
    ("a table that isn't STRICT", "ORG", " STRICT", ""),
    ("a larger table that isn't STRICT", "RUN", " STRICT", ""),
    ("a column more", "WS", ", PRIMARY KEY", ", more TEXT, PRIMARY KEY"),
    ("a column more of a token", "TOKEN", ", PRIMARY KEY", ", more TEXT, PRIMARY KEY"),
    ("a column that is missing", "RUN", "message TEXT NOT NULL, ", ""),
    ("columns in another order", "BOUND", "until INTEGER, prefix TEXT NOT NULL", "prefix TEXT NOT NULL, until INTEGER"),
    ("a column's name in another case", "PAGE", "twin INTEGER NOT NULL, bytes", "Twin INTEGER NOT NULL, bytes"),
    ("a key that falls", "VERSION", "PRIMARY KEY (org, ws, number)", "PRIMARY KEY (org, ws, number DESC)"),
    ("a key that falls by names", "WS", "PRIMARY KEY (org, name)", "PRIMARY KEY (org, name DESC)"),
    ("a default", "WS", "auto INTEGER NOT NULL", "auto INTEGER NOT NULL DEFAULT 1"),
    ("a default that is computed", "RUN", "message TEXT NOT NULL", "message TEXT NOT NULL DEFAULT CURRENT_TIMESTAMP"),
    ("a key that is missing", "TOKEN", ", UNIQUE (org, digest)", ""),
    ("a key more", "RUN", "UNIQUE (org, ws, rkey)", "UNIQUE (org, ws, rkey), UNIQUE (org, ws, created)"),
    ("a column that may be NULL", "VERSION", "serial INTEGER NOT NULL", "serial INTEGER"),
    ("a column that may not be NULL", "BOUND", "until INTEGER", "until INTEGER NOT NULL"),
    ("rowids that are counted", "EDITION", "INTEGER PRIMARY KEY", "INTEGER PRIMARY KEY AUTOINCREMENT"),
]

# Files that no open takes, since a table has other columns than that of any version, or none that can be read.
REFUSED = [
    ("a column more of a version", "VERSION", ", PRIMARY KEY", ", more TEXT, PRIMARY KEY"),
    ("a table without rowids", "VERSION", "STRICT", "STRICT, WITHOUT ROWID"),
]

# Files with several tables of others, by the first change of each table above: each is named, in the order in which ours are made.
SEVERAL = [["TOKEN", "KEEPING"], ["META", "ORG"], ["RUN", "VPAGE", "BOUND"], [name for name in ORDER if "INDEX" not in name]]
UNCHECKED = b"custody: the file's tables have faults, so the service does not start:\n"
UNCOPIED = b"custody: the file's tables have faults, so nothing is copied:\n"

# Files of another schema: what is changed by SQL in one of ours, and the line that says what it has.
OTHER_SCHEMAS = [
    ("a version that isn't known", "UPDATE edition SET version = %d" % (NEWEST + 1), NEWEST + 1),
    ("a version that was never made", "UPDATE edition SET version = 9223372036854775807", 9223372036854775807),
    ("an older version than its tables", "UPDATE edition SET version = %d" % (NEWEST - 1), NEWEST - 1),
    ("a table too few", "DROP TABLE keeping", NEWEST),
    ("two tables too few", "DROP TABLE keeping; DROP TABLE bound", NEWEST),
    ("a table too few, and a column more", "DROP TABLE keeping; ALTER TABLE version ADD COLUMN more TEXT; UPDATE edition SET version = %d" % (NEWEST - 1), NEWEST - 1),
    ("no version", "DELETE FROM edition", None),
    ("a column more", "ALTER TABLE version ADD COLUMN more TEXT", NEWEST),
]
VERSION_LINE = b"custody: the file has version %d of the schema, which this program does not know, or its tables are different\n"
NO_VERSION_LINE = b"custody: the file has tables with this schema's names, but no schema version\n"

# Files of each older schema, the line that refuses to read one, and what `org-list` prints of each.
OLDER = {version: HERE + "/../crates/stories/data/schema-%d.sqlite" % version for version in range(1, NEWEST)}
OLDER_LINE = b"custody: the file has version %d of the schema, an older one: serve or admin raises it\n"
LISTED_OLDER = b"acme 2 200\nbeta 1 3\nempty 0 0\n"

# Lines of `admin`, each of which would print something.
BATCHES = [b"org-add acme", b"org-limit acme 3", b"org-list", b"org-remove acme", b"org-remove acme force", b"token-add acme ci write writewritewrite1", b"token-list acme", b"token-revoke acme ci"]

# How many organizations, tokens, workspaces and runs are listed (of runs at most 1,001: an open slows down with the square of their
# number); the items of one part of a list; and SQL that makes them.
ROWS_LISTED, PART = [1, 2, 49, 50, 51, 999, 1_001, 100_000], 50
MANY = "WITH RECURSIVE many (n) AS (SELECT 1 UNION ALL SELECT n + 1 FROM many WHERE n < %d) "
LISTED = [
    "INSERT INTO org SELECT 'o' || n, 3 FROM many WHERE n > 1",
    "INSERT INTO org VALUES ('o1', 100000)",
    "INSERT INTO token SELECT 'o1', 't' || n, sha('secretsecret' || (100000 + n)), 2 FROM many",
    "INSERT INTO bound SELECT 'o1', 't' || n, NULL, '' FROM many",
    "INSERT INTO ws SELECT 'o1', 'w' || n, 0, 0, NULL, NULL, NULL, NULL, 1, iif(n = 1, (SELECT min(max(n), 1001) + 1 FROM many), 1) FROM many",
    "INSERT INTO keeping SELECT 'o1', 'w' || n, 100 FROM many",
    "INSERT INTO run SELECT 'o1', 'w1', n, 0, NULL, '', 0, 4, 4 FROM many WHERE n <= 1001",
]
WORKSPACE_LISTED = b'{"auto_apply":false,"holder":null,"keep_versions":100,"name":"%s","version":null}'
RUN_LISTED = b'{"action":"applied","created":0,"key":null,"message":"","number":%d,"plan_only":false,"status":"applied"}'

# Triggers on a table of ours: nobody's change to it would be what it says.
TRIGGERS = [
    ("a trigger", "CREATE TRIGGER t AFTER INSERT ON org BEGIN DELETE FROM org; END"),
]

# Rows that our tables admit, and that we never write.
ROWS = [
    ("a flag of 5", "INSERT INTO ws VALUES ('acme', 'net', 5, 0, NULL, NULL, NULL, NULL, 1, 1)"),
    ("a flag below 0", "INSERT INTO ws VALUES ('acme', 'net', -1, 0, NULL, NULL, NULL, NULL, 1, 1)"),
    ("a number below 0", "INSERT INTO ws VALUES ('acme', 'net', 0, 0, NULL, NULL, NULL, NULL, -1, 1)"),
]
# What is beside a workspace of ours with a run, and which row of a run is none that we write.
WORKSPACE = [
    "INSERT INTO org VALUES ('acme', 200)",
    "INSERT INTO ws VALUES ('acme', 'net', 0, 0, NULL, NULL, NULL, NULL, 1, 2)",
    "INSERT INTO run VALUES ('acme', 'net', 1, 0, NULL, '', 0, 4, 4)",
    "INSERT INTO keeping VALUES ('acme', 'net', 100)",
]
FLAG_OF_A_RUN = "INSERT INTO run VALUES ('acme', 'net', 2, 7, NULL, '', 0, 8, 6)"


def our_texts():
    """The texts that make our tables and indexes, by the names of their constants."""
    with open(SOURCE, encoding="utf-8") as file:
        texts = dict(re.findall(r'const MAKE_(\w+): &str =\s*"([^"]*)";', file.read()))
    if sorted(texts) != sorted(ORDER):
        raise Wrong("the texts of %s are those of %s" % (SOURCE, sorted(texts)))
    return texts


def changed(texts, which, old, new):
    """Our texts with one changed, in one place or whole."""
    if old is not None and texts[which].count(old) < 1:
        raise Wrong("%s isn't in the text of %s" % (old, which))
    return {**texts, which: new if old is None else texts[which].replace(old, new)}


class Maker:
    """Makes files, each under a name of its own."""

    names = ("file%d.db" % number for number in itertools.count(1))

    def __init__(self, program, texts):
        self.program, self.texts = program, texts

    def made(self, texts, order=None, more=()):
        """A file with the tables of these texts."""
        path = next(self.names)
        with sqlite3.connect(self.program.folder + "/" + path) as db:
            db.create_function("sha", 1, lambda text: hashlib.sha256(text.encode()).digest())
            for text in [*(texts[one] for one in order or ORDER), "INSERT INTO edition (one, version) VALUES (1, %d)" % NEWEST, *more]:
                db.execute(text)
        db.close()
        # (a file that others may read is told of)
        os.chmod(self.program.folder + "/" + path, 0o600)
        return path

    def copied(self, path):
        """A file that a dump of another one makes."""
        copy = next(self.names)
        with sqlite3.connect(self.program.folder + "/" + path) as old, sqlite3.connect(self.program.folder + "/" + copy) as new:
            new.executescript("\n".join(old.iterdump()))
        old.close()
        new.close()
        return copy


def checked(program, path):
    """The status, and the lines of the output."""
    status, output, _ = program.run(["check", "--db", path])
    return status, output.decode().splitlines()


def are_ours(program, what, path):
    status, lines = checked(program, path)
    if status != 0 or lines[:1] != ["ok"]:
        raise Wrong("%s: ours, but check said %s, %s" % (what, status, lines))
    print("right: ours:", what)


def are_others(program, what, tables, path):
    status, lines = checked(program, path)
    if status == 0 or lines != ["fault table - %s -" % table for table in tables]:
        raise Wrong("%s: other tables %s, but check said %s, %s" % (what, tables, status, lines))
    print("right: told of %s: %s" % (" ".join(tables), what))


def is_refused(program, what, word, path):
    status, lines = checked(program, path)
    if status == 0 or lines != ["refused " + word]:
        raise Wrong("%s: to be refused, but check said %s, %s" % (what, status, lines))
    print("right: refused:", what)


def look_at_ours(program):
    """Our definitions, in whatever words and order."""
    maker = Maker(program, our_texts())
    right = maker.made(maker.texts)
    are_ours(program, "our own texts", right)
    are_ours(program, "whatever stands beside them", maker.made(maker.texts, more=BESIDE))
    are_ours(program, "tables that were made by their names", maker.made(maker.texts, BY_NAME))
    are_ours(program, "a dump", maker.copied(right))
    are_ours(program, "a workspace", maker.made(maker.texts, more=WORKSPACE))
    for what, which, old, new in SPELLED:
        are_ours(program, what, maker.made(changed(maker.texts, which, old, new)))


def look_at_others(program):
    """One part of one definition is another."""
    maker = Maker(program, our_texts())
    for what, which, old, new in OTHERS:
        are_others(program, what, [which.lower()], maker.made(changed(maker.texts, which, old, new)))
    for what, which, old, new in REFUSED:
        is_refused(program, what, "schema", maker.made(changed(maker.texts, which, old, new)))
    for what, trigger in TRIGGERS:
        is_refused(program, what, "schema", maker.made(maker.texts, more=[trigger]))


def look_at_several(program):
    """Several tables are others: `check` names each, and what is refused by `serve --check` and by copies names the same."""
    maker = Maker(program, our_texts())
    for tables in SEVERAL:
        texts, names = maker.texts, [table.lower() for table in tables]
        for _, which, old, new in (next(one for one in OTHERS if one[1] == table) for table in tables):
            texts = changed(texts, which, old, new)
        path = maker.made(texts)
        are_others(program, "%d tables" % len(tables), names, path)
        faults = b"".join(b"fault table - %s -\n" % name.encode() for name in names)
        for words, why in [(["serve", "--check", "--port", "8090", "--count", "1"], UNCHECKED), (["compact", "--to", "new.db"], UNCOPIED), (["org-copy", "--to", "new.db", "acme"], UNCOPIED)]:
            said("%s of %d tables" % (words[0], len(tables)), program.run([words[0], "--db", path, *words[1:]]), (3, b"refused down\n", why + faults))
    print("right: `serve --check`, compact and org-copy name the same tables")


def look_at_schemas(program):
    """Each command with --db, and each line of `admin`, answers `refused schema` to a file of another schema; nothing changes."""
    maker = Maker(program, our_texts())
    folder = program.folder + "/schemas"
    os.mkdir(folder)
    source = program.folder + "/" + maker.made(maker.texts, more=WORKSPACE)
    for number, (what, text, version) in enumerate(OTHER_SCHEMAS):
        path = "%d.db" % number
        os.rename(program.folder + "/" + maker.made(maker.texts, more=[*WORKSPACE, *text.split("; ")]), folder + "/" + path)
        line = NO_VERSION_LINE if version is None else VERSION_LINE % version
        commands = [*looking(path), *making(path, source), *((["admin", "--db", path], batch) for batch in BATCHES)]
        program.run(["check", "--db", path], under=["env", "-C", folder])
        before = all_in(folder)
        for words, given in commands:
            said("%s: %s, %s" % (what, " ".join(words), given), program.run(words, given, under=["env", "-C", folder]), (3, b"refused schema\n", line))
            said("%s: the files behind %s" % (what, words[0]), all_in(folder) == before, True)
        print("right: refused schema: %s, to %d commands" % (what, len(commands)))


def reading(path, source):
    """The words of each command that only reads a file; those of `org-remove` would change another one."""
    for more in [], ["--force"]:
        yield ["org-remove", "--db", source, "--copied-to", path, *more, "acme"]
    yield ["check", "--db", path]
    yield ["org-copy", "--db", path, "--to", "target.db", "acme"]
    yield ["compact", "--db", path, "--to", "target.db"]


def serves_one(program, path, *words):
    """A service that answers one request, and ends."""
    with Service(program, path, 1, *words) as service:
        said("a list of workspaces", service.asked(request(b"GET /v1/acme/workspaces HTTP/1.1"))[:12], b"HTTP/1.1 200")
        service.ends()


def look_at_older(program):
    """A file of an older schema: what only reads it refuses it, with its version, and changes no byte of it; what may change it raises it."""
    maker = Maker(program, our_texts())
    source = maker.made(maker.texts, more=WORKSPACE)
    raising = {
        "admin": lambda path: said("admin", program.run(["admin", "--db", path], b"org-list\n"), (0, LISTED_OLDER, b"")),
        "org-list": lambda path: said("org-list", program.run(["org-list", "--db", path]), (0, LISTED_OLDER, b"")),
        "org-copy, as its target": lambda path: said("org-copy", program.run(["org-copy", "--db", source, "--to", path, "acme"]), (1, b"refused exists\n", b"")),
        "serve": lambda path: serves_one(program, path),
        "serve --check": lambda path: serves_one(program, path, "--check"),
    }
    said("whether a source can be read", program.run(["check", "--db", source])[:2], (0, b"ok\norganizations 1 workspaces 1 versions 0 runs 1 made 0 newest -\n"))
    for version, data in OLDER.items():
        for name, raises in raising.items():
            path = next(maker.names)
            shutil.copyfile(data, program.folder + "/" + path)
            os.chmod(program.folder + "/" + path, 0o600)
            for words in reading(path, source):
                said("%s, of schema %d" % (" ".join(words), version), program.run(words), (3, b"refused schema\n", OLDER_LINE % version))
                said("the file behind %s" % words[0], bytes_of(program.folder + "/" + path) == bytes_of(data), True)
                said("whether %s made a file" % words[0], os.path.exists(program.folder + "/target.db"), False)
            raises(path)
            said("check of what %s raised" % name, program.run(["check", "--db", path])[1].startswith(b"ok\norganizations 3 workspaces 3 "), True)
            said("its list", program.run(["org-list", "--db", path]), (0, LISTED_OLDER, b""))
            said("a copy of it", program.run(["compact", "--db", path, "--to", "target.db"])[:2], (0, b"ok\n"))
            os.remove(program.folder + "/target.db")
            os.remove(program.folder + "/target.db-wal")
            print("right: a file of schema %d is refused where it is only read, and raised by %s" % (version, name))
    said("the organizations of the source", program.run(["org-list", "--db", source]), (0, b"acme 1 200\n", b""))


def parts_of(service, kind, items, names):
    """A list of a service, part by part: each has its items, and says whether there are more."""
    after = b""
    for first in range(0, len(items), PART):
        part, is_more = items[first : first + PART], first + PART < len(items)
        due = ok(b'{"items":[%s],"more":%s}' % (b",".join(part), b"true" if is_more else b"false"))
        asked = request(b"GET /v1/o1/%s%s HTTP/1.1" % (kind, after and b"?after=" + after), token=b"o1.secretsecret100001")
        said("%s from %d on of %d" % (kind.decode(), first + 1, len(items)), service.asked(asked), due)
        after = names[min(first + PART, len(items)) - 1]


def look_at_lists(program):
    """Lists of many organizations, tokens, workspaces and runs are whole: by commands, at the operator's door, and part by part."""
    maker = Maker(program, our_texts())
    for count in ROWS_LISTED:
        path = maker.made(maker.texts, more=[text.replace("SELECT", MANY % count + "SELECT", 1) if "many" in text else text for text in LISTED])
        # (by bytes, as SQLite sorts them)
        numbers = sorted(range(1, count + 1), key=str)
        orgs = b"".join(b"o%d %d %d\n" % ((number, count, 100_000) if number == 1 else (number, 0, 3)) for number in numbers)
        tokens = b"".join(b"t%d admin - -\n" % number for number in numbers)
        # (an open of the largest takes seconds)
        if count < ROWS_LISTED[-1]:
            for words, due in [(["org-list"], orgs), (["token-list", "o1"], tokens)]:
                said("%s of %d rows" % (words[0], count), program.run([words[0], "--db", path, *words[1:]]), (0, due, b""))
            said("admin of %d rows" % count, program.run(["admin", "--db", path], b"org-list\ntoken-list o1\n"), (0, orgs + tokens, b""))
        names = [b"w%d" % number for number in numbers]
        with Service(program, path, None, "--operator", given=secret_file()) as service:
            for command, due in [(b"org-list", orgs), (b"token-list o1", tokens)]:
                said("%s of %d rows at the door" % (command.decode(), count), service.asked(at_door(command)), done(command, due, None).due)
            parts_of(service, b"workspaces", [WORKSPACE_LISTED % name for name in names], names)
            runs = range(1, min(count, 1_001) + 1)
            parts_of(service, b"runs/w1", [RUN_LISTED % number for number in runs], [b"%d" % number for number in runs])
            service.kill()
    print("right: lists of %s rows are whole" % ", ".join(map(str, ROWS_LISTED)))


def look_at_rows(program):
    """Rows that our definitions admit."""
    maker = Maker(program, our_texts())
    with program.damaged():
        for what, row in ROWS:
            is_refused(program, what, "down", maker.made(maker.texts, more=["INSERT INTO org VALUES ('acme', 200)", row, WORKSPACE[-1]]))
        is_refused(program, "a flag of a run", "down", maker.made(maker.texts, more=[*WORKSPACE, FLAG_OF_A_RUN]))


if __name__ == "__main__":
    look_at(__doc__, look_at_ours, look_at_others, look_at_several, look_at_schemas, look_at_older, look_at_lists, look_at_rows)
