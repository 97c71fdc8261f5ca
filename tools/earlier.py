#!/usr/bin/env python3
"""Makes the files of earlier versions in which two organizations share a text of three pages, with each of two keys of
pages, and one of this version that has no index of ours, by SQLite's own library.

    python3 tools/earlier.py [FOLDER]

Without a folder they go into crates/stories/data, where the stories read them. The tables of the first version and of the
second are, text for text, those of schema-1.sqlite and schema-2.sqlite, which the program of that version made; the rows are
those of the first steps of the story `two organizations share the pages of one text`. A page's key is the SHA-256 of its bytes.
In the files by first bytes it is a page's first byte and 31 zero bytes; there one organization has a second version, whose
pages begin like others and so have twin numbers."""
import hashlib, os, sqlite3, sys

DATA = os.path.join(os.path.dirname(os.path.dirname(os.path.abspath(__file__))), "crates", "stories", "data")
PAGE = 16384
SIZE = 40000
AT = 1700000000
KEPT = 100
TOKENS = [
    ("acme", "root", "adminadminadmin1", 2),
    ("acme", "ci", "writewritewrite1", 1),
    ("acme", "eye", "readreadreadread", 0),
    ("beta", "root", "betabetabetabeta", 2),
]
HOMES = ["acme", "beta"]
# The texts of each organization's versions: their serials, and the letter that fills them.
SHARED = {"acme": [(1, b"a")], "beta": [(1, b"a")]}
ALIKE = {"acme": [(1, b"a")], "beta": [(1, b"a"), (2, b"b")]}
KEEPING = (
    "CREATE TABLE keeping (org TEXT NOT NULL, ws TEXT NOT NULL, keep INTEGER NOT NULL CHECK (keep BETWEEN 1 AND 1000), "
    "PRIMARY KEY (org, ws), FOREIGN KEY (org, ws) REFERENCES ws (org, name) ON DELETE CASCADE) STRICT"
)


def text(serial, letter):
    front, end = b'{"serial":%d,"x":"' % serial, b'"}'
    return front + letter * (SIZE - len(front) - len(end)) + end


def pages(version):
    whole = text(*version)
    return [whole[at : at + PAGE] for at in range(0, SIZE, PAGE)]


def sha(page):
    return hashlib.sha256(page).digest()


def first_byte(page):
    return page[:1] + bytes(31)


def kept_of(versions, key):
    """Each page once, in the order in which they come, with its key, its twin number and how often it is in use."""
    kept = {}
    for org in HOMES:
        for page in (page for version in versions[org] for page in pages(version)):
            twins = [twin for found, twin, _ in kept.values() if found == key(page)]
            found, twin, uses = kept.get(page, (key(page), len(twins), 0))
            kept[page] = (found, twin, uses + 1)
    return kept


def tables_of(name, kinds):
    """The texts of the tables, and of the indexes, of a file in the order of their making."""
    conn = sqlite3.connect("file:%s?mode=ro&immutable=1" % os.path.join(DATA, name), uri=True)
    rows = conn.execute("SELECT type, sql FROM sqlite_schema WHERE sql IS NOT NULL ORDER BY rowid").fetchall()
    conn.close()
    return [sql for kind, sql in rows if kind in kinds]


def put_records(conn, versions, key):
    """What stands in the tables of every version."""
    kept = kept_of(versions, key)
    for org in HOMES:
        conn.execute("INSERT INTO org VALUES (?, 200)", (org,))
    for org, name, secret, role in TOKENS:
        conn.execute("INSERT INTO token VALUES (?, ?, ?, ?)", (org, name, sha(secret.encode()), role))
    for org in HOMES:
        conn.execute("INSERT INTO ws VALUES (?, 'net', 0, 0, NULL, NULL, NULL, NULL, ?, 1)", (org, len(versions[org]) + 1))
        for number, (serial, _) in enumerate(versions[org], 1):
            conn.execute("INSERT INTO version VALUES (?, 'net', ?, ?, '', ?, ?)", (org, number, serial, AT, SIZE))
    for page, (found, twin, uses) in kept.items():
        conn.execute("INSERT INTO page VALUES (?, ?, ?, ?)", (found, twin, page, uses))
    for org in HOMES:
        for number, version in enumerate(versions[org], 1):
            for place, page in enumerate(pages(version)):
                conn.execute("INSERT INTO vpage VALUES (?, 'net', ?, ?, ?, ?)", (org, number, place, *kept[page][:2]))


def put_bounds(conn, version):
    """What the second version has beside them."""
    for org, name, _, _ in TOKENS:
        conn.execute("INSERT INTO bound VALUES (?, ?, NULL, '')", (org, name))
    conn.execute("INSERT INTO edition VALUES (1, ?)", (version,))


def put_first(conn, *texts):
    conn.execute("INSERT INTO meta VALUES (1, 1)")
    put_records(conn, *texts)


def put_second(conn, *texts):
    put_records(conn, *texts)
    put_bounds(conn, 2)


def put_third(conn, *texts):
    put_records(conn, *texts)
    put_bounds(conn, 3)
    for org in HOMES:
        conn.execute("INSERT INTO keeping VALUES (?, 'net', ?)", (org, KEPT))


def make(path, tables, put, *texts):
    if os.path.exists(path):
        os.remove(path)
    conn = sqlite3.connect(path, isolation_level=None)
    conn.execute("PRAGMA page_size = 4096")
    conn.execute("PRAGMA journal_mode = wal")
    conn.execute("BEGIN")
    for sql in tables:
        conn.execute(sql)
    put(conn, *texts)
    conn.execute("COMMIT")
    found = conn.execute("PRAGMA integrity_check").fetchall() + conn.execute("PRAGMA foreign_key_check").fetchall()
    conn.close()
    if found != [("ok",)]:
        sys.exit("%s isn't sound: %s" % (path, found))


def main():
    folder = sys.argv[1] if len(sys.argv) > 1 else DATA
    both = ("table", "index")
    first, second = tables_of("schema-1.sqlite", both), tables_of("schema-2.sqlite", both)
    make(os.path.join(folder, "schema-1-shared.sqlite"), first, put_first, SHARED, sha)
    make(os.path.join(folder, "schema-2-shared.sqlite"), second, put_second, SHARED, sha)
    make(os.path.join(folder, "schema-1-first-byte.sqlite"), first, put_first, ALIKE, first_byte)
    make(os.path.join(folder, "schema-2-first-byte.sqlite"), second, put_second, ALIKE, first_byte)
    bare = tables_of("schema-2.sqlite", ("table",)) + [KEEPING]
    make(os.path.join(folder, "no-indexes.sqlite"), bare, put_third, SHARED, sha)


main()
