#!/usr/bin/env python3
"""Reads what is left of a database where the power is cut, by SQLite's own library.

    python3 tools/stops.py [PROGRAM [TEXT]]    PROGRAM is crates/stories/out/stories, as `rt run` leaves it

Tells the stories of TEXT (those of crates/stories/stdin and of crates/stories/longest) with STOPS_FOLDER set, so that the program writes the two files that every
tenth stop leaves: as all was written, as it was synced, and torn. Beside each pair stand the rows before the step in which
the power was cut (none where there was no database yet, and those of an earlier version's tables where it was the first open
of such a file) and those behind it. SQLite has to find each pair sound (integrity check, foreign keys check), and its rows
have to be the one or the other; a file of the first version may have been taken to the second, too, with the same rows.
"""

import os
import shutil
import sqlite3
import struct
import subprocess
import sys
import tempfile

import longest

HERE = os.path.dirname(os.path.abspath(__file__))
STORIES = os.path.join(HERE, "..", "crates", "stories")
FIRST = ["meta", "org", "token", "ws", "version", "run", "vpage", "page"]
SECOND = FIRST + ["bound", "edition"]
THIRD = SECOND + ["keeping"]
WAYS = ["written", "synced", "torn"]


def decoded(data):
    """The rows of each table, sorted, as the program writes them: `#` before a table, a line feed before a row, and of each value a mark, a length and its bytes."""
    tables, at = [], 0
    while at < len(data):
        mark, at = data[at : at + 1], at + 1
        if mark == b"#":
            tables.append([])
        elif mark == b"\n":
            tables[-1].append([])
        else:
            (length,) = struct.unpack_from("<Q", data, at)
            tables[-1][-1].append((mark, data[at + 8 : at + 8 + length]))
            at += 8 + length
    return [sorted(table) for table in tables]


def marked(value):
    if value is None:
        return b"n", b""
    if isinstance(value, int):
        return b"i", struct.pack("<q", value)
    if isinstance(value, str):
        return b"t", value.encode()
    return b"b", bytes(value)


def rows_in(conn):
    """The rows of each table, sorted; none where there is no table, and those of eight or ten where the file is of the first or the second version."""
    made = {name for (name,) in conn.execute("SELECT name FROM sqlite_schema WHERE type = 'table'")}
    if not made:
        return []
    tables = next(tables for tables in (THIRD, SECOND, FIRST) if set(tables) <= made)
    return [sorted([marked(value) for value in row] for row in conn.execute(f"SELECT * FROM {table}")) for table in tables]


def looked_at(path, before):
    """The rows that SQLite finds; nothing where no database was there before and none is there now."""
    conn = sqlite3.connect(path)
    try:
        sound = conn.execute("PRAGMA integrity_check").fetchall()
        keys = conn.execute("PRAGMA foreign_key_check").fetchall()
        if (sound, keys) != ([("ok",)], []):
            sys.exit(f"{path}: SQLite says {sound} {keys}")
        return rows_in(conn)
    except sqlite3.DatabaseError as error:
        if before or str(error) != "file is not a database":
            sys.exit(f"{path}: SQLite says {error}")
        return []
    finally:
        conn.close()


def second_of(first):
    """The rows of a file of the first version once it is at the second: each token counts always and for every workspace."""
    ends = [token[:2] + [marked(None), marked("")] for token in first[FIRST.index("token")]]
    return [[]] + first[1:] + [sorted(ends), [[marked(1), marked(2)]]]


def bytes_of(path):
    with open(path, "rb") as file:
        return file.read()


def stopped(program, text, counts):
    """How many stops of the stories of this text were looked at, and how many pairs of files."""
    stops, pairs = 0, 0
    with tempfile.TemporaryDirectory() as room, tempfile.TemporaryDirectory() as folder:
        shutil.copytree(os.path.join(STORIES, "data"), room, dirs_exist_ok=True)
        env = {**os.environ, "STOPS_FOLDER": folder}
        done = subprocess.run([program], input=text, stdout=subprocess.DEVNULL, cwd=room, env=env)
        if done.returncode != 0:
            sys.exit(f"the stories ended with status {done.returncode}")
        for name in sorted(it[: -len(".before")] for it in os.listdir(folder) if it.endswith(".before")):
            stops += 1
            before, after = (decoded(bytes_of(f"{folder}/{name}.{end}")) for end in ["before", "after"])
            for way in WAYS:
                path = f"{folder}/{name}-{way}.db"
                if not os.path.exists(path):
                    continue
                pairs += 1
                found = looked_at(path, before)
                between = second_of(before) if len(before) == len(FIRST) else None
                if found not in [before, between, after]:
                    sys.exit(f"{path}: its rows are neither those before the step nor those behind it")
                where = "before the step" if found == before else "behind it" if found == after else "at the second version"
                counts[where if found else "no database yet"] += 1
    return stops, pairs


def main():
    program = os.path.abspath(sys.argv[1] if len(sys.argv) > 1 else os.path.join(STORIES, "out", "stories"))
    texts = [bytes_of(sys.argv[2])] if len(sys.argv) > 2 else [bytes_of(os.path.join(STORIES, "stdin")), longest.text().encode()]
    counts = dict.fromkeys(["before the step", "behind it", "at the second version", "no database yet"], 0)
    stops, pairs = (sum(it) for it in zip(*(stopped(program, text, counts) for text in texts)))
    told = ", ".join(f"{count} {what}" for what, count in counts.items())
    print(f"{stops} stops, {pairs} pairs of files: SQLite finds each sound ({told})")


if __name__ == "__main__":
    main()
