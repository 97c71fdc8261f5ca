#!/usr/bin/env python3
"""Looks at the files of the program `custody`: who may read them, who has them, and what another program does to them.

    python3 tools/files.py CUSTODY    the program as `rt ci` or `rt run` leaves it

A file behind a link is told of by its own mode and by that of its log. A file that isn't opened is told why. Where there is no
file, or an empty one, only `org-add`, `serve` without `--check` and the target of a copy make one; and beside a log in which a
change may stand nothing is made, and no byte changes. Nor does one where the log is older than the file, which no command opens. `check` tells how many rows there are as SQLite's own library counts them.
One program at a time has a file, and of two that make one neither spoils it. A new file has pages of 1,024 bytes, each with its sum; one that
an older program made keeps its own. A file that sqlite3 wrote to, and whose sums (those of SQLite's cksumvfs, which a new file has) it spoiled so,
comes back by a dump. A write without room shuts no store; a fault of the disk that does ends the service, and a command tells
that its change may have been made (calls.c makes one). A change is synced before its reply, and the log and the file before the
other is written (calls.c tells that). Bodies of any size are answered, and the greatest value of each column is read as it was stored, by
the program or by sqlite3. The log is copied into the file behind the reply to a state that fills it, and a service killed meanwhile has lost
nothing. A service whose file or log is moved, removed or replaced ends before it begins another exchange. What damage does is looked at by flips.py. It prints a line for each thing that holds, and ends with status 1 at the
first that doesn't.
"""

import contextlib
import errno
import json
import os
import re
import resource
import shutil
import sqlite3
import struct
import subprocess
import tempfile
import threading
import time

from harness import ANSWERED_503, DISK, DOWN, IN_USE, LOG_ALONE, LOG_STAYS, MOVED, NEW_FILE, NO_FOLDER, OLD_LOG, PATIENCE, PORT_TAKEN, SECRET_FORM, SMALL_FILES, UNCHANGED, UNFINISHED
from harness import GET, MADE, PUT, Service, Wrong, bytes_of, compiled, free_port, look_at, ok, post, reply, request, said, small_files

READABLE = b"custody: users other than its owner may read the file or its -wal: chmod 600 ends that\n"
NOT_PERMITTED = b"custody: no permission to read and write the file or its folder\n"
NO_FILE = b"custody: the path does not lead to a file, or the file has more than one hard link\n"
NO_TARGET_FOLDER = b"custody: the folder of the --to file does not exist\n"
MISSING = b"custody: there is no file at the path, or it is empty; only org-add, serve without --check, and --to create one\n"
NO_TABLES = b"custody: the file is a database without custody's tables\n"
JOURNAL = b"custody: a rollback journal lies beside the file: open the file with sqlite3 first\n"
CORRUPT = b"custody: the file is damaged: a page's checksum or format is wrong\n"
UNSOUND = b"custody: the file is not a database, or it is damaged: its rows break its schema\n"
NO_ROOM = b"custody: there is no space left on the disk\n"
PORT_NOT_PERMITTED = b"custody: no permission to use the port\n"
PORT = b"custody: could not listen on the port\n"
SHUT = b"custody: a disk error closed the store: check the disk\n"
HALTED = b"custody: a disk error closed the store: check the disk. The change may have been made: look before you repeat it\n"
SECRET = b"adminadminadmin1\n"

# The bytes of a page of a new file, those of one that an older program made, and those of a page's sum.
PAGE, OLDER_PAGE, SUM_BYTES = 1024, 4096, 8

# The bytes of a log without a page, as a close leaves it.
EMPTY_LOG = 41

TEXTS = [b'{"serial":%d,"x":"%s"}' % (serial, b"%d " % serial * 9000) for serial in (1, 2)]


def filled(program, path, told=NEW_FILE):
    """A file with an organization, a workspace and two versions of two pages; closed."""
    said("an organization", program.run(["org-add", "--db", path, "acme"]), (0, b"ok\n", told))
    said("a token", program.run(["token-add", "--db", path, "acme", "root", "admin"], SECRET), (0, b"ok\n", b""))
    with Service(program, path, 1 + len(TEXTS)) as service:
        service.asked(PUT)
        for text in TEXTS:
            said("a state is posted", service.asked(post(text)), ok())
        service.ends()


def look_at_modes(program):
    """A link is told of by where it leads."""
    os.mkdir(program.folder + "/there")
    os.symlink("there/real.db", program.folder + "/link.db")
    path, real = "link.db", program.folder + "/there/real.db"
    program.is_due("a link to nothing is no file", ["org-list", "--db", path], 3, b"refused down\n", MISSING)
    program.is_due("nor is one made there", ["org-add", "--db", path, "acme"], 3, b"refused down\n", NO_FILE)
    said("where the link leads", os.listdir(program.folder + "/there"), [])
    filled(program, "there/real.db")
    lists = ["org-list", "--db", path]
    program.is_due("a file behind a link opens", lists, 0, b"acme 1 200\n")
    for file in (real, real + "-wal"):
        if not os.path.exists(file):
            open(file, "wb").close()
            os.chmod(file, 0o600)
        for mode in (0o640, 0o604):
            os.chmod(file, mode)
            program.is_due("of mode %o is told through a link: %s" % (mode, os.path.basename(file)), lists, 0, b"acme 1 200\n", READABLE)
        os.chmod(file, 0o620)
        program.is_due("others may write: nothing is told of that", lists, 0, b"acme 1 200\n")
        os.chmod(file, 0o600)


def look_at_owners(program):
    """One program at a time has the file."""
    filled(program, "one.db")
    with Service(program, "one.db", 2) as service:
        before = bytes_of(program.folder + "/one.db")
        for words in (["org-list", "--db", "one.db"], ["org-add", "--db", "one.db", "beta"]):
            program.is_due("a second program is refused the file", words, 3, b"refused down\n", IN_USE)
        program.is_due("a second service, too", ["serve", "--db", "one.db", "--port", str(free_port()), "--count", "1"], 3, b"refused down\n", IN_USE)
        said("the file", bytes_of(program.folder + "/one.db") == before, True)
        for _ in range(2):
            said("the first goes on", service.asked(GET), ok(TEXTS[-1]))
        service.ends()
    program.is_due("and leaves it to the next", ["org-list", "--db", "one.db"], 0, b"acme 1 200\n")


def sum_of(body):
    """The sum that SQLite's cksumvfs puts behind the bytes of a page."""
    one = other = 0
    for first, second in struct.iter_unpack("<II", body):
        one = one + first + other & 0xFFFFFFFF
        other = other + second + one & 0xFFFFFFFF
    return struct.pack("<II", one, other)


def blank(size):
    """The only page of a database that has nothing, with its sum, as SQLite's file format has it."""
    head = struct.pack(">16sH6B2I12xII4xI28x4xII", b"SQLite format 3\0", size, 2, 2, SUM_BYTES, 64, 32, 32, 1, 1, 0, 4, 1, 1, 3040001)
    body = (head + struct.pack(">B4xHx", 13, size - SUM_BYTES)).ljust(size - SUM_BYTES, b"\0")
    return body + sum_of(body)


def pages_of(path):
    """How many bytes a page of a closed file has, each of which ends with its sum."""
    content = bytes_of(path)
    size = struct.unpack_from(">H", content, 16)[0]
    for start in range(0, len(content), size):
        body, tail = content[start : start + size - SUM_BYTES], content[start + size - SUM_BYTES : start + size]
        said("the sum of page %d" % (start // size + 1), tail, sum_of(body))
    return size


def look_at_pages(program):
    """A new file has small pages, and each its sum. In a file that an older program made pages stay as large as they are."""
    filled(program, "new.db")
    said("the bytes of a page of a new file", pages_of(program.folder + "/new.db"), PAGE)
    print("right: a new file has pages of %d bytes, each with its sum" % PAGE)
    older = program.folder + "/older.db"
    with open(os.open(older, os.O_CREAT | os.O_WRONLY, 0o600), "wb") as file:
        file.write(blank(OLDER_PAGE))
    filled(program, "older.db", told=b"")
    said("the bytes of a page of an older file", pages_of(older), OLDER_PAGE)
    said("its states", is_right(program, "older.db"), True)
    print("right: a file that has pages of %d bytes keeps them" % OLDER_PAGE)


def look_at_makers(program):
    """Two programs that make one file at a time don't spoil it: each has done what it was asked, or is refused."""
    both, path = 0, program.folder + "/made.db"
    for _ in range(20):
        makers = [program.start(["org-add", "--db", "made.db", org], subprocess.DEVNULL) for org in ("acme", "beta")]
        done = []
        for org, maker in zip((b"acme", b"beta"), makers):
            output, errors = maker.communicate(timeout=PATIENCE)
            if maker.returncode == 0:
                said("what is done", output, b"ok\n")
                done.append(b"%s 0 200\n" % org)
            else:
                said("what isn't", (maker.returncode, output, errors.endswith(IN_USE)), (3, b"refused down\n", True))
        if not done:
            raise Wrong("of two programs that make a file neither does what it was asked")
        both += len(done) == 2
        said("what two programs have made", program.run(["org-list", "--db", "made.db"]), (0, b"".join(done), b""))
        said("the bytes of a page of what they made", pages_of(path), PAGE)
        os.remove(path)
        os.remove(path + "-wal")
    print("right: a file that two programs make at once is whole, and has what they acknowledged (20 times, both %d times)" % both)


def is_right(program, path):
    """Whether a service over the file gives the newest text and the one before it."""
    with Service(program, path, 2) as service:
        newest = service.asked(GET)
        first = service.asked(request(b"GET /v1/acme/versions/net/1 HTTP/1.1"))
        service.ends()
    return (newest, first) == (ok(TEXTS[1]), ok(TEXTS[0]))


def look_at_reasons(program):
    """A file that isn't opened is told why, and stays as it is."""
    filled(program, "good.db")
    folder, lists = program.folder, ["org-list", "--db", "bad.db"]
    good = bytes_of(folder + "/good.db")

    def refused(what, why, path="bad.db"):
        program.is_due("told: %s" % what, ["org-list", "--db", path], 3, b"refused down\n", why)

    refused("a folder that isn't there", NO_FOLDER, "nowhere/bad.db")
    for words in (["org-add", "--db", "nowhere/bad.db", "acme"], ["serve", "--db", "nowhere/bad.db", "--port", str(free_port()), "--count", "1"], ["compact", "--db", "nowhere/bad.db", "--to", "no/bad.db"]):
        program.is_due("told: a folder that isn't there, of %s" % words[0], words, 3, b"refused down\n", NO_FOLDER)
    for words in (["org-copy", "--db", "good.db", "--to", "nowhere/bad.db", "acme"], ["compact", "--db", "good.db", "--to", "nowhere/bad.db"]):
        program.is_due("told: a folder that isn't there, of the target of %s" % words[0], words, 3, b"refused down\n", NO_TARGET_FOLDER)
    refused("a folder in the place of a file", NO_FILE, ".")
    refused("a path at which nothing lies", MISSING, ":memory:")
    program.is_due("told: a path that is no file's name", ["org-add", "--db", ":memory:", "acme"], 3, b"refused down\n", NO_FILE)
    shutil.copyfile(folder + "/good.db", folder + "/bad.db")
    os.chmod(folder + "/bad.db", 0o600)
    os.link(folder + "/bad.db", folder + "/other.db")
    refused("two hard links", NO_FILE)
    os.remove(folder + "/other.db")
    with open(folder + "/bad.db-journal", "wb") as journal:
        journal.write(b"\xd9\xd5\x05\xf9\x20\xa1\x63\xd7")
    refused("a rollback journal", JOURNAL)
    os.remove(folder + "/bad.db-journal")
    program.is_due("without them it opens", lists, 0, b"acme 1 200\n")
    for what, damaged, why in [
        ("a page with a wrong sum", good[:5000] + bytes([good[5000] ^ 1]) + good[5001:], CORRUPT),
        ("no database", b"no database", UNSOUND),
    ]:
        with open(folder + "/bad.db", "wb") as file:
            file.write(damaged)
        refused(what, why)
        said("the file", bytes_of(folder + "/bad.db") == damaged, True)
    os.remove(folder + "/bad.db")
    for blocks in (1, 8):
        ran = program.run(["org-add", "--db", "small.db", "acme"], under=small_files(blocks))
        said("a file that may not grow", ran, (3, b"refused down\n", DISK))
    program.is_due("told: a file that may not grow; it is made later", ["org-add", "--db", "small.db", "acme"], 0, b"ok\n")
    full = dict(os.environ, LD_PRELOAD=compiled("calls", folder), FULL=folder)
    ran = program.run(["org-add", "--db", "roomless.db", "acme"], env=full)
    said("a new file for which the disk has no room", ran, (3, b"refused down\n", NO_ROOM))
    program.is_due("told: the disk has no room; the file is made later", ["org-add", "--db", "roomless.db", "acme"], 0, b"ok\n")
    # (who may read everything isn't refused)
    if os.getuid():
        os.mkdir(folder + "/closed", 0o500)
        refused("a folder that may not be written", NOT_PERMITTED, "closed/bad.db")


def look_at_numbers(program):
    """Each number of errno by which the system refuses a call has the line that says so. (By EDQUOT and ENOSPC a write in an open is the
    kit's error of a full disk.)"""
    library = compiled("calls", program.folder)
    filled(program, "told.db")
    lists, adds = ["org-list", "--db", "told.db"], ["org-add", "--db", "new.db", "acme"]
    serves = ["serve", "--db", "told.db", "--port", str(free_port()), "--count", "1"]
    for words in (["org-list", "--db", "told.db/bad.db"], ["org-add", "--db", "told.db/bad.db", "acme"]):
        program.is_due("told: a file in the place of a folder, of %s" % words[0], words, 3, b"refused down\n", NO_FOLDER)
    program.is_due("told: a file in the place of a folder, of a target", ["compact", "--db", "told.db", "--to", "told.db/bad.db"], 3, b"refused down\n", NO_TARGET_FOLDER)
    for call, names, words, why in [
        ("open", ("EROFS", "EACCES", "EPERM"), lists, NOT_PERMITTED),
        ("open", ("EROFS", "EACCES", "EPERM"), adds, NOT_PERMITTED),
        ("open", ("ENOSPC", "EDQUOT"), adds, NO_ROOM),
        ("open", ("EIO", "EMFILE"), lists, DISK),
        ("pwrite", ("ENOSPC", "EDQUOT"), lists, NO_ROOM),
        ("pwrite", ("ENOSPC", "EDQUOT"), adds, NO_ROOM),
        ("pwrite", ("EIO",), lists, DISK),
        ("bind", ("EACCES",), serves, PORT_NOT_PERMITTED),
        ("bind", ("EADDRINUSE",), serves, PORT_TAKEN),
        ("bind", ("EADDRNOTAVAIL",), serves, PORT),
    ]:
        for name in names:
            env = dict(os.environ, LD_PRELOAD=library, REFUSED="%s %d" % (call, getattr(errno, name)))
            said("%s by %s of %s" % (name, call, words[0]), program.run(words, env=env), (3, b"refused down\n", why))
            print("right: told: %s by %s of %s" % (name, call, words[0]))
    program.is_due("what is refused so leaves the file as it is", lists, 0, b"acme 1 200\n")


def looking(path):
    """The words of each command that makes no file, on a path, with its standard input; each of them would do something, or print something."""
    target = ["--to", "target.db"]
    yield ["org-limit", "--db", path, "acme", "7"], b""
    yield ["org-list", "--db", path], b""
    yield ["org-remove", "--db", path, "acme"], b""
    yield ["org-remove", "--db", path, "--force", "acme"], b""
    yield ["token-add", "--db", path, "acme", "ci", "write"], b"writewritewrite1\n"
    yield ["token-list", "--db", path, "acme"], b""
    yield ["token-revoke", "--db", path, "acme", "root"], b""
    yield ["check", "--db", path], b""
    yield ["serve", "--db", path, "--port", str(free_port()), "--count", "1", "--check"], b""
    yield ["serve", "--db", path, "--port", str(free_port()), "--unlimited", "--check"], b""
    yield ["org-copy", "--db", path, *target, "acme"], b""
    yield ["compact", "--db", path, *target], b""


def making(path, source):
    """The words of each command that makes a file at a path where there is none; two of them copy from another."""
    yield ["org-add", "--db", path, "acme"], b""
    yield ["serve", "--db", path, "--port", str(free_port()), "--count", "1"], b""
    yield ["serve", "--db", path, "--port", str(free_port()), "--unlimited"], b""
    yield ["org-copy", "--db", source, "--to", path, "acme"], b""
    yield ["compact", "--db", source, "--to", path], b""


def all_in(folder):
    """All that stands in a folder: each path with its bytes, or with where a link leads; of an empty log, which each open marks as its own, the name."""
    found = {}
    for where, _, names in os.walk(folder):
        for name in names:
            path = os.path.join(where, name)
            if os.path.islink(path):
                found[path] = os.readlink(path)
            else:
                content = bytes_of(path)
                found[path] = "an empty log" if name.endswith("-wal") and len(content) <= EMPTY_LOG else content
    return found


def refused_all(program, folder, what, path, commands, why):
    """Each of these commands on a path is refused for this reason, and nothing in the folder changes."""
    before, count = all_in(folder), 0
    for words, given in commands(path):
        ran = program.run(words, given, under=["env", "-C", folder])
        said("%s: %s" % (what, " ".join(words)), ran, (3, b"refused down\n", why))
        said("%s: the files behind %s" % (what, words[0]), all_in(folder) == before, True)
        count += 1
    print("right: %s: %d commands are refused, and change nothing" % (what, count))


def look_at_absent(program):
    """Where there is no file, or an empty one, commands that don't begin one refuse it, and make nothing; nor do they make tables in a database of another program."""
    filled(program, "source.db")
    for name, content, is_linked in [("missing", None, False), ("empty", b"", False), ("linked", None, True), ("linked-empty", b"", True)]:
        folder = program.folder + "/" + name
        os.mkdir(folder)
        os.mkdir(folder + "/there")
        path = "there/real.db" if is_linked else "a.db"
        if content is not None:
            open(folder + "/" + path, "wb").close()
            os.chmod(folder + "/" + path, 0o600)
        if is_linked:
            os.symlink(path, folder + "/a.db")
        refused_all(program, folder, "a file that is %s" % name, "a.db", looking, MISSING)
        for words, given, status, output, line in [
            (["token-add", "--db", "a.db", "acme", "ci", "write"], b"short\n", 2, b"refused usage\n", SECRET_FORM),
            (["org-limit", "--db", "a.db", "acme", "x"], b"", 2, b"refused usage\n", b"custody: the value of N must be 0 to 100000 without a leading zero\n"),
        ]:
            said("words and secret are judged first", program.run(words, given, under=["env", "-C", folder]), (status, output, line))
        # (a link to nothing is no place for a file)
        if name != "linked":
            told = NEW_FILE if content is None else b""
            said("a file is made there", program.run(["org-add", "--db", "a.db", "acme"], under=["env", "-C", folder]), (0, b"ok\n", told))
            said("by a copy, too", program.run(["compact", "--db", "a.db", "--to", "b.db"], under=["env", "-C", folder]), (0, b"ok\n", NEW_FILE))
    other = program.folder + "/other"
    os.mkdir(other)
    with contextlib.closing(sqlite3.connect(other + "/a.db", isolation_level=None)) as database:
        database.execute("CREATE TABLE other (a)")
        database.execute("INSERT INTO other VALUES (1)")
    os.chmod(other + "/a.db", 0o600)
    # (an open leaves a log)
    said("a look at another program's database", program.run(["check", "--db", "a.db"], under=["env", "-C", other]), (3, b"refused down\n", NO_TABLES))
    refused_all(program, other, "a database of another program", "a.db", looking, NO_TABLES)
    with contextlib.closing(sqlite3.connect("file:%s/a.db?mode=ro&immutable=1" % other, uri=True)) as database:
        said("its tables", database.execute("SELECT name FROM sqlite_schema").fetchall(), [("other",)])
    said("tables are made there", program.run(["org-add", "--db", "a.db", "acme"], under=["env", "-C", other]), (0, b"ok\n", b""))


def logged_alone(program, name):
    """The folder of a file whose log has five states: the service was killed; and what they are."""
    folder = program.folder + "/" + name
    os.makedirs(folder + "/there")
    filled(program, name + "/there/real.db")
    os.symlink("there/real.db", folder + "/link.db")
    texts = [large_text(serial, 6000) for serial in range(3, 8)]
    with Service(program, name + "/there/real.db", 1 + len(texts)) as service:
        for text in texts:
            said("a state is posted", service.asked(post(text)), ok())
    said("whether they stand in the log", os.path.getsize(folder + "/there/real.db-wal") > sum(map(len, texts)), True)
    return folder, texts


def look_at_lone_logs(program):
    """A log without its file, or beside an empty one, is left as it is by every command, whatever path leads there; and once the file is back, all is there."""
    every = lambda path: [*looking(path), *making(path, program.folder + "/source.db")]
    folder, texts = logged_alone(program, "lone")
    real, away = folder + "/there/real.db", program.folder + "/away.db"
    os.rename(real, away)
    refused_all(program, folder, "a log without its file", "there/real.db", every, LOG_ALONE)
    refused_all(program, folder + "/there", "a log without its file, from its folder", "real.db", every, LOG_ALONE)
    # (where a link leads to nothing, nothing is made, and no log is found by its path)
    before = all_in(folder)
    for words, given in every("link.db"):
        status, output, errors = program.run(words, given, under=["env", "-C", folder])
        said("a link to where the file was: %s" % words[0], (status, output, errors in (MISSING, NO_FILE, LOG_ALONE)), (3, b"refused down\n", True))
        said("the files behind it", all_in(folder) == before, True)
    open(real, "wb").close()
    os.chmod(real, 0o600)
    for path in ("there/real.db", "link.db", "there/../there/real.db"):
        refused_all(program, folder, "a log beside an empty file, by %s" % path, path, every, LOG_ALONE)
    os.rename(away, real)
    with Service(program, "lone/link.db", len(texts)) as service:
        for number, text in enumerate(texts, 1 + len(TEXTS)):
            said("a state that stood in the log", service.asked(request(b"GET /v1/acme/versions/net/%d HTTP/1.1" % number)), ok(text))
        service.ends()
    print("right: once the file is back beside its log, the %d states are there" % len(texts))
    # The least log in which a page may stand, and one of a byte less.
    for size, due in ((568, (3, b"refused down\n", LOG_ALONE)), (567, (0, b"ok\n", NEW_FILE))):
        with open(os.open(program.folder + "/least.db-wal", os.O_CREAT | os.O_WRONLY | os.O_TRUNC, 0o600), "wb") as log:
            log.write(bytes(size))
        said("a log of %d bytes without its file" % size, program.run(["org-add", "--db", "least.db", "acme"]), due)
    print("right: a log of 568 bytes or more may have a page, and one of less none")


def look_at_old_logs(program):
    """A log that is older than its file is left as it is by every command, and so is the file; without that log, all is there."""
    folder, texts = logged_alone(program, "old")
    real, newest = folder + "/there/real.db", large_text(8, 6000)
    old = bytes_of(real + "-wal")
    with Service(program, "old/there/real.db", 1) as service:
        said("one more state is posted", service.asked(post(newest)), ok())
        service.ends()
    said("whether its log is copied into the file", os.path.getsize(real + "-wal") <= EMPTY_LOG, True)
    with open(real + "-wal", "wb") as log:
        log.write(old)
    for path in ("there/real.db", "link.db"):
        refused_all(program, folder, "a log that is older than its file, by %s" % path, path, lambda path: [*looking(path), *making(path, program.folder + "/source.db")], OLD_LOG)
    os.remove(real + "-wal")
    with Service(program, "old/there/real.db", 1 + len(texts)) as service:
        said("the newest state of the file", service.asked(GET), ok(newest))
        for number, text in enumerate(texts, 1 + len(TEXTS)):
            said("a state before it", service.asked(request(b"GET /v1/acme/versions/net/%d HTTP/1.1" % number)), ok(text))
        service.ends()
    print("right: without that log, the file has all %d states" % (len(TEXTS) + len(texts) + 1))


def counted(path):
    """The line of totals, by SQLite's own library over a copy of a file and its log."""
    with tempfile.TemporaryDirectory() as room:
        for end in ("", "-wal"):
            if os.path.exists(path + end):
                shutil.copy(path + end, room + "/copy.db" + end)
        with contextlib.closing(sqlite3.connect(room + "/copy.db")) as database:
            numbers = [database.execute("SELECT count(*) FROM " + table).fetchone()[0] for table in ("org", "ws", "version", "run")]
            (newest,) = database.execute("SELECT max(created) FROM version").fetchone()
            (made,) = database.execute("SELECT coalesce(sum(next_version - 1), 0) FROM ws").fetchone()
    return b"organizations %d workspaces %d versions %d runs %d made %d newest %s\n" % (*numbers, made, b"-" if newest is None else b"%d" % newest)


# The bytes of bodies: around the sizes of pages and of other bodies, and the most of a state.
SIZES = [999, 1_001, 16_383, 16_384, 16_385, 1_000_001, 16_777_216]
MOST_OTHERS = 16_384


def look_at_sizes(program):
    """A state of any size that may be is stored, listed and read byte for byte; other bodies are read up to their limit."""
    filled(program, "sizes.db")
    last = len(TEXTS)
    states = [sized(b'{"serial":%d,"x":"' % (last + place), b'"}', size) for place, size in enumerate(SIZES, 1)]
    asked = [(post(b"1"), reply(b"400 Bad Request", b'{"error":"bad-state"}'))]
    asked += [(post(state), ok()) for state in states]
    asked += [(request(b"GET /v1/acme/versions/net/%d HTTP/1.1" % number), ok(state)) for number, state in enumerate(states, last + 1)]
    for size in [1, *SIZES]:
        wide = size > MOST_OTHERS
        refused = lambda word: reply(b"413 Payload Too Large", b'{"error":"too-large"}') if wide and word == b"bad-lock" else reply(b"400 Bad Request", b'{"error":"%s"}' % word)
        asked.append((request(b"LOCK /v1/acme/state/net HTTP/1.1", b" " * size), refused(b"bad-lock")))
        asked.append((request(b"POST /v1/acme/runs/net HTTP/1.1", b"[" * size), refused(b"bad-body")))
        settings = b'{"keep_versions":100}'.ljust(size) if size > 1 else b"1"
        asked.append((request(b"PUT /v1/acme/workspaces/net HTTP/1.1", settings), refused(b"bad-body") if wide or size == 1 else ok(MADE.replace(b"null}", b"%d}" % (last + len(SIZES))))))
    with Service(program, "sizes.db", len(asked)) as service:
        for sent, due in asked:
            said("whether the reply to %s.. of %d bytes is %s.. of %d" % (sent[:40], len(sent), due[:12], len(due)), service.asked(sent) == due, True)
        service.ends()
    with Service(program, "sizes.db", 2) as service:
        said("whether the newest state is read again", service.asked(GET) == ok(states[-1]), True)
        found = json.loads(service.asked(request(b"GET /v1/acme/versions/net?after=%d HTTP/1.1" % last)).partition(b"\r\n\r\n")[2])
        said("the sizes in the list", [one["size"] for one in found["items"]], SIZES)
        service.ends()
    print("right: states of %s bytes are stored, listed and read, and other bodies up to %d" % (", ".join(map(str, SIZES)), MOST_OTHERS))


def sized(front, end, size):
    """A text of so many bytes."""
    return front + b"s" * (size - len(front) - len(end)) + end


# The greatest values: names, a token's end and prefix, the limit of workspaces, a lock's ID and text, a lineage, a serial, a run's key and
# message, a moment, and the number of a version or a run.
TEAM, HOLDER, SECRET_64, LONG_NAME, ENDS = "o" * 40, "t" * 40, b"s" * 64, "w" * 90, 253_402_300_799
LOCK_ID, LINEAGE, SERIAL, KEY, MESSAGE, NUMBER = "l" * 128, "n" * 256, 2**63 - 1, "k" * 64, "m" * 1_000, 1_000_000_000
LOCK_TEXT = sized(b'{"ID":"%s","Info":"' % LOCK_ID.encode(), b'"}', MOST_OTHERS)
STATE = b'{"serial":%d,"lineage":"%s"}' % (SERIAL, LINEAGE.encode())

# What sqlite3 sets in a copy, which no requests reach. No run may be missing, so only a file that `check` does not pass has the greatest
# number of a run.
SET = """
    UPDATE ws SET next_version = %d WHERE name = 'numbers';
    UPDATE version SET created = %d;
    UPDATE run SET created = %d;
""" % (NUMBER, ENDS, ENDS)
SET_RUN = "UPDATE ws SET next_run = %d WHERE name = 'numbers';" % NUMBER

# Of each column, the greatest number or the most bytes that stand there. (`twin`, `uses` and `place` have no limit, or that of a state.)
GREATEST = {
    "org": {"length(name)": 40, "cap": 100_000},
    "token": {"length(org)": 40, "length(name)": 40, "length(digest)": 32, "role": 2},
    "bound": {"until": ENDS, "length(prefix)": 90},
    "ws": {
        "length(name)": 90, "auto": 1, "kind": 2, "length(lock_id)": 128, "length(lock_text)": MOST_OTHERS, "run": NUMBER,
        "length(released)": 128, "next_version": NUMBER + 1, "next_run": NUMBER + 1,
    },
    "keeping": {"length(ws)": 90, "keep": 1_000},
    "version": {"number": NUMBER, "serial": SERIAL, "length(lineage)": 256, "created": ENDS},
    "run": {"number": NUMBER, "plan_only": 1, "length(rkey)": 64, "length(message)": 1_000, "created": ENDS, "status": 8, "action": 6},
}


def by_holder(method, path, body=b""):
    """A request by the token of the greatest name and secret; or by one without bounds, where that has none of the workspace."""
    secret = SECRET_64 if LONG_NAME in path else b"r" * 16
    return request(b"%s /v1/%s/%s HTTP/1.1" % (method.encode(), TEAM.encode(), path.encode()), body, TEAM.encode() + b"." + secret)


def shown(**members):
    return json.dumps(members, sort_keys=True, separators=(",", ":")).encode()


def workspace_shown(name, holder=None, keep=100, version=None):
    return shown(auto_apply=keep == 1_000, holder=holder, keep_versions=keep, name=name, version=version)


def run_shown(number, status, action, key=None, message="", plan_only=False):
    return shown(action=action, created=ENDS, key=key, message=message, number=number, plan_only=plan_only, status=status)


def version_shown(number, text, serial, lineage):
    return shown(created=ENDS, lineage=lineage, number=number, serial=serial, size=len(text))


def listed(*items):
    return b'{"items":[%s],"more":false}' % b",".join(items)


def greatest_read(numbers=()):
    """What is read of each column, and what is due; `numbers` of a copy in which they were set."""
    canceled = run_shown(1, "canceled", "cancel", KEY, MESSAGE, True)
    read = [
        ("workspaces/" + LONG_NAME, workspace_shown(LONG_NAME, keep=1_000)),
        ("workspaces/locked", workspace_shown("locked", LOCK_ID)),
        ("workspaces/released", workspace_shown("released")),
        ("workspaces/texts", workspace_shown("texts", version=1)),
        ("workspaces/runs", workspace_shown("runs", "run-2")),
        ("state/texts", STATE),
        ("versions/texts", listed(version_shown(1, STATE, SERIAL, LINEAGE))),
        ("versions/texts/1", STATE),
        ("runs/runs", listed(canceled, run_shown(2, "planning", None, KEY[1:]))),
        ("runs/runs/1", canceled),
    ]
    return [("GET", path, b"", due) for path, due in read] + [
        ("UNLOCK", "state/released", b'{"ID":"%s"}' % LOCK_ID.encode(), b""),
        ("POST", "runs/runs", shown(key=KEY), canceled),
        ("GET", "workspaces?after=runs", b"", listed(workspace_shown("texts", version=1), workspace_shown(LONG_NAME, keep=1_000))),
        *numbers,
    ]


def last_numbers(run):
    """What is read of the last version and of this run, and that no number follows the greatest. What requests made has the moment of the clock."""
    is_last = [("POST", "runs/numbers", b"", b'409 {"error":"limit"}')] if run == NUMBER else []
    return [
        ("GET", "workspaces/numbers", b"", workspace_shown("numbers", "run-%d" % run, version=NUMBER)),
        ("GET", "versions/numbers/%d" % NUMBER, b"", b'{"serial":7}'),
        ("GET", "versions/numbers", b"", listed(version_shown(NUMBER, b'{"serial":7}', 7, ""))),
        ("GET", "runs/numbers", b"", listed(run_shown(run, "applying", "confirm"))),
        ("GET", "runs/numbers/%d" % run, b"", run_shown(run, "applying", "confirm")),
        ("POST", "state/numbers?ID=run-%d" % run, b'{"serial":8}', b'409 {"error":"limit"}'),
        *is_last,
    ]


def told_of(wrong, service, method, name, body):
    """The reply; none if it is a 503 without a cause: that is noted, and the next is asked."""
    try:
        return service.asked(by_holder(method, name, body))
    except Wrong as why:
        wrong.append("%s %s: %s" % (method, name[:30], why))
        return None


def read_all(program, what, path, asked, words=()):
    """Each of these is asked of one service; all that differ are told. Moments that requests made are told as ENDS."""
    wrong = []
    with Service(program, path, len(asked), *words) as service:
        for method, name, body, due in asked:
            came = told_of(wrong, service, method, name, body)
            if came is None:
                continue
            came = came.partition(b"\r\n\r\n")
            status = came[0][9:12]
            found = re.sub(rb'"created":\d+', b'"created":%d' % ENDS, came[2])
            found = found if status == b"200" else status + b" " + found
            if found != due:
                wrong.append("%s %s: expected %s, came %s" % (method, name[:30], due[:200], found[:200]))
        if not wrong:
            service.ends()
    if wrong:
        raise Wrong("%s: %s" % (what, "; ".join(wrong)))


def greatest(program, path, run=1):
    """A file with the greatest values, and a copy that sqlite3 made, in which the next version and the moments are the greatest, and the next run is this one."""
    for words, given in [
        (["org-add", "--db", path, "--limit", "100000", TEAM], b""),
        (["token-add", "--db", path, "--until", str(ENDS), "--prefix", LONG_NAME, TEAM, HOLDER, "admin"], SECRET_64 + b"\n"),
        (["token-add", "--db", path, TEAM, "root", "admin"], b"r" * 16 + b"\n"),
    ]:
        said(words[0], program.run(words, given)[:2], (0, b"ok\n"))
    lock = ("LOCK", LOCK_TEXT)
    done = [("PUT", "workspaces/" + LONG_NAME, b'{"auto_apply":true,"keep_versions":1000}')]
    done += [("PUT", "workspaces/" + name, b"") for name in ("locked", "released", "texts", "runs", "numbers")]
    done += [(lock[0], "state/" + name, lock[1]) for name in ("locked", "released")] + [("UNLOCK", "state/released", LOCK_TEXT), ("POST", "state/texts", STATE)]
    done += [("POST", "runs/runs", shown(key=KEY, message=MESSAGE, plan_only=True)), ("POST", "runs/runs/1/actions/cancel", b""), ("POST", "runs/runs", shown(key=KEY[1:]))]
    wrong = []
    with Service(program, path, len(done)) as service:
        for method, name, body in done:
            came = told_of(wrong, service, method, name, body)
            if came is not None and not came.startswith(b"HTTP/1.1 200 "):
                wrong.append("%s %s: %s" % (method, name[:30], came[:12]))
        if not wrong:
            service.ends()
    if wrong:
        raise Wrong("what stores the greatest values: " + "; ".join(wrong))
    read_all(program, "the greatest values that requests store", path, greatest_read())
    lists = [(["org-list", "--db", path], b"%s 6 100000\n" % TEAM.encode()), (["token-list", "--db", path, TEAM], b"root admin - -\n%s admin %d %s\n" % (HOLDER.encode(), ENDS, LONG_NAME.encode()))]
    for words, due in lists:
        said("a list of the greatest values", program.run(words), (0, due, b""))
    _, dump = next(dumps_of(program.folder + "/" + path))
    copy = "set-" + path
    with contextlib.closing(sqlite3.connect(program.folder + "/" + copy, isolation_level=None)) as fresh:
        fresh.executescript(dump + SET + (SET_RUN if run == NUMBER else ""))
    os.chmod(program.folder + "/" + copy, 0o600)
    made = [("POST", "state/numbers", b'{"serial":7}', b"")]
    made += [("POST", "runs/numbers" + step, b"", run_shown(run, *due)) for step, due in [("", ("planning", None)), ("/%d/actions/planned" % run, ("planned", "planned")), ("/%d/actions/confirm" % run, ("applying", "confirm"))]]
    read_all(program, "the last numbers", copy, made)
    return copy


def look_at_greatest(program):
    """The greatest value of each column is stored, and read as it was: by requests, and with numbers and moments that sqlite3 set in a copy."""
    copy = greatest(program, "greatest.db")
    for words in ((), ("--check",)):
        read_all(program, "the greatest values", copy, greatest_read(last_numbers(1)), words)
    said("no fault in them", program.run(["check", "--db", copy]), (0, b"ok\n" + counted(program.folder + "/" + copy), b""))
    copy = greatest(program, "last-run.db", NUMBER)
    read_all(program, "the greatest number of a run", copy, greatest_read(last_numbers(NUMBER)))
    said("the runs before it are missing", program.run(["check", "--db", copy])[:2], (1, b"fault missing-run %s numbers 1\n" % TEAM.encode()))
    with contextlib.closing(sqlite3.connect("file:%s/%s?mode=ro&immutable=1" % (program.folder, copy), uri=True)) as database:
        for table, columns in GREATEST.items():
            for column, due in columns.items():
                said("the greatest %s of %s, by SQLite" % (column, table), database.execute("SELECT max(%s) FROM %s" % (column, table)).fetchone(), (due,))
    print("right: the greatest value of each of %d columns is stored, and read as it was" % sum(map(len, GREATEST.values())))


# How many organizations, workspaces, versions of one workspace and runs there are where they are counted: more than any list has on a page.
MANY = 130


def look_at_totals(program):
    """What `check` counts is what SQLite counts over a copy, and where the newest version isn't the last one."""
    path, check = program.folder + "/many.db", ["check", "--db", "many.db"]
    filled(program, "many.db")
    program.is_due("of a small file the rows are told", check, 0, b"ok\n" + counted(path))
    with Service(program, "many.db", 3 * MANY + 3) as service:
        asked = [b"PUT /v1/acme/workspaces/w-%d HTTP/1.1" % number for number in range(MANY)]
        asked += [b"POST /v1/acme/runs/w-%d HTTP/1.1" % (number % 3) for number in range(MANY)]
        for line in asked:
            said("a request", service.asked(request(line))[:12], b"HTTP/1.1 200")
        said("more versions may be", service.asked(request(b"PUT /v1/acme/workspaces/net HTTP/1.1", b'{"keep_versions":1000}'))[:12], b"HTTP/1.1 200")
        for number in range(MANY):
            said("a state", service.asked(post(b'{"serial":%d}' % (number + 3))), ok())
        for line, body in [(b"POST /v1/acme/state/w-5 HTTP/1.1", STATE), (b"DELETE /v1/acme/state/w-5 HTTP/1.1", b"")]:
            said("a state that is purged", service.asked(request(line, body)), ok())
        service.ends()
    for number in range(MANY):
        said("an organization", program.run(["org-add", "--db", "many.db", "o-%d" % number])[:2], (0, b"ok\n"))
    line = counted(path)
    said("how many there are", line.rpartition(b" made ")[0], b"organizations %d workspaces %d versions %d runs %d" % (1 + MANY, 1 + MANY, 2 + MANY, MANY))
    said("how many versions were ever made", line.split()[9], b"%d" % (3 + MANY))
    program.is_due("of a file with many rows all are told", check, 0, b"ok\n" + line)
    for name, dump in dumps_of(path):
        with contextlib.closing(sqlite3.connect(program.folder + "/many-" + name, isolation_level=None)) as fresh:
            fresh.executescript(dump)
            fresh.execute("UPDATE version SET created = 1700000000 - abs(number - %d)" % (MANY // 2))
        os.chmod(program.folder + "/many-" + name, 0o600)
        line = counted(program.folder + "/many-" + name)
        said("when the newest was made, one in the midst", line.rpartition(b" ")[2], b"1700000000\n")
        program.is_due("the newest version needn't be the last: %s" % name, ["check", "--db", "many-" + name], 0, b"ok\n" + line)


def dumps_of(path):
    """The dumps of a file: by python3, whose tables come by name, and by the program sqlite3, where it is there."""
    reader = sqlite3.connect("file:%s?mode=ro&immutable=1" % path, uri=True)
    yield "iterdump.db", "\n".join(reader.iterdump())
    reader.close()
    shell = shutil.which("sqlite3")
    if shell:
        yield "shell.db", subprocess.run([shell, "-readonly", path, ".dump"], capture_output=True, check=True).stdout.decode()


def look_at_spoiled(program):
    """sqlite3 reads such a file, and spoils it when it writes; a dump brings it back."""
    filled(program, "spoiled.db")
    path = program.folder + "/spoiled.db"
    before = bytes_of(path)
    reader = sqlite3.connect("file:%s?mode=ro&immutable=1" % path, uri=True)
    said("SQLite's own library reads it", reader.execute("SELECT count(*) FROM version").fetchone(), (2,))
    said("and finds it whole", reader.execute("PRAGMA integrity_check").fetchone(), ("ok",))
    reader.close()
    said("a file that is read as immutable", bytes_of(path) == before, True)
    writer = sqlite3.connect(path)
    writer.execute("UPDATE org SET cap = 7")
    writer.commit()
    writer.close()
    program.is_due("a file that sqlite3 wrote to is refused", ["org-list", "--db", "spoiled.db"], 3, b"refused down\n", CORRUPT)
    for name, dump in dumps_of(path):
        fresh = sqlite3.connect(program.folder + "/" + name, isolation_level=None)
        fresh.executescript(dump)
        fresh.close()
        os.chmod(program.folder + "/" + name, 0o600)
        program.is_due("its dump in a new file opens: %s" % name, ["org-list", "--db", name], 0, b"acme 1 7\n")
        said("with its states", is_right(program, name), True)
    print("right: a file that sqlite3 spoiled comes back by its dump")


def look_at_full(program):
    """A write for which there is no room shuts no store: it is answered 503 and told, and the service goes on."""
    filled(program, "full.db")
    with Service(program, "full.db", 3, under=SMALL_FILES) as service:
        change = post(b'{"serial":3}')
        said("the change for which there is no room", service.asked(change), DOWN)
        said("a read after it", service.asked(GET), ok(TEXTS[-1]))
        said("the change again", service.asked(change), DOWN)
        service.ends(0, b"", ANSWERED_503 % 1 + ANSWERED_503 % 3)
    said("what was acknowledged before it", is_right(program, "full.db"), True)
    print("right: a store for which there is no room goes on")


def large_text(serial, count):
    """A state with so many numbers of seven digits, so that its pages differ, and those of another serial from them."""
    return b'{"serial":%d,"x":"%s"}' % (serial, b"".join(b"%07d " % (serial * 1_000_000 + number) for number in range(count)))


def look_at_half(program):
    """A change whose first pages are in the log, where there is no room for the others, leaves all as it was; the next one is made."""
    filled(program, "half.db")
    with Service(program, "half.db", 4, under=small_files(4096)) as service:
        text = b'{"serial":3}'
        said("the change for which there is half of the room", service.asked(post(large_text(3, 500_000))), DOWN)
        said("a read after it", service.asked(GET), ok(TEXTS[-1]))
        said("the next change", service.asked(post(text)), ok())
        said("a read of it", service.asked(GET), ok(text))
        service.ends(0, b"", ANSWERED_503 % 1)
    said("no fault in the file", program.run(["check", "--db", "half.db"]), (0, b"ok\n" + counted(program.folder + "/half.db"), b""))
    print("right: a change for which there is half of the room leaves all as it was")


def look_at_memory(program):
    """A service has room for 20 MB of pages of its file, from the start; of the pages that a change writes it has 1 MB in memory, so
    that states of 4 MB take less than 13 MB beside."""
    filled(program, "memory.db")

    def most():
        with open("/proc/%d/status" % service.process.pid, encoding="utf-8") as status:
            return next(int(line.split()[1]) * 1024 for line in status if line.startswith("VmHWM"))

    with Service(program, "memory.db", 5) as service:
        before = most()
        said("whether 20 MB of pages have room from the start", 20_480_000 < before < 32_000_000, True)
        for text in (large_text(3, 500_000), large_text(4, 500_000)):
            said("a change", service.asked(post(text)), ok())
            said("a read", service.asked(GET), ok(text))
        said("whether states of 4 MB take less than 13 MB", most() - before < 13_000_000, True)
        said("a last read", service.asked(GET), ok(text))
        service.ends()
    print("right: a service has room for 20 MB of pages, and states of 4 MB take less than 13 MB more")


# How deep a state may be nested, and how many bytes of stack the program takes.
DEEPEST, STACK = 127, 256 << 10


def look_at_stack(program):
    """A service has taken its stack before it listens, so that it answers the state that needs the most though its address space may not grow."""
    filled(program, "deep.db")
    with Service(program, "deep.db", 2) as service:
        with open("/proc/%d/status" % service.process.pid, encoding="utf-8") as status:
            taken = next(int(line.split()[1]) << 10 for line in status if line.startswith("VmStk:"))
        said("whether the stack has %d bytes" % STACK, taken >= STACK, True)
        with open("/proc/%d/statm" % service.process.pid, encoding="ascii") as pages:
            size = int(pages.read().split()[0]) * resource.getpagesize()
        resource.prlimit(service.process.pid, resource.RLIMIT_AS, (size, size))
        text = b'{"serial":3,"x":%s%s}' % (b"[" * (DEEPEST - 1), b"]" * (DEEPEST - 1))
        for _ in range(2):
            said("whether a state that is nested %d deep is answered" % DEEPEST, service.asked(post(text)) in (ok(), DOWN), True)
        said("the status of a service without memory for its stack", service.left()[0], 0)
    print("right: a service whose address space may not grow answers a state that is nested %d deep" % DEEPEST)


def look_at_salts(program):
    """Two files have logs of different salts, so frames of one never pass for those of another (SQLite's file format, section 4.1)."""
    salts = []
    for name in ("salt.db", "salts.db"):
        program.is_due("a file", ["org-add", "--db", name, "acme"], 0, b"ok\n", NEW_FILE)
        salts.append(bytes_of(program.folder + "/" + name + "-wal")[16:24])
    said("whether two logs have different salts", salts[0] != salts[1], True)
    print("right: two files have logs of different salts")


def look_at_want(program):
    """An open for which there is too little memory tells how many bytes the file has."""
    program.is_due("a file", ["org-add", "--db", "w.db", "acme"], 0, b"ok\n", NEW_FILE)
    due = (3, b"refused down\n", b"custody: out of memory while opening the file of %d bytes\n" % os.path.getsize(program.folder + "/w.db"))
    told = [program.run(["check", "--db", "w.db"], under=["prlimit", "--as=%d" % (mb << 20)]) for mb in range(60, 8, -2)]
    if due not in told:
        raise Wrong("where memory is short: %s" % told)
    print("right: where memory is short the bytes of the file are told")


def look_at_log(program):
    """The log is copied into the file behind the reply to a state of 4 MB, which fills it, once; where smaller states fill it, by the change behind
    its 4,000th page. A read tells that what is done behind the reply before it is done."""
    filled(program, "log.db")

    def read(text):
        said("a read", service.asked(GET), ok(text))

    def size_behind(text):
        said("a change", service.asked(post(text)), ok())
        read(text)
        return os.path.getsize(program.folder + "/log.db")

    with Service(program, "log.db", 14) as service:
        before = os.path.getsize(program.folder + "/log.db")
        text = large_text(3, 500_000)
        after = size_behind(text)
        said("whether 4 MB are copied", after - before > len(text), True)
        written = os.stat(program.folder + "/log.db-wal").st_mtime_ns
        read(text)
        read(text)
        said("when the log was written, behind further reads", os.stat(program.folder + "/log.db-wal").st_mtime_ns, written)
        smaller = [large_text(serial, 123_000) for serial in (4, 5, 6, 7)]
        said("the file behind four states of less than 1 MB each", [size_behind(text) for text in smaller], 4 * [after])
        said("whether they are copied with the next change", size_behind(b'{"serial":8}') - after > sum(map(len, smaller)), True)
        service.ends()
        with contextlib.closing(sqlite3.connect(program.folder + "/log.db")) as database:
            said("the row that is written for it", database.execute("SELECT rowid, version FROM edition").fetchall(), [(1, 3)])
    print("right: the log is copied into the file behind a reply where a state has filled it, else by the change behind its %dth page" % (4_096_000 // PAGE))


def look_at_killed_behind(program):
    """A service that is killed behind the reply to a state of 4 MB, while its log is copied, has lost nothing."""
    filled(program, "behind.db")
    for serial, milliseconds in enumerate((0, 2, 4, 6, 8), 3):
        text = large_text(serial, 500_000)
        with Service(program, "behind.db", 2) as service:
            said("a change", service.asked(post(text)), ok())
            time.sleep(milliseconds / 1e3)
        said("no fault in the file behind it", program.run(["check", "--db", "behind.db"]), (0, b"ok\n" + counted(program.folder + "/behind.db"), b""))
        with Service(program, "behind.db", 1) as service:
            said("a read behind it", service.asked(GET), ok(text))
            service.ends()
    print("right: a service that is killed while its log is copied behind a reply has lost nothing")


def look_at_shut(program):
    """A fault of the disk that shuts the store ends the service, once that is answered and told; what was acknowledged stands there."""
    filled(program, "shut.db")
    fails = program.folder + "/fails"
    with Service(program, "shut.db", 4, env=dict(os.environ, LD_PRELOAD=compiled("calls", program.folder), FAILS=fails)) as service:
        said("before the fault", service.asked(GET), ok(TEXTS[-1]))
        open(fails, "wb").close()
        said("the change that isn't synced", service.asked(post(b'{"serial":3}')), DOWN)
        service.ends(3, b"refused down\n", ANSWERED_503 % 2 + SHUT + LOG_STAYS)
    print("right: a store that the disk has shut ends the service, which accepts no further connection")
    os.remove(fails)
    said("what was acknowledged before it", is_right(program, "shut.db"), True)
    print("right: what was acknowledged before it is there at the next start")


# The commands that change records, over a file with an organization; what each changes is in the lists.
CHANGES = [
    (["org-add", "--db", "a.db", "beta"], b""),
    (["org-limit", "--db", "a.db", "acme", "7"], b""),
    (["token-add", "--db", "a.db", "acme", "ci", "write"], b"writewritewrite1\n"),
    (["token-revoke", "--db", "a.db", "acme", "root"], b""),
    (["org-remove", "--db", "a.db", "--force", "acme"], b""),
    (["org-copy", "--db", "b.db", "--to", "a.db", "beta"], b""),
    (["compact", "--db", "a.db", "--to", "new.db"], b""),
]


def lists_in(program, folder):
    """What a file has, as its lists tell it, and its states; of a copy the same of the new file, where one is whole and has an organization."""
    found = []
    for path in ("a.db", "new.db"):
        lists = [program.run(words, under=["env", "-C", folder])[:2] for words in (["org-list", "--db", path], ["token-list", "--db", path, "acme"], ["check", "--db", path])]
        found.append(None if path == "new.db" and lists[0] in ((3, b"refused down\n"), (0, b"")) else lists)
    return found


# The seconds for which a client posts states before the file goes.
POSTED = 0.3


def posts(service, acknowledged, serial):
    """Posts states, each with the next serial, until one has no reply. Each acknowledged serial is added, with its moment."""
    while True:
        serial += 1
        try:
            came = service.asked(post(b'{"serial":%d}' % serial))
        except OSError:
            return
        if not came:
            return
        said("a state under load", came, ok())
        acknowledged.append((serial, time.monotonic()))


def look_at_moved(program):
    """A service whose file or log is moved, removed or replaced while states are posted: it ends, with the reason, and acknowledges nothing
    from then on but the state that it was reading. What it acknowledged is in the file that it had opened, wherever that is now, unless it
    was removed."""
    folder = program.folder + "/moved"
    path, log, away = folder + "/a.db", folder + "/a.db-wal", folder + "/away.db"

    def is_replaced(old):
        shutil.copy(old, folder + "/new")
        os.rename(folder + "/new", old)

    def is_linked():
        os.rename(path, away)
        os.symlink("away.db", path)

    def leads_elsewhere():
        shutil.copy(folder + "/real.db", folder + "/other.db")
        os.symlink("other.db", folder + "/new")
        os.rename(folder + "/new", path)

    def is_emptied():
        os.close(os.open(folder + "/new", os.O_CREAT | os.O_WRONLY, 0o600))
        os.rename(folder + "/new", log)

    # what is done; the name of the file in which everything is afterwards, if it is still somewhere
    for what, done, left in [
        ("the file is moved", lambda: os.rename(path, away), "moved/away.db"),
        ("the file is removed", lambda: os.remove(path), None),
        ("the file is replaced by a copy", lambda: is_replaced(path), None),
        ("the file is moved, and a link put there", is_linked, "moved/away.db"),
        ("the folder is moved", lambda: os.rename(folder, folder + "-away"), "moved-away/a.db"),
        ("the link to the file leads to a copy", leads_elsewhere, "moved/real.db"),
        ("the WAL is moved", lambda: os.rename(log, folder + "/away-wal"), "moved/a.db"),
        ("the WAL is removed", lambda: os.remove(log), "moved/a.db"),
        ("the WAL is replaced by an empty one", is_emptied, "moved/a.db"),
        ("both are moved", lambda: (os.rename(path, away), os.rename(log, away + "-wal")), "moved/away.db"),
    ]:
        os.mkdir(folder)
        filled(program, "moved/a.db")
        if done is leads_elsewhere:
            for end in ("", "-wal"):
                os.rename(path + end, folder + "/real.db" + end)
            os.symlink("real.db", path)
        acknowledged = []
        with Service(program, "moved/a.db", None) as service:
            load = threading.Thread(target=posts, args=(service, acknowledged, len(TEXTS)))
            load.start()
            time.sleep(POSTED)
            done()
            gone = time.monotonic()
            load.join(PATIENCE)
            service.ends(3, b"refused down\n", MOVED)
        late = sum(moment > gone for _, moment in acknowledged)
        said("whether states were acknowledged before, and at most one since: %s" % what, (len(acknowledged) > late + 1, late < 2), (True, True))
        if left:
            said("no fault: %s" % what, program.run(["check", "--db", left])[:2], (0, b"ok\n" + counted(os.path.join(program.folder, left))))
            with Service(program, left, 1) as service:
                said("the newest state: %s" % what, service.asked(GET), ok(b'{"serial":%d}' % acknowledged[-1][0]))
                service.ends()
        print("right: %s under load: the service ends, and nothing that it acknowledged is missing%s" % (what, "" if left else ", but for what is deleted"))
        for there in (folder, folder + "-away"):
            shutil.rmtree(there, ignore_errors=True)


def look_at_unseen(program):
    """A service that cannot look at its files for want of memory goes on; one that nobody asks ends with the first that asks."""
    filled(program, "unseen.db")
    unseen = program.folder + "/unseen"
    with Service(program, "unseen.db", None, env=dict(os.environ, LD_PRELOAD=compiled("calls", program.folder), UNSEEN=unseen)) as service:
        open(unseen, "wb").close()
        for serial in (3, 4):
            said("a change while the files can't be looked at", service.asked(post(b'{"serial":%d}' % serial)), ok())
        os.remove(unseen)
        said("a read when they can", service.asked(GET), ok(b'{"serial":4}'))
        os.rename(program.folder + "/unseen.db", program.folder + "/seen.db")
        acknowledged = []
        posts(service, acknowledged, 4)
        said("what is acknowledged since the file was moved", acknowledged, [])
        service.ends(3, b"refused down\n", MOVED)
    with Service(program, "seen.db", 1) as service:
        said("the newest state in the file that was moved", service.asked(GET), ok(b'{"serial":4}'))
        service.ends()
    print("right: files that can't be looked at are not moved, and of a moved one no further change is made")


def look_at_unsynced(program):
    """A command, of whose calls that sync one fails, ends as it is due; or it tells that its change may have been made, where it may; and
    where it tells that no record changed, none did."""
    library, folder, fails = compiled("calls", program.folder), program.folder + "/unsynced", program.folder + "/fails-once"
    os.mkdir(folder)
    filled(program, "unsynced/a.db")
    said("another organization", program.run(["org-add", "--db", "unsynced/b.db", "beta"]), (0, b"ok\n", NEW_FILE))
    whole, made = [folder + "/" + name for name in ("a.db", "b.db")], 0
    for path in whole:
        shutil.move(path, path + ".whole")

    def put_back():
        for path in all_in(folder):
            if not path.endswith(".whole"):
                os.remove(path)
        for path in whole:
            shutil.copy(path + ".whole", path)

    for words, given in CHANGES:
        put_back()
        before = lists_in(program, folder)
        put_back()
        said(words[0], program.run(words, given, under=["env", "-C", folder])[:2], (0, b"ok\n"))
        after, seen, number = lists_in(program, folder), [], 0
        while True:
            number += 1
            put_back()
            open(fails, "wb").close()
            env = dict(os.environ, LD_PRELOAD=library, FAILS=fails, ONCE=str(number))
            status, output, errors = program.run(words, given, under=["env", "-C", folder], env=env)
            if os.path.exists(fails):
                said("a command none of whose calls failed", (status, output), (0, b"ok\n"))
                break
            told = errors.removeprefix(NEW_FILE).removesuffix(LOG_STAYS)
            came = lists_in(program, folder)
            if (status, output) == (0, b"ok\n"):
                said("%s, whose sync %d failed, and which was done" % (words[0], number), (told, came), (b"", after))
            else:
                said("%s, whose sync %d failed" % (words[0], number), (status, output), (3, b"refused down\n"))
                allowed = {HALTED: [before, after], UNCHANGED: [before], DISK: [before], UNFINISHED: None}
                if told not in allowed or (told == UNFINISHED) and words[0] != "compact":
                    raise Wrong("%s, whose sync %d failed, tells %s" % (words[0], number, errors))
                if allowed[told] and came not in allowed[told]:
                    raise Wrong("%s, whose sync %d failed, tells %s, and left %s" % (words[0], number, told, came))
                seen.append((told, came == after))
        os.remove(fails)
        # (the change of one call that failed is there at the next open)
        if words[0] != "compact" and (HALTED, True) not in seen:
            raise Wrong("no sync of %s failed whose change was there at the next open: %s" % (words[0], seen))
        made += sum(told == HALTED and is_done for told, is_done in seen)
    print("right: of %d commands each call that syncs failed once; %d times the change was there at the next open, and each time the command told that it may be" % (len(CHANGES), made))


class Calls:
    """What calls.c tells of a program over one file: its calls, in turn. None is lost where another one comes before it is synced."""

    def __init__(self, program, path):
        self.file, self.log, self.told = path, path + "-wal", program.folder + "/told"
        self.env = dict(os.environ, LD_PRELOAD=compiled("calls", program.folder), TOLD=self.told)
        self.unsynced, self.read = set(), 0

    def next(self):
        """The calls since it was asked last, each once of many alike in a row; each reply or line comes behind the syncs of all that
        was written, as does each write of the file or the log behind those of the other."""
        with open(self.told) as file:
            lines = file.read().splitlines()
        lines, self.read = lines[self.read :], len(lines)
        for place, (word, _, name) in enumerate(line.partition(" ") for line in lines):
            others = self.unsynced - {name}
            if word != "sync" and others:
                raise Wrong("%s isn't synced before %s: %s" % (others, lines[place], lines[: place + 1][-20:]))
            (self.unsynced.add if word == "write" else self.unsynced.discard)(name)
        calls = [line.partition(":")[0] for line in lines]
        return [call for call, before in zip(calls, [None, *calls]) if call != before]


def look_at_synced(program):
    """A change is synced before its reply or its answer, a new file's folder too, and the file before its log is begun anew."""
    filled(program, "synced.db")
    os.mkdir(program.folder + "/new")
    made = Calls(program, "made.db")
    said("a new file", program.run(["org-add", "--db", "new/made.db", "acme"], env=made.env), (0, b"ok\n", NEW_FILE))
    told = made.next()
    said("whether its folder is synced before it is told of", "sync new" in told[: told.index("said pipe")], True)
    os.remove(made.told)
    calls = Calls(program, "synced.db")
    text = large_text(4, 500_000)
    log, file = ["write synced.db-wal", "sync synced.db-wal"], ["write synced.db", "sync synced.db"]
    with Service(program, "synced.db", 4, env=calls.env) as service:
        said("what a service says last as it begins", calls.next()[-1], "said pipe")
        said("a read", service.asked(GET), ok(TEXTS[-1]))
        said("the calls of a read", calls.next(), ["said socket"])
        said("a change", service.asked(post(b'{"serial":3}')), ok())
        said("the calls of a change", calls.next(), 2 * log + ["said socket"])
        said("a change that fills the log", service.asked(post(text)), ok())
        said("a read behind it", service.asked(GET), ok(text))
        told = calls.next()
        behind = told[told.index("said socket") + 1 :]
        said("the first calls behind the reply that fills the log", behind[:4], file + log)
        service.ends()
        calls.next()
    print("right: a change is synced before its reply, the folder of a new file too, and the file before its log is begun anew")


if __name__ == "__main__":
    look_at(__doc__, look_at_modes, look_at_absent, look_at_lone_logs, look_at_old_logs, look_at_totals, look_at_sizes, look_at_greatest, look_at_pages, look_at_owners, look_at_makers, look_at_reasons, look_at_numbers, look_at_spoiled, look_at_full, look_at_half, look_at_memory, look_at_stack, look_at_salts, look_at_want, look_at_log, look_at_killed_behind, look_at_shut, look_at_moved, look_at_unseen, look_at_unsynced, look_at_synced)
