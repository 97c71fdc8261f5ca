#!/usr/bin/env python3
"""Runs stories over the program `custody` itself: its words, its streams, its exit status, its peers, and the files that it makes or leaves.

    python3 tools/words.py CUSTODY [NAME..]    the program as `rt ci` or `rt run` leaves it; only the stories of these names

It runs the stories of tools/words.txt. Each has a new folder with a copy of crates/stories/data; the stories that it comes after run
there first. SQLite's own library carries out the lines `table`. crates/stories/README.md explains the lines.

Each command runs at the moment of its line `at` (clock.c). A service with peers does not get the port of its story, which another
program may have, but a free one, and so does the line `listening` that is due. What each peer gets, byte for byte, has to be what
is due, and the service has to end by itself. `breaks accept` and `breaks sync` are done by calls.c.

Under `links writes`, a command that leaves no mark runs again for each byte of standard output, and of standard error, in a file
that has no room for this byte.

Root may read every file, and then `hidden` hides nothing. So a script that root starts goes on as the user nobody.

It prints how many stories passed. At the first step that is wrong, it prints the story, the line, what was expected and what came,
and ends with status 1. At a line that is no step of the program, it prints the line and why, and ends with status 2.
"""

import codecs
import contextlib
import errno
import os
import pwd
import resource
import shutil
import signal
import socket
import sqlite3
import struct
import subprocess
import sys
import tempfile
import time

import stories
from files import SUM_BYTES, sum_of
from harness import PATIENCE, UNPRINTED, bytes_of, compiled, connected, free_port

# The last moment of the clock, in seconds since 1970; behind it `breaks clock` sets the clock.
LAST_MOMENT = 253402300799

# What a line `breaks` names.
BREAKS = ["output", "clock", "accept", "sync"]

# Seconds between two looks whether a service listens.
BETWEEN = 0.001

# The status of a command that did not carry out its words, and that of one whose streams did not take all.
NOT_DONE, BROKEN = 2, 3

# The bits of a mode that say who may read, write and run a file.
MODE_BITS = 0o777

# The most bytes that a failure shows, and how many of them are before the first one that differs.
SHOWN, BEFORE = 400, 20

LETTERS = {b"\r": "\\r", b"\n": "\\n", b"\t": "\\t", b"\\": "\\\\"}


class Failed(Exception):
    """What a step leaves that it may not leave, and the line that says so."""

    def __init__(self, part, *lines):
        super().__init__(*lines)
        self.part, self.lines = part, lines


class Unread(Exception):
    """A line that cannot be read, and why."""

    def __init__(self, part, why):
        super().__init__(why)
        self.part, self.why = part, why


# ----------------------------------------------------------------------------------------------------
# What is due, and what came
# ----------------------------------------------------------------------------------------------------


def shown(content):
    """Bytes with escapes."""
    each = [bytes([one]) for one in content]
    return "".join(LETTERS.get(one) or (one.decode() if b" " <= one <= b"~" else "\\x" + one.hex()) for one in each)


def compare(part, due, came):
    if due == came:
        return
    start = 0
    if max(len(due), len(came)) > SHOWN:
        start = max(0, len(os.path.commonprefix([due, came])) - BEFORE)
    behind = " from byte %d on" % start if start else ""
    raise Failed(part, *("%s%s: %s" % (what, behind, shown(one[start : start + SHOWN])) for what, one in (("expected", due), ("came", came))))


def contains(content, text):
    """Whether a text occurs in bytes, which are UTF-8."""
    try:
        return text in content.decode()
    except UnicodeDecodeError:
        return False


def compare_errors(answer, parts, errors):
    """The error stream is empty, or as each line `?` says."""
    if not parts:
        compare(answer, b"", errors)
    for part in parts:
        word, blank, text = part.line[2:].partition(" ")
        if word != "contains" or not blank:
            compare(part, part.bytes or b"", errors)
        elif not contains(errors, text):
            compare(part, text.encode(), errors)


def two_words(part, words, why):
    first, blank, rest = words.partition(" ")
    if not blank:
        raise Unread(part, why)
    return first, rest


def number_in(part, text, base, why):
    try:
        return int(text, base)
    except ValueError:
        raise Unread(part, why) from None


# ----------------------------------------------------------------------------------------------------
# Steps
# ----------------------------------------------------------------------------------------------------


def renew_sums(path):
    """SQLite's library leaves the room for the sums of cksumvfs, which files of custody have, and not the sums themselves."""
    content = bytes_of(path)
    if content[20:21] != bytes([SUM_BYTES]):
        return
    size = struct.unpack_from(">H", content, 16)[0]
    bodies = [content[start : start + size - SUM_BYTES] for start in range(0, len(content), size)]
    with open(path, "wb") as file:
        file.write(b"".join(body + sum_of(body) for body in bodies))


def at_most(size):
    """Of a process about to start: no file grows beyond this size, and a write that would grow it fails."""

    def limit():
        signal.signal(signal.SIGXFSZ, signal.SIG_IGN)
        resource.setrlimit(resource.RLIMIT_FSIZE, (size, size))

    return limit


def all_of(file):
    file.seek(0)
    return file.read()


def await_line(process, output):
    """Waits until a process has printed a line, or ended."""
    end = time.monotonic() + PATIENCE
    while b"\n" not in os.pread(output.fileno(), SHOWN, 0) and process.poll() is None:
        if time.monotonic() > end:
            raise subprocess.TimeoutExpired(process.args, PATIENCE)
        time.sleep(BETWEEN)


def answered(address, sent):
    """What a peer gets that sends these bytes and then closes its side. From a service that has ended, or resets the connection, no more comes."""
    pieces = []
    with contextlib.suppress(ConnectionError, FileNotFoundError), connected(address) as stream:
        # (what came before the connection was reset can be read)
        with contextlib.suppress(OSError):
            stream.sendall(sent)
            stream.shutdown(socket.SHUT_WR)
        while piece := stream.recv(65536):
            pieces.append(piece)
    return b"".join(pieces)


class Command:
    """A step `$`: its words and input, what is due, what breaks, and what happens meanwhile in turn."""

    def __init__(self, head, words, parts):
        if not parts or not parts[0].line.startswith("="):
            raise Unread(head, "what is due stands first")
        if head.moment is None:
            raise Unread(head, "no line `at` stands above")
        self.head, self.answer, *self.errors = head, *parts
        self.arguments = words.split(" ") if words else []
        self.output, self.status = self.answer.bytes or b"", self.answer.line[2:]
        self.replays, self.address = self.arguments[:1] == ["replay"], None

    def listens(self, folder):
        """Where the peers of this service connect: at its socket, or at a free port in place of its own."""
        for option, value in zip(self.arguments, self.arguments[1:]):
            if option == "--socket":
                self.address = os.path.join(folder, value)
            if option == "--port":
                self.address = free_port()
                self.arguments[self.arguments.index(option) + 1] = str(self.address)
                self.output = self.output.replace(b"listening 127.0.0.1:%s\n" % value.encode(), b"listening 127.0.0.1:%d\n" % self.address, 1)
        if self.address is None:
            raise Unread(self.head, "no service stands behind the peers")

    def all_errors(self):
        """Standard error, if a line `?` and its pieces are all of it."""
        return self.errors[0].bytes or b"" if [part.line for part in self.errors] == ["?"] else b""


class Room:
    """The folder of a story, and what its steps keep."""

    def __init__(self, program, libraries, folder):
        self.program, self.libraries, self.folder, self.commands, self.cuts = program, libraries, folder, 0, 0
        # What the last `write`, `copy` or `table` left, and the ports that are taken.
        self.last, self.taken = b"", contextlib.ExitStack()
        # Of the next command: what its service meets in turn, and what breaks.
        self.turns, self.broken = [], {}

    def path(self, name):
        return os.path.join(self.folder, name)

    def bytes_of(self, part, name):
        try:
            return bytes_of(self.path(name))
        except OSError:
            raise Failed(part, "the file can't be read") from None

    def forget(self, _, name):
        for end in ("", "-wal"):
            with contextlib.suppress(OSError):
                os.remove(self.path(name + end))

    def fill(self, head, name, content):
        try:
            with open(self.path(name), "wb") as file:
                file.write(content)
        except OSError:
            raise Failed(head, "the file can't be written") from None
        self.last = content

    def write(self, head, name):
        self.fill(head, name, head.bytes or b"")

    def copy(self, head, words):
        source, name = two_words(head, words, "a copy is of a file to a path")
        self.fill(head, name, self.bytes_of(head, source))

    def make_table(self, head, words):
        """By SQLite's own library, which removes the WAL as it closes the file. A new file is in WAL mode, as files of custody are."""
        name, text = two_words(head, words, "a table is a path and SQL")
        try:
            with contextlib.closing(sqlite3.connect(self.path(name), isolation_level=None)) as database:
                database.execute("PRAGMA journal_mode = WAL")
                database.executescript(text)
        except sqlite3.Error as fault:
            raise Failed(head, "the table isn't made: %s" % fault) from None
        renew_sums(self.path(name))
        self.last = self.bytes_of(head, name)

    def is_absent(self, head, name):
        if os.path.exists(self.path(name)):
            raise Failed(head, "the file is there")

    def is_same(self, head, name):
        compare(head, self.last, self.bytes_of(head, name))

    def set_mode(self, head, name, mode):
        try:
            os.chmod(self.path(name), mode)
        except OSError:
            raise Failed(head, "the file's mode can't be set") from None

    def hide(self, head, name):
        self.set_mode(head, name, 0)

    def mode_in(self, head, words):
        """A path, followed by a mode."""
        name, digits = two_words(head, words, "a mode stands behind a path")
        return name, number_in(head, digits, 8, "a mode is octal digits")

    def get_mode(self, head, words):
        self.set_mode(head, *self.mode_in(head, words))

    def has_mode(self, head, words):
        name, due = self.mode_in(head, words)
        try:
            came = os.stat(self.path(name)).st_mode & MODE_BITS
        except OSError:
            raise Failed(head, "the file has no mode: it isn't there") from None
        if came != due:
            raise Failed(head, "expected: %o" % due, "came: %o" % came)

    def take_port(self, head, port):
        """Until the story ends. Another program may have it already."""
        listener = self.taken.enter_context(socket.socket())
        listener.setsockopt(socket.SOL_SOCKET, socket.SO_REUSEADDR, 1)
        with contextlib.suppress(OSError):
            listener.bind(("127.0.0.1", number_in(head, port, 10, "a port is a number up to 65535")))
            listener.listen()

    def break_next(self, head, words):
        what, _, number = words.partition(" ")
        if what not in BREAKS or bool(number) != (what == "sync"):
            raise Unread(head, "what breaks is `output`, `clock`, `accept`, or `sync` and a number")
        self.broken[what] = str(number_in(head, number, 10, "a sync has a number")) if number else ""

    def move_in_turn(self, head, words):
        self.turns.append((head, two_words(head, words, "a file is moved from a path to another")))

    def connect_in_turn(self, head, parts):
        if len(parts) != 1 or parts[0].line != "=":
            raise Unread(head, "behind a peer's pieces stands `=` with those that it gets")
        self.turns.append((parts[0], head.bytes or b""))

    def move(self, part, source, name):
        """Its WAL goes with it, if there is one."""
        try:
            os.rename(self.path(source), self.path(name))
        except OSError:
            raise Failed(part, "the file can't be moved") from None
        with contextlib.suppress(FileNotFoundError):
            os.rename(self.path(source + "-wal"), self.path(name + "-wal"))

    def meet(self, address, turns):
        """What happens to a service that listens: peers connect, and its file is moved. Returns what each peer got, behind the line that says what is due."""
        came = []
        for part, what in turns:
            if not isinstance(what, bytes):
                self.move(part, *what)
                continue
            try:
                came.append((part, answered(address, what)))
            except TimeoutError:
                raise Failed(part, "the peer gets no end within %d seconds" % PATIENCE) from None
        return came

    def environment(self, command, broken):
        """What a process begins with: the moment of its clock, and what breaks."""
        more = {"LD_PRELOAD": ":".join(self.libraries), "MOMENT": str(LAST_MOMENT + 1 if "clock" in broken else command.head.moment)}
        if "accept" in broken:
            more["REFUSED"] = "accept %d" % errno.EMFILE
        if "sync" in broken:
            more |= {"FAILS": self.program + "-fails", "ONCE": broken["sync"]}
            with open(more["FAILS"], "wb"):
                pass
        return {**os.environ, **more}

    def ran(self, command, turns=(), broken=(), sizes=(None, None)):
        """The status, what came on both streams, and what each peer got. Of the stream with a size no more bytes are taken."""
        with contextlib.ExitStack() as files:
            given, *taken = [files.enter_context(tempfile.TemporaryFile()) for _ in range(3)]
            given.write(command.head.bytes or b"")
            given.seek(0)
            # (a size counts for each file, so the other stream is a pipe)
            limits = [size for size in sizes if size is not None]
            output, errors = [subprocess.PIPE if limits and size is None else file for file, size in zip(taken, sizes)]
            if "output" in broken:
                output = files.enter_context(open("/dev/full", "wb"))
            how = {"cwd": self.folder, "env": self.environment(command, broken), "preexec_fn": at_most(*limits) if limits else None}
            process = subprocess.Popen([self.program, *command.arguments], stdin=given, stdout=output, stderr=errors, **how)
            try:
                if turns:
                    await_line(process, taken[0])
                replies = self.meet(command.address, turns)
                piped = process.communicate(timeout=PATIENCE)
            except subprocess.TimeoutExpired:
                raise Failed(command.answer, "the program doesn't end within %d seconds" % PATIENCE) from None
            finally:
                process.kill()
                process.wait()
            came = [all_of(file) if one is None else one for file, one in zip(taken, piped)]
        return process.returncode, *came, replies

    def run(self, head, words, parts):
        command = Command(head, words, parts)
        turns, self.turns, broken, self.broken = self.turns, [], self.broken, {}
        if turns:
            command.listens(self.folder)
        self.commands += 1
        status, output, errors, replies = self.ran(command, turns, broken)
        for part, came in replies:
            compare(part, part.bytes or b"", came)
        compare(command.answer, command.output, output)
        compare(command.answer, command.status.encode(), b"%d" % status)
        compare_errors(command.answer, command.errors, errors)
        return command

    def cut(self, command):
        """The same once more for each byte of its streams, which are not taken from this byte on. Only for words that leave no mark."""
        if not command.replays and command.status != str(NOT_DONE):
            return
        streams = command.output, command.all_errors()
        for which, due in enumerate(streams):
            for size in range(len(due)):
                self.cuts += 1
                try:
                    self.cut_at(command, which, size, due[:size])
                except Failed as failed:
                    raise Failed(failed.part, "standard %s takes %d bytes" % (("output", "error")[which], size), *failed.lines) from None

    def cut_at(self, command, which, size, front):
        """This stream takes this much. Standard error ends with the line that says so, unless it is the one that takes no more."""
        status, *came, _ = self.ran(command, sizes=(None, size) if which else (size, None))
        compare(command.answer, front, came[which])
        compare(command.answer, b"%d" % BROKEN, b"%d" % status)
        if which:
            return
        before = came[1].removesuffix(UNPRINTED)
        compare(command.answer, before + UNPRINTED, came[1])
        # (a replay ends at what is not taken, so what it would find behind is not told)
        if not command.replays:
            compare_errors(command.answer, command.errors, before)

    def take(self, parts, is_cut=False):
        head, *more = parts
        word, _, rest = head.line.partition(" ")
        if word == "$":
            command = self.run(head, rest, more)
            if is_cut:
                self.cut(command)
        elif word == "peer" and not rest:
            self.connect_in_turn(head, more)
        elif word in STEPS and not more:
            STEPS[word](self, head, rest)
        else:
            raise Unread(head, "this is no step of the program")


STEPS = {
    "file": Room.forget,
    "write": Room.write,
    "copy": Room.copy,
    "table": Room.make_table,
    "absent": Room.is_absent,
    "same": Room.is_same,
    "hidden": Room.hide,
    "mode": Room.has_mode,
    "chmod": Room.get_mode,
    "taken": Room.take_port,
    "breaks": Room.break_next,
    "moved": Room.move_in_turn,
}


# ----------------------------------------------------------------------------------------------------
# Stories
# ----------------------------------------------------------------------------------------------------


def all_stories():
    """Each story by its name."""
    with open(stories.WORDS, encoding="utf-8") as file:
        return stories.read(file.read())


def take_all(room, story, is_own=True):
    """The steps of the stories that come before, and its own."""
    if story.links not in ([], ["writes"]) or story.begins or story.operator:
        raise Unread(story.plots[0][0], "a story of the program has no lines `links` but `links writes`, and no `begins` or `operator`")
    if story.after:
        take_all(room, story.after, False)
    for parts in story.plots:
        room.take(parts, is_own and bool(story.links))
    if room.turns or room.broken:
        raise Unread(story.plots[-1][0], "no command follows")


def run(program, libraries, data, story):
    """How many commands a story runs, and how often a stream ends early. Ends at what is wrong."""
    with tempfile.TemporaryDirectory(dir=os.path.dirname(program)) as folder:
        for name, bytes_held in data.items():
            with open(os.path.join(folder, name), "wb") as file:
                file.write(bytes_held)
        room = Room(program, libraries, folder)
        try:
            with room.taken:
                take_all(room, story)
        except Failed as failed:
            print("FAILED %s: line %d of words.txt" % (story.name, failed.part.number), *failed.lines, sep="\n")
            sys.exit(1)
        except Unread as unread:
            print("line %d of words.txt: %s" % (unread.part.number, unread.why))
            sys.exit(2)
    return room.commands, room.cuts


def become_nobody(*paths):
    """Root goes on as nobody, who owns these files."""
    if os.getuid():
        return
    nobody = pwd.getpwnam("nobody")
    # (what `free_port` reads by, while Python's own files can be read)
    codecs.lookup("ascii")
    for path in paths:
        os.chown(path, nobody.pw_uid, nobody.pw_gid)
    os.setgroups([])
    os.setgid(nobody.pw_gid)
    os.setuid(nobody.pw_uid)


def main(words):
    if not words:
        sys.exit(__doc__)
    path, *names = words
    found = all_stories()
    for name in names:
        if name not in found:
            sys.exit("words.py: there is no story %s over the program" % name)
    chosen = [found[name] for name in found if name in names or not names]
    folder = os.path.join(stories.STORIES, "data")
    data = {name: bytes_of(os.path.join(folder, name)) for name in os.listdir(folder)}
    # (so that the mode of a new file is the program's doing)
    os.umask(0o022)
    with tempfile.TemporaryDirectory() as room:
        program = shutil.copy(path, os.path.join(room, "custody"))
        libraries = [compiled(name, room) for name in ("clock", "calls")]
        become_nobody(room, program)
        commands, cuts = map(sum, zip(*(run(program, libraries, data, story) for story in chosen)))
    print("right: %d stories over the program, %d commands; %d streams that end early" % (len(chosen), commands, cuts))


if __name__ == "__main__":
    main(sys.argv[1:])
