#!/usr/bin/env python3
"""Shared by the scripts that test the program `custody`: the program in a temporary folder, services, ports and requests.

    python3 tools/harness.py    prints a free port

A script passes its checks to `look_at`. `Program` runs a command, `Service` starts `serve`, and `Service.asked` sends one request on
a connection of its own. `said` compares what came with what is due, and raises `Wrong` if they differ: then `look_at` prints both
and ends the script with status 1.

A refusal for want of memory or of the disk has to have a cause. Each program runs under causes.c, which counts the requests for memory
that are refused and the calls of files that fail. `Program.run` and `Service` look at the count where the program blames memory or the
disk, on its error stream, by `refused down` or by a 503. If nothing failed meanwhile, that is `Wrong`, unless the files are damaged.

A program that has nothing to read on its standard input has a pipe there that nobody closes: one that reads it to its end hangs.
"""

import contextlib
import datetime
import mmap
import os
import random
import re
import select
import shutil
import socket
import sqlite3
import struct
import subprocess
import sys
import tempfile
import time

HERE = os.path.dirname(os.path.abspath(__file__))

# Seconds after which a silent program or peer counts as hanging; and those after which what `wait_until` waits for counts as missing.
PATIENCE, SOON = 60, 20

# The secret of the operator's door, which each service opens if DOOR is in the environment.
OPERATOR = b"operatoroperator1"

# The first port that a service may get, and how many are tried.
FIRST_PORT, TRIED_PORTS = 10_000, 100

# The size of the buffer of a peer that doesn't read.
SMALL_BUFFER = 4096

# Lines of the error stream that several scripts expect.
ANSWERED_503 = b"custody: connection %d: out of memory or the store failed; replied 503\n"
DISK = b"custody: the disk or the system reported an error\n"
IN_USE = b"custody: another program has the file open\n"
LEFT_EARLY = b"custody: connection %d: the peer closed the connection before its request was complete\n"
LOG_ALONE = b"custody: the file is missing or empty, and the -wal beside it may hold changes: put the file back\n"
LOG_STAYS = b"custody: the WAL could not be copied into the file: keep the file and its -wal together\n"
MOVED = b"custody: the file at the path is gone or another one now, or its -wal is: put the right ones there before the next start\n"
NEW_FILE = b"custody: there was no file at the path; a new one was created\n"
NO_FOLDER = b"custody: the folder of the --db file does not exist\n"
NO_SOCKET = b"custody: something else than a socket stands at the path of --socket\n"
OLD_LOG = b"custody: the -wal beside the file is older than the file, or damaged: put the right one back\n"
PORT_TAKEN = b"custody: the port is in use\n"
READ_FAILED = b"custody: connection %d: a read failed\n"
SECRET_FORM = b"custody: the secret must be one line of 16 to 64 ASCII letters or digits\n"
SOCKET = b"custody: could not listen at the socket: its folder must exist, and its path have 1 to 107 bytes\n"
SOCKET_TAKEN = b"custody: another program answers at the socket\n"
UNCHANGED = b"custody: out of memory or the store failed; no record was changed\n"
UNFINISHED = b"custody: out of memory or a store failed before everything was copied: delete the new file and start again\n"
UNLOGGED = b"custody: the exchange log could not be written, so the service stops\n"
UNPRINTED = b"custody: not everything could be printed to standard output or standard error\n"
UNREAD = b"custody: the input could not be read, or out of memory\n"
UNWRITTEN = b"custody: connection %d: the reply could not be sent completely\n"

# Lines that blame memory, the disk or a stream; `refused down` has one of them, or one of the lines that blame something else.
BLAMES = re.compile(
    rb"^custody: (?:connection \d+: out of memory or the store failed; replied 503|out of memory.*|the disk or the system reported an error"
    rb"|a disk error closed the store.*|there is no space left on the disk|the input could not be read, or out of memory"
    rb"|the exchange log could not be written.*|not everything could be printed.*)$",
    re.M,
)
BLAMELESS = re.compile(
    rb"^custody: (?:another program has the file open|no permission to .*|the path does not lead to a file.*|the folder of the --.* file does not exist"
    rb"|there is no file at the path.*|the file is missing or empty.*|the -wal beside the file is older.*|the file at the path is gone.*|the file is a database without.*|a rollback journal lies.*|the file is damaged.*"
    rb"|the file is not a database.*|the port is in use|could not listen .*|another program answers at the socket|something else than a socket.*|the file's tables have faults.*"
    rb"|the --copied-to file does not hold.*|the tables of the --copied-to file have faults.*)$",
    re.M,
)
REPLIED_503 = re.compile(rb"^custody: connection \d+: .*; replied 503$", re.M)
# The first line of a 503, behind the line `100 Continue` if there is one.
IS_503 = re.compile(rb"(?:HTTP/1\.1 100 Continue\r\n\r\n)?HTTP/1\.1 503 ")

# The commands that read their standard input; with --operator, `serve` does too.
READERS = ("admin", "replay", "token-add")


# ----------------------------------------------------------------------------------------------------
# Checks
# ----------------------------------------------------------------------------------------------------


class Wrong(Exception):
    """What the program may not do."""


def said(what, came, due):
    if came != due:
        raise Wrong("%s: expected %s, came %s" % (what, due, came))


def wait_until(holds, else_wrong, seconds=SOON):
    end = time.monotonic() + seconds
    while not holds():
        if time.monotonic() > end:
            raise Wrong(else_wrong)
        time.sleep(0.005)


def look_at(doc, *looks):
    """Runs these checks of the program that the script's one argument names. Ends with status 1 at the first thing that is wrong."""
    if len(sys.argv) != 2:
        sys.exit(doc)
    with Program(sys.argv[1]) as program:
        try:
            for look in looks:
                look(program)
        except (Wrong, OSError, sqlite3.Error, subprocess.SubprocessError) as wrong:
            print("WRONG:", wrong)
            sys.exit(1)


# ----------------------------------------------------------------------------------------------------
# The program and its services
# ----------------------------------------------------------------------------------------------------


class Program:
    """The program, in a temporary folder of its own. It runs under causes.c."""

    # Whether its files may be damaged: then a refusal needs no call that failed.
    is_damaged = False

    def __init__(self, path):
        self.path, self.room, self.own = os.path.abspath(path), tempfile.TemporaryDirectory(), tempfile.TemporaryDirectory()
        self.folder, self.library, self.counts = self.room.name, compiled("causes", self.own.name), self.own.name + "/causes"
        with open(self.counts, "w+b") as file:
            file.write(bytes(8))
            file.flush()
            self.count = mmap.mmap(file.fileno(), 8)

    def __enter__(self):
        return self

    def __exit__(self, *_):
        self.room.cleanup()
        self.own.cleanup()

    def new_socket(self):
        """A path of at most 107 bytes for a socket, where nothing is."""
        return tempfile.mktemp(dir=self.own.name)

    def causes(self):
        """How many requests for memory were refused to it, and calls of files failed, so far."""
        return struct.unpack("=Q", self.count[:8])[0]

    def has_causes(self, what, before, least=1):
        """Something failed since it was asked `before`."""
        if self.causes() < before + least and not self.is_damaged:
            raise Wrong("%s, for want of memory or of the disk, but %d requests for memory were refused or calls failed" % (what, self.causes() - before))

    def judges(self, what, before, output, errors):
        """What it blames on memory or the disk has a cause, and `refused down` has a reason."""
        blame = BLAMES.search(errors or b"")
        if blame:
            self.has_causes("%s says %s" % (what, blame[0]), before, max(1, len(REPLIED_503.findall(errors))))
        elif errors is not None and (output or b"").endswith(b"refused down\n") and not BLAMELESS.search(errors):
            self.has_causes("%s says refused down" % what, before)

    @contextlib.contextmanager
    def damaged(self):
        """What is done meanwhile is done over damaged files."""
        was, self.is_damaged = self.is_damaged, True
        try:
            yield
        finally:
            self.is_damaged = was

    def start(self, words, given=None, output=subprocess.PIPE, errors=subprocess.PIPE, under=(), env=None):
        # (as a shell starts it: a write to a closed pipe is a signal, unless the program has it otherwise; `under` runs it)
        env = dict(os.environ if env is None else env, CAUSES=self.counts)
        env["LD_PRELOAD"] = ":".join(filter(None, [self.library, env.get("LD_PRELOAD")]))
        return subprocess.Popen([*under, self.path, *words], stdin=given, stdout=output, stderr=errors, cwd=self.folder, restore_signals=True, env=env)

    def run(self, words, given=b"", hears=True, **streams):
        """The status, and what came on both streams; None for a stream that goes elsewhere. `hears` says whether it has an error stream."""
        before, reads = self.causes(), bool(given) or words[0] in READERS or "--operator" in words
        with contextlib.nullcontext(subprocess.PIPE) if reads else open_pipe() as stream:
            process = self.start(words, stream, **streams)
            try:
                output, errors = process.communicate(given if reads else None, PATIENCE)
            except BaseException:
                process.kill()
                process.wait()
                raise
        self.judges(" ".join(map(str, words)), before, output, errors if hears else None)
        return process.returncode, output, errors

    def is_due(self, what, words, status, output, errors=b"", given=b""):
        said(what, self.run(words, given), (status, output, errors))
        print("right:", what)


class Service:
    """`serve` over a file, at a port of its own; or at a socket, if `port` is a path or SOCKET is in the environment. It ends by its
    count (None: it has no count). Its `with` block kills it at the end.

    If `lines` names a file, standard output goes there. Standard input is the file `given`, otherwise a pipe that nobody closes.
    `Program.start` gets `how`. If DOOR is in the environment, the operator's door is open."""

    # Seconds that its peers wait, and whether they keep their side of the connection open after a request.
    patience, stays = PATIENCE, False

    def __init__(self, program, path, count, *words, port=None, lines=None, given=None, **how):
        self.port, self.program, self.before = port or free_address(program), program, program.causes()
        ends = ["--unlimited"] if count is None else ["--count", str(count)]
        if "DOOR" in os.environ and "--operator" not in words:
            words, given = (*words, "--operator"), secret_file()
        words = ["serve", "--db", path, *address(self.port), *ends, *words]
        self.input = contextlib.ExitStack()
        stream = self.input.enter_context(open_pipe()) if given is None else given
        with open(lines, "wb") if lines else contextlib.nullcontext(subprocess.PIPE) as output:
            self.process = program.start(words, stream, output, **how)
        try:
            self.begins(first_line(lines) if lines else line_of(self.process.stdout))
        except BaseException:
            self.kill()
            raise

    def begins(self, line):
        said("the line of a service", line, listening(self.port))

    def __enter__(self):
        return self

    def __exit__(self, *_):
        with self.input, self.process:
            self.process.kill()

    def kill(self):
        with self.input:
            self.process.kill()
            self.process.wait()

    def left(self):
        """Waits for its end: its status, and what came on both streams after what was read of them."""
        output, errors = self.process.communicate(timeout=self.patience)
        self.program.judges("a service", self.before, output, errors)
        return self.process.returncode, output, errors

    def ends(self, status=0, output=b"", errors=b""):
        said("how a service ends", self.left(), (status, output, errors))

    def peer(self, buffer=None):
        return connected(self.port, self.patience, buffer)

    def asked(self, sent):
        """The reply to a request, undated."""
        before = self.program.causes()
        came = undated(answered(self.port, sent, stays=self.stays, patience=self.patience))
        if IS_503.match(came):
            self.program.has_causes("a 503 to %s" % sent[:60], before)
        return came


@contextlib.contextmanager
def open_pipe():
    """The end of a pipe in which nothing comes, and whose other end is open meanwhile."""
    reads, writes = os.pipe()
    try:
        yield reads
    finally:
        os.close(reads)
        os.close(writes)


def free_address(program):
    """A free port, or the path of a socket if SOCKET is in the environment."""
    return program.new_socket() if "SOCKET" in os.environ else free_port()


def address(port):
    """The words for a service at a port, or at a socket."""
    return ["--socket", port] if isinstance(port, str) else ["--port", str(port)]


def listening(port):
    """The line of a service at a port, or at a socket."""
    return b"listening %s\n" % (os.fsencode(port) if isinstance(port, str) else b"127.0.0.1:%d" % port)


def line_of(stream):
    """The first line that a process writes to a pipe."""
    if not select.select([stream], [], [], PATIENCE)[0]:
        raise Wrong("a service doesn't listen")
    return stream.readline()


def secret_file(operators=OPERATOR + b"\n"):
    """A file to read operators from: that of one secret, or others."""
    given = tempfile.TemporaryFile()
    given.write(operators)
    given.seek(0)
    return given


def first_line(path):
    """The first line that a process writes to a file."""
    wait_until(lambda: b"\n" in bytes_of(path), "a service doesn't listen")
    return bytes_of(path).splitlines(keepends=True)[0]


def bytes_of(path):
    with open(path, "rb") as file:
        return file.read()


def compile_c(source, out, *options):
    """Compiles a file of C."""
    compiler = next(filter(None, map(shutil.which, ["cc", "gcc", "clang"])), None)
    if not compiler:
        sys.exit("no C compiler: one of cc, gcc and clang compiles " + source)
    subprocess.run([compiler, "-O1", "-o", out, source, *options], check=True)


def compiled(source, folder):
    """A library of C that a program is started with, compiled into a folder."""
    library = "%s/%s.so" % (folder, source)
    compile_c("%s/%s.c" % (HERE, source), library, "-shared", "-fPIC", "-ldl")
    return library


def small_files(blocks):
    """Runs the words behind it with files of at most so many blocks of 512 bytes, whose writes fail beyond that and don't end the program."""
    return ["sh", "-c", f"trap '' XFSZ; ulimit -f {blocks}; exec \"$@\"", "sh"]


SMALL_FILES = small_files(8)


def closed_pipe():
    """The end of a pipe that nobody reads."""
    reads, writes = os.pipe()
    os.close(reads)
    return os.fdopen(writes, "wb", 0)


# ----------------------------------------------------------------------------------------------------
# Ports, requests and replies
# ----------------------------------------------------------------------------------------------------


def is_free(port):
    """Whether a socket can be bound to a port, which neither another socket nor a connection that was closed there still has."""
    with socket.socket() as one:
        try:
            one.bind(("127.0.0.1", port))
        except OSError:
            return False
    return True


def free_port():
    """A port at which nobody listens. It is below the ephemeral ports, so no connection takes it before the service does."""
    with open("/proc/sys/net/ipv4/ip_local_port_range", encoding="ascii") as limits:
        ports = range(FIRST_PORT, int(limits.read().split()[0]))
    found = next(filter(is_free, random.SystemRandom().sample(ports, min(TRIED_PORTS, len(ports)))), None)
    if found is None:
        raise Wrong("no port of %s is free" % ports)
    return found


def request(head, body=b"", token=b"acme.adminadminadmin1"):
    lines = [head, b"Host: c", b"Authorization: Bearer " + token] + ([b"Content-Length: %d" % len(body)] if body else [])
    return b"\r\n".join(lines) + b"\r\n\r\n" + body


def reply(status, body):
    """A reply, undated."""
    kind = b"Content-Type: application/json\r\n" if body else b""
    return (
        b"HTTP/1.1 %s\r\nDate: DATE\r\nConnection: close\r\nCache-Control: private, no-store\r\n%sContent-Length: %d\r\n\r\n%s"
        % (status, kind, len(body), body)
    )


def ok(body=b""):
    return reply(b"200 OK", body)


def post(state):
    return request(b"POST /v1/acme/state/net HTTP/1.1", state)


GET = request(b"GET /v1/acme/state/net HTTP/1.1")
PUT = request(b"PUT /v1/acme/workspaces/net HTTP/1.1")
# The body of the reply to PUT if there is no such workspace yet; the reply to any request if memory or the store refuses.
MADE = b'{"auto_apply":false,"holder":null,"keep_versions":100,"name":"net","version":null}'
DOWN = reply(b"503 Service Unavailable", b'{"error":"down"}')

DATE = re.compile(rb"\r\nDate: ([A-Z][a-z]{2}, \d\d [A-Z][a-z]{2} \d{4} \d\d:\d\d:\d\d GMT)\r\n")


def undated(came):
    """A reply with the same text for every date of the right form."""
    return DATE.sub(b"\r\nDate: DATE\r\n", came, count=1)


def moment_of(came):
    """The moment that a reply tells, in seconds since 1970."""
    found = DATE.search(came)
    if not found:
        raise Wrong("no date: %s" % came[:200])
    told = datetime.datetime.strptime(found.group(1).decode(), "%a, %d %b %Y %H:%M:%S GMT")
    return int(told.replace(tzinfo=datetime.timezone.utc).timestamp())


def connected(port, patience=PATIENCE, buffer=None, resets=False):
    """A connection to a service, at a port or at a socket. `buffer` is the size of the peer's buffer for what it reads. If `resets`,
    closing resets the connection, and then the system keeps nothing of it."""
    stream = socket.socket(socket.AF_UNIX if isinstance(port, str) else socket.AF_INET)
    stream.settimeout(patience)
    if buffer:
        stream.setsockopt(socket.SOL_SOCKET, socket.SO_RCVBUF, buffer)
    if resets:
        stream.setsockopt(socket.SOL_SOCKET, socket.SO_LINGER, struct.pack("ii", 1, 0))
    try:
        stream.connect(port if isinstance(port, str) else ("127.0.0.1", port))
    except BaseException:
        stream.close()
        raise
    return stream


def received(stream):
    """What comes up to the end of the connection. A reset is no end."""
    pieces = []
    while piece := stream.recv(65536):
        pieces.append(piece)
    return b"".join(pieces)


def answered(port, sent, stays=False, **how):
    """The reply to a request, with its date. Unless the peer stays, it closes its side of the connection after the request."""
    with connected(port, **how) as stream:
        stream.sendall(sent)
        if not stays:
            stream.shutdown(socket.SHUT_WR)
        return received(stream)


if __name__ == "__main__":
    print(free_port())
