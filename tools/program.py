#!/usr/bin/env python3
"""Runs the program `custody` itself: its words, its streams, its exit status, and a service over sockets.

    python3 tools/program.py CUSTODY    the program as `rt ci` or `rt run` leaves it

Stories run in memory, inside of another program, or over files (words.py). Here is what only `main` does: the words of the system,
which may not be UTF-8; the streams of the system, which may be full, closed at their other end, or not there at all; the exit status;
and `serve` up to its count, or without one, by requests over 127.0.0.1 and exact replies. It prints a line for each thing that holds,
and ends with status 1 at the first that doesn't.
"""

import os
import socket
import subprocess
import time

from harness import LEFT_EARLY, MADE, NEW_FILE, NO_FOLDER, PATIENCE, PORT_TAKEN, SECRET_FORM, SOCKET, UNPRINTED, UNREAD
from harness import GET, PUT, Service, Wrong, answered, closed_pipe, free_port, look_at, ok, post, request, said, undated

# How many connections a service without a count answers here.
UNLIMITED = 1000

FULL = "/dev/full"
ENCODING = b"custody: an argument is not UTF-8\n"
ONE_OF = b"custody: serve needs either --count N or --unlimited\n"
PORT_OR_SOCKET = b"custody: serve needs either --port P or --socket PATH\n"
# A socket's path may have one byte less than the system's `sun_path`.
LONGEST_PATH = 107
STATE = b'{"version":4,"serial":1,"lineage":"a1","x":"HTTP/1.1 503 is here"}'


# ----------------------------------------------------------------------------------------------------
# Words and the exit status
# ----------------------------------------------------------------------------------------------------


def look_at_words(program):
    add = ["org-add", "--db", "t.db", "acme"]
    token = ["token-add", "--db", "t.db", "acme", "root", "admin"]
    secret = b"adminadminadmin1\n"
    program.is_due("an organization is added, in a new file", add, 0, b"ok\n", NEW_FILE)
    program.is_due("and is there already", add, 1, b"refused exists\n")
    program.is_due("one that isn't there is told", ["token-list", "--db", "t.db", "beta"], 1, b"refused absent\n")
    program.is_due("a token's secret is the standard input", token, 0, b"ok\n", given=secret)
    program.is_due("its name is taken", token, 1, b"refused exists\n", given=secret)
    program.is_due("no input has no secret", token, 2, b"refused usage\n", SECRET_FORM)
    program.is_due("the list is printed", ["org-list", "--db", "t.db"], 0, b"acme 0 200\n")
    program.is_due("frames are answered", ["replay"], 0, b"reply 3\nok\n\n", given=b"at 0 admin org-add acme\n")
    program.is_due("a frame doesn't read", ["replay"], 2, b"", b"custody: bad frame 1\n", given=b"at\n")
    program.is_due("nor does one that isn't UTF-8", ["replay"], 2, b"", b"custody: bad frame 1\n", given=b"at 0 admin org-add \xff\n")
    for words in [[b"org-add", b"--db", b"t.db", b"\xff"], [b"\xc3\x28"], [b"org-list", b"--db", b"t\xed\xa0\x80.db"]]:
        program.is_due("words that aren't UTF-8: %s" % words, words, 2, b"refused usage\n", ENCODING)
    program.is_due("the version is printed", ["--version"], 0, b"custody 1.0.0 (schema 3)\n")
    serves = ["serve", "--db", "t.db", "--port", "8090"]
    program.is_due("a service without a count", serves, 2, b"refused usage\n", ONE_OF)
    program.is_due("a service with a count and without one", [*serves, "--count", "1", "--unlimited"], 2, b"refused usage\n", ONE_OF)
    counted = ["serve", "--db", "t.db", "--count", "1"]
    program.is_due("a service without a port and a socket", counted, 2, b"refused usage\n", PORT_OR_SOCKET)
    program.is_due("a service with both", [*counted, "--port", "8090", "--socket", "s"], 2, b"refused usage\n", PORT_OR_SOCKET)
    program.is_due("a socket whose path isn't UTF-8", [*map(os.fsencode, counted), b"--socket", b"s\xff"], 2, b"refused usage\n", ENCODING)
    for what, path in [("no", ""), ("too long a", "s" * (LONGEST_PATH + 1))]:
        program.is_due("a socket with %s path" % what, [*counted, "--socket", path], 3, b"refused down\n", SOCKET)
    with Service(program, "t.db", 1, port="s" * LONGEST_PATH) as service:
        # (a script elsewhere reaches it by a shorter path)
        os.symlink(service.port, program.folder + "/s")
        service.port = program.folder + "/s"
        said("whether a socket with the longest path answers", service.asked(GET)[:13], b"HTTP/1.1 404 ")
        service.ends()
    for name in ["s", "s" * LONGEST_PATH]:
        os.remove("%s/%s" % (program.folder, name))
    print("right: a socket's path may have %d bytes" % LONGEST_PATH)
    said("the mode of a new file", os.stat(program.folder + "/t.db").st_mode & 0o777, 0o600)
    if sorted(os.listdir(program.folder)) != ["t.db", "t.db-wal"]:
        raise Wrong("it left %s" % os.listdir(program.folder))


# ----------------------------------------------------------------------------------------------------
# Streams
# ----------------------------------------------------------------------------------------------------


def look_at_streams(program):
    lists = ["org-list", "--db", "t.db"]
    serves = ["serve", "--db", "t.db", "--port", str(free_port()), "--count", "1"]
    for what, words in [("a list", lists), ("the line of a service", serves), ("a reply", ["replay"]), ("the version", ["--version"])]:
        given = b"at 0 admin org-add acme\n" if words == ["replay"] else b""
        with open(FULL, "wb") as full:
            said("%s on a full device" % what, program.run(words, given, output=full), (3, None, UNPRINTED))
        with closed_pipe() as pipe:
            said("%s on a pipe that nobody reads" % what, program.run(words, given, output=pipe), (3, None, UNPRINTED))
        print("right: %s on an output that takes nothing is status 3, and told" % what)
    with open(FULL, "wb") as full:
        refused = program.run(["org-list"], output=full)
    said("words that aren't those of a command, on a full device", (refused[0], refused[2].endswith(UNPRINTED)), (3, True))
    with open(FULL, "wb") as full:
        said("help on a full device", program.run(["--help"], errors=full), (3, b"", None))
    with closed_pipe() as pipe:
        said("help on a pipe that nobody reads", program.run(["--help"], errors=pipe), (3, b"", None))
    print("right: help on an error stream that takes nothing is status 3")
    folder = os.open(program.folder, os.O_RDONLY)
    process = program.start(["replay"], folder)
    os.close(folder)
    output, errors = process.communicate(timeout=PATIENCE)
    said("an input that can't be read", (process.returncode, output, errors), (3, b"refused down\n", UNREAD))
    print("right: an input that can't be read is status 3, and told")


# The streams that may be closed at the start, and how a shell closes each.
CLOSES = ["<&-", ">&-", "2>&-"]


def without(streams):
    """Runs the words behind it with these streams closed."""
    return ["sh", "-c", "exec \"$@\" %s" % " ".join(CLOSES[stream] for stream in streams), "sh"]


def look_at_closed(program):
    """A stream that is closed is none of a database or a peer: what stands there is /dev/null."""
    every = [[stream for stream in range(3) if number >> stream & 1] for number in range(1, 8)]
    for streams in every:
        status, output, errors = program.run(["token-list", "--db", "t.db", "acme"], under=without(streams), hears=2 not in streams)
        said("a list without the streams %s" % streams, (status, output), (0, b"" if 1 in streams else b"root admin - -\n"))
        status, output, errors = program.run(["org-list", "--db", "none.db"], under=without(streams), hears=2 not in streams)
        said("a reason without the streams %s" % streams, (status, output), (3, b"" if 1 in streams else b"refused down\n"))
        said("and on the error stream", errors == b"", 2 in streams)
        # (a secret comes on the standard input)
        status, output, errors = program.run(["token-add", "--db", "t.db", "acme", "some", "read"], b"somesomesomesome\n", under=without(streams))
        said("a secret without the streams %s" % streams, status, 2 if 0 in streams else 0)
        status, output, errors = program.run(["token-revoke", "--db", "t.db", "acme", "some"], under=without(streams))
        said("its token", status, 1 if 0 in streams else 0)
    print("right: commands have what is due, whichever of their streams are closed")
    left, read = b"GET /v1/acme/state/net HTT", request(b"GET /v1/acme/workspaces HTTP/1.1")
    for streams in every:
        port = free_port()
        words = ["serve", "--db", "t.db", "--port", str(port), "--count", "5", "--log"]
        process = program.start(words, subprocess.DEVNULL, under=without(streams))
        try:
            came = [patient(port, sent) for sent in (left, read, left, read)]
            said("peers of a service without the streams %s" % streams, came, [b"", LISTED, b"", LISTED])
            for stream in range(3):
                there = os.readlink("/proc/%d/fd/%d" % (process.pid, stream))
                said("the stream %d of a service without %s" % (stream, streams), there == "/dev/null", stream in streams or stream == 0)
            patient(port, left)
            output, told = process.communicate(timeout=PATIENCE)
        finally:
            process.kill()
            process.wait()
        lines = output.splitlines()
        said("what it prints", (len(lines), lines[:1]), (0, []) if 1 in streams else (6, [b"listening 127.0.0.1:%d" % port]))
        said("what it tells", told, b"" if 2 in streams else LEFT_EARLY % 1 + LEFT_EARLY % 3 + LEFT_EARLY % 5)
    program.is_due("the file is whole behind them", ["check", "--db", "t.db"], 0, b"ok\norganizations 1 workspaces 0 versions 0 runs 0 made 0 newest -\n")
    print("right: a service is the same, whichever of its streams are closed, and its peers get their replies alone")


# ----------------------------------------------------------------------------------------------------
# A service
# ----------------------------------------------------------------------------------------------------

# The list of an organization without workspaces.
LISTED = ok(b'{"items":[],"more":false}')


def patient(port, sent):
    """The undated reply of a service that may not listen yet."""
    end = time.monotonic() + PATIENCE
    while True:
        try:
            return undated(answered(port, sent))
        except ConnectionRefusedError:
            if time.monotonic() > end:
                raise Wrong("a service doesn't listen") from None
            time.sleep(0.01)


def served(program, exchanges, errors):
    """A service that answers these, and then ends by its count."""
    with Service(program, "t.db", len(exchanges)) as service:
        for sent, due in exchanges:
            said("the reply to %s" % sent[:40], service.asked(sent), due)
        service.ends(errors=errors)
    print("right: %d connections were answered, and the service ended by its count" % len(exchanges))


def look_at_service(program):
    made = (PUT, ok(MADE))
    posted = (post(STATE), ok())
    read = (GET, ok(STATE))
    left = (b"GET /v1/acme/state/net HTT", b"")
    served(program, [made, posted], b"")
    served(program, [left, read, left], LEFT_EARLY % 1 + LEFT_EARLY % 3)
    program.is_due("the file has what was answered", ["org-list", "--db", "t.db"], 0, b"acme 1 200\n")
    with socket.socket() as other:
        other.bind(("127.0.0.1", 0))
        other.listen()
        words = ["serve", "--db", "t.db", "--port", str(other.getsockname()[1]), "--count", "1"]
        program.is_due("a port that is taken", words, 3, b"refused down\n", PORT_TAKEN)
        words = ["serve", "--db", "nowhere/t.db", *words[3:]]
        program.is_due("a port that is taken, and a file that is not opened", words, 3, b"refused down\n", NO_FOLDER)


def look_at_unlimited(program):
    """A service without a count goes on, until it is ended."""
    with Service(program, "t.db", None) as service:
        for number in range(UNLIMITED):
            said("reply %d of a service without a count" % number, service.asked(GET), ok(STATE))
        said("whether it goes on", service.process.poll(), None)
        service.kill()
        _, *printed = service.left()
    said("what it printed", printed, [b"", b""])
    status, output, errors = program.run(["check", "--db", "t.db"])
    said("the file that it leaves", (status, output.startswith(b"ok\norganizations 1 workspaces 1 versions 1 runs 0 made 1 newest "), errors), (0, True, b""))
    print("right: %d connections were answered by a service without a count, and it went on" % UNLIMITED)


if __name__ == "__main__":
    look_at(__doc__, look_at_words, look_at_streams, look_at_closed, look_at_service, look_at_unlimited)
