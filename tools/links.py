#!/usr/bin/env python3
"""Looks at the links and the clock of the program `custody`: what `serve` does over sockets, and when.

    python3 tools/links.py CUSTODY [WORD..]    the program as `rt ci` or `rt run` leaves it; only the looks of these words

No contract says what a socket, a timeout or the clock of the system does. Here `serve` is asked over 127.0.0.1, and its times are
taken from a monotonic clock: who reaches it, when a peer is cut off, which moment it tells, that a peer that sends more than is
taken reads its whole reply, how long it is waited for then, that one that stays holds up nobody, that one who comes while the
file is opened waits, and that a service which is stopped and goes on serves; and which sockets `--socket` makes. With SOCKET in the
environment it is asked over a Unix socket, but for `address` and `again`. It prints a line for each thing that holds, and ends with status 1 at the first that doesn't.

A look never fails since the machine is slow, but for two bounds: a cut-off comes at most SLACK seconds behind its time, and
STAYING peers that stay take at most STAYED seconds more than as many that leave, the best of up to TRIES times. Where this
script itself is too slow to tell what a refused peer sees at once, it is asked again, as often.
"""

import contextlib
import os
import select
import signal
import socket
import stat
import subprocess
import sys
import time

import harness
from harness import GET, LEFT_EARLY, MADE, NO_FOLDER, NO_SOCKET, PUT, READ_FAILED, SMALL_BUFFER, SOCKET, SOCKET_TAKEN, SOON, UNWRITTEN
from harness import Program, Wrong, answered, connected, is_free, moment_of, open_pipe, ok, post, received, reply, said, undated, wait_until

# Seconds after which all looks together are held for hanging; for one peer or one service they are SOON.
LIMIT = 120

# Seconds that a peer may let nothing through, or a connection may last, and those that aren't reached where the other is tried.
IDLE = 2
MOST = 4
FAR = 30

# Seconds after its reply in which a refused peer that goes on sending is read.
LINGER_MOST = 5

# Seconds for which a service is paused, which are more than the time of a call that waits.
LONG_PAUSE = IDLE + 1

# The same for a peer that doesn't read. A call that wrote a part before it waited has let something through, and buffers
# grow at first: so a few calls wait, one behind the other.
UNREAD_IDLE = 1
CALLS = 3

# By how many seconds a cut-off may come too early (a tick of the system's timers), and too late.
EARLY = 0.05
SLACK = 3

# Seconds that a peer pauses between its pieces: less than IDLE, and more than it in all.
PAUSE = 0.8
PIECES = 4

# Seconds between two bytes of a peer that trickles, between two stops, and for a service to come to where it waits.
TRICKLE = 0.3
STOPS_EACH = 0.4
SETTLED = 0.3

# How often a service is stopped and goes on within one call that waits.
STOPS = 3

# A text that no buffers of a connection hold (what is sent has 4 MB at most).
STATE = b'{"version":4,"serial":1,"lineage":"a1","x":"%s"}' % (b"links" * 1_600_000)

# Bytes of a state that makes a file so large that its open takes a while.
LARGE = 8_000_000

# What a rude peer sends behind what is taken: less than is read of it, and more than a buffer holds that nobody reads. And more
# than is read of it and all buffers hold: 8,192 reads have 33,554,432 bytes at most.
REST = b"x" * 12_000_000
ENDLESS = b"x" * 100_000_000
TOO_MUCH = 16_777_217

# Peers that are whole, and stay once they have their reply; and the seconds for all of them, the end of the service too. One
# that waits for each of them to leave waits a second for each.
STAYING = 5
STAYED = 3

# Seconds that a refused peer may wait with its next byte; and how often it sends one, in longer than that.
LINGER = 1
AGAIN = 6

# How often is tried at most what a slow machine may spoil, and no wrong program does right.
TRIES = 5

HELD = MADE.replace(b'"version":null', b'"version":1')
TOO_LARGE = reply(b"413 Payload Too Large", b'{"error":"too-large"}')

LONG_HEAD = post(b"").replace(b"\r\n\r\n", b"\r\nContent-Length: %d\r\n\r\n" % TOO_MUCH)


# ----------------------------------------------------------------------------------------------------
# A service, and its peers
# ----------------------------------------------------------------------------------------------------


class Service(harness.Service):
    """A service over the file of these looks. Its peers close after it does, so its port remembers their connections."""

    patience, stays = SOON, True

    def __init__(self, program, count, *words, **how):
        super().__init__(program, "t.db", count, *words, **how)

    def state(self):
        """The letter of the process: T where it is stopped."""
        with open("/proc/%d/stat" % self.process.pid) as file:
            return file.read().rpartition(")")[2].split()[0]

    def stop_and_go(self, meanwhile=lambda: None):
        """It is stopped, and goes on: a call of the system that waits with a timeout is interrupted by that."""
        self.process.send_signal(signal.SIGSTOP)
        wait_until(lambda: self.state() == "T", "a service doesn't stop")
        meanwhile()
        self.process.send_signal(signal.SIGCONT)
        wait_until(lambda: self.state() != "T", "a service doesn't go on")


def is_cut_off(stream, seconds):
    """Whether the connection ends within so many seconds, with nothing said."""
    if not select.select([stream], [], [], seconds)[0]:
        return False
    try:
        came = stream.recv(1)
    except ConnectionError:
        return True
    said("a peer that is cut off", came, b"")
    return True


def cut_off(what, stream, begun, due, each=SLACK, act=lambda: None):
    """The connection is cut off so many seconds behind its begin, and not long behind; until then something is done each so often."""
    while not is_cut_off(stream, max(0, min(each, begun + due + SLACK - time.monotonic()))):
        if time.monotonic() > begun + due + SLACK:
            raise Wrong("%s isn't cut off behind %.1f seconds, due are %d" % (what, time.monotonic() - begun, due))
        act()
    in_time(what, time.monotonic() - begun, due)


def is_there(stream, seconds=TRICKLE):
    """Whether something has come, or comes within so many seconds."""
    return bool(select.select([stream], [], [], seconds)[0])


def served_behind(what, later, begun, due, act, each=TRICKLE, calls=1):
    """The one behind a peer is served once that is cut off, so many seconds behind its begin; until then something is done each so often."""
    while not is_there(later, each):
        if time.monotonic() > begun + due * calls + SLACK:
            raise Wrong("%s isn't cut off behind %.1f seconds, due are %d" % (what, time.monotonic() - begun, due))
        act()
    in_time(what, time.monotonic() - begun, due, calls)


def in_time(what, lasted, due, calls=1):
    if not due - EARLY <= lasted <= due * calls + SLACK:
        raise Wrong("%s is cut off behind %.2f seconds, due are %d" % (what, lasted, due))
    print("right: %s is cut off behind %.2f seconds, due are %d" % (what, lasted, due))


# ----------------------------------------------------------------------------------------------------
# Looks
# ----------------------------------------------------------------------------------------------------


def look_at_address(program):
    """It listens at 127.0.0.1 alone."""
    with socket.socket() as every:
        every.bind(("0.0.0.0", 0))
        every.listen()
        socket.create_connection(("127.0.0.2", every.getsockname()[1]), SOON).close()
    with Service(program, 1) as service:
        try:
            socket.create_connection(("127.0.0.2", service.port), SOON).close()
        except ConnectionRefusedError:
            pass
        else:
            raise Wrong("a connection to 127.0.0.2 is accepted")
        said("a reply at 127.0.0.1", service.asked(PUT), ok(HELD))
        service.ends()
    print("right: a connection to another address of the machine is refused")


def look_at_clock(program):
    """The moment of a reply is that of the system's clock, and goes on."""
    with Service(program, 2) as service:
        for _ in range(2):
            before = int(time.time())
            told = moment_of(answered(service.port, GET, stays=True, patience=SOON))
            after = int(time.time())
            if not before <= told <= after:
                raise Wrong("the moment %d is told between %d and %d" % (told, before, after))
            time.sleep(1.1)
        service.ends()
    print("right: the moment of two replies, more than a second apart, is that of the system's clock")


def look_at_rude_peers(program):
    """A peer that sends more than is taken, and then reads to the end, gets its whole reply. One that sends without end is cut off."""
    with Service(program, 3) as service:
        for what, sent, due in [("a body that is too large", LONG_HEAD, TOO_LARGE), ("bytes behind a request", PUT, ok(HELD))]:
            try:
                came = service.asked(sent + REST)
            except ConnectionError as error:
                raise Wrong("%s: the reply doesn't come whole: %s" % (what, error)) from None
            said(what, came, due)
            print("right: %s: the whole reply is read" % what)
        with service.peer() as peer:
            peer.sendall(LONG_HEAD)
            try:
                peer.sendall(ENDLESS)
            except ConnectionError:
                pass
            else:
                raise Wrong("%d bytes are taken behind a body that is too large" % len(ENDLESS))
        print("right: a peer that sends without end is cut off")
        service.ends()


def peers_last(program, what, sent, due, they_stay):
    """How many seconds a service takes to answer peers one after the other, which stay to its end, or each of which leaves first."""
    with Service(program, STAYING) as service, contextlib.ExitStack() as staying:
        begun = time.monotonic()
        for _ in range(STAYING):
            peer = staying.enter_context(service.peer())
            peer.sendall(sent)
            said("a peer behind %s" % what, undated(received(peer)) == due, True)
            if not they_stay:
                peer.close()
        service.ends()
        return time.monotonic() - begun


def look_at_staying_peers(program):
    """A peer whose request was read whole holds up nobody, though it stays: it lasts about as long as where each leaves."""
    for what, sent, due in [("a GET", GET, ok(STATE)), ("a POST", post(STATE), ok())]:
        left = stayed = FAR
        for _ in range(TRIES):
            left = min(left, peers_last(program, what, sent, due, False))
            stayed = min(stayed, peers_last(program, what, sent, due, True))
            if stayed <= left + STAYED:
                break
        else:
            raise Wrong("%d peers that stay behind %s take %.2f seconds, and %.2f where they leave" % (STAYING, what, stayed, left))
        print("right: %d peers that stay behind %s take %.2f seconds, and %.2f where they leave" % (STAYING, what, stayed, left))


def look_at_idle(program):
    """A peer is cut off once it let nothing through for as long as it may, and not before."""
    with Service(program, 3, "--idle", str(IDLE), "--most", str(FAR)) as service:
        begun = time.monotonic()
        with service.peer() as peer:
            cut_off("a peer that says nothing", peer, begun, IDLE)
        begun = time.monotonic()
        with service.peer() as peer:
            cut_off("one that says nothing to a service that is stopped and goes on", peer, begun, IDLE, STOPS_EACH, service.stop_and_go)
        with service.peer() as peer:
            for piece in range(PIECES):
                peer.sendall(GET[len(GET) * piece // PIECES : len(GET) * (piece + 1) // PIECES])
                time.sleep(PAUSE)
            said("a peer that pauses", undated(received(peer)) == ok(STATE), True)
        print("right: a peer that pauses for less is served")
        service.ends(errors=READ_FAILED % 1 + READ_FAILED % 2)


def cut_off_at_reply(program, what, idle, most, due, act, **how):
    """A peer is cut off that doesn't take its reply of many bytes, and the next one is served."""
    with Service(program, 2, "--idle", str(idle), "--most", str(most)) as service:
        with service.peer(SMALL_BUFFER) as peer, service.peer() as later:
            begun = time.monotonic()
            peer.sendall(GET)
            later.sendall(PUT)
            served_behind(what, later, begun, due, lambda: act(service, peer), **how)
            # (a reply that its peer leaves isn't written whole either)
            said("the one behind it", undated(received(later)) == ok(HELD), True)
        service.ends(errors=UNWRITTEN % 1)


def look_at_unread(program):
    """A peer that doesn't read is cut off, also by a service that is stopped and goes on, and one that reads slowly, too."""
    unread = {"idle": UNREAD_IDLE, "most": FAR, "due": UNREAD_IDLE, "calls": CALLS}
    cut_off_at_reply(program, "a peer that doesn't read its reply", act=lambda *_: None, **unread)
    stopped = "one that doesn't read the reply of a service that is stopped and goes on"
    cut_off_at_reply(program, stopped, act=lambda service, _: service.stop_and_go(), each=STOPS_EACH, **unread)
    slowly = "one that reads its reply slowly, in the time of its connection,"
    cut_off_at_reply(program, slowly, FAR, MOST, MOST, lambda _, peer: peer.recv(SMALL_BUFFER))


def look_at_most(program):
    """A connection is cut off once it lasted as long as it may, whatever comes."""
    with Service(program, 2, "--idle", str(FAR), "--most", str(MOST)) as service:
        begun = time.monotonic()
        with service.peer() as peer:
            peer.sendall(b"GET /")
            cut_off("a peer that trickles", peer, begun, MOST, TRICKLE, lambda: trickle(peer))
        begun = time.monotonic()
        with service.peer() as peer:
            cut_off("a peer that says nothing, in the time of its connection,", peer, begun, MOST)
        service.ends(errors=READ_FAILED % 1 + READ_FAILED % 2)


def look_at_lingering(program):
    """A peer that trickles behind the reply to what was too large is cut off once its connection lasted as long as it may, and a few seconds
    behind the reply in any case. The next one is served then."""
    for what, most, due in [("a peer that trickles behind its 413", MOST, MOST), ("one whose connection may last longer", FAR, LINGER_MOST)]:
        with Service(program, 2, "--idle", str(FAR), "--most", str(most)) as service:
            with service.peer() as peer, service.peer() as later:
                begun = time.monotonic()
                peer.sendall(LONG_HEAD)
                later.sendall(PUT)
                served_behind(what, later, begun, due, lambda: trickle(peer))
                said("the one behind it", undated(received(later)) == ok(HELD), True)
            service.ends()


def is_told_at_once(service, peer, later, begun):
    """Whether this script wasn't too slow to tell: a refused peer has its whole reply, with the end of it, and its line is in the
    log, while it is waited for, which goes on as long as it sends a byte now and then."""
    said("the reply to a refused peer that stays", undated(received(peer)), TOO_LARGE)
    line = service.process.stdout.readline()
    said("its line in the log: %s" % line, b"413" in line, True)
    sent = begun
    for _ in range(AGAIN):
        is_served = is_there(later)
        if time.monotonic() - sent > LINGER - EARLY:
            return False
        said("whether the one behind a refused peer is served before that is silent", is_served, False)
        trickle(peer)
        sent = time.monotonic()
    served_behind("a refused peer that stays, once it sends no more,", later, sent, LINGER, lambda: None)
    return True


def look_at_refused_peer(program):
    """A refused peer that stays has its reply to its end, and its line in the log, at once, and holds up the next one for a while."""
    for _ in range(TRIES):
        with Service(program, 2, "--idle", str(FAR), "--most", str(FAR), "--log") as service:
            with service.peer() as peer, service.peer() as later:
                begun = time.monotonic()
                peer.sendall(LONG_HEAD)
                later.sendall(PUT)
                if is_told_at_once(service, peer, later, begun):
                    said("the one behind it", undated(received(later)) == ok(HELD), True)
                    status, output, errors = service.left()
                    said("a service behind its count", (status, output.count(b"\n"), errors), (0, 1, b""))
                    print("right: it has its reply to its end, and its line in the log, before that")
                    return
    raise Wrong("the end of a refused peer's reply, or its line in the log, comes once it isn't waited for any more")


def look_at_again(program):
    """A service that ended is started again at its port at once, though connections that it closed aren't forgotten yet."""
    with Service(program, 1) as first:
        said("a service", first.asked(GET) == ok(STATE), True)
        first.ends()
    said("whether the port remembers no connection", is_free(first.port), False)
    with Service(program, 1, port=first.port) as second:
        said("the next one at its port", second.asked(GET) == ok(STATE), True)
        second.ends()
    print("right: a service is started again at its port at once")


def look_at_socket(program):
    """A socket lets its owner and group connect. It is replaced where nobody answers; nothing else at its path is touched."""
    path = program.folder + "/socket"
    serves = ["serve", "--db", "nowhere/t.db", "--count", "1", "--socket"]
    with Service(program, 3, port=path) as service:
        said("a socket", oct(os.stat(path).st_mode), oct(stat.S_IFSOCK | 0o660))
        program.is_due("a socket that somebody answers at", [*serves, path], 3, b"refused down\n", SOCKET_TAKEN)
        said("a GET at a socket", service.asked(GET) == ok(STATE), True)
        said("a POST at a socket", service.asked(post(STATE)), ok())
        service.ends(errors=LEFT_EARLY % 1)
    left, told = os.stat(path).st_mtime_ns, program.own.name + "/told"
    os.symlink(path, path + ".link")
    env = dict(os.environ, LD_PRELOAD=harness.compiled("calls", program.own.name), TOLD=told)
    with Service(program, 1, port="socket", env=env, under=["sh", "-c", 'umask 0 && exec "$@"', "sh"]) as service:
        said("whether a socket that nobody answers at stays", os.stat(path).st_mtime_ns == left, False)
        with open(told, encoding="utf-8") as lines:
            said("its mode before anyone can connect", [line.split()[1] for line in lines if line.startswith("listens ")], ["660"])
        service.port = path
        said("a PUT at it", service.asked(PUT), ok(HELD))
        service.ends()
    os.mkfifo(path + ".pipe")
    for other in (program.folder, program.folder + "/t.db", path + ".pipe", path + ".link"):
        before = os.lstat(other)
        program.is_due("something else than a socket", [*serves, other], 3, b"refused down\n", NO_SOCKET)
        said("what it is", os.lstat(other)[:2], before[:2])
    for other in (program.folder + "/nowhere/socket", "s" * 108, ""):
        program.is_due("a socket that cannot be made", [*serves, other], 3, b"refused down\n", SOCKET)
    program.is_due("a socket, and a file that is not opened", [*serves, path], 3, b"refused down\n", NO_FOLDER)
    print("right: it has mode 0660 before anyone can connect, and is replaced where nobody answers; everything else is refused, and stays")


def connected_early(port):
    """A connection to a service, as soon as one is made."""
    end = time.monotonic() + SOON
    while time.monotonic() < end:
        try:
            return connected(port, SOON)
        except (ConnectionRefusedError, FileNotFoundError):
            pass
    raise Wrong("no connection to a service is made")


def read_by(process):
    """How many bytes a process has read from files so far."""
    with open("/proc/%d/io" % process.pid, encoding="ascii") as counts:
        return int(next(line for line in counts if line.startswith("rchar")).split()[1])


def look_at_opening(program):
    """A peer that comes while the file is opened waits for that, and is answered: a connection is made before the file was read whole."""
    state = STATE.replace(b'"serial":1', b'"serial":2').replace(b"links" * 1_600_000, os.urandom(LARGE // 2).hex().encode())
    with Service(program, 1) as service:
        said("a state whose pages differ is posted", service.asked(post(state)), ok())
        service.ends()
    size = os.path.getsize(program.folder + "/t.db")
    for _ in range(TRIES):
        port = harness.free_address(program)
        with open_pipe() as given, program.start(["serve", "--db", "t.db", *harness.address(port), "--count", "1"], given) as process:
            try:
                with connected_early(port) as peer:
                    process.send_signal(signal.SIGSTOP)
                    read = read_by(process)
                    process.send_signal(signal.SIGCONT)
                    peer.sendall(GET)
                    said("a peer that came while the file was opened", undated(received(peer)) == ok(state), True)
                output, errors = process.communicate(timeout=SOON)
                said("its service", (process.returncode, output, errors), (0, harness.listening(port), b""))
            finally:
                process.kill()
        if read < size:
            print("right: a connection made when %d of %d bytes were read is answered once the file is open" % (read, size))
            return
    raise Wrong("no connection is made before the file of %d bytes is read" % size)


def trickle(peer):
    try:
        peer.sendall(b"x")
    except ConnectionError:
        pass


def look_at_stops(program):
    """A service that is stopped and goes on serves, wherever it waits: for a peer, for a request, for room for a reply."""
    with Service(program, 2) as service:
        service.stop_and_go()
        with service.peer() as peer:
            for piece in range(STOPS):
                peer.sendall(GET[len(GET) * piece // STOPS : len(GET) * (piece + 1) // STOPS - 1])
                time.sleep(SETTLED)
                service.stop_and_go()
                peer.sendall(GET[len(GET) * (piece + 1) // STOPS - 1 : len(GET) * (piece + 1) // STOPS])
            said("a request that comes around stops", undated(received(peer)) == ok(STATE), True)
        print("right: a service that is stopped while a request comes answers it")
        with service.peer(SMALL_BUFFER) as peer:
            peer.sendall(GET)
            for _ in range(STOPS):
                time.sleep(SETTLED)
                service.stop_and_go()
            said("a reply that goes out around stops", undated(received(peer)) == ok(STATE), True)
        print("right: and one that is stopped while a reply goes out writes it whole")
        service.ends()
    with Service(program, 1, "--idle", str(IDLE), "--most", str(FAR)) as service:
        with service.peer() as peer:
            peer.sendall(GET[:-1])
            time.sleep(SETTLED)

            def ends_its_request():
                peer.sendall(GET[-1:])
                time.sleep(LONG_PAUSE)

            service.stop_and_go(ends_its_request)
            said("a request whose end came in a long pause", undated(received(peer)) == ok(STATE), True)
        print("right: and one that is stopped for longer than a call may wait answers what came meanwhile")
        service.ends()


# Looks that are of ports alone.
OF_PORTS = ["address", "again"]
LOOKS = {
    "address": look_at_address,
    "clock": look_at_clock,
    "rude": look_at_rude_peers,
    "staying": look_at_staying_peers,
    "idle": look_at_idle,
    "unread": look_at_unread,
    "most": look_at_most,
    "lingering": look_at_lingering,
    "refused": look_at_refused_peer,
    "again": look_at_again,
    "socket": look_at_socket,
    "stops": look_at_stops,
    "opening": look_at_opening,
}


def fill(program):
    """A file with an organization, a token, and a workspace with a state."""
    said("an organization", program.run(["org-add", "--db", "t.db", "acme"])[:2], (0, b"ok\n"))
    added = program.run(["token-add", "--db", "t.db", "acme", "root", "admin"], b"adminadminadmin1\n")
    said("a token", added, (0, b"ok\n", b""))
    with Service(program, 2) as service:
        said("a workspace is made", service.asked(PUT), ok(MADE))
        said("a state is posted", service.asked(post(STATE)), ok())
        service.ends()


def too_long(*_):
    raise Wrong("the looks last longer than %d seconds" % LIMIT)


def main(words):
    if not words or not set(words[1:]) <= set(LOOKS):
        sys.exit(__doc__)
    signal.signal(signal.SIGALRM, too_long)
    signal.alarm(LIMIT)
    with Program(words[0]) as program:
        word = "begin"
        try:
            fill(program)
            for word, look in LOOKS.items():
                if word in words[1:] or not words[1:] and not ("SOCKET" in os.environ and word in OF_PORTS):
                    look(program)
        except (Wrong, OSError, subprocess.TimeoutExpired) as wrong:
            print("WRONG: %s: %s" % (word, wrong))
            sys.exit(1)


if __name__ == "__main__":
    main(sys.argv[1:])
