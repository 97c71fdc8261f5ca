#!/usr/bin/env python3
"""Two virtual machines with a replicated disk: one fails, the other serves on, and nothing acknowledged may be lost.

    python3 tools/standby.py PROGRAM [--rounds N] [--kinds KIND,..] [--cache on|off] [--kernel FOLDER] [--keep FOLDER]
    python3 tools/standby.py PROGRAM --unfenced          leaves fencing out; a stale machine has to lose something, or be refused
    python3 tools/standby.py PROGRAM --cache ignored     disks ignore flushes; both machines lose power and have to lose something

PROGRAM is crates/custody/out/custody, as `rt run` leaves it. It needs Debian's qemu-system-x86, drbd-utils, busybox-static, socat,
cpio, kmod, e2fsprogs, and a kernel with DRBD (linux-image-cloud-amd64). `--kernel` names a folder into which that package was
unpacked, if it is not installed (`dpkg-deb -x FILE FOLDER`). It runs as any user, without KVM. It is slow, and no part of the gate.

Both machines, `a` and `b`, have one processor and a disk under DRBD (protocol C). One serves, and clients lock, post and run.
Each kind of round is done N times (once), and ends with the service on the other machine:

    power      the serving machine loses its power; the other fences it and takes over
    switch     nothing fails: the service is stopped, and the other machine takes over, as for an upgrade
    secondary  the other machine loses its power; the service goes on; then as `switch`
    link       the link between both is cut; the serving machine fences the other and goes on; then as `switch`
    race       the link is cut, and the other machine is told to take over at once: one of the two has to be fenced
    resync     the serving machine loses its power while the other is being brought into step: the other must refuse to take over
    target     the machine that is being brought into step loses its power; the service goes on; then as `switch`
    disk       the disk of the serving machine fails; the service goes on over the other's; then as `switch`, and a new disk
    both       both lose their power at once; both are started, and the other takes over
    alone      the other machine loses its power, the service goes on, and then the serving machine loses its power: the other, which is
               started alone, must refuse to take over; then the first is started, too, and the other takes over

A disk is served to qemu by this script. `--cache on` (qemu's `writeback`): the guest sees a disk with a cache, and has to flush it.
`--cache off` (`writethrough`): qemu flushes after each write. Without power, each sector that was not flushed keeps what was
written or gets back what it had, at random. Fencing is a switch in this script, which ends the process of the peer.

After each takeover, each workspace has to be as the last reply of 200 left it, or as the request that was under way: its holder,
its versions with serial and size, its runs, its newest text and a sample of the others. No line of the log may be false or missing,
but those of the last moment before a kill. `check` has to count the same. At the end, all texts are read, and both disks compared.
"""

import argparse
import glob
import http.client
import json
import lzma
import os
import random
import shutil
import socket
import struct
import subprocess
import sys
import tempfile
import threading
import time

from harness import Program, Wrong, free_port, said

ORG, WORKSPACES = "acme", ["net-%d" % at for at in range(4)]
SECRETS = {"root": ("adminadminadmin1", "admin"), "ci": ("writewritewrite1", "write"), "look": ("readreadreadread", "read")}

# Bytes of a disk, and of its sectors, each of which is written whole or not at all; seconds that a flush takes.
SIZE, SECTOR, FLUSH = 128 << 20, 512, 0.02
# Seconds: for a machine to start, for one request, for a takeover, and for a resync.
BOOT, REQUEST, TAKEOVER, RESYNC = 400, 100, 300, 400
# The programs that this script starts, and the packages of Debian that have them.
NEEDED = {
    "qemu-system-x86_64": "qemu-system-x86", "drbdadm": "drbd-utils", "drbdsetup": "drbd-utils", "drbdmeta": "drbd-utils",
    "busybox": "busybox-static", "socat": "socat", "cpio": "cpio", "modinfo": "kmod", "mkfs.ext4": "e2fsprogs", "ldd": "libc-bin",
}
MODULES = ["virtio_pci", "virtio_blk", "virtio_net", "ext4", "crc32c_generic", "drbd"]
APPLETS = "cat cut echo grep hostname insmod ip kill ls mkdir mount nc pidof rm sed setsid sh sleep stty sync tail true umount".split()

RESOURCE = """global { usage-count no; }
common { net { protocol C; ping-timeout 20; } disk { on-io-error detach; %s } %s }
resource r0 {
  device /dev/drbd0; disk /dev/vda; meta-disk internal;
  on a { address 10.0.0.1:7788; }
  on b { address 10.0.0.2:7788; }
}
"""
POLICY, HANDLERS = "fencing resource-and-stonith;", 'handlers { fence-peer "/bin/fence"; }'
# Status 7 of the handler: the peer is off, so its data may be counted as outdated.
FENCE = """#!/bin/sh
peer=b; [ "$(hostname)" = b ] && peer=a
# started alone, this machine does not know what the other acknowledged meanwhile
grep -q ' ds:UpToDate/' /proc/drbd || exit 1
[ "$(echo off $peer | nc -w 20 10.0.2.2 %d)" = off ] && exit 7
exit 1
"""
INIT = """#!/bin/sh
export PATH=/bin:/sbin
mount -t proc proc /proc; mount -t sysfs sys /sys; mount -t devtmpfs dev /dev
for module in /modules/*; do insmod $module 2>/dev/null; done
name=$(sed 's/.*node=\\([ab]\\).*/\\1/' /proc/cmdline); hostname $name; at=1; [ $name = b ] && at=2
stty -F /dev/ttyS1 raw
ip link set lo up
ip addr add 10.0.0.$at/24 dev eth0; ip link set eth0 up
ip addr add 10.0.2.15/24 dev eth1; ip link set eth1 up
socat TCP-LISTEN:8091,bind=10.0.2.15,reuseaddr,fork,backlog=128 TCP:127.0.0.1:8090 2>/dev/null &
while true; do socat TCP-LISTEN:7000,bind=10.0.2.15,reuseaddr,fork EXEC:/bin/sh 2>/dev/null; sleep 1; done
"""
NOW = "cut -d' ' -f1 /proc/uptime"
# As the unit's AssertPathExists: `serve` would create a missing file. Port 8090 listens before the file is open: requests wait for that.
SERVE = (
    "cd /mnt && ls custody.db > /dev/null && "
    "{ setsid custody serve --db /mnt/custody.db --port 8090 --unlimited --log < /dev/null > /dev/ttyS1 2>> /errors & } && "
    "until grep -q ':1F9A .* 0A ' /proc/net/tcp; do sleep .2; pidof custody > /dev/null || break; done; pidof custody"
)
STOP = "kill $(pidof custody); while pidof custody; do sleep .2; done > /dev/null"
# Whether this machine's disk counts as up to date.
NEWEST = "drbdadm dstate r0 | grep -q ^UpToDate/"
# A promotion is refused until the peer is fenced: it has to be repeated. DRBD would fence the peer of a machine that was started alone, too,
# and take what that has for the newest: the handler (`FENCE`) refuses it.
PROMOTE = "left=%d; until drbdadm primary r0; do left=$((left-1)); [ $left -gt 0 ] || exit 1; sleep 1; done"
STATE = "grep -A1 ' cs:' /proc/drbd"


# ----------------------------------------------------------------------------------------------------
# Disks
# ----------------------------------------------------------------------------------------------------


class Disk:
    """A disk, as a server of NBD for one qemu at a time. What was not flushed may be lost with the power."""

    MAGIC, OPTION, REPLY = b"NBDMAGIC", b"IHAVEOPT", 0x3E889045565A9
    ASKED, ANSWERED, FAILED, UNSUPPORTED = 0x25609513, 0x67446698, 5, (1 << 31) + 1
    # It takes flushes, and writes that are to be on the disk when they are answered.
    FLAGS = 1 | 4 | 8

    def __init__(self, path, address, chance, ignores):
        self.path, self.address, self.chance, self.ignores = path, address, chance, ignores
        self.before, self.broken, self.server = {}, False, None
        self.flushes = self.reverted = self.cuts_in_writes = 0
        self.renew()

    def renew(self):
        """A new, empty disk."""
        with open(self.path, "wb") as file:
            file.truncate(SIZE)
        self.before, self.broken = {}, False

    def plug(self):
        """Waits for the next qemu, in a thread."""
        if os.path.exists(self.address):
            os.remove(self.address)
        ear = socket.socket(socket.AF_UNIX)
        ear.bind(self.address)
        ear.listen(1)
        self.server = threading.Thread(target=self.serve, args=(ear,), daemon=True)
        self.server.start()

    def serve(self, ear):
        with ear:
            link, _ = ear.accept()
        with link, link.makefile("rb") as stream, open(self.path, "r+b", buffering=0) as file:
            try:
                if self.greet(link, stream):
                    self.answer(link, stream, file.fileno())
            except (OSError, EOFError):
                pass
            self.cut(file.fileno())

    @staticmethod
    def taken(stream, count):
        came = stream.read(count)
        if len(came) != count:
            raise EOFError
        return came

    def greet(self, link, stream):
        link.sendall(self.MAGIC + self.OPTION + struct.pack(">H", 3))
        self.taken(stream, 4)
        while True:
            _, option, length = struct.unpack(">8sII", self.taken(stream, 16))
            self.taken(stream, length)
            if option == 1:
                link.sendall(struct.pack(">QH", SIZE, self.FLAGS))
                return True
            replies = {7: [(3, struct.pack(">HQH", 0, SIZE, self.FLAGS)), (1, b"")], 2: [(1, b"")]}.get(option, [(self.UNSUPPORTED, b"")])
            for kind, text in replies:
                link.sendall(struct.pack(">QIII", self.REPLY, option, kind, len(text)) + text)
            if option in (2, 7):
                return option == 7

    def answer(self, link, stream, file):
        while True:
            magic, flags, kind, handle, at, length = struct.unpack(">IHHQQI", self.taken(stream, 28))
            if magic != self.ASKED:
                raise EOFError
            text = self.taken(stream, length) if kind == 1 else b""
            came = b""
            if kind == 2:
                return
            if not self.broken:
                if kind == 0:
                    came = os.pread(file, length, at)
                elif kind == 1:
                    self.write(file, at, text, flags & 1)
                elif kind == 3:
                    time.sleep(FLUSH)
                    self.flushes += 1
                    if not self.ignores:
                        self.before.clear()
            link.sendall(struct.pack(">IIQ", self.ANSWERED, self.FAILED if self.broken else 0, handle) + came)

    def write(self, file, at, text, is_through):
        sectors = range(at - at % SECTOR, at + len(text), SECTOR)
        if is_through:
            os.pwrite(file, text, at)
            for sector in sectors:
                self.before.pop(sector, None)
            return
        for sector in sectors:
            if sector not in self.before:
                self.before[sector] = os.pread(file, SECTOR, sector)
        os.pwrite(file, text, at)

    def cut(self, file):
        """The power is gone."""
        self.cuts_in_writes += bool(self.before)
        for sector, text in self.before.items():
            if self.chance.random() < 0.5:
                os.pwrite(file, text, sector)
                self.reverted += 1
        self.before = {}


# ----------------------------------------------------------------------------------------------------
# Machines
# ----------------------------------------------------------------------------------------------------


class Machine:
    """A virtual machine. It has a port for the service, one for a shell, and a serial line each for its console and the log."""

    def __init__(self, pair, name, wire, peer):
        self.pair, self.name, self.wire, self.peer, self.process = pair, name, wire, peer, None
        self.port, self.shell = free_port(), free_port()
        self.monitor = "%s/monitor.%s" % (pair.folder, name)
        self.log = "%s/log.%s" % (pair.folder, name)
        self.disk = Disk("%s/disk.%s" % (pair.folder, name), "%s/nbd.%s" % (pair.folder, name), pair.chance, pair.ignores)

    def start(self):
        self.disk.plug()
        at = 1 + (self.name == "b")
        mac = "52:54:00:00:0%d:0%d"
        words = ["nice", "-n", "19", "qemu-system-x86_64", "-accel", "tcg", "-cpu", "max", "-smp", "1", "-m", "400", "-no-reboot", "-nodefaults", "-display", "none"]
        words += ["-monitor", "unix:%s,server,nowait" % self.monitor, "-kernel", self.pair.kernel, "-initrd", self.pair.folder + "/initrd.gz"]
        words += ["-append", "console=ttyS0 panic=-1 quiet no_timer_check node=" + self.name]
        for line in ("console", "log"):
            words += ["-chardev", "file,id=%s,path=%s/%s.%s,append=on" % (line, self.pair.folder, line, self.name), "-serial", "chardev:" + line]
        words += ["-drive", "driver=nbd,server.type=unix,server.path=%s,if=virtio,cache=%s" % (self.disk.address, self.pair.cache)]
        words += ["-netdev", "socket,id=n0,udp=127.0.0.1:%d,localaddr=127.0.0.1:%d" % (self.peer, self.wire), "-device", "virtio-net-pci,netdev=n0,mac=" + mac % (0, at)]
        ports = ",".join("hostfwd=tcp:127.0.0.1:%d-10.0.2.15:%d" % ports for ports in ((self.port, 8091), (self.shell, 7000)))
        words += ["-netdev", "user,id=n1," + ports, "-device", "virtio-net-pci,netdev=n1,mac=" + mac % (1, at)]
        with open("%s/qemu.%s" % (self.pair.folder, self.name), "ab") as errors:
            self.process = subprocess.Popen(words, stdin=subprocess.DEVNULL, stdout=errors, stderr=errors)

    def lives(self):
        return self.process is not None and self.process.poll() is None

    def cut(self, is_writing=False):
        """As if its power had gone; if asked for, while the disk has something that was not flushed."""
        end = time.monotonic() + 5
        while is_writing and not self.disk.before and time.monotonic() < end:
            time.sleep(0.001)
        if self.process:
            self.process.kill()
            self.process.wait()
            self.disk.server.join()

    def once(self, command, seconds):
        """What a command prints, and its status; None if the machine does not say so."""
        try:
            with socket.create_connection(("127.0.0.1", self.shell), timeout=seconds) as link:
                link.sendall(b"( %s\n) < /dev/null 2>&1; echo ended-$?\nexit\n" % command.encode())
                came = b""
                while piece := link.recv(65536):
                    came += piece
        except OSError:
            return None
        text, mark, status = came.decode().rpartition("ended-")
        return (text.strip(), int(status)) if mark else None

    def reach(self):
        end = time.monotonic() + BOOT
        while self.once("true", 10) is None:
            if not self.lives():
                raise Wrong("%s ended: %s%s" % (self.name, self.tail("qemu"), self.tail("console")))
            if time.monotonic() > end:
                raise Wrong("%s does not start: %s" % (self.name, self.tail("console")))
            time.sleep(0.5)

    def come_back(self, command="drbdadm up r0"):
        """Starts, and then runs this."""
        self.start()
        self.reach()
        self.run(command)

    def tail(self, kind):
        with open("%s/%s.%s" % (self.pair.folder, kind, self.name), "rb") as file:
            return file.read()[-1000:].decode("latin-1")

    def tried(self, command, seconds=TAKEOVER):
        came = self.once(command, seconds)
        if came is None:
            raise Wrong("%s does not answer to: %s" % (self.name, command))
        return came

    def run(self, command, seconds=TAKEOVER):
        text, status = self.tried(command, seconds)
        if status:
            raise Wrong("%s: status %d of: %s: %s; %s" % (self.name, status, command, text, self.once(STATE + "; cat /errors", 20)))
        return text

    def link(self, is_up):
        """Cuts the link between the machines, or joins it. Qemu's monitor does it."""
        with socket.socket(socket.AF_UNIX) as monitor:
            monitor.connect(self.monitor)
            monitor.settimeout(20)
            came = b""
            for command in ("set_link n0 %s" % ("on" if is_up else "off"), ""):
                while not came.endswith(b"(qemu) "):
                    came += monitor.recv(4096)
                if command:
                    monitor.sendall(command.encode() + b"\n")
                    came = b""
            if b"rror" in came:
                raise Wrong("qemu's monitor: %s" % came)


class Switch(threading.Thread):
    """A switch of both machines' power. A machine that is off asks for nothing."""

    def __init__(self, pair):
        super().__init__(daemon=True)
        self.pair, self.ear, self.offs = pair, socket.create_server(("127.0.0.1", 0)), []
        self.port = self.ear.getsockname()[1]

    def run(self):
        while True:
            link, _ = self.ear.accept()
            with link:
                link.settimeout(10)
                try:
                    words = link.recv(64).decode().split()
                    if len(words) == 2 and words[0] == "off" and words[1] in self.pair.machines:
                        if self.pair.other(words[1]).lives():
                            self.offs.append((words[1], self.pair.machines[words[1]].lives()))
                            self.pair.machines[words[1]].cut()
                            link.sendall(b"off\n")
                except OSError:
                    pass


# ----------------------------------------------------------------------------------------------------
# Clients
# ----------------------------------------------------------------------------------------------------


def ask(machine, method, path, body=b"", name="look"):
    link = http.client.HTTPConnection("127.0.0.1", machine.port, timeout=REQUEST)
    try:
        link.request(method, "/v1/%s%s" % (ORG, path), body, {"Authorization": "Bearer %s.%s" % (ORG, SECRETS[name][0])})
        reply = link.getresponse()
        return reply.status, reply.read()
    finally:
        link.close()


def state_text(workspace, serial):
    """The text of a state: up to 30,000 bytes, which no other state has."""
    pad = random.Random("%s %d" % (workspace, serial)).randbytes(serial * 7919 % 15_000).hex()
    return json.dumps({"version": 4, "serial": serial, "lineage": workspace, "pad": pad}).encode()


class Model:
    """What one workspace has: its holder, the serials of its versions, and its runs, as pairs of key and status."""

    def __init__(self, holder="", serials=(), runs=()):
        self.holder, self.serials, self.runs = holder, serials, runs

    def with_run(self, status, holder=""):
        """After an action on the newest run."""
        return Model(holder, self.serials, (*self.runs[:-1], (self.runs[-1][0], status)))

    def seen(self):
        return self.holder, self.serials, self.runs


class Client(threading.Thread):
    """Sends requests on one workspace, until it is told to end or one gets no reply."""

    def __init__(self, machine, workspace, model, chance):
        super().__init__(daemon=True)
        self.machine, self.workspace, self.chance = machine, workspace, chance
        # What the last reply of 200 left; what the request leaves that got no reply; why it got none, unless the machine left.
        self.model, self.maybe, self.fault = model, None, None
        # The act and status of each request, as the log's lines have them; when the replies came.
        self.due, self.moments, self.over = [], [], threading.Event()

    def posts(self, model, holder, count):
        for _ in range(count):
            serial = len(model.serials) + 1
            model = Model(model.holder, (*model.serials, serial), model.runs)
            yield "update state", "POST", "/state/%s?ID=%s", holder, state_text(self.workspace, serial), model

    def requests(self):
        """Requests in turn, each with what it leaves. What holds at first is freed."""
        model = self.model
        while True:
            key = "k%x" % self.chance.getrandbits(64)
            yield "lock", "LOCK", "/state/%s", None, json.dumps({"ID": key}).encode(), Model(key, model.serials, model.runs)
            yield from self.posts(Model(key, model.serials, model.runs), key, self.chance.randrange(1, 4))
            model = self.model
            yield "unlock", "UNLOCK", "/state/%s", None, json.dumps({"ID": key}).encode(), Model("", model.serials, model.runs)
            number = len(model.runs) + 1
            holder = "run-%d" % number
            yield "make run", "POST", "/runs/%s", None, json.dumps({"key": key}).encode(), Model(holder, model.serials, (*model.runs, (key, "planning")))
            for action, status in (("planned", "planned"), ("confirm", "applying")):
                yield action, "POST", "/runs/%%s/%d/actions/%s" % (number, action), None, b"", self.model.with_run(status, holder)
            yield from self.posts(self.model, holder, 1)
            yield "applied", "POST", "/runs/%%s/%d/actions/applied" % number, None, b"", self.model.with_run("applied")
            model = self.model

    def run(self):
        for act, method, path, holder, body, after in self.requests():
            if self.over.is_set():
                return
            self.due.append(act)
            try:
                status, text = ask(self.machine, method, path % ((self.workspace, holder) if holder else self.workspace), body, "ci")
            except (OSError, http.client.HTTPException):
                self.maybe = after
                return
            if status != 200:
                self.fault = "%s of %s was answered %d %s" % (act, self.workspace, status, text[:200])
                return
            self.model = after
            self.moments.append(time.monotonic())


def listed(machine, path):
    """All items of a list."""
    items, after = [], 0
    while True:
        status, text = ask(machine, "GET", "%s?after=%s" % (path, after))
        said("the status of a list", status, 200)
        page = json.loads(text)
        items += page["items"]
        if not page["more"]:
            return items
        after = items[-1]["number"]


def seen(machine, workspace):
    """What a workspace has, as `Model.seen`."""
    status, text = ask(machine, "GET", "/workspaces/" + workspace)
    said("the status of a workspace", status, 200)
    holder = json.loads(text)["holder"] or ""
    versions, runs = listed(machine, "/versions/" + workspace), listed(machine, "/runs/" + workspace)
    for number, version in enumerate(versions, 1):
        serial = version["serial"]
        due = {"created": version["created"], "lineage": workspace, "number": number, "serial": serial, "size": len(state_text(workspace, serial))}
        said("a version of " + workspace, version, due)
    said("the numbers of runs", [run["number"] for run in runs], [*range(1, len(runs) + 1)])
    return holder, tuple(version["serial"] for version in versions), tuple((run["key"], run["status"]) for run in runs)


# ----------------------------------------------------------------------------------------------------
# The pair
# ----------------------------------------------------------------------------------------------------


class Pair:
    def __init__(self, folder, program, kernel, release, options):
        self.folder, self.chance = folder, random.Random(options.seed)
        self.cache, self.ignores = "writethrough" if options.cache == "off" else "writeback", options.cache == "ignored"
        self.kernel, self.fenced = kernel, not options.unfenced
        wires = free_port(), free_port()
        self.machines = {"a": Machine(self, "a", *wires), "b": Machine(self, "b", *reversed(wires))}
        self.switch = Switch(self)
        self.switch.start()
        make_image(self, program, release)
        self.serving, self.clients, self.lines = self.machines["a"], [], 0
        self.models = {workspace: Model() for workspace in WORKSPACES}
        self.acknowledged = self.takeovers = self.unlogged = self.lost = 0
        self.note = []

    def other(self, one):
        """The machine that is not this one."""
        return self.machines["b" if one in ("a", self.machines["a"]) else "a"]

    def state(self, machine):
        return machine.tried(STATE, 30)[0]

    def in_step(self, machine):
        wait_for(lambda: "UpToDate/UpToDate" in self.state(machine), lambda: "not in step: " + self.state(machine), RESYNC)

    def begin(self):
        for machine in self.machines.values():
            machine.start()
        for machine in self.machines.values():
            machine.reach()
            machine.run("drbdadm create-md --force r0 && drbdadm up r0")
        first = self.serving
        wait_for(lambda: "Connected" in self.state(first), lambda: "not connected: " + self.state(first), BOOT)
        # Both disks are empty, and need no first copy.
        first.run("drbdadm -- --clear-bitmap new-current-uuid r0")
        self.in_step(first)
        tokens = " && ".join("echo %s | custody token-add --db custody.db %s %s %s" % (secret, ORG, name, role) for name, (secret, role) in SECRETS.items())
        first.run("drbdadm primary r0 && mkfs.ext4 -q -F /dev/drbd0 && mount /dev/drbd0 /mnt && cd /mnt && custody org-add --db custody.db %s && %s && cd /" % (ORG, tokens))
        first.run(SERVE)
        for workspace in WORKSPACES:
            said("a new workspace", ask(first, "PUT", "/workspaces/" + workspace, b'{"keep_versions":1000}', "root")[0], 200)

    def load(self):
        """Starts the clients."""
        self.clients = [Client(self.serving, workspace, self.models[workspace], self.chance) for workspace in WORKSPACES]
        self.lines = os.path.getsize(self.serving.log)
        for client in self.clients:
            client.start()

    def wait(self, seconds):
        """Lets the clients go on for so long."""
        before = sum(len(client.moments) for client in self.clients)
        time.sleep(seconds)
        return sum(len(client.moments) for client in self.clients) - before

    def goes_on(self, since):
        """Waits until each client has had a reply to a request that it sent after this moment. The longest wait for one until now."""
        start = [len(client.moments) for client in self.clients]
        wait_for(lambda: all(len(client.moments) > at + 1 or client.fault for client, at in zip(self.clients, start)), lambda: "the service does not go on", TAKEOVER)
        return max(later - sooner for client in self.clients for sooner, later in zip(client.moments, client.moments[1:]) if later > since)

    def rest(self, is_killed):
        """Ends the clients, and looks at the log's lines."""
        for client in self.clients:
            client.over.set()
        for client in self.clients:
            client.join(REQUEST + 20)
            if client.fault:
                raise Wrong(client.fault)
            if client.is_alive():
                raise Wrong("a client does not end")
            self.acknowledged += len(client.moments)
        if not all(client.moments for client in self.clients):
            raise Wrong("a client got no reply: nothing is shown")
        self.look_at_lines(is_killed)

    def look_at_lines(self, is_killed):
        """No line is false. After a kill, those of the last moment may be missing; what a line tells of an unanswered request is done."""
        time.sleep(0.5)
        with open(self.clients[0].machine.log, "rb") as file:
            file.seek(self.lines)
            text = file.read().replace(b"\r", b"")
        whole = text.split(b"\n")[:-1]
        rows = [json.loads(line) for line in whole if line.startswith(b"{")]
        for client in self.clients:
            lines = [(row["act"], row["status"]) for row in rows if (row["workspace"], row["token"]) == (client.workspace, "ci")]
            due = [(act, 200) for act in client.due]
            if lines != due[: len(lines)] or not is_killed and len(lines) != len(due):
                raise Wrong("the log of %s ends with %s, the requests with %s" % (client.workspace, lines[-3:], due[-3:]))
            if client.maybe and len(lines) == len(due):
                client.model, client.maybe = client.maybe, None
            self.unlogged += max(len(client.moments) - len(lines), 0)

    def take_over(self, machine, tries=TAKEOVER):
        """Makes this machine the one that serves. The seconds for it to be primary, to mount, and to open the file."""
        machine.run("for at in 1 2 3 4 5 6 7 8 9; do %s && break; sleep 1; done; %s || exit 3" % (NEWEST, NEWEST))
        came = machine.run("%s; %s; mount /dev/drbd0 /mnt || exit 2; %s; %s; %s" % (NOW, PROMOTE % tries, NOW, NOW, SERVE + " && " + NOW), TAKEOVER + tries)
        self.serving = machine
        marks = [float(line) for line in came.splitlines() if line.replace(".", "", 1).isdigit() and "." in line]
        return [later - sooner for sooner, later in zip(marks, marks[1:])]

    def answers(self, since):
        """Seconds from a moment to the first reply."""
        end = time.monotonic() + TAKEOVER
        while time.monotonic() < end:
            try:
                if ask(self.serving, "GET", "/workspaces/" + WORKSPACES[0])[0] == 200:
                    return time.monotonic() - since
            except (OSError, http.client.HTTPException):
                time.sleep(0.1)
        raise Wrong("no service on " + self.serving.name)

    def give_up(self, machine):
        """The machine that serves stops, and may be taken over from."""
        machine.run(STOP + "; umount /mnt && drbdadm secondary r0")

    def look(self, samples=4):
        """Compares what is served with what was acknowledged. Returns how many workspaces lost something."""
        lost = 0
        for client in self.clients:
            came = seen(self.serving, client.workspace)
            if client.maybe and came == client.maybe.seen():
                client.model = client.maybe
            elif came != client.model.seen():
                lost += 1
                due = client.model.seen()
                self.note.append("%s: %d versions of %d, %d runs of %d, held by %r" % (client.workspace, len(came[1]), len(due[1]), len(came[2]), len(due[2]), came[0]))
                client.model = Model(*came)
            client.maybe, serials = None, client.model.serials
            for number in {len(serials), *(self.chance.randrange(len(serials)) + 1 for _ in range(samples if serials else 0))} - {0}:
                status, text = ask(self.serving, "GET", "/versions/%s/%d" % (client.workspace, number))
                said("version %d of %s" % (number, client.workspace), (status, text), (200, state_text(client.workspace, serials[number - 1])))
            status, text = ask(self.serving, "GET", "/state/" + client.workspace)
            said("the newest text", (status, text), (200, state_text(client.workspace, serials[-1])) if serials else (204, b""))
            client.model = self.models[client.workspace] = self.freed(client.workspace, client.model)
        self.lost += lost
        return lost

    def freed(self, workspace, model):
        """The workspace without a holder, so that clients begin anew."""
        if model.holder.startswith("run-"):
            path = "/runs/%s/%d/actions/" % (workspace, len(model.runs))
            action, status = ("discard", "discarded") if model.runs[-1][1] == "planned" else ("cancel", "canceled")
            said("an end of a run", ask(self.serving, "POST", path + action, name="root")[0], 200)
            return model.with_run(status)
        if model.holder:
            said("an unlock", ask(self.serving, "UNLOCK", "/state/" + workspace, name="root")[0], 200)
        return Model("", model.serials, model.runs)

    def check(self):
        """Stops the service, lets `check` count, and starts it again."""
        counts = len(WORKSPACES), sum(len(model.serials) for model in self.models.values()), sum(len(model.runs) for model in self.models.values())
        came = self.serving.run(STOP + "; custody check --db /mnt/custody.db", 300).splitlines()
        said("check", (came[0], came[1].split()[:8]), ("ok", ("organizations 1 workspaces %d versions %d runs %d" % counts).split()))
        self.serving.run(SERVE)

    def back(self, machine):
        """Starts a machine that is off, as the other's secondary."""
        machine.come_back()
        self.in_step(machine)

    def switched(self):
        """The service is stopped, and goes to the other machine."""
        first, since = self.serving, time.monotonic()
        self.give_up(first)
        parts = self.take_over(self.other(first), 30)
        self.takeovers += 1
        return self.answers(since), parts

    def done(self, kind, first, text, parts=()):
        lost = self.look()
        self.check()
        for line in self.note:
            print("LOST:", line)
        self.note = []
        spelled = " (primary %.1f, mount and open %.1f)" % (parts[0], parts[-1]) if parts else ""
        print("%s: %s to %s: %s%s; %d of %d workspaces lost something" % (kind, first.name, self.serving.name, text, spelled, lost, len(WORKSPACES)), flush=True)
        if lost and self.fenced:
            raise Wrong("something acknowledged is lost")


def wait_for(holds, why, seconds):
    end = time.monotonic() + seconds
    while not holds():
        if time.monotonic() > end:
            raise Wrong(why())
        time.sleep(0.3)


# ----------------------------------------------------------------------------------------------------
# Kinds of rounds
# ----------------------------------------------------------------------------------------------------


def power(pair):
    first = pair.serving
    pair.load()
    pair.wait(pair.chance.uniform(4, 7))
    first.cut(True)
    since = time.monotonic()
    parts = pair.take_over(pair.other(first))
    pair.takeovers += 1
    away = pair.answers(since)
    pair.rest(True)
    pair.done("power", first, "%.1f s from the cut to the first reply" % away, parts)
    pair.back(first)


def switch(pair):
    first = pair.serving
    pair.load()
    pair.wait(4)
    pair.rest(False)
    away, parts = pair.switched()
    pair.done("switch", first, "%.1f s without a reply" % away, parts)


def secondary(pair):
    first = pair.serving
    pair.load()
    pair.wait(3)
    since = time.monotonic()
    pair.other(first).cut()
    paused = pair.goes_on(since)
    pair.rest(False)
    pair.back(pair.other(first))
    away, _ = pair.switched()
    pair.done("secondary", first, "its requests waited %.1f s; then %.1f s without a reply" % (paused, away))


def link(pair):
    first, offs = pair.serving, len(pair.switch.offs)
    pair.load()
    pair.wait(3)
    since = time.monotonic()
    first.link(False)
    paused = pair.goes_on(since)
    pair.rest(False)
    said("who was fenced", pair.switch.offs[offs:], [(pair.other(first).name, True)])
    first.link(True)
    pair.back(pair.other(first))
    away, _ = pair.switched()
    pair.done("link", first, "the other was fenced; requests waited %.1f s; then %.1f s without a reply" % (paused, away))


def race(pair):
    first = pair.serving
    second = pair.other(first)
    pair.load()
    pair.wait(3)
    since = time.monotonic()
    first.link(False)
    try:
        pair.take_over(second)
    except Wrong:
        if second.lives():
            raise
    said("how many were fenced", first.lives() + second.lives(), 1)
    if second.lives():
        pair.takeovers += 1
        away = pair.answers(since)
        pair.rest(True)
        pair.done("race", first, "the other won; %.1f s to its first reply" % away)
        pair.back(first)
    else:
        pair.serving = first
        paused = pair.goes_on(since)
        pair.rest(False)
        first.link(True)
        pair.back(second)
        away, _ = pair.switched()
        pair.done("race", first, "the serving machine won; requests waited %.1f s; then %.1f s without a reply" % (paused, away))


def resyncing(pair):
    """The other machine is away while states are posted; then it is being brought into step, slowly."""
    first = pair.serving
    second = pair.other(first)
    pair.load()
    pair.wait(2)
    since = time.monotonic()
    second.cut()
    pair.goes_on(since)
    pair.wait(4)
    second.start()
    second.reach()
    first.run("drbdadm disk-options --c-plan-ahead=0 --resync-rate=20K --c-min-rate=4K r0")
    second.run("drbdadm up r0 && drbdadm disk-options --c-plan-ahead=0 --resync-rate=20K --c-min-rate=4K r0")
    wait_for(lambda: "SyncTarget" in pair.state(second), lambda: "no resync: " + pair.state(second), 60)
    return first, second


def resync(pair):
    first, second = resyncing(pair)
    pair.wait(1)
    if "SyncTarget" not in pair.state(second):
        raise Wrong("the resync ended too soon: " + pair.state(second))
    since = time.monotonic()
    first.cut()
    text, status = second.tried(PROMOTE % 30, 200)
    if not status or "UpToDate" not in text:
        raise Wrong("a machine that is not in step took over: " + text)
    pair.rest(True)
    first.come_back()
    pair.take_over(first)
    away = pair.answers(since)
    pair.look()
    second.run("drbdadm adjust r0")
    first.run("drbdadm adjust r0")
    pair.in_step(second)
    then, _ = pair.switched()
    pair.done("resync", first, "the other refused to take over; %.1f s until the first machine was back; then %.1f s without a reply" % (away, then))


def target(pair):
    first, second = resyncing(pair)
    since = time.monotonic()
    second.cut()
    paused = pair.goes_on(since)
    pair.rest(False)
    first.run("drbdadm adjust r0")
    pair.back(second)
    away, _ = pair.switched()
    pair.done("target", first, "requests waited %.1f s; then %.1f s without a reply" % (paused, away))


def disk(pair):
    first = pair.serving
    second = pair.other(first)
    pair.load()
    pair.wait(3)
    since = time.monotonic()
    first.disk.broken = True
    wait_for(lambda: "Diskless" in pair.state(first), lambda: "the disk is not detached: " + pair.state(first), 60)
    pair.wait(2)
    paused = pair.goes_on(since)
    pair.rest(False)
    away, parts = pair.switched()
    pair.look()
    offs = len(pair.switch.offs)
    first.cut()
    # A machine that is started before the other has fenced it would be switched off again.
    wait_for(lambda: len(pair.switch.offs) > offs, lambda: "a machine that is off is not fenced", 60)
    first.disk.renew()
    first.come_back("drbdadm create-md --force r0 && drbdadm up r0")
    since = time.monotonic()
    pair.in_step(first)
    text = "its requests waited %.1f s; then %.1f s without a reply; a new disk was in step after %.0f s"
    pair.done("disk", first, text % (paused, away, time.monotonic() - since), parts)


def both(pair):
    first = pair.serving
    second = pair.other(first)
    pair.load()
    pair.wait(pair.chance.uniform(3, 6))
    sooner, later = pair.chance.sample([first, second], 2)
    sooner.cut(True)
    later.cut()
    since = time.monotonic()
    pair.rest(True)
    for machine in (first, second):
        machine.start()
    for machine in (first, second):
        machine.reach()
        machine.run("drbdadm up r0")
    pair.in_step(second)
    parts = pair.take_over(second)
    pair.takeovers += 1
    pair.done("both", first, "%.1f s from the cut to the first reply, with the start of both" % pair.answers(since), parts)


def alone(pair):
    first = pair.serving
    second = pair.other(first)
    pair.load()
    pair.wait(3)
    since = time.monotonic()
    second.cut()
    paused = pair.goes_on(since)
    pair.wait(4)
    first.cut(True)
    pair.rest(True)
    second.come_back()
    said("whether the disk of a machine that was started alone is up to date", second.tried(NEWEST)[1], 1)
    said("whether such a machine takes over", second.tried(PROMOTE % 10 + "; mount /dev/drbd0 /mnt && " + SERVE, 200)[1], 1)
    pair.back(first)
    parts = pair.take_over(second)
    pair.takeovers += 1
    pair.done("alone", first, "its requests waited %.1f s; started alone, the other refused" % paused, parts)


KINDS = {kind.__name__: kind for kind in (power, switch, secondary, link, race, resync, target, disk, both, alone)}


def unfenced(pair):
    """The link fails and nobody is fenced; then the serving machine loses its power. The other is stale."""
    first = pair.serving
    pair.load()
    pair.wait(3)
    first.link(False)
    pair.goes_on(time.monotonic())
    pair.wait(4)
    first.cut()
    pair.rest(True)
    text, status = pair.other(first).tried(PROMOTE % 30 + "; mount /dev/drbd0 /mnt && " + SERVE, 200)
    if status:
        return "the stale machine is refused: " + text
    pair.serving = pair.other(first)
    lost = pair.look()
    return "the stale machine serves, and %d of %d workspaces have lost what was acknowledged" % (lost, len(WORKSPACES)) if lost else None


def ignored(pair):
    """The disks ignore flushes, and both machines lose their power."""
    try:
        both(pair)
    except Wrong as wrong:
        return str(wrong)
    return None


def in_all(pair):
    """All texts, and both disks up to DRBD's own data at their ends."""
    texts = 0
    for workspace, model in pair.models.items():
        for number, serial in enumerate(model.serials, 1):
            said("version %d of %s" % (number, workspace), ask(pair.serving, "GET", "/versions/%s/%d" % (workspace, number)), (200, state_text(workspace, serial)))
            texts += 1
    second = pair.other(pair.serving)
    pair.in_step(second)
    pair.give_up(pair.serving)
    size = int(second.run("cat /sys/block/drbd0/size")) * 512
    for machine in pair.machines.values():
        machine.run("drbdadm down r0 && sync")
    disks = []
    for machine in pair.machines.values():
        # (an orderly end: the disks keep all)
        machine.disk.before.clear()
        machine.cut()
        with open(machine.disk.path, "rb") as file:
            disks.append(file.read(size))
    apart = sum(disks[0][at : at + 4096] != disks[1][at : at + 4096] for at in range(0, size, 4096))
    said("blocks that differ between the disks", apart, 0)
    return texts, size >> 20


# ----------------------------------------------------------------------------------------------------
# The image
# ----------------------------------------------------------------------------------------------------


def kernel_of(folder):
    """A kernel with DRBD under a folder, and the folder of its modules."""
    for image in sorted(glob.glob(folder + "/boot/vmlinuz-*"), key=lambda path: ("cloud" not in path, path)):
        release = os.path.basename(image)[len("vmlinuz-") :]
        modules = os.path.join(folder, "lib/modules", release)
        if glob.glob(modules + "/kernel/drivers/block/drbd/drbd.ko*"):
            return image, modules
    return None


def modules_of(folder):
    """The files of the modules, each after those that it needs. One that the kernel has built in has no file."""
    files = {}
    for path, _, names in os.walk(folder + "/kernel"):
        for name in names:
            if ".ko" in name:
                files[name.split(".ko")[0].replace("-", "_")] = os.path.join(path, name)
    order = []

    def add(name):
        path = files.get(name.replace("-", "_"))
        if path and path not in order:
            needs = subprocess.run(["modinfo", "-F", "depends", path], check=True, capture_output=True, text=True).stdout
            for need in filter(None, needs.strip().split(",")):
                add(need)
            order.append(path)

    for name in MODULES:
        add(name)
    return order


def make_image(pair, program, modules):
    """The initial file system of both machines."""
    root = pair.folder + "/root"
    for name in "bin sbin etc proc sys dev mnt run tmp var/lib/drbd var/run/drbd var/lock modules".split():
        os.makedirs("%s/%s" % (root, name))
    shutil.copy(shutil.which("busybox"), root + "/bin/busybox")
    for name in APPLETS:
        os.symlink("busybox", "%s/bin/%s" % (root, name))
    for name in ("drbdadm", "drbdsetup", "drbdmeta", "mkfs.ext4", "socat"):
        shutil.copy(shutil.which(name), root + "/bin/")
    shutil.copy(program, root + "/bin/custody")
    os.chmod(root + "/bin/custody", 0o755)
    # (the kernel calls /sbin/drbdadm)
    os.symlink("/bin/drbdadm", root + "/sbin/drbdadm")
    shutil.copytree("/lib/drbd", root + "/lib/drbd", symlinks=True)
    for path in glob.glob(root + "/bin/*") + glob.glob(root + "/lib/drbd/drbd*"):
        if not os.path.islink(path):
            found = subprocess.run(["ldd", path], capture_output=True, text=True).stdout
            for word in found.split():
                if word.startswith("/") and ".so" in word and not os.path.exists(root + word):
                    os.makedirs(root + os.path.dirname(word), exist_ok=True)
                    shutil.copy(os.path.realpath(word), root + word)
    for at, path in enumerate(modules_of(modules)):
        name = os.path.basename(path)
        with lzma.open(path) if name.endswith(".xz") else open(path, "rb") as file:
            with open("%s/modules/%03d-%s" % (root, at, name.removesuffix(".xz")), "wb") as copied:
                copied.write(file.read())
    policy, handlers = (POLICY, HANDLERS) if pair.fenced else ("", "")
    for path, text in (("etc/drbd.conf", RESOURCE % (policy, handlers)), ("bin/fence", FENCE % pair.switch.port), ("init", INIT)):
        with open("%s/%s" % (root, path), "w", encoding="ascii") as file:
            file.write(text)
        os.chmod("%s/%s" % (root, path), 0o755)
    subprocess.run("find . | cpio -o -H newc 2>/dev/null | gzip -1 > ../initrd.gz", shell=True, cwd=root, check=True)


# ----------------------------------------------------------------------------------------------------


def read_words():
    parser = argparse.ArgumentParser(description=__doc__, formatter_class=argparse.RawDescriptionHelpFormatter)
    parser.add_argument("program")
    parser.add_argument("--rounds", type=int, help="rounds of each kind (1)")
    parser.add_argument("--kinds", help="kinds, with commas between (all)")
    parser.add_argument("--cache", choices=("on", "off", "ignored"), default="on", help="the cache of the disks")
    parser.add_argument("--unfenced", action="store_true")
    parser.add_argument("--kernel", default="/", help="the folder that has boot/ and lib/modules/")
    parser.add_argument("--keep", help="a folder to be made, for consoles, logs and disks")
    parser.add_argument("--seed", type=int, default=1)
    options = parser.parse_args()
    is_alone = options.unfenced + (options.cache == "ignored")
    if is_alone > 1 or is_alone and (options.rounds is not None or options.kinds is not None):
        parser.error("--unfenced and --cache ignored are each a trial of their own, without --rounds and --kinds")
    options.kinds = list(KINDS) if options.kinds is None else options.kinds.split(",")
    options.rounds = 1 if options.rounds is None else options.rounds
    unknown = [kind for kind in options.kinds if kind not in KINDS]
    if unknown:
        parser.error("no such kind: %s (there are %s)" % (", ".join(map(repr, unknown)), ", ".join(KINDS)))
    if options.rounds < 1:
        parser.error("--rounds must be 1 or more")
    if options.keep and os.path.exists(options.keep):
        parser.error("--keep: %s exists" % options.keep)
    return options


def refuse_if_missing(options):
    """The kernel, and the folder of its modules. Ends if something is missing."""
    missing = {package: name for name, package in NEEDED.items() if not shutil.which(name)}
    if missing:
        sys.exit("standby.py: install %s (no %s)" % (" ".join(missing), ", ".join(missing.values())))
    if not glob.glob("/lib/drbd/drbdadm-84"):
        sys.exit("standby.py: this drbd-utils has no /lib/drbd/drbdadm-84, which the kernel's DRBD 8.4 needs")
    found = kernel_of(options.kernel)
    if not found:
        sys.exit("standby.py: no kernel with DRBD in %s/boot: install linux-image-cloud-amd64, or unpack it and name the folder with --kernel" % options.kernel.rstrip("/"))
    try:
        with Program(options.program) as program:
            came = program.run(["--version"])
    except OSError as wrong:
        sys.exit("standby.py: %s does not run: %s" % (options.program, wrong))
    if came[0] or not came[1].startswith(b"custody "):
        sys.exit("standby.py: %s is not custody: its --version ends with %d and prints %s" % (options.program, came[0], came[1][:100]))
    return found


def trial(pair, options):
    pair.begin()
    if options.unfenced or options.cache == "ignored":
        came = unfenced(pair) if options.unfenced else ignored(pair)
        if came is None:
            raise Wrong("nothing was lost or refused, so the other rounds show nothing")
        print("as expected:", came)
        return
    for _ in range(options.rounds):
        for kind in options.kinds:
            KINDS[kind](pair)
    texts, size = in_all(pair)
    flushes, reverted, cuts = (sum(getattr(machine.disk, what) for machine in pair.machines.values()) for what in ("flushes", "reverted", "cuts_in_writes"))
    print("%d takeovers, %d rounds, cache %s: %d requests acknowledged, %d workspaces lost something" % (pair.takeovers, options.rounds * len(options.kinds), options.cache, pair.acknowledged, pair.lost))
    print("%d texts read; the disks are equal in all %d MB; %d flushes; %d sectors set back in %d cuts; %d acknowledged requests without a line" % (texts, size, flushes, reverted, cuts, pair.unlogged))


def main():
    options = read_words()
    kernel, modules = refuse_if_missing(options)
    with tempfile.TemporaryDirectory() as folder:
        if options.keep:
            os.makedirs(options.keep)
            folder = os.path.abspath(options.keep)
        pair = Pair(folder, os.path.abspath(options.program), kernel, modules, options)
        try:
            trial(pair, options)
        except (Wrong, OSError, http.client.HTTPException) as wrong:
            print("WRONG:", wrong)
            sys.exit(1)
        finally:
            for machine in pair.machines.values():
                if machine.process:
                    machine.process.kill()
                    machine.process.wait()


if __name__ == "__main__":
    main()
