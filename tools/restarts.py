#!/usr/bin/env python3
"""A service over a large file is stopped and started again, as by systemd, while clients lock, read, post and unlock: none may fail.

    python3 tools/restarts.py PROGRAM [--megabytes N] [--clients N] [--restarts N] [--seconds S] [--terraforms N] [--folder FOLDER]

PROGRAM is crates/custody/out/custody. A file of N megabytes (500) is made by states of 1 MB, in FOLDER. Each of the clients (40) does
what Terraform's `http` backend does for an apply: LOCK, GET, POST, UNLOCK, and sends each request again as it does by itself, twice,
after 1 and 2 seconds. N stock Terraforms (0) beside them, `terraform` of the path, apply a change each in a loop, with their own
retries; the service then listens at a port. The service gets SIGTERM at each restart (3), S seconds (8) after it has begun to answer. At the end each
workspace has to have the state that was acknowledged last. It prints how long restarts took, and the longest wait of a request."""
import argparse
import os
import shutil
import socket
import subprocess
import sys
import tempfile
import threading
import time

from harness import NEW_FILE, Program, Wrong, free_port, request, said

# What Terraform waits before it sends a request again, in seconds, and systemd before it starts a service again.
PAUSES, RESTART = (1, 2), 0.1
SECRET = b"adminadminadmin1"
# What each Terraform applies: one resource of its own provider, with another value each time.
CONFIGURATION = """terraform {
  backend "http" {}
}
variable "serial" {}
resource "terraform_data" "one" {
  input = "${var.serial} ${join(",", range(1000))}"
}
"""
# Bytes of each state that fills the file, and of each that a client posts.
FILLER, STATE = 1_000_000, 4_000


class Served:
    """The service at its Unix socket, or at a port."""

    def __init__(self, program, name, at_port):
        self.program, self.port = program, free_port() if at_port else None
        self.address = ("127.0.0.1", self.port) if at_port else program.new_socket()
        self.name = "127.0.0.1:%d" % self.port if at_port else self.address
        where = ["--port", str(self.port)] if at_port else ["--socket", self.address]
        self.words = ["serve", "--db", name, *where, "--unlimited"]
        self.begin()

    def begin(self):
        self.process = self.program.start(self.words, errors=subprocess.DEVNULL)
        said("the first line", self.process.stdout.readline(), b"listening %s\n" % self.name.encode())

    def end(self):
        self.process.terminate()
        self.process.wait()

    def once(self, sent):
        """The reply to a request; OSError if there is none."""
        with socket.socket(socket.AF_INET if self.port else socket.AF_UNIX) as peer:
            peer.connect(self.address)
            peer.sendall(sent)
            reply = b"".join(iter(lambda: peer.recv(1 << 20), b""))
        if not reply:
            raise OSError("no reply")
        return reply

    def asked(self, sent):
        """The reply to a request that is sent again as Terraform does, and how long it took."""
        begun = time.monotonic()
        for pause in (*PAUSES, None):
            try:
                reply = self.once(sent)
                if not reply.startswith(b"HTTP/1.1 5"):
                    return reply, time.monotonic() - begun
            except OSError as error:
                reply = repr(error).encode()
            if pause is None:
                raise Wrong("%s: %s" % (sent[:60], reply[:200]))
            time.sleep(pause)


def state(serial, size):
    return b'{"version":4,"serial":%d,"lineage":"l","x":"%s"}' % (serial, os.urandom(size // 2).hex().encode())


def is_done(service, head, body, waits):
    reply, took = service.asked(request(head + b" HTTP/1.1", body))
    waits.append(took)
    if not reply.startswith((b"HTTP/1.1 200 ", b"HTTP/1.1 204 ")):
        raise Wrong("%s: %s" % (head, reply[:200]))
    return reply


def apply_on(service, number, ended, last, waits, faults):
    """One client's applies, until they are to end."""
    path = b"/v1/acme/state/net-%d" % number
    try:
        while not ended.is_set():
            serial = last[number][0] + 1
            lock, text = b'{"ID":"apply-%d-%d"}' % (number, serial), state(serial, STATE)
            is_done(service, b"LOCK " + path, lock, waits)
            is_done(service, b"GET " + path, b"", waits)
            is_done(service, b"POST %s?ID=apply-%d-%d" % (path, number, serial), text, waits)
            last[number] = serial, text
            is_done(service, b"UNLOCK " + path, lock, waits)
    except Wrong as fault:
        faults.append(fault)


class Terraform:
    """A stock Terraform with its configuration, in a folder of its own."""

    def __init__(self, service, folder, number):
        self.folder, self.applied = "%s/terraform-%d" % (folder, number), 0
        os.mkdir(self.folder)
        with open(self.folder + "/main.tf", "w", encoding="ascii") as it:
            it.write(CONFIGURATION)
        address = "http://%s/v1/acme/state/terraform-%d?access_token=acme.%s" % (service.name, number, SECRET.decode())
        names = ("TF_HTTP_ADDRESS", "TF_HTTP_LOCK_ADDRESS", "TF_HTTP_UNLOCK_ADDRESS")
        self.environment = {"PATH": os.environ["PATH"], "HOME": self.folder, **{name: address for name in names}}
        self.run("init")

    def run(self, *words):
        ran = subprocess.run(["terraform", *words, "-no-color", "-input=false"], cwd=self.folder, env=self.environment, stdout=subprocess.PIPE, stderr=subprocess.STDOUT, check=False)
        if ran.returncode:
            raise Wrong("terraform %s: %s" % (words[0], ran.stdout[-600:].decode(errors="replace")))

    def apply_until(self, ended, faults):
        try:
            while not ended.is_set():
                self.run("apply", "-auto-approve", "-var", "serial=%d" % (self.applied + 1))
                self.applied += 1
        except Wrong as fault:
            faults.append(fault)


def begun(program, megabytes, clients, terraforms):
    """The service over a file of so many megabytes, with a workspace for each client and each Terraform."""
    said("an organization", program.run(["org-add", "--db", "large.db", "acme"]), (0, b"ok\n", NEW_FILE))
    said("a token", program.run(["token-add", "--db", "large.db", "acme", "root", "admin"], SECRET + b"\n")[0], 0)
    service, waits = Served(program, "large.db", terraforms > 0), []
    for number in range(megabytes):
        if number % 90 == 0:
            is_done(service, b"PUT /v1/acme/workspaces/large-%d" % (number // 90), b"", waits)
        is_done(service, b"POST /v1/acme/state/large-%d" % (number // 90), state(number + 1, FILLER), waits)
    for number in range(clients):
        is_done(service, b"PUT /v1/acme/workspaces/net-%d" % number, b"", waits)
    for number in range(terraforms):
        is_done(service, b"PUT /v1/acme/workspaces/terraform-%d" % number, b"", waits)
    return service


def restarted(service, restarts, seconds):
    """How long each restart took, in seconds."""
    took = []
    for _ in range(restarts):
        time.sleep(seconds)
        service.end()
        begun_at = time.monotonic()
        time.sleep(RESTART)
        service.begin()
        took.append(time.monotonic() - begun_at)
    time.sleep(seconds)
    return took


def look_at_restarts(program, words):
    service = begun(program, words.megabytes, words.clients, words.terraforms)
    stock = [Terraform(service, program.folder, number) for number in range(words.terraforms)]
    ended, last, waits, faults = threading.Event(), {number: (0, b"") for number in range(words.clients)}, [], []
    clients = [threading.Thread(target=apply_on, args=(service, number, ended, last, waits, faults)) for number in range(words.clients)]
    clients += [threading.Thread(target=it.apply_until, args=(ended, faults)) for it in stock]
    for client in clients:
        client.start()
    took = restarted(service, words.restarts, words.seconds)
    ended.set()
    for client in clients:
        client.join()
    if faults:
        raise Wrong("of %d clients %d failed: %s" % (len(clients), len(faults), faults[0]))
    for number, (serial, text) in last.items():
        if serial == 0 or not is_done(service, b"GET /v1/acme/state/net-%d" % number, b"", waits).endswith(b"\r\n\r\n" + text):
            raise Wrong("net-%d does not have the state %d that was acknowledged last" % (number, serial))
    for number, it in enumerate(stock):
        if b'"value": "%d 0,1,2,' % it.applied not in is_done(service, b"GET /v1/acme/state/terraform-%d" % number, b"", waits):
            raise Wrong("terraform-%d does not have its apply %d" % (number, it.applied))
    service.end()
    size, applies = os.path.getsize(program.folder + "/large.db") / 1e6, sum(serial for serial, _ in last.values())
    if stock:
        print("right: %d applies of %d stock Terraforms, none failed or lost" % (sum(it.applied for it in stock), len(stock)))
    print("right: %d applies of %d clients over a file of %.0f MB, none failed or lost; restarts of %s s; the longest wait of a request %.1f s" % (applies, words.clients, size, ", ".join("%.1f" % it for it in took), max(waits)))


def main():
    words = argparse.ArgumentParser(description=__doc__.partition("\n")[0])
    words.add_argument("program")
    words.add_argument("--megabytes", type=int, default=500)
    words.add_argument("--clients", type=int, default=40)
    words.add_argument("--restarts", type=int, default=3)
    words.add_argument("--seconds", type=float, default=8)
    words.add_argument("--terraforms", type=int, default=0)
    words.add_argument("--folder")
    words = words.parse_args()
    if words.folder:
        tempfile.tempdir = words.folder
    with Program(words.program) as program:
        look_at_restarts(program, words)


if __name__ == "__main__":
    try:
        main()
    except Wrong as fault:
        print("WRONG: %s" % fault)
        sys.exit(1)
