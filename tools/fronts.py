#!/usr/bin/env python3
"""Compares services apart, behind nginx, with one service that has all organizations, behind the same nginx.

    python3 tools/fronts.py CUSTODY    needs nginx (Debian's package), on PATH or in /usr/sbin

Two nginx run with docs/operating/nginx.conf, without TLS and with other folders. Behind one is a service with two organizations. Behind the
other each of them has a service of its own, by the line of functions.sh (`front_line`), and `none` answers what names neither. Each request
is sent to both, and the replies have to be equal but for moments: each act, with each path and each way to bring a token; and heads that are
wrong. Then a service is killed, and started again and again: its requests get 200, or 503 with Retry-After, never 401. No request reaches
the operator's door. At last each wrong front, nginx.conf with one mistake, has to be told by the requests that are about it.

It prints a line for each thing that holds, and ends with status 1 at the first that does not.
"""

import base64
import collections
import contextlib
import os
import random
import re
import select
import shutil
import signal
import socket
import subprocess
import sys
import tempfile
import threading
import time

import harness
from harness import HERE, OPERATOR, PATIENCE, Service, Wrong, free_port, look_at, said, secret_file, wait_until

OPERATING = os.path.dirname(HERE) + "/docs/operating"
ORGS = ["acme", "beta"]
# The service of what names neither, by the file of nginx that has its line.
NONE = "none"
# Seconds in which a service is killed and started again.
RESTARTING = 4
# How many requests are put together at random.
MIXED = 3000
# Seconds after which a peer leaves that has not said that it reads one reply.
QUIET = 0.5
MOMENTS = re.compile(rb'(?<="created":)\d+|(?<=\r\nDate: )[^\r]*')


def secret(org, name):
    return ("%s%s" % (org, name)).ljust(16, "1")


def token(org, name="root"):
    return "%s.%s" % (org, secret(org, name))


# ----------------------------------------------------------------------------------------------------
# Services and fronts
# ----------------------------------------------------------------------------------------------------


def commands(orgs):
    """The lines of `admin` that make organizations, each with its tokens."""
    roles = {"root": "admin", "ci": "write", "look": "read"}
    return "".join(
        "org-add %s\n%s" % (org, "".join("token-add %s %s %s %s\n" % (org, name, role, secret(org, name)) for name, role in roles.items()))
        for org in orgs
    ).encode()


def made(program, name, orgs):
    """A file with these organizations; without any, an empty one."""
    path = "%s/%s.db" % (program.folder, name)
    if orgs:
        said("organizations", program.run(["admin", "--db", path], commands(orgs))[0], 0)
    else:
        with open(path, "wb"):
            pass
    return path


class Front:
    """nginx, with docs/operating/nginx.conf, on a port of its own. The one service listens at `one`, a port or a socket's path. `lines` are
    the files of its folder of organizations; `mistakes` change the configuration."""

    def __init__(self, nginx, folder, one, lines, mistakes=(), workers="1"):
        self.folder, self.port = folder, free_port()
        with open(OPERATING + "/nginx.conf", encoding="utf-8") as file:
            text = file.read()
        text = text[:text.index("# A request without TLS")]
        for was, now in mistakes:
            if was not in text:
                raise Wrong("nginx.conf does not have " + was)
            text = text.replace(was, now)
        text = re.sub(r"^ *(ssl_|server_name).*\n", "", text, flags=re.M)
        for was, now in [("listen 443 ssl", "listen 127.0.0.1:%d" % self.port), ("unix:/run/custody/socket;", "unix:%s;" % one if isinstance(one, str) else "127.0.0.1:%d;" % one),
                         ("/etc/custody/", folder + "/"), ("/var/log/nginx/", folder + "/")]:
            if was not in text:
                raise Wrong("nginx.conf does not have " + was)
            text = text.replace(was, now)
        os.makedirs(folder + "/organizations", exist_ok=True)
        for name, line in lines.items():
            with open("%s/organizations/%s" % (folder, name), "w", encoding="utf-8") as file:
                file.write(line)
        temporary = "".join("    %s_temp_path %s/%s;\n" % (kind, folder, kind) for kind in ["client_body", "proxy", "fastcgi", "uwsgi", "scgi"])
        with open(folder + "/main.conf", "w", encoding="utf-8") as file:
            file.write("%sdaemon off;\nworker_processes %s;\npid %s/pid;\nerror_log %s/errors;\nevents {}\nhttp {\n%s%s}\n" % (
                "user root;\n" if os.geteuid() == 0 else "", workers, folder, folder, temporary, text))
        words = [nginx, "-e", folder + "/errors", "-c", folder + "/main.conf"]
        done = subprocess.run([*words, "-t", "-q"], capture_output=True, text=True, check=False)
        said("what nginx says of the configuration", (done.returncode, done.stderr), (0, ""))
        self.process = subprocess.Popen(words, stdin=subprocess.DEVNULL)
        wait_until(lambda: not harness.is_free(self.port), "nginx does not listen")

    def __enter__(self):
        return self

    def __exit__(self, *_):
        with self.process:
            self.process.send_signal(signal.SIGTERM)

    def asked(self, sent):
        """What comes to a request, without its moments. If nothing more comes, the peer leaves; not before, as nginx then drops its request."""
        patience, came = PATIENCE if b"\r\nConnection: close\r\n" in sent else QUIET, b""
        with socket.create_connection(("127.0.0.1", self.port), timeout=PATIENCE) as link, contextlib.suppress(ConnectionError):
            link.sendall(sent)
            while True:
                if not select.select([link], [], [], patience)[0]:
                    link.shutdown(socket.SHUT_WR)
                    patience = PATIENCE
                piece = link.recv(65536)
                if not piece:
                    break
                came += piece
        return MOMENTS.sub(b"", came)


def socket_of(folder, org):
    return "%s/%s/socket" % (folder, org)


def lines_of(folder, orgs):
    """The lines of functions.sh for nginx, with other folders."""
    script = '. "$1/functions.sh"; shift; for org; do front_line "$org"; done'
    done = subprocess.run(["sh", "-c", script, "sh", OPERATING, *orgs], capture_output=True, text=True, check=True)
    lines = done.stdout.replace("/run/custody/", folder + "/").splitlines(keepends=True)
    return dict(zip(orgs, lines))


class Sides:
    """Both sides: the front of one service, and that of services apart."""

    def __init__(self, program):
        self.program, self.opened, self.statuses = program, contextlib.ExitStack(), collections.Counter()
        self.nginx = shutil.which("nginx", path=os.environ["PATH"] + ":/usr/sbin")
        if not self.nginx:
            sys.exit("fronts.py: install nginx")

    def __enter__(self):
        with self.opened:     # (what is open ends if the rest cannot begin)
            self.begin()
            self.opened = self.opened.pop_all()
        return self

    def begin(self):
        # (short, for the sockets; a worker of nginx has to reach them)
        self.folder = self.opened.enter_context(tempfile.TemporaryDirectory(prefix="fronts"))
        for org in [*ORGS, NONE]:
            os.mkdir("%s/%s" % (self.folder, org))
        self.one = self.opened.enter_context(self.service(made(self.program, "one", ORGS), free_port()))
        self.files = {org: made(self.program, org, [org] if org in ORGS else []) for org in [*ORGS, NONE]}
        self.services = {}
        self.opened.callback(lambda: [service.kill() for service in self.services.values()])
        self.services.update((org, self.started(org)) for org in self.files)
        self.together = self.opened.enter_context(Front(self.nginx, self.folder + "/together", self.one.port, {}))
        self.apart = self.opened.enter_context(self.front("apart"))

    def __exit__(self, *_):
        self.opened.close()

    def service(self, path, port):
        return Service(self.program, path, None, "--operator", port=port, given=secret_file(), errors=subprocess.DEVNULL)

    def started(self, org):
        return self.service(self.files[org], socket_of(self.folder, org))

    def front(self, name, mistakes=(), lines=None):
        """A front of the services apart. (No service is at the address of the one.)"""
        return Front(self.nginx, "%s/%s" % (self.folder, name), free_port(), lines or lines_of(self.folder, [*ORGS, NONE]), mistakes)

    def differ(self, front, requests):
        """The first request whose replies are not equal, if there is one."""
        for what, sent in requests:
            one, other = self.together.asked(sent), front.asked(sent)
            self.statuses[one[9:12].decode()] += 1
            if one != other:
                return "%s: %r: one service replies %r, services apart %r" % (what, sent[:300], one[:300], other[:300])
        return None


# ----------------------------------------------------------------------------------------------------
# Requests
# ----------------------------------------------------------------------------------------------------


def percent(text):
    return "".join("%%%02x" % ord(letter) for letter in text)


def basic(user, scheme="Basic"):
    return "%s %s" % (scheme, base64.b64encode((user + ":").encode()).decode())


def ways(org, other):
    """How a request may bring a token: the field Authorization, and what the query has."""
    good, theirs, half = token(org), token(other), percent(org[:2]) + org[2:]
    return {
        "the path": [("Bearer " + good, "")],
        "case": [("bearer " + good, ""), ("BEARER " + good, ""), ("bEaReR   " + good, ""), ("Bearer\t" + good, ""), (" Bearer  %s  " % good, "")],
        "query": [
            ("", "access_token=" + good), ("", "x=1&access_token=%s&y" % good), ("", "&&access_token=" + good), ("Digest x", "access_token=" + good),
            ("", "x=1?access_token=%s&access_token=%s" % (theirs, good)), ("", "access_token=%s&x=1?access_token=%s" % (good, theirs)), ("", "?access_token=" + good), ("", "ACCESS_TOKEN=%s&access_token=%s" % (theirs, good)),
            ("", "access_token=%s#" % good), ("", "x#&access_token=" + good), ("", "x;access_token=" + good), ("", "access_token+=" + good),
            ("", "access_token=%s&x=%%26access_token=%s" % (good, theirs)), ("", "my_access_token=%s&access_token=%s" % (theirs, good)),
        ],
        "percent": [
            ("", "access_token=" + percent(good)), ("", "access_token=" + percent(good).upper()), ("", "access_token=%s.%s" % (half, secret(org, "root"))),
            ("", "access%%5Ftoken=%s" % good), ("", "%s=%s" % (percent("access_token"), percent(good))), ("Bearer " + percent(good), ""),
            ("", "access_token=" + good.replace(".", "%2E")), ("", "access_token=%25" + good), ("", "access_token=" + good.replace(".", "%252E")),
            ("", "x=%26access_token=" + theirs), ("", "x=%26&access_token=" + good),
        ],
        "two": [
            ("Bearer " + good, "access_token=" + good), ("Bearer " + good, "access_token=" + theirs), ("Bearer", "access_token=" + good),
            ("", "access_token=%s&access_token=%s" % (good, theirs)), ("Bearer x", "access_token=" + good), ("Bearer " + good, "access_token="),
            ("Bearer " + good, "access_token"), (basic(good), "access_token=" + theirs), (basic("x"), "access_token=" + good),
        ],
        "user": [
            (basic(good), ""), (basic(good, "BASIC"), ""), (basic(good, "basic "), ""), (basic(good + "\n"), ""), (basic("Bearer " + good), ""),
            (basic("a/b." + secret(org, "root")), ""), (basic(percent(good)), ""), ("Basic !", ""), ("Basic", ""),
        ],
        "none": [
            ("", ""), ("", "access_token="), ("Bearer", ""), ("Bearer ", ""), ("Bearer .", ""), ("Bearer " + org, ""), ("Bearer %s." % org, ""),
            ("Bearer %s.%s" % (org, "0" * 20), ""), ("Bearer %sx" % good, ""), ("Bearer %s %s" % (good, good), ""), ("Bearer , " + good, ""),
            ("Bearer zeta.%s" % secret(org, "root"), ""), ("Bearer none.%s" % secret(org, "root"), ""), ("Bearer %sx.%s" % (org, secret(org, "root")), ""),
            ("", "access_token=zeta.0123456789abcdef"), ("Bearer %s.0123456789abcdef" % ("a" * 41), ""), ("Bearer " + good.upper(), ""),
            ("Bearer %s.%s" % (other, secret(org, "root")), ""),
        ],
        "slash": [(form % text, "") for form in ["Bearer %s", "bearer %s"] for text in names(org)] + [("", "access_token=" + text) for text in names(org)],
    }


def names(org):
    """Tokens with slashes and dots where an organization's name would be."""
    end = secret(org, "root")
    return ["%s%s.%s" % (before, behind, end) for before, behind in [
        ("x/", org), ("../", org), (org, "/../beta"), (org, "/"), ("/", org), (".", org), (org, "."), ("ac.", "me"), ("x.", org), (org, ".x"), ("..", ""),
        (org, "/socket"), (org, "%2f..%2f" + org), (org, "\\"), (org, ":"), (org, "$"), ("", ""),
    ]]


def paths(org, other):
    ends = ["workspaces/net", "state/net", "state/none-such", "versions/net/1", "runs/net/1", "workspaces", "state/net/", "nothing"]
    full = ["/v1/%s/%s" % (name, end) for name in (org, other, "zeta") for end in ends]
    odd = ["/v1/%s/state/net&access_token=%s" % (org, token(other)), "/v1/%s/state/%%6eet" % org, "/v1/%s/state/net" % percent(org), "/v1//%s/state/net" % org,
           "/v1/%s/../%s/state/net" % (other, org), "/v1/%s.x/state/net" % org, "/v1/%s%%2Fx/state/net" % org, "/v1/%s/state/net%%2e" % org, "/v1/", "/v1/health", "/health",
           "/v1/%s/workspaces/%s" % (org, token(other)), "/v1/access_token=%s/state/net" % token(other)]
    return full + odd


def mixed():
    """Queries and fields put together at random, by a fixed seed."""
    chance = random.Random(5)
    good, theirs = token("acme"), token("beta")
    key, own, other = percent("access_token"), percent("acme") + good[4:], percent(theirs)
    pieces = ["access_token", "access_token", key, "access%5Ftoken", "%61ccess_token", "=", "=", "=", "=", "&", "&", "&", "?", "#", ";", "+", "%26", "%3D", "%3d", "x", "ID", "after", "%",
              good, good, theirs, theirs, own, other, "%20", "ACCESS_TOKEN", ".", "/"]
    whole = ["access_token=" + good, "access_token=" + theirs, key + "=" + own, "access_token=" + other, "x=1", "", "x", "access%5ftoken=" + theirs]
    fields = [""] * 6 + ["Bearer " + good, "bearer  " + theirs, basic(good), basic(theirs), "Bearer", "Basic x", "Bearer " + own, "Digest access_token=" + good]
    for _ in range(MIXED):
        if chance.random() < 0.5:
            query = "".join(chance.choice(pieces) for _ in range(chance.randint(1, 9)))
        else:
            query = "".join(chance.choice(whole) + chance.choice(["&", "&", "&", "?", "#", ";", "%26", "="]) for _ in range(chance.randint(1, 4)))
        yield "a mixed query", request("GET", with_query("/v1/%s/state/net" % chance.choice(ORGS), query), chance.choice(fields))


STATE = '{"version":4,"terraform_version":"1.11.4","serial":%d,"lineage":"6a8f","outputs":{},"resources":[]}'
LOCK = '{"ID":"5f2c","Who":"ann@laptop","Operation":"OperationTypeApply"}'


def request(method, target, field="", body="", more=()):
    lines = ["%s %s HTTP/1.1" % (method, target), "Host: c", "Connection: close"] + (["Authorization: " + field] if field else []) + [*more]
    lines += ["Content-Length: %d" % len(body)] if body or method == "POST" else []
    return "\r\n".join([*lines, "", body]).encode("latin-1")


def with_query(path, query):
    return path + ("?" + query if query else "")


def made_of(kinds, some=None):
    """Each path with each way of these kinds, for each organization; `some` takes every so many."""
    all_of = []
    for org, other in [ORGS, ORGS[::-1]]:
        for kind in kinds:
            for field, query in ways(org, other)[kind]:
                for path in paths(org, other):
                    all_of += [(kind, request("GET", with_query(path, query), field))]
    return all_of[::some or 1]


def lives():
    """Each act, by each role, on both organizations' paths: with a token in the field, in the query, and as a user name."""
    serial = 0
    for turn in range(2):
        for org, other in [ORGS, ORGS[::-1]]:
            for name in ["look", "ci", "root"]:
                for at in [org, other]:
                    for way in range(3):
                        serial += 1
                        field = ["Bearer " + token(org, name), "", basic(token(org, name))][way]
                        query = ["", "access_token=" + token(org, name), ""][way]
                        for method, end, more, body in [
                            ("PUT", "workspaces/net", "", ""), ("LOCK", "state/net", "", LOCK), ("POST", "state/net", "", STATE % serial),
                            ("POST", "state/net", "ID=5f2c", STATE % serial), ("UNLOCK", "state/net", "", LOCK), ("GET", "state/net", "", ""),
                            ("POST", "runs/net", "", '{"key":"k%d"}' % (serial % 5)), ("GET", "runs/net", "", ""), ("POST", "runs/net/1/actions/cancel", "", ""),
                            ("HEAD", "state/net", "", ""), ("GET", "versions/net", "after=1", ""), ("GET", "versions/net/1", "", ""), ("GET", "workspaces", "", ""),
                            ("DELETE", "state/net" if turn else "state/gone", "", ""), ("DELETE", "workspaces/net" if turn and not way else "workspaces/gone", "", ""),
                            ("PATCH", "state/net", "", ""), ("UNLOCK", "state/net", "", ""),
                        ]:
                            target = with_query("/v1/%s/%s" % (at, end), "&".join(filter(None, [more, query])))
                            yield "%s of %s" % (method, name), request(method, target, field, body)


def heads():
    """Heads that are wrong, or strange."""
    good = "Authorization: Bearer " + token("acme")
    target = "/v1/acme/state/net"
    for text in [
        "GET %s HTTP/1.1\r\n%s\r\n\r\n" % (target, good), "GET %s HTTP/1.0\r\n%s\r\n\r\n" % (target, good), "GET %s\r\n\r\n" % target,
        "GET %s HTTP/1.1\r\nHost: c\r\nHost: d\r\n%s\r\n\r\n" % (target, good), "GET %s HTTP/1.1\r\nHost: c\r\n%s\r\n%s\r\n\r\n" % (target, good, good),
        "GET %s HTTP/1.1\r\nHost: c\r\n%s\r\n x\r\n\r\n" % (target, good), "GET %s HTTP/2.0\r\nHost: c\r\n\r\n" % target, "G@T %s HTTP/1.1\r\nHost: c\r\n\r\n" % target,
        "get %s HTTP/1.1\r\nHost: c\r\n%s\r\nConnection: close\r\n\r\n" % (target, good), "GET http://c%s HTTP/1.1\r\nHost: c\r\n%s\r\nConnection: close\r\n\r\n" % (target, good),
        "GET %s HTTP/1.1\r\nHost: c\r\n%s: x\r\nConnection: close\r\n\r\n" % (target, "a" * 9000), "GET %s%s HTTP/1.1\r\nHost: c\r\n\r\n" % (target, "x" * 9000),
        "GET %s?%s HTTP/1.1\r\nHost: c\r\n%s\r\nConnection: close\r\n\r\n" % (target, "&" * 7000, good), "\r\n\r\nGET %s HTTP/1.1\r\nHost: c\r\n%s\r\nConnection: close\r\n\r\n" % (target, good),
        "POST %s HTTP/1.1\r\nHost: c\r\n%s\r\nConnection: close\r\nTransfer-Encoding: chunked\r\n\r\n2\r\n{}\r\n0\r\n\r\n" % (target, good),
        "POST %s HTTP/1.1\r\nHost: c\r\n%s\r\nConnection: close\r\nContent-Length: 2\r\nContent-Length: 2\r\n\r\n{}" % (target, good),
        "POST %s HTTP/1.1\r\nHost: c\r\n%s\r\nConnection: close\r\nContent-Length: 17000000\r\n\r\n{}" % (target, good),
        "POST %s HTTP/1.1\r\nHost: c\r\n%s\r\nConnection: close\r\nContent-Length: 2\r\nContent-MD5: x\r\n\r\n{}" % (target, good),
        "POST %s HTTP/1.1\r\nHost: c\r\n%s\r\nConnection: close\r\nContent-Length: 2\r\nExpect: 100-continue\r\n\r\n{}" % (target, good),
        "POST %s HTTP/1.1\r\nHost: c\r\n%s\r\nConnection: close\r\n\r\n" % (target, good), "\x16\x03\x01", "", "GET",
    ]:
        yield "a head", text.encode("latin-1")


def at_the_door():
    """Requests that would add an organization, if they came to the door."""
    command = "org-add leaked"
    operator = "Operator " + OPERATOR.decode()
    for target in ["/operator", "//operator", "/./operator", "/v1/../operator", "/v1/%2e%2e/operator", "/v1/..%2foperator", "/%6fperator", "/operator/", "/operator?", "/operator#",
                   "/operator/../v1/x", "/operator?/../v1/", "/v1/operator", "http://c/operator", "http://c/v1/../operator", "/v1/../operator?access_token=" + token("acme"), "/OPERATOR", "/health/../operator"]:
        for more in [(), ("Authorization: Bearer " + token("acme"),)]:
            yield target, request("POST", target, "" if more else operator, command, [*more])


# ----------------------------------------------------------------------------------------------------
# What is looked at
# ----------------------------------------------------------------------------------------------------


def is_told(sides, what, requests):
    requests = list(requests)
    sides.statuses.clear()
    wrong = sides.differ(sides.apart, requests)
    if wrong:
        raise Wrong(wrong)
    counts = ", ".join("%d times %s" % (count, status) for status, count in sides.statuses.most_common() if status.isdigit())
    print("right: %d requests get equal replies (%s): %s" % (len(requests), counts, what), flush=True)


def answers_for(sides, front, sent):
    came = front.asked(sent)
    return came.split(b" ", 2)[1:2], b"\r\nRetry-After: 15\r\n" in came


GET = request("GET", "/v1/acme/state/net", "Bearer " + token("acme"))
AWAY = ([b"503"], True)


def restarts(sides, front):
    """What is replied to acme's requests, by field, query and user name, while its service is killed and started again."""
    target, seen, ended = "/v1/acme/state/net", set(), threading.Event()
    each = [GET, request("GET", target + "?access_token=" + token("acme")), request("GET", target, basic(token("acme"))), request("GET", target + "?access_token=" + percent(token("acme")))]

    def looks(sent):
        while not ended.is_set():
            status, again = answers_for(sides, front, sent)
            seen.add((b"".join(status), again))

    threads = [threading.Thread(target=looks, args=[sent], daemon=True) for sent in each]
    for thread in threads:
        thread.start()
    end = time.monotonic() + RESTARTING
    while time.monotonic() < end:
        sides.services["acme"].kill()
        time.sleep(0.05)
        sides.services["acme"] = sides.started("acme")
        time.sleep(0.1)
    ended.set()
    for thread in threads:
        thread.join()
    return seen


def look_at_fronts(program):
    with Sides(program) as sides:
        is_told(sides, "each act, by each role", lives())
        is_told(sides, "each path with each way to bring a token", made_of(ways("acme", "beta")))
        is_told(sides, "queries and fields put together at random", mixed())
        is_told(sides, "wrong heads", heads())
        door(sides)
        away(sides)
        is_told(sides, "after the restarts", made_of(["the path", "query"]))
        wrong_fronts(sides)


def reaches_door(sides, front):
    """Whether a request at the door is carried out, or one of the services answers it."""
    for what, sent in at_the_door():
        came = front.asked(sent)
        if came.split(b" ", 2)[1:2] not in ([b"404"], [b"400"], [b"401"]):
            return what, came[:80]
    for service in [sides.one, *sides.services.values()]:
        came = service.asked(request("POST", "/operator", "Operator " + OPERATOR.decode(), "org-list"))
        if b"leaked" in came:
            return "org-list", came
    return None


def door(sides):
    for front in [sides.together, sides.apart]:
        said("a command through the front", reaches_door(sides, front), None)
    print("right: no request through the front comes to the operator's door")


def away(sides):
    """Of a known organization whose service is down, nothing but 503 with Retry-After is heard."""
    sides.services["acme"].kill()
    for org in ["acme", "beta"]:
        for path in ["/v1/%s/state/net" % org, "/v1/%s/workspaces" % org, "/v1/zeta/state/net"]:
            for field, query in [*ways("acme", "beta")["case"][:3], *ways("acme", "beta")["percent"][:5], ways("acme", "beta")["user"][0], ways("acme", "beta")["query"][0]]:
                said("%s %s while the service is down" % (field, query), answers_for(sides, sides.apart, request("GET", with_query(path, query), field)), AWAY)
    said("another organization meanwhile", answers_for(sides, sides.apart, request("GET", "/v1/beta/workspaces", "Bearer " + token("beta"))), ([b"200"], False))
    said("an unknown one", answers_for(sides, sides.apart, request("GET", "/v1/beta/workspaces", "Bearer zeta.0123456789abcdef")), ([b"401"], False))
    os.remove(socket_of(sides.folder, "acme"))
    said("without a socket", answers_for(sides, sides.apart, GET), AWAY)
    sides.services["acme"] = sides.started("acme")
    seen = restarts(sides, sides.apart)
    said("what is replied during restarts", seen <= {(b"200", False), (b"204", False), (b"404", False), (b"503", True)} and (b"503", True) in seen, True)
    sides.services[NONE].kill()
    said("an unknown one, without a service for it", answers_for(sides, sides.apart, request("GET", "/v1/beta/workspaces", "Bearer zeta.0123456789abcdef")), AWAY)
    sides.services[NONE] = sides.started(NONE)
    print("right: while a service is down, or starts again, its organization gets 503 with Retry-After; another one is answered")


def wrong_fronts(sides):
    """Each mistake, and the requests that tell it."""
    by_path = {org: '"~^/v1/%s/" unix:%s;\n' % (org, socket_of(sides.folder, org)) for org in ORGS}
    by_path[NONE] = "default unix:%s;\n" % socket_of(sides.folder, NONE)
    own = "    include /etc/custody/organizations/*;\n"
    by_name = {NONE: "default unix:%s;\n" % socket_of(sides.folder, NONE)}
    named = own + '    "~^(?<custody_name>[a-z./][a-z0-9./-]*)[.]" unix:%s/$custody_name/socket;\n' % sides.folder
    told = [
        ("chosen by the path", [("map $custody_token $custody_own", "map $uri $custody_own")], by_path, ["the path"]),
        ("the token in the query passed over", [("default                                 $custody_query;", 'default  "";')], None, ["query"]),
        ("a percent-encoded key not read", [("(?:_|%5[Ff])", "_")], None, ["percent"]),
        ("a percent-encoded name not read", [], {org: '"~^%s[.]" unix:%s;\n' % (org, socket_of(sides.folder, org)) for org in ORGS} | by_name, ["percent"]),
        ("the query's token by its first key in any case", [("map $request_uri $custody_query", "map $arg_access_token $custody_query"), ("    \"~^[^?]*", "    default $arg_access_token;\n    \"~^[^?]*")], None, ["query"]),
        ("a token after a second question mark", [("(?:[^&]*&)*(?:a|", "(?:[^&]*[&?])*(?:a|")], None, ["query"]),
        ("a token in the path", [("^[^?]*\\?(?:[^&]*&)*", "[?&]")], None, ["the path", "query"]),
        ("one case of `bearer`", [("(?i:bearer)", "Bearer")], None, ["case"]),
        ("the user name passed over", [("\"Bearer $remote_user\"", "$http_authorization")], None, ["user"]),
        ("a name with a slash or a dot", [(own, named)], by_name, ["slash"]),
        ("the first choice again if a service is down", [("error_page 502 503 504 =503 @away;\n    }\n    # 200", "error_page 502 503 504 = @none;\n    }\n    location @none { proxy_pass http://unix:%s; }\n    # 200" % socket_of(sides.folder, NONE))], None, None),
        ("the door through the front", [("    location / {\n        return 404;", "    location / {\n        proxy_pass http://$custody;")], None, ()),
    ]
    for place, (what, mistakes, lines, kinds) in enumerate(told):
        with sides.front("wrong%d" % place, mistakes, lines) as front:
            if kinds is None:
                seen = restarts(sides, front)
                found = (b"401", False) in seen
            elif kinds:
                found = sides.differ(front, made_of(kinds))
            else:
                found = reaches_door(sides, front)
        if not found:
            raise Wrong("nothing tells this front: " + what)
        print("right: a wrong front is told: " + what, flush=True)


if __name__ == "__main__":
    look_at(__doc__, look_at_fronts)
