#!/usr/bin/env python3
"""Runs the recipes of README, OPERATING, RUNNERS and GROWING, block by block, as the pages have them.

    python3 tools/recipes.py CUSTODY    as root; the program as `rt ci` or `rt run` leaves it

It needs curl, jq, openssl, sqlite3, dpkg and Terraform, on the filesystem of `/`, and no network. It runs in namespaces of its own (files,
processes, network) over a copy of `/` that is dropped at the end (an overlay), so it adds users, installs units and listens at 443
without changing this machine.

Each page has a bash session. A block has to end without a failing command, except where the page says so, and print what the page
says. Between blocks the script makes what a block is for, such as a lock whose owner was killed. Each block has to be run by a
check below; LEFT has the lines that are left out, with the reason. Checks run commands inside sentences, too (`inline`).

What this machine may lack has a stand-in, so these are not tested: systemd (units start, stop and restart with their user, input and
environment, but none of their restrictions holds, and the timer never comes), journald, nginx (tools/front.py, with the certificate and the
map of nginx.conf alone), apt and apt-get (dpkg installs the package), rsync and ssh (this machine is the other one) and `rt`
(the program that is given). A standby that starts from copies is this machine, too.

During the recipes at the operator's door a Terraform applies again and again, under a lock and without retries: each of its requests
has to succeed. The script prints a line for each block, then how many ran and which were left. It ends with status 1 at the first
that is wrong. For tools/quick-build, too, there is a stand-in, which leaves the program that is given.
"""

import contextlib
import fcntl
import glob
import json
import os
import re
import select
import shlex
import shutil
import signal
import socket
import socketserver
import ssl
import struct
import subprocess
import sys
import tempfile
import textwrap
import threading
import time

from front import Front, Peer
from harness import HERE, PATIENCE, Wrong, said, wait_until

TOP = os.path.dirname(HERE)
REPOSITORY, STAND_INS, JOURNAL, ROOM = "/repository", "/stand-ins", "/journal", "/room"
PATH = STAND_INS + ":/usr/local/sbin:/usr/local/bin:/usr/sbin:/usr/bin:/sbin:/bin"
CONFIGURATION = "/configuration"
# (the copy has no git: the package gets a date of this script)
ENVIRONMENT = {"PATH": PATH, "HOME": "/root", "LANG": "C.UTF-8", "CHECKPOINT_DISABLE": "1", "SOURCE_DATE_EPOCH": "1700000000"}
UNITS = ["/etc/systemd/system/", "/usr/lib/systemd/system/"]

# The lines of blocks that are not run, by their beginnings.
LEFT = {"rt ci ": "it proves everything, for hours"}
# What builds the program: it leaves the given one.
BUILDER = '#!/bin/sh\n[ "$1 $3" = "custody -O2" ] && cp /given "$2" && echo "$2"\n'
# The headings whose blocks are not run: they need two machines, as tools/standby.py starts them.
PAIR = ["A standby", "Failover by itself", "Failover by hand"]
# The last line of a block, which never ends: it is run in a session of its own, and ended.
ENDLESS = "exchanges -f "


# ----------------------------------------------------------------------------------------------------
# What this machine lacks
# ----------------------------------------------------------------------------------------------------

PROGRAMS = {
    "systemctl": 'exec python3 %s/tools/recipes.py --ask systemctl "$@"' % REPOSITORY,
    "nginx": 'exec python3 %s/tools/recipes.py --ask nginx "$@"' % REPOSITORY,
    # (its lines have no times: everything is newer than an hour)
    "journalctl": """
        cd %s || exit 1
        follow= units= spaced=
        while [ $# -gt 0 ]; do
            case "$1" in
                --namespace=custody) spaced=1 ;; -f) follow=-f ;; -u) units="$units $2"; shift ;; -o | --since) shift ;;
                *) echo "journalctl: $1" >&2; exit 1 ;;
            esac
            shift
        done
        [ "$spaced" ] || { echo "journalctl: the units have a namespace" >&2; exit 1; }
        exec tail -q -n +1 $follow $(for unit in $units; do ls -d $unit 2> /dev/null; done)
        """ % JOURNAL,
    "apt-get": """
        [ "$1" = install ] || exit 1
        mkdir -p /etc/nginx/conf.d /etc/nginx/sites-enabled /var/lib/nginx && touch /etc/nginx/sites-enabled/default
        """,
    # (systemd itself may be missing here)
    "apt": """
        case "$1" in install) shift; exec dpkg --force-depends --install "$@" ;; purge) shift; exec dpkg --purge "$@" ;; *) exit 1 ;; esac
        """,
    "rsync": """
        case "$1" in
            -a) mkdir "${3#*:}" 2> /dev/null || [ -d "${3#*:}" ] && cp -rp "$2." "${3#*:}" ;;
            -pt) mkdir -p "${3#*:}" && cp -p "$2" "${3#*:}" ;;
            *) exit 1 ;;
        esac
        """,
    "ssh": 'shift && cd /room && exec sh -c "$*"',
    "rt": """
        [ "$1 $2" = "run --" ] || exit 1
        shift 2; mkdir -p out && cp /given out/custody && exec out/custody "$@"
        """,
}


def unit_file(name):
    """Where a unit's file is; the last place if it is nowhere."""
    return next(filter(os.path.exists, [folder + name for folder in UNITS]), UNITS[-1] + name)


def unit_file_of(name):
    base, at, _ = name.removesuffix(".service").partition("@")
    return unit_file("%s%s.service" % (base, at))


class Unit:
    """A unit, by the lines of its file."""

    def __init__(self, name):
        self.name, self.process, self.restarts, self.failed, self.runs = name, None, 0, False, None
        self.lock = threading.RLock()

    def settings(self):
        instance, found = self.name.partition("@")[2], {}
        with open(unit_file_of(self.name), encoding="utf-8") as file:
            for line in file:
                key, equals, value = line.strip().partition("=")
                if equals and not key.startswith("#"):
                    found.setdefault(key, []).append(value.replace("%i", instance))
        return found

    def spawn(self, words, settings):
        def only(key, default):
            return settings.get(key, [default])[-1]

        pairs = [pair for text in settings.get("Environment", []) for pair in shlex.split(text)]
        for path in settings.get("EnvironmentFile", []):
            with open(path, encoding="utf-8") as file:
                pairs += file.read().splitlines()
        env = {"PATH": PATH, **dict(pair.split("=", 1) for pair in pairs)}
        words = [re.sub(r"\$\{(\w+)\}", lambda found: env[found[1]], word) for word in shlex.split(words)]
        user, given = only("User", None), only("StandardInput", "file:" + os.devnull)
        how = {"cwd": "/", "env": env, "umask": int(only("UMask", "0022"), 8), "start_new_session": True}
        if user:
            how.update(user=user, group=only("Group", user), extra_groups=[])
        for folder in settings.get("RuntimeDirectory", []):
            place = "/run/" + folder
            self.runs = place if only("RuntimeDirectoryPreserve", "no") != "yes" else None
            os.makedirs(place, exist_ok=True)
            os.chmod(place, int(only("RuntimeDirectoryMode", "0755"), 8))
            shutil.chown(place, user, only("Group", user))
        with open(given.removeprefix("file:"), "rb") as reads, open("%s/%s" % (JOURNAL, self.name), "ab") as lines:
            return subprocess.Popen(words, stdin=reads, stdout=lines, stderr=lines, **how)

    def start(self):
        if os.path.exists("/stuck"):     # (what a check below plants)
            return 1, "Job for %s failed.\n" % self.name
        settings = self.settings()
        if settings["LogNamespace"] != ["custody"]:
            return 1, "%s.service does not write to the journal of custody.\n" % self.name
        if not all(map(os.path.exists, settings.get("AssertPathExists", []))):
            return 1, "Assertion failed on job for %s.service.\n" % self.name
        if "oneshot" in settings.get("Type", []):
            self.failed = any(self.spawn(words, settings).wait() for words in settings["ExecStart"])
            return int(self.failed), ""
        with self.lock:
            if not self.process:
                self.process = self.spawn(settings["ExecStart"][0], settings)
                threading.Thread(target=self.watch, args=[self.process], daemon=True).start()
        return 0, ""

    def watch(self, process):
        """Starts a service again when it ends, unless it was stopped."""
        process.wait()
        with self.lock:
            if self.process is not process:
                return
            self.process = None
        time.sleep(1)
        self.restarts += 1
        self.start()

    def stop(self):
        with self.lock:
            process, self.process = self.process, None
        if process:
            self.ends_in_order(process)
            process.terminate()
            process.wait()
            if self.runs:
                shutil.rmtree(self.runs)

    def ends_in_order(self, process):
        """Runs what the unit has for a stop, as root and with the service's process, for as long as systemd lets it."""
        for words in self.settings().get("ExecStop", []):
            words = shlex.split(words.lstrip("-+"))
            with contextlib.suppress(subprocess.TimeoutExpired):
                subprocess.run(words, env={"PATH": PATH, "MAINPID": str(process.pid)}, stdin=subprocess.DEVNULL, timeout=90, check=False)

    def show(self, what):
        return {"MainPID": self.process.pid if self.process else 0, "NRestarts": self.restarts}[what]


class Machine:
    """What answers for systemctl and nginx."""

    def __init__(self):
        self.units, self.front = {}, None

    def unit(self, name):
        return self.units.setdefault(name.removesuffix(".service"), Unit(name.removesuffix(".service")))

    def asked(self, program, words):
        """The status and the output of a command."""
        match program, words:
            case "nginx", ["-T"]:
                return 0, "".join("# configuration file %s:\n" % path for path in glob.glob("/etc/custody/organizations/*"))
            case "nginx", ["-t"] | ["-t", "-q"]:
                return 0, ""
            case ("nginx", ["-s", "reload"]) | ("systemctl", ["reload", "nginx"]):
                return self.reload()
            case "systemctl", ["daemon-reload"]:
                return self.verifies()
            case "systemctl", ["enable", "--now", name] | ["enable", "--quiet", "--now", name] if name.endswith(".timer"):
                return (0 if os.path.exists(unit_file(re.sub(r"@.*\.", "@.", name))) else 1), ""
            case "systemctl", ["disable", "--quiet", "--now", *names]:
                for name in names:
                    self.unit(name).stop()
                return 0, ""
            case "systemctl", ["is-active", "-q", name]:
                return (0 if self.unit(name).process else 3), ""
            case "systemctl", ["disable", "--now", name]:
                self.unit(name).stop()
                return 0, ""
            case "systemctl", ["start", *names] | ["enable", "--now", *names] | ["enable", "--quiet", "--now", *names]:
                done = [self.unit(name).start() for name in names]
                return max(status for status, _ in done), "".join(text for _, text in done)
            case "systemctl", ["stop", *names]:
                if os.path.exists("/stuck") or not all(map(os.path.exists, map(unit_file_of, names))):
                    return 5, "Failed to stop %s.\n" % names
                for name in names:
                    self.unit(name).stop()
                return 0, ""
            case "systemctl", ["restart", name]:
                self.unit(name).stop()
                return self.unit(name).start()
            case "systemctl", ["show", "-p", what, "--value", name]:
                return 0, "%d\n" % self.unit(name).show(what)
            case "systemctl", ["list-units", "--failed", "custody*"]:
                return 0, "".join("%s.service failed\n" % name for name, unit in self.units.items() if unit.failed)
        return 1, "%s: no stand-in for %s\n" % (program, words)

    def verifies(self):
        """Whether systemd can read the units, if its program for that is here."""
        if not shutil.which("systemd-analyze"):
            return 0, ""
        units = [path for folder in UNITS for path in glob.glob(folder + "custody*")]
        done = subprocess.run(["systemd-analyze", "verify", *units], stdout=subprocess.PIPE, stderr=subprocess.STDOUT, text=True, check=False)
        return (1 if done.stdout else done.returncode), done.stdout

    def reload(self):
        with open("/etc/nginx/conf.d/custody.conf", encoding="utf-8") as file:
            text = file.read()
        if not self.front:
            self.front = NginxFront(("127.0.0.1", 443), Routed)
            self.front.context = ssl.SSLContext(ssl.PROTOCOL_TLS_SERVER)
            self.front.context.load_cert_chain(*(re.search(r"^ *%s +(\S+);" % key, text, re.M)[1] for key in ("ssl_certificate", "ssl_certificate_key")))
            threading.Thread(target=self.front.serve_forever, daemon=True).start()
        with open("/run/nginx.pid", "w", encoding="ascii") as file:
            file.write("4194304\n")     # (no process has it: there are no workers to wait for)
        lines = "".join(map(text_of, sorted(glob.glob("/etc/custody/organizations/*"))))
        self.front.places = re.findall(r'^"?(\S+?)"? +(\S+);', lines, re.M)
        self.front.one = re.search(r'^ *"" +(\S+);', text, re.M)[1]
        return 0, ""

    def end(self):
        for unit in self.units.values():
            unit.stop()


def text_of(path):
    with open(path, encoding="utf-8") as file:
        return file.read()


class NginxFront(Front):
    away = b"HTTP/1.1 503 Service Unavailable\r\nContent-Length: 5\r\nRetry-After: 15\r\nConnection: close\r\n\r\naway\n"
    absent = b"HTTP/1.1 404 Not Found\r\nContent-Length: 0\r\nConnection: close\r\n\r\n"


class Routed(Peer):
    """A request to `/v1/` goes where the lines of the organizations say of its token (fronts.py looks at the maps of nginx.conf)."""

    def send_on(self, request, link):
        path = request.split(b" ", 2)[1].decode("latin-1").partition("?")[0]
        if not path.startswith("/v1/"):
            link.sendall(self.server.absent)
            return
        token = re.search(rb"^authorization: bearer +(\S*)|[?&]access_token=([^& ]*)", request.partition(b"\r\n\r\n")[0], re.I | re.M)
        name = (token[1] or token[2] or b"").decode("latin-1") if token else ""
        places = self.server.places
        place = next((to for key, to in places if key.startswith("~") and re.search(key[1:], name)), dict(places).get("default", self.server.one))
        kind, _, at = place.partition(":")
        self.send_to(at if kind == "unix" else int(at), request, link)


class Asked(socketserver.StreamRequestHandler):
    def handle(self):
        try:
            came = self.server.machine.asked(*json.loads(self.rfile.readline()))
        except (OSError, KeyError, TypeError) as fault:
            came = 1, "%s\n" % fault
        self.wfile.write(json.dumps(came).encode())


class Socket(socketserver.ThreadingUnixStreamServer):
    daemon_threads = True


def ask(words):
    """A stand-in's side: asks the script, and prints and ends as it says."""
    with socket.socket(socket.AF_UNIX) as link:
        link.connect(STAND_INS + "/socket")
        link.sendall(json.dumps([words[0], words[1:]]).encode() + b"\n")
        with link.makefile() as stream:
            status, text = json.load(stream)
    sys.stdout.write(text)
    sys.exit(status)


# ----------------------------------------------------------------------------------------------------
# Pages and sessions
# ----------------------------------------------------------------------------------------------------


class Page:
    """The blocks of a page, each with the heading above it."""

    def __init__(self, name):
        self.name = name
        with open("%s/%s" % (REPOSITORY, name), encoding="utf-8") as file:
            self.text = file.read()
        self.blocks, self.taken, heading = [], set(), ""
        for found in re.finditer(r"^#+ ([^\n]*)$|^( *)```sh\n(.*?)^ *```$", self.text, re.M | re.S):
            if found[1]:
                heading = found[1]
            else:
                self.blocks.append((heading, textwrap.dedent(found[3])))

    def block(self, start):
        """The block that begins so."""
        found = [place for place, (_, text) in enumerate(self.blocks) if text.startswith(start)]
        if len(found) != 1:
            raise Wrong("%s has %d blocks that begin with %s" % (self.name, len(found), start))
        self.taken.add(found[0])
        return self.blocks[found[0]][1]

    def inline(self, text):
        """A command inside a sentence."""
        if "`%s`" % text not in self.text:
            raise Wrong("%s doesn't have `%s`" % (self.name, text))
        return text + "\n"

    def done(self):
        """How many blocks were taken: each, except those of a pair."""
        for place, (heading, text) in enumerate(self.blocks):
            if heading in PAIR:
                Shell.left.append("%s: %s (it needs two machines)" % (self.name, text.splitlines()[0]))
            elif place not in self.taken:
                raise Wrong("%s, %s: nothing runs the block %s" % (self.name, heading, text))
        return len(self.taken)


# (the trap doesn't see a chain of `&&` that fails before its end, so `recipes_end` looks at the status of each line, too)
DRIVER = """
recipes_note() { printf '%s %s\\n' "$1" "${2%%$'\\n'*}" >> "$recipes_faults"; recipes_noted=1; }
recipes_end() { [ "$1" = 0 ] || [ "$recipes_noted" ] || recipes_note "$1" "$2"; recipes_noted=; }
trap 'recipes_note "$?" "$BASH_COMMAND"' ERR
while read -r -u "$recipes_next" recipes_block; do
    source "$recipes_block" < "$recipes_block.given" > "$recipes_block.said" 2>&1
    echo >&"$recipes_done"
done
"""


def is_whole(piece):
    """Whether bash reads it as whole commands. (Of a here-document without its end it only warns.)"""
    done = subprocess.run(["bash", "-n", "-c", piece], capture_output=True, check=False)
    return not piece.endswith("\\") and done.returncode == 0 and b"here-document" not in done.stderr


def commands_of(text):
    """The lines of a text, joined where bash needs the next one."""
    piece = ""
    for line in text.rstrip().splitlines():
        piece += line
        if is_whole(piece):
            yield piece
            piece = ""
        else:
            piece += "\n"
    if piece:
        raise Wrong("bash can't read " + piece)


class Shell:
    """A bash session. Commands that fail are noted, with their status."""

    number, runs_done, left = 0, [], []

    def __init__(self, folder=REPOSITORY, first=""):
        Shell.number += 1
        self.place, self.pieces = "%s/%d" % (ROOM, Shell.number), 0
        os.mkdir(self.place)
        self.faults = self.place + "/faults"
        with open(self.place + "/driver", "w", encoding="utf-8") as file:
            file.write(DRIVER)
        reads, self.next = os.pipe()
        self.done, writes = os.pipe()
        env = {**ENVIRONMENT, "recipes_next": str(reads), "recipes_done": str(writes), "recipes_faults": self.faults}
        self.process = subprocess.Popen(
            ["bash", "--norc", "--noprofile", self.place + "/driver"],
            stdin=subprocess.DEVNULL, cwd=folder, env=env, pass_fds=[reads, writes], start_new_session=True,
        )
        os.close(reads)
        os.close(writes)
        if first:
            self.does(first)

    def __enter__(self):
        return self

    def __exit__(self, *_):
        with contextlib.suppress(ProcessLookupError):
            os.killpg(self.process.pid, signal.SIGKILL)
        self.process.wait()

    def begins(self, text, given=""):
        self.pieces += 1
        path = "%s/%d" % (self.place, self.pieces)
        text = "".join("%s\nrecipes_end $? %s\n" % (one, shlex.quote(one)) for one in commands_of(text))
        for name, content in [(path, text), (path + ".given", given), (path + ".said", ""), (self.faults, "")]:
            with open(name, "w", encoding="utf-8") as file:
                file.write(content)
        os.write(self.next, path.encode() + b"\n")

    def said(self):
        with open("%s/%d.said" % (self.place, self.pieces), encoding="utf-8", errors="replace") as file:
            return file.read()

    def waits(self, text):
        try:
            wait_until(lambda: text in self.said(), "", PATIENCE)
        except Wrong:
            raise Wrong("a session doesn't say %s, but\n%s" % (text, self.said())) from None
        said("commands that failed", self.failed(), [])

    def failed(self):
        with open(self.faults, encoding="utf-8") as file:
            return list(dict.fromkeys(file.read().splitlines()))

    def ends(self):
        """What the piece printed, and the commands that failed."""
        if not select.select([self.done], [], [], PATIENCE)[0]:
            raise Wrong("a block doesn't end; it printed:\n" + self.said())
        os.read(self.done, 1)
        return self.said(), self.failed()

    def is_right(self, what, prints=(), faults=()):
        """Whether these patterns come in this order in what a piece printed, and these commands failed with these statuses."""
        came, failed = self.ends()
        if len(failed) != len(faults) or not all(map(re.match, faults, failed)):
            raise Wrong("%s: these commands failed: %s\nand it printed:\n%s" % (what, failed, came))
        left = came
        for pattern in prints:
            found = re.search(pattern, left, re.M)
            if not found:
                raise Wrong("%s: %s is missing in\n%s" % (what, pattern, came))
            left = left[found.end():]
        return came

    def does(self, text, prints=(), faults=(), given=""):
        """What the script itself does between blocks."""
        self.begins(text, given)
        return self.is_right(text, prints, faults)

    def runs(self, page, start, prints=(), faults=(), given="", block=None):
        """A block of a page."""
        text = block or page.block(start)
        for begin, reason in LEFT.items():
            if lines_of(text, begin):
                Shell.left.append("%s: %s (%s)" % (page.name, begin, reason))
        self.begins("".join(line for line in text.splitlines(keepends=True) if not line.startswith((*LEFT, ENDLESS))), given)
        return self.right(page, start, prints, faults)

    def right(self, page, start, prints=(), faults=()):
        came = self.is_right("%s: %s" % (page.name, start), prints, faults)
        tell(page, start)
        return came


def tell(page, start):
    line = "%s: %s" % (page.name, start.replace("\n", " .. "))
    Shell.runs_done.append(line)
    print("right:", line, flush=True)


# ----------------------------------------------------------------------------------------------------
# Terraform
# ----------------------------------------------------------------------------------------------------

MAIN = """variable "value" {
  default = "%s"
}
resource "terraform_data" "one" {
  input = var.value%s
}
output "one" {
  value = terraform_data.one.output
}
"""


def configures(folder, value, backend=True, apply=""):
    """A configuration without providers, with the backend of OPERATING. `apply` is a command that its apply runs."""
    os.makedirs(folder, exist_ok=True)
    with open("%s/docs/OPERATING.md" % REPOSITORY, encoding="utf-8") as file:
        block = re.search(r"^```hcl\n(.*?)^```$", file.read(), re.M | re.S)[1]
    more = '\n  triggers_replace = var.value\n  provisioner "local-exec" {\n    command = %s\n  }' % json.dumps(apply) if apply else ""
    with open(folder + "/main.tf", "w", encoding="utf-8") as file:
        file.write((block if backend else "") + MAIN % (value, more))


class Work(threading.Thread):
    """A Terraform that applies again and again, under a lock, without retries."""

    def __init__(self, env):
        super().__init__(daemon=True)
        self.env, self.folder, self.turns, self.ended, self.fault = env, "/work", 0, False, None
        configures(self.folder, 0)
        self.terraform("init", "-input=false")
        self.start()

    def terraform(self, *words):
        done = subprocess.run(["terraform", *words, "-no-color"], cwd=self.folder, env=self.env, capture_output=True, text=True, check=False)
        if done.returncode:
            self.fault = self.fault or "terraform %s: %s%s" % (words, done.stdout, done.stderr)

    def run(self):
        while not self.ended and not self.fault:
            self.terraform("apply", "-input=false", "-auto-approve", "-var", "value=%d" % self.turns)
            self.turns += 1

    def turn(self):
        """Waits until an apply has ended that began later."""
        due = self.turns + 2
        wait_until(lambda: self.turns >= due or self.fault, "a Terraform hangs", PATIENCE)
        if self.fault:
            raise Wrong(self.fault)

    def end(self):
        self.ended = True
        self.join()
        if self.fault:
            raise Wrong(self.fault)


# ----------------------------------------------------------------------------------------------------
# The pages
# ----------------------------------------------------------------------------------------------------

COUNTS = r"^ok\norganizations \d+ workspaces \d+ versions \d+ runs \d+ made \d+ newest \d+$"
SOCKET = "/run/custody/socket"
LOCK = '{"ID":"5f2c","Operation":"OperationTypeApply","Who":"ann@laptop","Created":"2026-01-31T04:00:00Z"}'


def lines_of(block, start):
    """The lines of a block that begin so."""
    return "".join(line for line in block.splitlines(keepends=True) if line.startswith(start))


def readme():
    page = Page("README.md")
    with Shell() as shell:
        shell.runs(page, "mkdir -m 700 ~/custody-try", ["^/root/custody-try/custody$"])
        shell.runs(page, "python3 tools/front.py", [r"^ok\nok\nok$"])
        serves(8443, 8090)
        shell.runs(page, "echo 'header", ['"name":"net"'])
        shell.runs(page, "export TF_HTTP_USERNAME=", ["successfully initialized", "Enter a value:", "Apply complete! Resources: 1 added"], given="yes\n")
        shell.runs(page, "curl --noproxy '*' -K ci.curl", ['"status":"planning"', "Error acquiring the state lock", "ID=run-1", '"status":"canceled"'], ["1 terraform plan"])
        shell.runs(page, "kill ")
        wait_until(lambda: not answers(8443) and not answers(8090), "what README stops still listens")
        said("the folder of the trial", os.path.exists("/root/custody-try"), False)
    with Shell() as shell:
        shell.runs(page, "(cd crates/custody && rt run", [r"^custody \d"])
        said("what was built", os.access(REPOSITORY + "/crates/custody/out/custody", os.X_OK), True)
    return page.done()


def answers(port):
    """Whether somebody listens at a port, or at a socket."""
    is_path = isinstance(port, str)
    with socket.socket(socket.AF_UNIX if is_path else socket.AF_INET) as link:
        return link.connect_ex(port if is_path else ("127.0.0.1", port)) == 0


def serves(*ports):
    """Waits until a service that was started listens."""
    for port in ports or [SOCKET]:
        wait_until(lambda: answers(port), "nobody listens at %s" % port)


def operating():
    page = Page("docs/OPERATING.md")
    with Shell() as shell:
        installs(page, shell)
        at_the_door(page, shell)
        locks(page, shell)
        backups(page, shell)
        log(page, shell)
    return page.done()


def variables():
    """What another session on this server needs first."""
    page = Page("docs/OPERATING.md")
    return lines_of(page.block("openssl req"), "export ") + page.block(". /usr/share/custody") + lines_of(page.block("export TF_HTTP_USERNAME"), "export ")


def by_hand(page, shell):
    """Installs without a package, and removes that again."""
    built = page.block("(cd crates/custody && rt run")
    shell.does(lines_of(built, "(cd crates"), ["Usage"])
    shell.runs(page, "install -m 755 crates/custody/out/custody")
    shell.does("""runuser -u custody -- custody org-add --db /var/lib/custody/custody.db acme
        echo operatoroperator1 > /root/operator; systemctl start custody""", ["^ok$"])
    serves()
    with open("/proc/%d/cmdline" % int(shell.does("systemctl show -p MainPID --value custody")), encoding="utf-8") as file:
        said("the program that is started", file.read().split("\0")[0], "/usr/local/bin/custody")
    shell.does("""systemctl stop custody
        userdel custody; rm -r /root/operator /var/lib/custody /usr/local/bin/custody /usr/local/share/custody /etc/systemd/system/custody* /etc/systemd/journald@custody.conf""")


def installs(page, shell):
    by_hand(page, shell)
    shell.runs(page, "(cd crates/custody && rt run", ["Usage", r"^\./custody_[0-9.]+_amd64\.deb$"])
    shell.does("systemctl daemon-reload; ! systemctl start custody", ["Assertion failed"])
    shell.runs(page, "openssl req")
    shell.runs(page, "apt-get install nginx")
    shell.runs(page, ". /usr/share/custody")
    shell.runs(page, "new_operator\n", ["^ok$", "^ok$", "^ok$", '"name":"net"'])
    reaches_the_socket(shell)
    shell.does("echo 127.0.0.1 RUNNER >> /etc/hosts; %s; cmp /room/custody.token /root/acme.ci" % page.inline("ssh RUNNER 'umask 077; cat > custody.token' < /root/acme.ci").strip())
    for path in glob.glob("/root/acme.*") + glob.glob("/root/operator*"):
        said("the mode of " + path, os.stat(path).st_mode & 0o777, 0o600)
    shows_no_secret(shell)
    configures(CONFIGURATION, "a")
    shell.does("cd " + CONFIGURATION)
    shell.runs(page, "export TF_HTTP_USERNAME", ["successfully initialized", "Enter a value:", "Apply complete!"], given="yes\n")
    for path in glob.glob(CONFIGURATION + "/.terraform/**", recursive=True):
        if os.path.isfile(path):
            with open(path, "rb") as file, open("/root/acme.ci", "rb") as secret:
                said("the token in " + path, secret.read().strip() in file.read(), False)
    shell.does("cd " + REPOSITORY)


def reaches_the_socket(shell):
    """nginx's user and the service's reach the socket, and another user doesn't, nor takes it while the service is stopped."""
    asks = "runuser -u %s -- curl -sS --noproxy '*' --unix-socket " + SOCKET + " http://localhost/v1/health"
    for user in ["www-data", "custody"]:
        shell.does(asks % user, ["no-route"])
    shell.does(asks % "nobody", ["Couldn't connect"], ["7 "])
    said("the mode of the socket", oct(os.stat(SOCKET).st_mode & 0o777), "0o660")
    said("that of its folder", oct(os.stat(os.path.dirname(SOCKET)).st_mode & 0o777), "0o750")
    shell.does("systemctl stop custody; runuser -u nobody -- mkdir /run/custody; systemctl start custody", [], ["1 "])
    serves()


def shows_no_secret(shell):
    """No process that adds a token has its secret, or the operator's, among its words."""
    if not shutil.which("strace"):
        Shell.left.append("the words of processes (no strace)")
        return
    shell.does("declare -f > /room/functions; strace -f -qq -s 9999 -e trace=execve -o /room/words bash -c '. /room/functions; new_token acme seen read'", ["^ok$"])
    with open("/room/words", encoding="utf-8") as file:
        words = file.read()
    for path in ["/root/acme.seen", "/root/operator"]:
        with open(path, encoding="ascii") as file:
            said("whether a process shows " + path, [file.read().strip() in words, "curl" in words], [False, True])
    shell.does("echo token-revoke acme seen | operator; rm /root/acme.seen*", ["^ok$"])


def at_the_door(page, shell):
    """The recipes at the door, while a Terraform works."""
    shell.does('new_token acme work write; curl -sS -K /root/acme.root.curl -X PUT "$CUSTODY/workspaces/work"')
    env = dict(line.split("=", 1) for line in shell.does("export -p; env").splitlines() if re.match(r"(TF_|SSL_|CURL_)\w+=", line))
    with open("/root/acme.work", encoding="ascii") as file:
        env["TF_HTTP_USERNAME"] = "acme." + file.read().strip()
    for key in ["TF_HTTP_ADDRESS", "TF_HTTP_LOCK_ADDRESS", "TF_HTTP_UNLOCK_ADDRESS"]:
        env[key] = env[key].replace("/net", "/work")
    work = Work({**ENVIRONMENT, **env, "TF_HTTP_RETRY_MAX": "0"})
    work.turn()
    shell.runs(page, "echo token-list acme", [r"^ci write - -$", r"^root admin - -$", "^ok$"])
    work.turn()
    shell.runs(page, "echo token-revoke acme ci |", ["^ok$"])
    shell.does("echo token-list acme | operator", [r"^ci-3 write \d{10} -$", "^root admin"])
    shell.does('curl -sS -K /root/acme.ci-3.curl "$CUSTODY/workspaces/net"', ['"name":"net"'])
    shell.runs(page, "echo token-revoke acme ci-3", ["^ok$", "^ok$", r'^\["20.*Z","show workspace","net",200\]$'])
    shell.does('curl -sS -K /root/acme.ci-3.curl "$CUSTODY/workspaces/net"', ["bad-token"])
    work.turn()
    teams = ["beta"] + ["team-%d" % number for number in range(20)]
    many_teams(page, shell, teams)
    work.turn()
    # (beta has a lock, then none)
    shell.does("""beta=https://state.example.com/v1/beta
        curl -sS -K /root/beta.root.curl -X PUT "$beta/workspaces/net"
        curl -sS -K /root/beta.root.curl -X LOCK -d '%s' "$beta/state/net" """ % LOCK)
    start = "empty_organization beta"
    shell.runs(page, start, ["423", "beta/net is held"], ["1 "])
    # (a workspace is left to the list's second part)
    shell.does("""curl -sS -K /root/beta.root.curl -X UNLOCK "$beta/state/net"
        for n in $(seq 51); do curl -sS -K /root/beta.root.curl -X PUT "$beta/workspaces/n$n"; done; echo org-list | operator""", ["^beta 52 200$"])
    shell.runs(page, start, ["^ok$"])
    shell.does("echo org-list | operator | grep '^beta'", [], ["1 "])
    work.turn()
    work.end()
    operators(page, shell)
    with open(JOURNAL + "/custody", encoding="utf-8") as file:
        lines = [json.loads(line) for line in file if line.startswith("{")]
    mine = [line for line in lines if line["token"] == "work"]
    said("requests of a Terraform that fail", [line for line in mine if line["status"] not in (200, 204)], [])
    doors = [place for place, line in enumerate(lines) if line.get("operator")]
    said("commands among them", len(doors) > 2 * len(teams) and any(line["token"] == "work" for line in lines[doors[5]:doors[-1]]), True)
    # (the pages go on with the token ci)
    shell.does("rm /root/acme.ci /root/acme.ci.curl; new_token acme ci write")
    print("right: meanwhile a Terraform applied %d times: %d requests, none of which failed" % (work.turns, len(mine)))


def many_teams(page, shell, teams):
    """A loop that stops, and goes on; a last line without a line feed."""
    start = "new_teams teams"
    shell.does("printf '%%s\\n' %s > teams; printf 'No' >> teams; touch /root/team-3.root.curl" % " ".join(teams))
    shell.runs(page, start, ["^%s is added$" % team for team in teams] + ["^No is not added: {\"error\":\"bad-body\"}"], ["1 "])
    shell.does("printf '\\n\\n%s' last-team > last; sed -i '$d' teams; cat last >> teams")
    shell.runs(page, start, ["^last-team is added$"])
    said("what is added again", shell.runs(page, start), "")
    shell.does("rm /root/last-team.root")
    shell.runs(page, start, ["^last-team has the token root, but /root/last-team.root is missing: revoke it$"], ["1 "])
    shell.does("echo token-revoke last-team root | operator", ["^ok$"])
    shell.runs(page, start, ["^last-team is added$"])
    # (a token that is refused, and bounds that are mistakes, leave no file)
    for words, why in [("last-team root admin", "refused exists"), ("none-such ci write", "refused absent"),
                       ("last-team ci write prefix=", "an empty prefix="), ("last-team ci write until=1", "until=1 has passed")]:
        shell.does("mkdir -p /aside; mv /root/last-team.root* /aside; new_token %s; ls /root/last-team.* /root/none-such.*; mv /aside/* /root" % words, [why], [".*"] * 2)
    admin = page.block("grep . teams | ").replace("custody.db", "new.db")
    shell.does("mkdir /aside-2; mv /root/*.root* /aside-2")
    shell.runs(page, "grep . teams | ", ["^ok$"] * (2 * len(teams) + 2), block=admin)
    shell.does("as_custody token-list --db /var/lib/custody/new.db last-team; rm /var/lib/custody/new.db* /root/*.root*; mv /aside-2/* /root", ["^root admin - -$"])


def operators(page, shell):
    """Operators are added, act under their names, get new secrets, and are removed."""
    asks = "echo %s | OPERATOR=%s operator"
    shell.does("cp /root/operator.curl /room/former.curl; useradd --create-home ann")
    shell.runs(page, "add_operator /root/operator ann")
    serves()
    # (the shell of ann, who reads neither the file of the operators nor those of others)
    names = "export OPERATOR="
    as_ann = "runuser ann -s /bin/bash -c "
    block = page.block(names)
    shell.runs(page, names, [r"^acme \d+ \d+$"], block=as_ann + shlex.quote(block))
    block += "echo org-add anns | operator; echo org-remove anns | operator; cat /root/operator ~root/operator.monitor.curl"
    shell.does(as_ann + shlex.quote(block), [r"^acme ", "^ok$", "^ok$", "Permission denied"], ["1 "])
    for command in ["stop", "org-add mine", "token-revoke acme root"]:
        shell.does(asks % (command, "/root/operator.monitor.curl"), ["need-admin"], ["22 "])
    shell.does(asks % ("token-list acme", "/root/operator.monitor.curl"), ["^root admin - -$"])
    shell.does("cp /root/operator.contractor.curl /room; " + asks % ("org-list", "/room/operator.contractor.curl"), ["^acme "])
    # (what a service would refuse leaves the file as it is, and no header)
    for words, why in [("Ann", "NAME"), ("dan lists", "the line must be"), ("dan until=soon", "until="), ("dan list until=7", "the line must be")]:
        shell.does("cp /root/operator /room/same; add_operator /root/operator %s; cmp /root/operator /room/same; ls /root/operator.*dan* /root/operator.new" % words, ["^custody: bad line 5$", why], [".*"] * 2)
    shell.does("remove_operator /root/operator contract", ["has no operator contract"], ["1 "])
    edited = page.inline("check_operators /root/operator.new < COPY && mv /root/operator.new /root/operator").replace("COPY", "/room/copy")
    shell.does("{ cat /root/operator; echo; } > /room/copy; " + edited, ["^custody: bad line 5$"], [".*"])
    shell.does("cp /root/operator /room/copy; %scmp /root/operator /room/same" % edited)
    shell.runs(page, "list_operators /root/operator", ["^operator$", "^ann$", r"^contractor until=\d{10}$", "^monitor list$"])
    serves()
    shell.does(asks % ("org-list", "/room/operator.contractor.curl"), ["bad-token"], ["22 "])
    said("the operators", shell.does("list_operators /root/operator; ls /root/operator.*"), "operator\nann\nmonitor list\n/root/operator.curl\n/root/operator.monitor.curl\n")
    shell.runs(page, "new_operator && systemctl restart custody")
    serves()
    shell.does(asks % ("org-list", "/room/former.curl"), ["bad-token"], ["22 "])
    shell.does(as_ann + shlex.quote(page.block(names)), ["^acme "])
    # (the stop of the last restart has the new secret, which the service does not know yet)
    shell.runs(page, "exchanges | jq -ac 'select(has(", [
        r'^\["20.*Z","operator",200,"add token","acme","ci-3"\]$', r'^\["20.*Z","ann",200,"add organization","anns",null\]$', r'^\["20.*Z","monitor",403,null,null,null\]$',
        r'^\["20.*Z","operator",200,"stop",null,null\]$', r'^\["20.*Z",null,401,null,null,null\]$', r'^\["20.*Z","add organization","anns",null\]$'])
    shell.runs(page, "echo org-list | operator | while", ["^acme:$", "^root admin - -$"])
    shell.does("userdel --remove ann 2> /dev/null; rm /root/operator.monitor.curl")


def locks(page, shell):
    who, owner = 'curl -sS -K /root/acme.ci.curl "$CUSTODY/workspaces/net"\n', 'curl -sS -K /root/acme.ci.curl "$CUSTODY/workspaces/net" | jq'
    shell.runs(page, who, [r'"holder":null.*"name":"net".*\}$'])
    shell.does("cd %s; export TF_HTTP_USERNAME=\"acme.$(cat /root/acme.ci)\"; terraform apply -var value=b < <(sleep %d) > /dev/null & owner=$!" % (CONFIGURATION, PATIENCE))
    wait_until(lambda: '"holder":null' not in shell.does(who), "a Terraform doesn't lock")
    shell.runs(page, who, [r'"holder":"[0-9a-f-]{36}"', r'"Operation":"OperationTypeApply"', '"Who":"'])
    # (its owner is killed)
    shell.does("kill -9 $owner")
    shell.runs(page, owner, [r'^\{"ID":"[0-9a-f-]{36}"\}$'])
    shell.does(who, ['"holder":null'])
    lock = 'curl -sS -K /root/acme.ci.curl -X LOCK -d \'%s\' "$CUSTODY/state/net"\n' % LOCK
    shell.does(lock)
    shell.runs(page, 'curl -sS -K /root/acme.root.curl -X UNLOCK')
    shell.does(who, ['"holder":null'])
    shell.does(lock)
    page.inline("terraform force-unlock -force LOCK-ID")
    shell.does('TF_HTTP_USERNAME="acme.$(cat /root/acme.root)" terraform force-unlock -force 5f2c', ["successfully unlocked"])
    shell.does('curl -sS -K /root/acme.ci.curl -X POST "$CUSTODY/runs/net"', ['"planning"'])
    shell.runs(page, who, ['"holder":"run-1"', "held-by-run"])
    shell.does('curl -sS -K /root/acme.ci.curl "$CUSTODY/runs/net/1"', ['"created":[0-9]+'])
    shell.does('curl -sS -K /root/acme.ci.curl -X POST "$CUSTODY/runs/net/1/actions/cancel"; cd %s' % REPOSITORY, ['"canceled"'])


def backups(page, shell):
    shell.runs(page, "to=/root/backup-$(date +%F-%H%M%S)\n/usr/share/", [COUNTS])
    copies = sorted(glob.glob("/root/backup-*"))
    said("the copies", [sorted(os.listdir(path)) for path in copies], [["custody.db", "custody.db-wal"]])
    shell.runs(page, "apt-get install rsync")
    with open(JOURNAL + "/custody-backup", encoding="utf-8") as file:
        said("what check says of the daily copy", re.search(COUNTS, file.read(), re.M) is not None, True)
    # (the other machine's folder is one of this machine)
    newest = sorted(glob.glob("/srv/custody/20*"))[-1]
    shell.does("custody check --db %s/custody.db | cmp - %s/check" % (newest, newest))
    shell.does(page.inline("find /srv/custody -mindepth 1 -maxdepth 2 -name '20*' -mtime +90 -prune -exec rm -r {} +") + "ls -d " + newest)
    restore = "/usr/share/custody/restore.sh custody /root/backup-2026"
    shell.does("cp -rp %s /root/backup-2026-01-31-040000" % copies[-1])
    state = 'curl -sS -K /root/acme.ci.curl "$CUSTODY/workspaces/net"\n'
    serves()
    before = shell.does(state, ['"name":"net"'])
    # (nothing moves under a service that runs on: the unit cannot be stopped, is mistyped, or is not what has the file open)
    files = "ls -l --time-style=full-iso /var/lib/custody"
    place = shell.does(files)
    shell.does("touch /stuck; %s; rm /stuck" % page.block(restore).strip(), [COUNTS, "Failed to stop"], ["5 "])
    shell.does(page.block(restore).replace("restore.sh custody ", "restore.sh custdoy "), ["custdoy"], ["1 "])
    shell.does("as_custody serve --db /var/lib/custody/other.db --port 8099 --unlimited & sleep 1; echo", ["listening"])
    shell.does("mkdir -p /var/lib/custody/other; ln -s /var/lib/custody/other.db /var/lib/custody/other/custody.db")
    shell.does("/usr/share/custody/restore.sh custody@other /root/backup-2026-01-31-040000", [COUNTS, "a process has /var/lib/custody/other.db open: nothing was moved"], ["1 "])
    # (a link is followed, once nobody has its file open; there is no unit to start)
    shell.does("kill $(pgrep -f 'db /var/lib/custody/other.db'); wait; /usr/share/custody/restore.sh custody@other /root/backup-2026-01-31-040000", [COUNTS], ["1 "])
    shell.does("as_custody check --db /var/lib/custody/other/custody.db; cmp /var/lib/custody/other.db /var/lib/custody/other/custody.db; ls /var/lib/custody/lost-*/", [COUNTS, "^other.db$"])
    shell.does("rm -r /var/lib/custody/other /var/lib/custody/other.db* /var/lib/custody/lost-*")
    # (nor for a copy with a fault)
    shell.does("cp -rp /root/backup-2026-01-31-040000 /root/bad; sqlite3 /root/bad/custody.db 'DELETE FROM edition' || true; /usr/share/custody/restore.sh custody /root/bad", ["refused|fault"], ["[13] "])
    said("the files after restores that end", shell.does(files), place)
    said("what is served", shell.does(state), before)
    shell.runs(page, restore, [COUNTS, r"^the former files are in /var/lib/custody/lost-"])
    serves()
    said("what was restored", shell.does(state), before)
    one_workspace(page, shell)
    shell.does("cp -rp %s /root/look\n" % copies[-1] + page.inline("sqlite3 /root/look/custody.db 'PRAGMA integrity_check; PRAGMA foreign_key_check'") + "rm -r /root/look", ["^ok$"])
    before = shell.does(state)
    repairs(page, shell)
    serves()
    said("what was restored", shell.does(state), before)
    # (an upgrade)
    shell.does("systemctl stop custody\n" + page.inline("apt install ./custody_*_amd64.deb") + "systemctl start custody")
    serves()
    shell.does(state, ['"name":"net"'])
    shell.does(page.inline("systemctl show -p NRestarts --value custody"), ["^0$"])
    said("what failed", shell.does(page.inline("systemctl list-units --failed 'custody*'")), "")
    shell.does(page.inline("find /var/backups/custody -maxdepth 1 -name '20*' -mtime -1"), ["^/var/backups/custody/20"])
    shell.does(page.inline("df /var/lib/custody /var/lib/nginx"))


def one_workspace(page, shell):
    """A state goes back to that of a copy, while the service answers."""
    shell.does("cd %s; export TF_HTTP_USERNAME=\"acme.$(cat /root/acme.ci)\"; terraform apply -auto-approve -var value=newer" % CONFIGURATION, ["Apply complete!"])
    start = "cp -rp /root/backup-2026-01-31-040000 /root/look\n"
    shell.runs(page, start, ["cannot import state with serial|Failed to write state"], ["1 "])
    shell.does('terraform state pull > /room/newer; curl -sS -K /root/acme.root.curl -X DELETE "$CUSTODY/state/net"')
    shell.runs(page, start)
    shell.does("terraform output", ['one = "a"|one = "b"'])
    shell.does("cd " + REPOSITORY)


TEXTS = """import sqlite3, sys
table = {}
base = sqlite3.connect(sys.argv[1])
for name, in base.execute("SELECT name FROM sqlite_schema WHERE type = 'table' AND name NOT LIKE 'sqlite%' ORDER BY name"):
    rows = sorted(map(repr, base.execute("SELECT * FROM " + name)))
    print(name, len(rows), __import__('hashlib').sha256("\\n".join(rows).encode()).hexdigest())
"""


def repairs(page, shell):
    """Texts with NUL, then another program that writes to the file: each row is kept."""
    runs = 'for key in x y z; do curl -sS -K /root/acme.ci.curl -d "{\\"key\\":\\"k\\\\u0000$key\\",\\"message\\":\\"m\\\\u0000$key\\",\\"plan_only\\":true}" "$CUSTODY/runs/net"; done\n'
    shell.does(runs, [r'"key":"k\\u0000x".*"number":2', '"number":3', '"number":4'])
    shell.does("""systemctl stop custody
        as_custody check --db /var/lib/custody/custody.db
        sqlite3 /var/lib/custody/custody.db "UPDATE org SET cap = 300 WHERE name = 'acme'; PRAGMA wal_checkpoint(TRUNCATE)" > /dev/null
        chown custody: /var/lib/custody/custody.db*
        as_custody check --db /var/lib/custody/custody.db""", [COUNTS, "the file is damaged", "refused down"], ["3 "])
    with open("/room/texts.py", "w", encoding="utf-8") as file:
        file.write(TEXTS)
    rows = "cp /var/lib/custody/custody.db /room/rows.db; python3 /room/texts.py /room/rows.db\n"
    before = shell.does(rows)
    shell.runs(page, "systemctl stop custody && /usr/share/custody/repair.sh", ["^ok$", COUNTS, COUNTS, "^the former files are in"])
    serves()
    shell.does(runs, [r'"key":"k\\u0000x".*"number":2', '"number":3', '"number":4'])
    said("the rows after a repair", shell.does(rows), before)
    shell.does('for n in 2 3 4; do curl -sS -f -K /root/acme.ci.curl -X POST "$CUSTODY/runs/net/$n/actions/cancel"; done', ['"canceled"'] * 3)


def log(page, shell):
    block = page.block("exchanges --since")
    shell.runs(page, "exchanges --since", [r"^ +\d+ locked|^ +\d+ held-by-run acme net$", r'^\["20.*"ci","lock","5f2c",null\]$'], block=block)
    with Shell(first=page.block(". /usr/share/custody")) as other:
        other.begins(lines_of(block, ENDLESS))
        other.waits('"force unlock"')
    said("workspaces with many runs", shell.runs(page, "many=500"), "")
    shell.does(page.block("many=500").replace("=500", "=0"), [r"^ +\d+ acme/net$"])


def runners():
    page = Page("docs/RUNNERS.md")
    anew = 'curl -sS -K /root/acme.root.curl -X DELETE "$CUSTODY/workspaces/net"; curl -sS -K /root/acme.root.curl -X PUT%s "$CUSTODY/workspaces/net"\n'
    first = variables()
    with Shell(first=first) as shell, Shell(first=first) as other:
        block = page.block("install -m 755 docs/operating/runner.sh")
        here, _, there = block.partition("# in another shell")
        install, runs = here.split("\n", 1)
        shell.does(anew % "")
        configures(CONFIGURATION, "runner")
        shell.does(install)
        shell.does("cd " + CONFIGURATION)
        shell.begins(runs)
        shell.waits("waits for confirm or discard")
        other.does("#" + there, ['"status":"applying"'])
        shell.right(page, install, ["Apply complete!", "^run-1: applied$"])
        shell.does(page.inline("runner.sh net job-18 plan_only"), ["^run-2: planned_and_finished$"])
        # (a runner dies)
        shell.does(anew % "")
        other.does("cd %s; export CUSTODY TOKEN=\"acme.$(cat /root/acme.ci)\"" % CONFIGURATION)
        other.begins("runner.sh net job-19")
        other.waits("waits for confirm or discard")
        os.killpg(other.process.pid, signal.SIGKILL)
        shell.runs(page, 'curl -sS -K /root/acme.ci.curl "$CUSTODY/runs/net/1"', ['"status":"planned"', '"status":"discarded"'])
        # (a runner's token ends during its apply)
        shell.does((anew % " -d '{\"auto_apply\":true}'") + "new_token acme brief write")
        revoke = "curl -sS -K /root/operator.curl --data-binary 'token-revoke acme brief' --unix-socket %s http://localhost/operator" % SOCKET
        configures(CONFIGURATION, "brief", apply=revoke)
        shell.does('TOKEN="acme.$(cat /root/acme.brief)" runner.sh net job-20', ["run-1: "], ["1 "])
        said("whether errored.tfstate is there", os.path.exists(CONFIGURATION + "/errored.tfstate"), True)
        shell.runs(page, 'TF_HTTP_ADDRESS="$CUSTODY/state/net?ID=run-1"', ['"status":"applied"'])
        said("whether errored.tfstate is there", os.path.exists(CONFIGURATION + "/errored.tfstate"), False)
        # (the same without a run, of a first state and of another)
        shell.does((anew % "") + first)
        release = Page("docs/OPERATING.md").block('curl -sS -K /root/acme.ci.curl "$CUSTODY/workspaces/net" | jq')
        for value, error in [("brief", "failed checking for existing remote state"), ("other", "Error saving state: HTTP error: 401")]:
            configures(CONFIGURATION, value, apply=revoke)
            shell.does("rm /root/acme.brief*; new_token acme brief write")
            shell.does('TF_HTTP_USERNAME="acme.$(cat /root/acme.brief)" terraform apply -auto-approve', [error, "Error releasing the state lock"], ["1 "])
            # (while the lock holds, the file stays)
            push = "terraform state push errored.tfstate"
            shell.does(page.block(push), ["already locked"], ["1 "])
            shell.does(release, ['"ID":"'])
            shell.runs(page, push)
            said("whether errored.tfstate is there", os.path.exists(CONFIGURATION + "/errored.tfstate"), False)
            shell.does("terraform plan", ["No changes"])
        migrates(page, first)
        # (net gets two versions)
        configures(CONFIGURATION, "one")
        shell.does((anew % "") + "terraform apply -auto-approve; terraform apply -auto-approve -var value=two", ["Apply complete!", "Apply complete!"])
        shell.runs(page, 'curl -sS -K /root/acme.ci.curl "$CUSTODY/versions/net"', ['"number":1', "the text of version 1 is the newest, with serial", "No changes"])
        shell.runs(page, "address()", ['"name":"net2"', "No changes"])
        shell.runs(page, "rm moved.tfstate")
        shell.does('curl -sS -w "%{http_code}" -K /root/acme.ci.curl "$CUSTODY/state/net"', ["^204$"])
    return page.done()


def migrates(page, first):
    """A local state goes to custody."""
    folder = "/local"
    configures(folder, "local", backend=False)
    with Shell(folder, first) as shell:
        shell.does("terraform init; terraform apply -auto-approve", ["Apply complete!"])
        shell.does("""curl -sS -K /root/acme.root.curl -X PUT "$CUSTODY/workspaces/local"
            export TF_HTTP_ADDRESS="$CUSTODY/state/local"; export TF_HTTP_LOCK_ADDRESS="$TF_HTTP_ADDRESS" TF_HTTP_UNLOCK_ADDRESS="$TF_HTTP_ADDRESS" """)
        configures(folder, "local")
        shell.runs(page, "terraform init -migrate-state", ["successfully initialized", "No changes"], given="yes\n")
        said("the local state", [os.path.exists(folder + "/terraform.tfstate") and os.path.getsize(folder + "/terraform.tfstate") > 0, os.path.exists(folder + "/terraform.tfstate.backup")], [False, True])


def growing():
    page = Page("docs/GROWING.md")
    beta = "https://state.example.com/v1/beta"
    look = 'curl -sS -K /root/beta.root.curl "%s/workspaces/net"\n' % beta
    acme = 'curl -sS -K /root/acme.ci.curl "$CUSTODY/workspaces/net"\n'
    with Shell(first=variables()) as shell, Shell(CONFIGURATION, variables()) as other:
        small = "cd /var/lib/custody && systemctl stop custody &&\n"
        counts = re.findall(r"^organizations .*", shell.runs(page, small, [COUNTS, "^ok$", COUNTS]), re.M)
        said("both second lines", counts[0], counts[1])
        serves()
        shell.does(acme + "rm -r /var/lib/custody/.small", ['"name":"net"'])
        standby(page, shell, acme)
        moves(page, shell, beta, look)
        shell.does("for n in $(seq 2 19); do echo org-remove team-$n force | operator; done")
        # (a Terraform that comes meanwhile waits)
        other.begins("terraform apply -auto-approve -var value=moved")
        shell.does("add_organization none", ["the one service has organizations"], ["1 "])
        shell.runs(page, "/usr/share/custody/apart.sh", ["^acme has its own service$", "^the file of the one service, without organizations, is in "])
        other.is_right("a Terraform during the move", ["Apply complete!"])
        shell.does(acme + look, ['"name":"net"', '"name":"net"'])
        said("whether the one service has a file", os.path.exists("/var/lib/custody/custody.db"), False)
        shell.runs(page, "/usr/share/custody/apart.sh")
        block = ". /usr/share/custody/functions.sh\nadd_organization none"
        shell.runs(page, block)
        shell.does("organizations; new_token beta ci write; echo token-list beta | operator beta", ["^acme$", "^ok$", "^ci write", "^root admin - -$"])
        shell.does("add_operator /root/operators/beta ann list; systemctl restart custody@beta")
        serves("/run/custody/beta/socket")
        own = "SOCKET=/run/custody/beta/socket OPERATOR=/root/operators/beta.ann.curl operator"
        shell.does("echo org-list | %s; echo stop | %s" % (own, own), ["^beta 1 200$", "need-admin"], ["22 "])
        shell.runs(page, "each_organization list_organization", ["^acme [0-9]+ 300$", "^beta 1 200$"])
        shell.does("exchanges beta | tail -n 1", ['"organization":"beta"'])
        shell.runs(page, "each_organization back_up_organization")
        shell.does("ls /srv/custody/custody-acme/*/ /srv/custody/custody-beta/*/", ["^check$", "^custody.db$", "^check$", "^custody.db$"])
        shell.does("rm /root/beta.ci*; curl -sS -K /root/beta.root.curl -X LOCK -d '%s' %s/state/net" % (LOCK, beta))
        shell.runs(page, "remove_organization beta", ["^beta is not removed: refused in-use$"], ["1 "])
        shell.does("curl -sS -K /root/beta.root.curl -X UNLOCK %s/state/net" % beta)
        shell.runs(page, "remove_organization beta")
        shell.does(look, ["bad-token"])
        said("the folder of beta, and its operators", [os.path.exists("/var/lib/custody/beta"), glob.glob("/root/operators/beta*")], [False, []])
        shell.runs(page, block)
        shell.does("echo org-list | operator beta", ["^beta 0 200$"])
    return page.done()


def moves(page, shell, beta, look):
    """beta moves by hand, under a lock."""
    shell.does("rm -f /root/beta.*; echo org-add beta | operator; new_token beta root admin; curl -sS -K /root/beta.root.curl -X PUT %s/workspaces/net" % beta, ["ok", "ok", "net"])
    shell.does("curl -sS -K /root/beta.root.curl -X LOCK -d '%s' %s/state/net" % (LOCK, beta))
    shell.does("systemctl start custody@beta", ["Assertion failed"], ["1 "])
    shell.does("add_organization beta", ["the one service has beta"], ["1 "])
    start = "cd /var/lib/custody && systemctl stop custody && install"
    # (a copy that is refused removes nothing)
    shell.does("install -d -m 700 -o custody -g custody /var/lib/custody/beta; as_custody org-add --db /var/lib/custody/beta/custody.db beta", ["^ok$"])
    said("a move to a file that has beta", shell.runs(page, start, ["^refused exists$"], ["1 "]), "refused exists\n")
    shell.does("rm /var/lib/custody/beta/custody.db*; as_custody org-list --db /var/lib/custody/custody.db", ["^beta 1 200$"])
    shell.runs(page, start, ["^ok$", "^ok$"])
    serves(SOCKET, "/run/custody/beta/socket")
    shell.does(look, ['"holder":"5f2c"'])
    shell.does("curl -sS -K /root/beta.root.curl -X UNLOCK -d '{\"ID\":\"5f2c\"}' %s/state/net\n" % beta + look, ['"holder":null'])
    shell.does("systemctl stop custody@beta; curl -sS -i -K /root/beta.root.curl %s/workspaces/net; systemctl start custody@beta" % beta, ["503", "Retry-After: 15"])


def standby(page, shell, look):
    """A copy that another machine starts from. (Its machine is this one.)"""
    shell.runs(page, "echo TARGET=backup@b.example.com")
    copy = os.stat("/srv/custody-standby/custody.db")
    said("the mode of a copy", oct(copy.st_mode & 0o777), "0o600")
    shell.does("systemctl start custody-standby")
    said("whether a second copy takes the place of the first", os.listdir("/srv/custody-standby"), ["custody.db"])
    before = shell.does(look)
    shell.runs(page, "/usr/share/custody/restore.sh custody /srv/custody-standby", [COUNTS])
    serves()
    said("what is served from a copy", shell.does(look), before)


# ----------------------------------------------------------------------------------------------------
# The copy of this machine
# ----------------------------------------------------------------------------------------------------


def mounts(place, program):
    """Makes the copy, and moves into it."""
    subprocess.run(["mount", "-t", "tmpfs", "tmpfs", place], check=True)
    root = place + "/root"
    for name in ["up", "work", "root"]:
        os.mkdir("%s/%s" % (place, name))
    subprocess.run(["mount", "-t", "overlay", "overlay", "-o", "lowerdir=/,upperdir=%s/up,workdir=%s/work" % (place, place), root], check=True)
    for name in ["dev", "sys"]:
        subprocess.run(["mount", "--rbind", "/" + name, "%s/%s" % (root, name)], check=True)
    subprocess.run(["mount", "-t", "proc", "proc", root + "/proc"], check=True)
    for name in [REPOSITORY, STAND_INS, JOURNAL, ROOM]:
        os.mkdir(root + name)
    for name in ["docs", "package", "tools"]:
        shutil.copytree("%s/%s" % (TOP, name), "%s%s/%s" % (root, REPOSITORY, name))
    shutil.copy(TOP + "/README.md", root + REPOSITORY)
    os.makedirs(root + REPOSITORY + "/crates/custody")
    with open(root + REPOSITORY + "/tools/quick-build", "w", encoding="utf-8") as file:
        file.write(BUILDER)
    shutil.copy(program, root + "/given")
    os.chmod(root + "/given", 0o755)
    os.chroot(root)
    os.chdir(REPOSITORY)


def stands_in():
    """Writes the stand-ins, and lets loopback carry the name of the pages."""
    for name, text in PROGRAMS.items():
        with open("%s/%s" % (STAND_INS, name), "w", encoding="utf-8") as file:
            file.write("#!/bin/sh\n" + textwrap.dedent(text).strip() + "\n")
        os.chmod(file.name, 0o755)
    os.symlink(os.path.realpath(sys.executable), STAND_INS + "/python3")
    with open("/etc/hosts", "w", encoding="utf-8") as file:
        file.write("127.0.0.1 localhost state.example.com\n")
    with socket.socket() as link:     # SIOCSIFFLAGS: up, running, loopback
        fcntl.ioctl(link, 0x8914, struct.pack("16sh14x", b"lo", 0x49))


def inside(place, program):
    mounts(place, program)
    stands_in()
    machine = Machine()
    server = Socket(STAND_INS + "/socket", Asked)
    server.machine = machine
    threading.Thread(target=server.serve_forever, daemon=True).start()
    try:
        blocks = sum(page() for page in (readme, operating, runners, growing))
    except (Wrong, OSError, subprocess.SubprocessError) as wrong:
        print("WRONG:", wrong)
        sys.exit(1)
    print("right: the %d blocks of the pages ran, %d times in all" % (blocks, len(Shell.runs_done)))
    for line in Shell.left:
        print("left:", line)


def main():
    match sys.argv[1:]:
        case ["--ask", *words]:
            ask(words)
        case ["--inside", place, program]:
            inside(place, program)
        case [program]:
            # (the copy is in memory, and ends with the processes that see it)
            with tempfile.TemporaryDirectory() as place:
                spaces = ["unshare", "--mount", "--net", "--pid", "--fork", "--kill-child", "--propagation", "private"]
                sys.exit(subprocess.run([*spaces, sys.executable, __file__, "--inside", place, os.path.abspath(program)], check=False).returncode)
        case _:
            sys.exit(__doc__)


if __name__ == "__main__":
    main()
