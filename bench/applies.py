#!/usr/bin/env python3
"""What an apply of Terraform takes with custody, with PostgreSQL (the backend `pg`) and with a local file, in turns.

    python3 bench/applies.py [--turns 15] [--resources 100] [--postgres /usr/lib/postgresql/15/bin] PROGRAM FOLDER

PROGRAM is the program `custody`. FOLDER is a new folder for the states, the configurations and PostgreSQL's files, on the disk that
is to be measured. Each turn changes all resources (`terraform_data`, which Terraform has built in) once with each backend, and begins
with another backend than the turn before. Terraform asks custody and PostgreSQL on 127.0.0.1, without TLS and without a proxy. If the
script runs as root, PostgreSQL runs as the user `postgres`. The first turn creates the resources and is left out. Shown are the median
of the other turns, the least and the greatest, in seconds. The script ends with status 1 if an apply fails, or if a backend does not
have the state at the end.
"""
import argparse
import contextlib
import json
import os
import shutil
import statistics
import subprocess
import sys
import time
import urllib.request

from top import TOP

sys.path.append(f"{TOP}/tools")
from harness import free_port

SECRET, DATABASE = "adminadminadmin1", "terraform"
CONFIGURATION = """terraform {
  backend "%s" {
%s  }
}
variable "value" {
  default = ""
}
resource "terraform_data" "it" {
  count = %d
  input = "${var.value} ${count.index}"
}
"""


def does(words, **how):
    """The standard output of a command that has to succeed."""
    done = subprocess.run(words, capture_output=True, text=True, check=False, **how)
    if done.returncode:
        sys.exit(f"{' '.join(words)}: status {done.returncode}\n{done.stdout}{done.stderr}")
    return done.stdout


@contextlib.contextmanager
def custody(program, folder):
    """A service with an organization and a workspace; gives the address of its state."""
    words, port = ["--db", f"{folder}/custody.db"], free_port()
    does([program, "org-add", *words, "acme"])
    does([program, "token-add", *words, "acme", "root", "admin"], input=SECRET + "\n")
    with subprocess.Popen([program, "serve", *words, "--port", str(port), "--unlimited"], stdout=subprocess.PIPE, text=True) as service:
        try:
            if service.stdout.readline() != f"listening 127.0.0.1:{port}\n":
                sys.exit("custody does not listen")
            asked = urllib.request.Request(f"http://127.0.0.1:{port}/v1/acme/workspaces/net", method="PUT", headers={"Authorization": f"Bearer acme.{SECRET}"})
            urllib.request.urlopen(asked).close()
            yield f"http://127.0.0.1:{port}/v1/acme/state/net?access_token=acme.{SECRET}"
        finally:
            service.kill()


@contextlib.contextmanager
def postgres(programs, folder):
    """A server with an empty database; gives its address."""
    files, port = f"{folder}/postgres", free_port()
    os.mkdir(files, 0o700)
    as_user = []
    if os.getuid() == 0:
        as_user = ["runuser", "-u", "postgres", "--"]
        shutil.chown(files, "postgres")
        os.chmod(folder, 0o755)
    does([*as_user, f"{programs}/initdb", "-D", files, "-A", "trust", "-U", "postgres"], cwd="/")
    begin = [*as_user, f"{programs}/pg_ctl", "-D", files, "-l", f"{files}/log", "-w", "-o", f"-p {port} -k {files} -c listen_addresses=127.0.0.1"]
    subprocess.run([*begin, "start"], stdout=subprocess.DEVNULL, cwd="/", check=True)
    try:
        does([*as_user, f"{programs}/createdb", "-h", "127.0.0.1", "-p", str(port), "-U", "postgres", DATABASE], cwd="/")
        yield f"postgres://postgres@127.0.0.1:{port}/{DATABASE}?sslmode=disable"
    finally:
        does([*as_user, f"{programs}/pg_ctl", "-D", files, "-m", "fast", "stop"], cwd="/")


def configure(folder, name, backend, settings, resources):
    os.mkdir(f"{folder}/{name}")
    lines = "".join(f"    {key} = {json.dumps(value)}\n" for key, value in settings.items())
    with open(f"{folder}/{name}/main.tf", "w", encoding="utf-8") as file:
        file.write(CONFIGURATION % (backend, lines, resources))
    does(["terraform", "init", "-input=false"], cwd=f"{folder}/{name}")


def apply(folder, name, value, resources):
    """The seconds of an apply, which has to change all resources."""
    began = time.monotonic()
    told = does(["terraform", "apply", "-input=false", "-auto-approve", "-no-color", f"-var=value={value}"], cwd=f"{folder}/{name}")
    spent = time.monotonic() - began
    if not any(f"Resources: {counts}, 0 destroyed." in told for counts in (f"{resources} added, 0 changed", f"0 added, {resources} changed")):
        sys.exit(f"{name}: an apply did something else:\n{told}")
    return spent


def main():
    words = argparse.ArgumentParser(description=__doc__.partition("\n")[0])
    words.add_argument("--turns", type=int, default=15)
    words.add_argument("--resources", type=int, default=100)
    words.add_argument("--postgres", default="/usr/lib/postgresql/15/bin")
    words.add_argument("program")
    words.add_argument("folder")
    given = words.parse_args()
    folder, program = os.path.abspath(given.folder), os.path.abspath(given.program)
    for path in (program, f"{given.postgres}/initdb"):
        if not os.access(path, os.X_OK):
            words.error(f"{path} is no program")
    if given.turns < 1 or given.resources < 1:
        words.error("there is nothing to do")
    try:
        os.mkdir(folder, 0o700)
    except OSError as fault:
        words.error(f"{folder} has to be a new folder: {fault.strerror}")
    os.environ["CHECKPOINT_DISABLE"] = "1"
    with custody(program, folder) as address, postgres(given.postgres, folder) as database:
        configure(folder, "custody", "http", {"address": address, "lock_address": address, "unlock_address": address}, given.resources)
        configure(folder, "pg", "pg", {"conn_str": database}, given.resources)
        configure(folder, "local", "local", {"path": f"{folder}/local.tfstate"}, given.resources)
        names, spent = ["custody", "pg", "local"], {}
        for turn in range(given.turns + 1):
            for name in names[turn % 3:] + names[:turn % 3]:
                seconds = apply(folder, name, turn, given.resources)
                if turn:
                    spent.setdefault(name, []).append(seconds)
        for name in names:
            kept = json.loads(does(["terraform", "state", "pull"], cwd=f"{folder}/{name}"))["resources"][0]["instances"]
            if len(kept) != given.resources or not kept[0]["attributes"]["input"]["value"].startswith(f"{given.turns} "):
                sys.exit(f"{name} does not have the state of the last apply")
            print(f"{name:8} {statistics.median(spent[name]):.2f} ({min(spent[name]):.2f}–{max(spent[name]):.2f})")


if __name__ == "__main__":
    main()
