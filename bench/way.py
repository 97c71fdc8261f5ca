#!/usr/bin/env python3
"""The way of a request: the functions of ours that one exchange passes, file by file.

    python3 bench/way.py --program PROGRAM [--folder FOLDER] [get|post|lock]

PROGRAM is one in which no function stands within another, as a build without optimization leaves it. The exchange is a POST
of a state of one page to a workspace that has a version and that nobody holds, without Content-MD5; or a GET of it, or a LOCK.
Each file has a line; then their number and that of the functions, and the same by crate without those that only lend a
value, test a name's bytes or serve the exchange log. What lets go of values isn't told, and a closure is its function's.
"""
import argparse
import collections
import os
import re
import subprocess
import sys
import tempfile

import exchanges
import shares

NAME = re.compile(r"\?\?\?:([a-z_]+::[^\s\[]+)")
GENERIC = re.compile(r"<[^<>]*>")
# how the names of functions end that only lend a value, or are a further turn of a recursion
LEND = (".as_str", ".as_slice", ".get", ".seconds", ".now", "'2")
# the functions outside the files `logs` that serve the exchange log alone
LOGGED = ("spelt_id", "id_of_act", "WsAct.number", "Query.number", "WsAct.word", "Query.word")
LOCK = b'{"ID":"2d1f7a33-0d4e-4b7b-9f0c-7b3c5f8f0f11"}'


def asked(kind):
    """The request, without Content-MD5."""
    body = {"post": exchanges.state_of(1_000_001, 1_200), "lock": LOCK}.get(kind, b"")
    request = exchanges.request({"post": "POST", "lock": "LOCK", "get": "GET"}[kind], "state/a", body)
    return re.sub(rb"Content-MD5: [^\r]*\r\n", b"", request)


def told(server, folder, request):
    """What callgrind says of one exchange."""
    shares.control(server, "-z")
    shares.control(server, "-i", "on")
    reply = server.exchange(request)[1]
    if not reply.startswith(b"HTTP/1.1 200 "):
        sys.exit(reply[:300].decode(errors="replace"))
    shares.control(server, "-i", "off")
    before = set(os.listdir(folder))
    shares.control(server, "-d")
    (new,) = [name for name in os.listdir(folder) if name not in before and name.startswith("way.")]
    return subprocess.run(["callgrind_annotate", "--threshold=100", f"{folder}/{new}"], capture_output=True, text=True, check=True).stdout


def function_in(line, crates):
    """(file, function) of a line of callgrind, where it is one of ours."""
    found = NAME.search(line)
    if not found:
        return None
    name = found[1]
    while GENERIC.search(name):
        name = GENERIC.sub("", name)
    crate, *path = [part for part in name.split("::") if part]
    if crate not in crates or not path or any("Destruct" in part or "+" in part or part == "fn" for part in path):
        return None
    at = next((at for at, part in enumerate(path) if part[0].isupper() or at == len(path) - 1), 0)
    return "/".join([crate, *path[:at]]), ".".join(path[at:])


def files_in(text):
    """The functions by file, in the order of our crates."""
    crates = shares.ours()
    found = collections.defaultdict(set)
    for line in text.splitlines():
        one = function_in(line, crates)
        if one:
            found[one[0]].add(one[1])
    return sorted(found.items(), key=lambda it: (crates.index(it[0].split("/")[0]), it[0]))


def is_counted(name, function):
    serves_the_log = name.endswith("/logs") or function in LOGGED
    return not (serves_the_log or function.endswith(LEND) or name == "basis/names" and function[0].islower())


def counted(files):
    """The number of files and of functions that count, and by crate."""
    found = collections.defaultdict(list)
    for name, functions in files:
        count = sum(is_counted(name, function) for function in functions)
        if count:
            found[name.split("/")[0]].append(count)
    every = [count for counts in found.values() for count in counts]
    return f"{len(every)} files, {sum(every)} functions: " + ", ".join(f"{name} {len(counts)} {sum(counts)}" for name, counts in found.items())


def main():
    words = argparse.ArgumentParser(description=__doc__.partition("\n")[0])
    words.add_argument("kind", nargs="?", choices=["get", "post", "lock"], default="post")
    words.add_argument("--folder")
    words.add_argument("--program", required=True)
    given = words.parse_args()
    exchanges.PROGRAM = given.program
    with tempfile.TemporaryDirectory(dir=given.folder) as folder:
        path = f"{folder}/custody.db"
        exchanges.admin(path, "org-add", "acme")
        exchanges.admin(path, "token-add", "acme", "root", "admin", fed=exchanges.SECRET.encode())
        tool = ["valgrind", "--tool=callgrind", "--instr-atstart=no", "--log-file=/dev/null", f"--callgrind-out-file={folder}/way.out"]
        server = exchanges.Server([*tool, given.program, *exchanges.SERVERS["program"][1:]], path)
        try:
            server.exchange(exchanges.request("PUT", "workspaces/a"))
            server.exchange(exchanges.request("POST", "state/a", exchanges.state_of(1_000_000, 1_000)))
            files = files_in(told(server, folder, asked(given.kind)))
        finally:
            server.end()
    for name, functions in files:
        print(f"{name}: {' '.join(sorted(functions))}")
    print(f"{len(files)} files, {sum(len(functions) for _, functions in files)} functions")
    print(counted(files))


if __name__ == "__main__":
    main()
