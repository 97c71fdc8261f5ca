#!/usr/bin/env python3
"""What an exchange's instructions are spent on, counted by valgrind's callgrind.

    python3 bench/shares.py [--folder FOLDER] [--program PROGRAM]

A service answers each kind of exchange some times under callgrind, after a few that warm it up. A row of markdown has the
instructions of one, in thousands, and of these in a hundred: the file's pages, their sums, and the log; SQL's statements;
SHA-256 (that of `lanes` is inlined into the function that asks for it); messages and documents; our own code; the library of Rattle, for whichever of these. What the C library does
(copies, memory) is its caller's; what the system does isn't counted. Long copies and fills are made without `rep movsb` and
`rep stosb`, of which callgrind would count each byte as an instruction.
"""
import argparse
import os
import re
import subprocess
import sys
import tempfile

import exchanges

FILE = ("sqlite_wal", "sqlite_pool", "sqlite_pager", "sqlite_pages", "sqlite_store", "sqlite_std_file", "sqlite_disk", "core::hash::sip")
PARTS = {"file and log": FILE, "SQL": ("sqlite",), "SHA-256": ("sha2", "lanes", "texts::ahead::Ahead::key"), "HTTP, JSON": ("http", "json", "serde_json", "fast_float", "itoa", "matchit", "form_urlencoded", "base64")}
ROW = re.compile(r"^ *([\d,]+) \([ \d.]+%\) +([<*]) +(\S+)")
# The bytes from which on the C library copies and fills by `rep`: never.
TUNABLES = "glibc.cpu.x86_rep_movsb_threshold=2000000000:glibc.cpu.x86_rep_stosb_threshold=2000000000"
# how often each exchange is made
TURNS = {"large": 2, "small": 20}


def ours():
    """The names of our crates."""
    with open(f"{exchanges.TOP}/crates.txt", encoding="utf-8") as it:
        return tuple(line.partition(":")[0] for line in it if ":" in line)


def part_of(function, names):
    """The part to which a function belongs, as callgrind names it: `FILE:CRATE::..`. Those of the C library belong to none."""
    source, _, name = function.partition(":")
    for part, crates in PARTS.items():
        if name.startswith(crates):
            return part
    if name.startswith(tuple(f"{crate}::" for crate in names)):
        return "our own"
    return None if source != "???" else "Rattle's library"


def shared(told, names):
    """The instructions by part, of what callgrind says of each function behind those that call it. What the C library does
    is counted for its caller."""
    found, callers = dict.fromkeys([*PARTS, "our own", "Rattle's library"], 0), []
    for line in told.splitlines():
        row = ROW.match(line)
        if not row:
            callers = []
            continue
        count, part = int(row[1].replace(",", "")), part_of(row[3], names)
        if row[2] == "<":
            callers.append((part, count))
        elif part:
            found[part] += count
        else:
            for caller, spent in callers:
                if caller:
                    found[caller] += spent
    return found


def control(server, *words):
    subprocess.run(["callgrind_control", *words, str(server.process.pid)], capture_output=True, check=True)


def counted(server, out, requests):
    """The instructions of one of these requests, by part."""
    control(server, "-z")
    control(server, "-i", "on")
    for one in requests:
        reply = server.exchange(one)[1]
        if not reply.startswith((b"HTTP/1.1 200 ", b"HTTP/1.1 404 ")):
            sys.exit(reply[:300].decode(errors="replace"))
    control(server, "-i", "off")
    before = set(os.listdir(os.path.dirname(out)))
    control(server, "-d")
    new = [name for name in os.listdir(os.path.dirname(out)) if name not in before and name.startswith("shares.")]
    told = subprocess.run(["callgrind_annotate", "--tree=caller", "--threshold=100", f"{os.path.dirname(out)}/{new[0]}"], capture_output=True, text=True, check=True)
    return {part: count / len(requests) for part, count in shared(told.stdout, ours()).items()}


def scenes():
    """(what is asked, the requests before it, its requests)"""
    state, ask = exchanges.state_of, exchanges.request

    def posts(ws, size, new, count):
        pattern = state(1_000_000, size)
        for number in range(count):
            text = pattern.replace(b'"serial": 1000000', b'"serial": %d' % (1_000_001 + number), 1)
            yield ask("POST", f"state/{ws}", text.replace(b'"one-', b'"%03x-' % number) if new else text)

    def kind(name, ws, size, new, turns):
        first, *asked = posts(ws, size, new, turns + 1)
        yield f"POST {name}", [ask("PUT", f"workspaces/{ws}"), first], asked
        yield f"GET {name}", [], [ask("GET", f"state/{ws}")] * turns

    small, large = TURNS["small"], TURNS["large"]
    yield "no route (404)", [], [ask("GET", "nothing")] * small
    yield from kind("1 KB", "a", 1_000, True, small)
    turn = exchanges.locks("a")
    yield "LOCK, UNLOCK", [], [one for number in range(small) for _, one in turn(number)]
    yield "PUT", [], [ask("PUT", f"workspaces/new-{number}") for number in range(60)]
    yield "a list of 50 workspaces", [], [ask("GET", "workspaces")] * small
    yield from kind("40 KB", "b", 40_000, True, small)
    yield from kind("4 MB, each page new", "c", 4_000_000, True, large)
    yield from kind("4 MB, the serial alone differs", "d", 4_000_000, False, large)


def main():
    words = argparse.ArgumentParser(description=__doc__.partition("\n")[0])
    words.add_argument("--folder")
    words.add_argument("--program", default=exchanges.PROGRAM)
    asked = words.parse_args()
    exchanges.PROGRAM = asked.program
    os.environ["GLIBC_TUNABLES"] = TUNABLES
    with tempfile.TemporaryDirectory(dir=asked.folder) as inner:
        path, out = f"{inner}/custody.db", f"{inner}/shares.out"
        exchanges.admin(path, "org-add", "acme")
        exchanges.admin(path, "token-add", "acme", "root", "admin", fed=exchanges.SECRET.encode())
        tool = ["valgrind", "--tool=callgrind", "--instr-atstart=no", "--log-file=/dev/null", f"--callgrind-out-file={out}"]
        server = exchanges.Server([*tool, asked.program, *exchanges.SERVERS["program"][1:]], path)
        try:
            shown = [*PARTS, "our own", "Rattle's library"]
            print("| Request | thousands | " + " | ".join(shown) + " |\n|---|" + "---:|" * (len(shown) + 1))
            for name, before, requests in scenes():
                for one in before:
                    server.exchange(one)
                found = counted(server, out, requests)
                total = sum(found.values())
                print(f"| {name} | {total / 1000:,.0f} | " + " | ".join(f"{100 * found[part] / total:.0f}" for part in shown) + " |", flush=True)
        finally:
            server.end()


if __name__ == "__main__":
    main()
