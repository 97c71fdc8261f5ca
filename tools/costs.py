#!/usr/bin/env python3
"""Tells which functions of a crate are dear to check: seconds by function, the dearest first.

    python3 tools/costs.py GATE CRATE [--most N]    checks the crate anew, over the libraries that a gate left (over.py)
    python3 tools/costs.py FOLDER [--most N]        reads what one whole check left, by function and by part

A check says of each function that it has ended with it. The first form takes the processor time between two of these lines, so
other work may run beside it. A function's time has that of the lemmas and types which it is the first to need. It takes as long
as a proof of the crate.

FOLDER of the second form is such as crates/NAME/out/over of the gate's clone behind `tools/over.py`, made anew. A check writes a
file for each part that it has judged, one behind the other, so what lies between two of them is the time of the later. A part is
code (Lts, Tie, Code), a proof (Proof, Goals, Answers) or a file of ours. It is the time of the clock, so nothing else should run;
a gap over GAP seconds lies between two checks and counts for nothing."""
import argparse
import collections
import os
import re
import subprocess
import sys

import over

# seconds between two files of one check, at most
GAP = 120
PART = re.compile(r"^Rattle-(?P<name>.+?)(?P<part>\.(Lts|Tie|Code|Proof|Goals|Answers)(\..*)?)?(\.decls)?\.oantt$")
TICK = os.sysconf("SC_CLK_TCK")


def files_in(folder):
    """(moment, name) of each file of the logic below a folder, the oldest first."""
    found = []
    for here, _, names in os.walk(folder):
        for name in names:
            if name.endswith(".oantt"):
                found.append((os.stat(os.path.join(here, name)).st_mtime_ns / 1e9, name))
    return sorted(found)


def by_files(folder):
    """The seconds of each function and of each part, by the files of one check."""
    found = files_in(folder)
    functions, parts = collections.Counter(), collections.Counter()
    for (before, _), (moment, name) in zip(found, found[1:]):
        told = PART.match(name)
        if told and moment - before <= GAP:
            functions[told["name"]] += moment - before
            parts[told[3] or "file"] += moment - before
    return functions, ", by part: " + ", ".join(f"{part} {seconds:.0f}" for part, seconds in parts.most_common())


def used(process):
    """The processor seconds that a process has used, or None once it has ended."""
    try:
        with open(f"/proc/{process.pid}/stat", encoding="utf-8", errors="replace") as it:
            ticks = it.read().rpartition(")")[2].split()[11:13]
    except OSError:
        return None
    return sum(map(int, ticks)) / TICK


def by_lines(gate, name):
    """The processor seconds of each function, by the lines of a check."""
    words = over.command(gate, name, [])
    at = words.index("--incremental")
    words[at : at + 2] = ["--progress"]
    functions, before, last = collections.Counter(), 0.0, ""
    with subprocess.Popen(words, cwd=f"{over.TOP}/crates/{name}", stdout=subprocess.PIPE, stderr=subprocess.STDOUT, text=True, bufsize=1) as process:
        for line in process.stdout:
            last, now = line, used(process)
            if line.startswith("checked ") and now is not None:
                functions[line.split()[1].rstrip(",")] += now - before
                before = now
    if process.returncode:
        sys.exit(f"{name} is not proved: {last}")
    return functions, ""


def main():
    words = argparse.ArgumentParser(description=__doc__, formatter_class=argparse.RawDescriptionHelpFormatter)
    words.add_argument("place", metavar="GATE|FOLDER")
    words.add_argument("crate", nargs="?")
    words.add_argument("--most", type=int, default=40)
    asked = words.parse_args()
    functions, more = by_lines(os.path.abspath(asked.place), asked.crate) if asked.crate else by_files(asked.place)
    print(f"{sum(functions.values()):.0f} s{more}")
    for name, seconds in functions.most_common(asked.most):
        print(f"{seconds:8.2f} {name}")
    return 0


if __name__ == "__main__":
    raise SystemExit(main())
