#!/usr/bin/env python3
"""What grows with what, by one command: the tables of docs/PERFORMANCE.md behind the first, in its form.

    python3 bench/growth.py --folder /dev/shm --files FOLDER [--megabytes 10,100,1000]

Runs exchanges.py and versions.py in --folder, and opening.py in --files, which should be on a disk, one after the other, over
the program as `rt ci` leaves it, and prints their numbers as rows of markdown. Nothing else should run meanwhile.
"""
import argparse
import re
import subprocess
import sys

from top import TOP

# Sections of what exchanges.py prints, and the columns of the page that they are.
COLUMNS = {
    "10 workspaces in the organization": "10 workspaces",
    "1,000 workspaces in the organization": "1,000",
    "99,800 workspaces in the organization": "99,800",
    "99,800 workspaces in another organization": "99,800 of another organization",
}
ROWS = {"POST 1 KB": "POST 1 KB", "GET 1 KB": "GET 1 KB", "LOCK": "LOCK", "GET, no workspace": "GET, no workspace", "page of workspaces": "a list of 50 workspaces"}
RUNS = "3,000 runs that ended, without keys"


def said(script, *words):
    ran = subprocess.run([sys.executable, f"{TOP}/bench/{script}", *words], capture_output=True, text=True)
    if ran.returncode:
        sys.exit(f"{script} failed: {ran.stdout}{ran.stderr}")
    return ran.stdout


def sections(text):
    """By title and row what exchanges.py printed: the program's number, and the ratio to the script where there is one."""
    found, title = {}, None
    for line in text.splitlines():
        row = re.match(r"(.{20})\s+([\d.]+)\s+([\d.]+)\s+(\S+)", line)
        if line and not line.startswith(" ") and not row:
            title = found.setdefault(line, {})
        elif row:
            title[row[1].strip()] = row[2], row[4]
    return found


def main():
    words = argparse.ArgumentParser(description=__doc__.partition("\n")[0])
    words.add_argument("--folder")
    words.add_argument("--files", required=True)
    words.add_argument("--megabytes", default="10,100,1000")
    words = words.parse_args()
    folder = ["--folder", words.folder] if words.folder else []
    found = sections(said("exchanges.py", *folder))
    print("| Exchange | " + " | ".join(COLUMNS.values()) + " |\n|---|" + "---:|" * len(COLUMNS))
    for name, row in ROWS.items():
        print(f"| {row} | " + " | ".join("%s (%s)" % found[title][name] for title in COLUMNS) + " |")
    for name in ("opening", "memory"):
        unit = found[RUNS][name][1]
        print(f"| {name}, {unit} | " + " | ".join(found[title][name][0] for title in COLUMNS) + " |")
    print("\n3,000 runs without keys: one more %s us, an open %s s\n" % (found[RUNS]["run made, no key"][0], found[RUNS]["opening"][0]))
    print(said("versions.py", *folder))
    print(said("opening.py", "--folder", words.files, "--megabytes", words.megabytes), end="")


if __name__ == "__main__":
    main()
