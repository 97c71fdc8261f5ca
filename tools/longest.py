#!/usr/bin/env python3
"""Runs the stories of crates/stories/longest, over power that is cut at each write: longest.py STORIES

They take longest, so they are apart from `stdin`, which both builds of the program STORIES run within two minutes. In a copy of
crates/stories/data, the program gets the definitions of `stdin`, the story that some of them go on from, and these stories. It
has to print what stands in crates/stories/longest.stdout. Ends with status 1 where it prints anything else.
"""
import os
import shutil
import subprocess
import sys
import tempfile

STORIES = os.path.join(os.path.dirname(os.path.abspath(__file__)), "..", "crates", "stories")
# The story that some of them go on from.
BASE = "two organizations and an empty workspace"


def read(name):
    with open(os.path.join(STORIES, name), encoding="utf-8") as file:
        return file.read()


def text():
    """What the program is told: the definitions, the story that some go on from, and these stories."""
    definitions, *parts = read("stdin").split("\nstory ")
    base = [part for part in parts if part.split("\n", 1)[0] == BASE]
    return "\n".join([definitions, "story " + base[0], read("longest")])


def main():
    if len(sys.argv) != 2:
        sys.exit(__doc__)
    program = os.path.abspath(sys.argv[1])
    with tempfile.TemporaryDirectory() as folder:
        shutil.copytree(os.path.join(STORIES, "data"), folder, dirs_exist_ok=True)
        ran = subprocess.run([program], input=text().encode(), capture_output=True, cwd=folder)
    due, came = read("longest.stdout"), ran.stdout.decode()
    if ran.returncode or came != due:
        for line in came.split("\n"):
            if line not in due.split("\n"):
                print(line)
        print("wrong: the stories of crates/stories/longest, status %d: %s" % (ran.returncode, ran.stderr.decode()[-300:]))
        return 1
    print("right: %s, over power that is cut" % due.split("\n")[-2])
    return 0


if __name__ == "__main__":
    sys.exit(main())
