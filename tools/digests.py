#!/usr/bin/env python3
"""The test of `lanes` over 10,000 texts, once more by sha256sum: makes the same texts, and compares the digest of their digests.

    python3 tools/digests.py
"""
import os
import re
import subprocess
import sys
import tempfile

TOP = os.path.dirname(os.path.dirname(os.path.abspath(__file__)))
TEXTS = 10_000


def digests_of(folder, texts):
    """What sha256sum says of each of these texts."""
    for number, text in enumerate(texts):
        with open(f"{folder}/{number}", "wb") as file:
            file.write(text)
    names = [str(number) for number in range(len(texts))]
    said = subprocess.run(["sha256sum", *names], cwd=folder, capture_output=True, text=True, check=True).stdout
    return [bytes.fromhex(line.split()[0]) for line in said.splitlines()]


def main():
    stuff, last = bytearray(), 1
    for _ in range(1024):
        last = (last * 1_664_525 + 1_013_904_223) % 2**32
        stuff.append(last >> 24)
    texts = [bytes(stuff[number % 509 :][: number % 515 * 37 % 515]) for number in range(TEXTS)]
    with tempfile.TemporaryDirectory() as folder:
        digests = digests_of(folder, texts)
        (of_all,) = digests_of(folder, [b"".join(digests)])
    with open(f"{TOP}/crates/lanes/src/tests.rt", encoding="utf-8") as file:
        due = re.search(r'all\.finalize\(\),\s*\*b"((?:\\x[0-9a-f]{2}){32})"', file.read())
    if due is None or bytes.fromhex(due[1].replace("\\x", "")) != of_all:
        sys.exit(f"crates/lanes/src/tests.rt has another digest than sha256sum: {of_all.hex()}")
    print(f"{len(digests)} texts: their digests are those of sha256sum")


if __name__ == "__main__":
    main()
