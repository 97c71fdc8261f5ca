"""Puts the sums of SQLite's cksumvfs on a file that sqlite3 wrote to, which spoils them: for measuring alone.

Each page of such a file leaves its last 8 bytes to a sum of those before them, read as little-endian words of 4 bytes.
"""

import struct

PAGE_SIZE_AT, RESERVED_AT, SUM_BYTES = 16, 20, 8


def sum_of(words):
    first = second = 0
    for one, other in zip(words[::2], words[1::2]):
        first = first + one + second & 0xFFFFFFFF
        second = second + other + first & 0xFFFFFFFF
    return struct.pack("<II", first, second)


def put_sums(path):
    """Of a file without a log beside it; one that has no room for sums stays as it is."""
    with open(path, "r+b") as file:
        head = file.read(100)
        if head[RESERVED_AT] != SUM_BYTES:
            return
        size = struct.unpack(">H", head[PAGE_SIZE_AT : PAGE_SIZE_AT + 2])[0]
        file.seek(0)
        place = 0
        while page := file.read(size):
            body = page[:-SUM_BYTES]
            file.seek(place)
            file.write(body + sum_of(struct.unpack("<%dI" % (len(body) // 4), body)))
            place += size
            file.seek(place)
