#!/usr/bin/env python3
"""Tells stories in each of which one expectation is wrong, and looks whether the program of the stories says so.

    python3 tools/wrong.py STORIES [TEXT]    the program as `rt ci` or `rt run` leaves it, and another text than wrong.txt

A driver that compares nothing passes every story that is right. So each kind of expectation is wrong once in wrong.txt, and
of each such story the program has to say its name, the way, the line of the step, what was expected and what came, or why;
that the others are right; how many failed of how many; and to end with status 1.

No text is wrong on some ways alone, as by readers of one byte. So a story that is right is told where one request for memory
is refused (refuse.c), or one sync of a file fails (calls.c): it then fails on the way on which that comes, and the program
has to say so: of each way; of files for each that is opened, and for the steps over each; of links for what is cut, read, written
and sent again by each reader; and of a store that refuses changes. It ends with status 1 at the first that isn't said.
"""

import concurrent.futures
import contextlib
import itertools
import os
import queue
import re
import shutil
import subprocess
import sys
import tempfile

import refusals
from harness import HERE, compiled

DATA = os.path.join(HERE, "..", "crates", "stories", "data")

# Texts that don't read: the line that is told, and why.
UNREAD = [
    ("story x\n- GET /\n= 299\n", "line 3: the text defines no reason for this status"),
    ("story x\n\\ \\q\n", "line 2: a piece stands in no step"),
    ("story x\noperator short\n- GET /\n= nothing\n", "line 2: an operator's secret is 16 to 64 ASCII letters or digits"),
    ("story x\n- GET /\n= nothing\noperator operatoroperator1\n", "line 4: `operator` stands before the first step of a story"),
    ("story x\nwrite x\n| y\n", "line 2: a request is a token's name, a method and a target"),
    ("story x\nraw\n\\ \\q\n= nothing\n", "line 3: the escapes are \\r \\n \\t \\\\ and \\xHH"),
]

# Seconds after which the program is held for hanging.
PATIENCE = 300

# A story that is right, behind those before it; what is said of it where it is told.
GROUND = "the ground"
NAMED = "two states are posted"
POSTS = """
W POST state/net
| {"serial":1}
= 200
W POST state/net
| {"serial":2}
= 200
W GET state/net
= 200
| {"serial":2}
W GET state/net
= 200
| {"serial":2}
"""
# Another one of the same name, of one request.
LOCK = """
W LOCK state/net
| {"ID":"x"}
= 200
"""

# The ways on which it is told.
IN_FILE, COPIED, BESIDE, LINKS = "tables in a file", "tables that are copied", "all rows and the queries, asked before each act", "links that break"
REFUSES = "a store that refuses changes"
READS = ["replayed", "1 byte a read", "7 bytes a read", "all bytes in one read"]
FIRST_BYTES = "tables by first bytes, "
LARGE = ["values, all bytes in one read", "tables, all bytes in one read"]
WAYS = [*("%s, %s" % (store, reads) for store in ("values", "tables") for reads in READS), FIRST_BYTES + READS[0], FIRST_BYTES + READS[-1], BESIDE]

# What is said of a file where a sync fails; of its syncs, of which an open and a close have more, one in so many fails.
FAULTS = ["the file doesn't open", "the file doesn't close"]
LEAP = 3

# The files of the stories over files. A copy of a process would take them away.
FILES = ["stories.db", "copies.db"]

# What is said where something else came than is due: in a reply, and in what the tables have.
REPLY, ROWS = "another reply", "other rows"

CUT, READ, WRITE = ("something else came where " + what for what in ("it is cut behind byte", "reading fails at read", "writing stops at byte"))
STORE = "memory or the store refused"

# How many requests a copy makes at most behind the one that is refused; and how many there are at least where
# a reply is stopped at one byte.
ENDS, WINDOW = 50_000, 6500

# At how many requests memory is refused on the ways in memory; of how many requests one is looked at where a file is written to; and before
# how many of those, which a change makes before it is written.
SAMPLES, STEP, BEHIND = 2000, 20, 2

# By how many runs at a time memory is refused or a sync fails.
WORKERS = len(os.sched_getaffinity(0))

NAME = re.compile(r"FAILED (.*?): (?:(.*), )?line (\d+)$")
NO_LINE = ", line 0"


def stories_of(text):
    """The stories in order: of each its name, and of a wrong one its line, its way and what has to be said."""
    stories, mark = [], None
    for number, line in enumerate(text.split("\n"), 1):
        if line.startswith("story "):
            stories.append([line[6:], None])
        elif line.startswith("#! "):
            mark = (" " + line[3:]).split(" | ")
        elif mark is not None:
            way = mark[0].strip()
            stories[-1][1] = (0 if way.endswith(NO_LINE) else number, way.removesuffix(NO_LINE), mark[1:])
            mark = None
    return stories


def failures_of(output):
    """Of each story that failed what was said of it, by its name: the way, the line, and the lines behind it."""
    failures, said = {}, None
    for line in output.split("\n"):
        found = NAME.match(line)
        if found:
            said = []
            failures[found.group(1)] = (found.group(2) or "", int(found.group(3)), said)
        elif line.startswith("passed ") or re.match(r"\d+ ", line):
            said = None
        elif said is not None:
            said.append(line)
    return failures


def is_said(due, said):
    """Whether these lines say what is due: why, or what was expected and what came."""
    if len(due) == 1:
        return said == due
    return len(said) == 2 and said[0].startswith("expected: ") and said[1].startswith("came: ") and all(
        what in line for what, line in zip(due, said))


def wrong(why, *more):
    print("wrong:", why, *more, sep="\n  ")
    sys.exit(1)


def beside(folder):
    """The files of the stories, in a folder."""
    for name in os.listdir(DATA):
        shutil.copy(os.path.join(DATA, name), folder)


def run(program, text, env=None):
    """The status and the standard output of the program over a text, beside the files of the stories."""
    with tempfile.TemporaryDirectory() as folder:
        beside(folder)
        ran = subprocess.run([os.path.abspath(program)], input=text.encode(), capture_output=True, cwd=folder, timeout=PATIENCE, env=env)
    return ran.returncode, ran.stdout.decode()


# ----------------------------------------------------------------------------------------------------
# A story that is right, where memory is refused or a sync fails
# ----------------------------------------------------------------------------------------------------


def right_text(text, modes, steps=POSTS):
    """The definitions, the ground, which is told over few ways and no file, and the story that is right, with these lines on how it is told."""
    parts = text.split("\nstory ")
    ground = next(part for part in parts if part.startswith(GROUND + "\n"))
    return "%s\nstory %s\nstory %s\nafter %s\n%s\n%s" % (parts[0], ground.replace("\n", "\nresumes\n", 1), NAMED, GROUND, modes, steps)


def said_of(status, output):
    """On which way the story that is right failed, at which line, what is said, and at which byte or read; nothing where it passed, or where
    memory was refused to what tells it."""
    way, line, lines = failures_of(output).get(NAMED) or ("", 0, [])
    if not lines:
        return None
    if status == 0:
        wrong("a story failed, and the status is 0", output)
    if len(lines) > 1:
        return way, line, REPLY if lines[0].startswith(("expected: HTTP", "expected: ok")) else ROWS, 0
    what, place = re.fullmatch(r"(.*?)(?: (\d+))?", lines[0]).groups("0")
    return way, line, what, int(place)


def at_syncs(program, text, library, folder):
    """What is said where one sync fails: of one in LEAP in turn, until none does."""

    def at(number):
        fails = "%s/fails-%d" % (folder, number)
        open(fails, "wb").close()
        said = said_of(*run(program, text, dict(os.environ, LD_PRELOAD=library, FAILS=fails, ONCE=str(number))))
        return said and said[:3], not os.path.exists(fails)

    found = []
    with concurrent.futures.ThreadPoolExecutor(WORKERS) as pool:
        for first in itertools.count(1, LEAP * WORKERS):
            for said, has_failed in pool.map(at, range(first, first + LEAP * WORKERS, LEAP)):
                if not has_failed:
                    return found
                found.append(said)


def look_at_syncs(program, text):
    """The story fails on the ways over files: in turn over a file, over that opened again midway, before it is copied, as it is, over
    the copy, and over that of which it is. A step whose sync fails shuts the store, which then doesn't close."""
    with tempfile.TemporaryDirectory() as folder:
        found = at_syncs(program, right_text(text, "copied"), compiled("calls", folder), folder)
    file, copied = ([(way, 0, why) for why in FAULTS] for way in (IN_FILE, COPIED))
    due = 2 * file + copied + [(COPIED, 0, "the organizations aren't copied")] + 2 * copied
    came = [said for said, _ in itertools.groupby(filter(None, found))]
    if came != due:
        wrong("where a sync fails, something else is said", *map(str, [due, came]))
    print("said: a sync that fails, over each of %d files that are opened and closed" % (len(due) // 2))


def files_in(folder):
    return list(filter(os.path.exists, ("%s/%s%s" % (folder, name, end) for name in FILES for end in ("", "-wal"))))


class Asking:
    """The program over a text, of which copies are made in which memory is refused."""

    def __init__(self, program, library):
        self.program, self.library = os.path.abspath(program), library

    @contextlib.contextmanager
    def told(self, text, moment):
        with tempfile.TemporaryDirectory() as folder:
            beside(folder)
            with refusals.Program(self.library, moment, [self.program], folder, text.encode()) as run:
                yield run, folder

    def tried(self, run, number, most=0):
        """What is said where this request is refused, and how many there were; behind so many the copy ends."""
        run.ask("try %d %d %d" % (number, number, most))
        _, status, asked, _ = run.counted()
        output, _ = run.said()
        return said_of(status, output.decode()), asked

    def count(self, text):
        """How many requests for memory are made. None is refused, and all passes."""
        with self.told(text, "start") as (run, _):
            run.await_ready()
            said, asked = self.tried(run, 0)
        if said:
            wrong("no memory is refused, and the story failed", said)
        return asked

    def said_at(self, text, numbers):
        """What is said where each of these requests is refused, in their order, but where a file of the stories is there."""

        def of_each(numbers):
            found, number = [], 1
            with self.told(text, "each") as (run, folder):
                for due in numbers:
                    if not run.is_ready():
                        break
                    if due > number:
                        run.ask("go %d" % (due - number))
                        if not run.is_ready():
                            break
                    if not files_in(folder):
                        found.append((due, self.tried(run, 1, ENDS)[0]))
                        # (those that a copy has made by its end)
                        for path in files_in(folder):
                            os.remove(path)
                    run.ask("go")
                    number = due + 1
            return found

        with concurrent.futures.ThreadPoolExecutor(WORKERS) as pool:
            return sorted((one for found in pool.map(of_each, [numbers[place::WORKERS] for place in range(WORKERS)]) for one in found), key=lambda one: one[0])

    def sayings(self, text, first, last, step):
        """What is said, in the order of the requests that are refused: each so many behind the one before, and all between two at which another
        thing is said."""
        found = self.said_at(text, range(first, last, step))
        tried, said = {number for number, _ in found}, [one for one in found if one[1]]
        pairs = [(one, other) for (one, what), (other, then) in itertools.pairwise(said) if what[:3] != then[:3]]
        between = [number for one, other in pairs for number in range(one + 1, other) if number not in tried]
        return [said for _, said in sorted(found + self.said_at(text, between), key=lambda one: one[0]) if said]

    def writes(self, text):
        """The numbers of requests some of which stand before each write of a change to a file of the stories, in its transaction."""

        def bytes_in(name):
            try:
                with open(name, "rb") as file:
                    return file.read()
            except FileNotFoundError:
                return b""

        found, held, number = set(), None, 1
        with self.told(text, "each") as (run, folder):
            names = ["%s/%s-wal" % (folder, name) for name in FILES]
            while run.is_ready():
                now = [bytes_in(name) for name in names]
                if now != held:
                    found.update(number - behind * STEP for behind in range(BEHIND, 0, -1))
                held = now
                run.ask("go %d" % STEP)
                number += STEP
        return sorted(found)[BEHIND:]

    def sayings_at(self, text, numbers):
        """What is said where each of these requests is refused, in their order."""
        free = queue.Queue()
        with contextlib.ExitStack() as exits:
            for _ in range(WORKERS):
                run, _ = exits.enter_context(self.told(text, "start"))
                run.await_ready()
                free.put(run)

            def at(number):
                run = free.get()
                said, _ = self.tried(run, number)
                free.put(run)
                return said

            with concurrent.futures.ThreadPoolExecutor(WORKERS) as pool:
                return list(filter(None, pool.map(at, numbers)))


def in_turn(said):
    """Of equal things in a row one."""
    return [one for one, _ in itertools.groupby(said)]


def is_in_turn(what, came, due):
    if came != due:
        wrong("where memory is refused, something else is said: " + what, *map(str, [due, came]))
    print("said: memory that is refused,", what)


def on_ways(asking, told):
    """The ways in memory on which the story fails, in turn."""
    most = asking.count(told)
    first = asking.count(told.partition("\nstory " + NAMED)[0])
    said = asking.sayings(told, first, most, max(1, (most - first) // SAMPLES))
    return in_turn(way for way, *_ in said if way and way != IN_FILE)


def look_at_ways(asking, text):
    """It fails on each way in memory; a large one on each of its ways."""
    is_in_turn("on each of %d ways" % len(WAYS), on_ways(asking, right_text(text, "")), WAYS)
    is_in_turn("on the ways of a large one", on_ways(asking, right_text(text, "large")), LARGE)


def look_at_files(asking, text):
    """A step fails over a file, over that opened again midway, before it is copied, over the copy, and over that of which it is."""
    told = right_text(text, "copied")
    came = asking.sayings_at(told, asking.writes(told))
    lines = [told[: told.index(step)].count("\n") + 1 for step in ("A PUT", *re.findall(r"W POST.*\n.*", POSTS))]
    said = in_turn((way, line) for way, line, what, _ in came if what == REPLY and line in lines)
    due = [(IN_FILE, line) for line in lines] + [(COPIED, line) for line in lines + lines[1:]]
    is_in_turn("over a file, that opened again, one before it is copied, its copy, and it", said, due)
    large = right_text(text, "large")
    said = {(way, what) for way, line, what, _ in asking.sayings_at(large, asking.writes(large)) if line in lines}
    is_in_turn("over a file, of a large one", said, {(IN_FILE, REPLY)})


def look_at_links(asking, text):
    """It fails where its request is cut, where reads fail, and where it then comes whole, by each of three readers; where writing stops, by the
    first, the second and the third reader, and where it comes again then, as in the tables; and over a store that refuses changes."""
    first = asking.count(right_text(text, "", LOCK))

    def said(modes, way, first, last, step, *whats):
        told = asking.sayings(right_text(text, modes, LOCK), first, last, step)
        return in_turn(what for on, _, what, _ in told if on == way and what in whats)

    cut = said("links cut reads", LINKS, first, asking.count(right_text(text, "links cut reads", LOCK)), 11, CUT, READ, REPLY)
    # (the only read of the third fails before memory is asked for)
    is_in_turn("where a request is cut, where reading fails, and where it comes whole, by three readers", cut, [CUT, READ, REPLY, CUT, READ, REPLY, CUT, REPLY])
    last = asking.count(right_text(text, "links writes again", LOCK))
    for what, at, size, due in [
        ("before the first byte", first + WINDOW, 2 * WINDOW, {ROWS, REPLY}),
        ("by the first reader", first + 16 * WINDOW, WINDOW, {WRITE, REPLY}),
        ("by the second reader", (first + last) // 2, WINDOW, {WRITE, REPLY}),
        ("before the last byte", last - WINDOW, WINDOW, {WRITE, REPLY}),
    ]:
        came = set(said("links writes again", LINKS, at, at + size, 23, WRITE, ROWS, REPLY))
        is_in_turn("where writing stops and where it comes again then, " + what, came & due, due)
    refused = said("links refused", REFUSES, first, asking.count(right_text(text, "links refused", LOCK)), 11, WRITE, STORE)
    is_in_turn("over a store that refuses changes, and its bytes", refused, [STORE, WRITE, STORE])


def main(words):
    if len(words) not in (1, 2):
        sys.exit(__doc__)
    path = words[1] if len(words) == 2 else os.path.join(HERE, "wrong.txt")
    text = open(path, encoding="utf-8").read()
    status, output = run(words[0], text)
    stories, failures = stories_of(text), failures_of(output)
    for name, due in stories:
        came = failures.get(name)
        if due is None:
            if came is not None or "passed %s\n" % name not in output:
                wrong("the story '%s' is right" % name, *(came[2] if came else []))
            continue
        line, way, what = due
        if came is None:
            wrong("nothing is said of the story '%s'" % name)
        if came[:2] != (way, line):
            wrong("of the story '%s' the way or the line is another" % name, "%s, line %d" % (way, line), "%s, line %d" % came[:2], *came[2])
        if not is_said(what, came[2]):
            wrong("of the story '%s' something else is said" % name, *(what + came[2]))
        print("said:", name)
    count = sum(due is not None for _, due in stories)
    last = "%d of %d stories failed\n" % (count, len(stories))
    if not output.endswith(last) or status != 1:
        wrong("the end is another", last, output[-200:], "status %d" % status)
    for unread, due in UNREAD:
        came = run(words[0], unread)
        if came != (2, due + "\n"):
            wrong("a text that doesn't read", unread, due, str(came))
    look_at_syncs(words[0], text)
    with tempfile.TemporaryDirectory() as folder:
        asking = Asking(words[0], compiled("refuse", folder))
        for look in (look_at_ways, look_at_files, look_at_links):
            look(asking, text)
    print("%d wrong stories and %d texts that don't read, each is said to be wrong" % (count, len(UNREAD)))


main(sys.argv[1:])
