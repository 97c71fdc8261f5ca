#!/usr/bin/env python3
"""Reads the stories of crates/stories: tries some of them, prints their text, and writes those of a store as frames for `custody replay`.

    python3 tools/stories.py               the names of the stories, with their steps
    python3 tools/stories.py try NAME..    tries stories with the built program, crates/stories/out/stories, or --program FILE
    python3 tools/stories.py show NAME..   prints them as a text that `rt try` or the program takes
    python3 tools/stories.py sql NAME      the SQL statements that each step of a story of a store runs
    python3 tools/stories.py frames NAME   a story's frames, as `custody replay` takes them
    python3 tools/stories.py breaks        how often links break under the stories, as the program has to print it

`try` and `show` add the definitions, and the stories that the named ones come after. `try` runs the program in a copy of
crates/stories/data, prints what it prints, with the line numbers of crates/stories/stdin, and ends with its status: 0 if all
passed, 1 if one failed, 2 if the text cannot be read. Status 3 means that nothing was tried. A name is one argument: quote it.
A story of tools/words.txt is tried by `python3 tools/words.py CUSTODY NAME`, which reads that text by this reader.

`sql` runs the story's frames in crates/custody/out/custody, or in --program FILE, under gdb, and takes each statement from the
call of the kit's SQLite that binds its parameters. BEGIN and COMMIT are no statements there. A token is looked up once and
then remembered, so only its first request has that query.

crates/stories/README.md says how the text is written. This reader shares nothing with the program `stories`. It also
reads lines `now SQL` behind a step, which say what it leaves in the tables (tools/refusals.txt has them).
"""

import difflib
import glob
import os
import re
import shutil
import subprocess
import sys
import tempfile

HERE = os.path.dirname(os.path.abspath(__file__))
CRATES = os.path.normpath(os.path.join(HERE, "..", "crates"))
STORIES = os.path.join(CRATES, "stories")
TEXT = os.path.join(STORIES, "stdin")
# The files with stories; `longest` has no definitions of its own.
TEXTS = ["stdin", "longest"]
# The stories of the program; tools/words.py runs them.
WORDS = os.path.join(HERE, "words.txt")
BUILT = os.path.join(STORIES, "out", "stories")
CUSTODY = os.path.join(CRATES, "custody", "out", "custody")
VALUES = ["state", "lock", "settings", "run", "digest", "org", "ws", "lock-id", "secret", "number", "whole", "moment", "limit", "message", "line", "kept"]
# How a step of the program begins, in tools/words.txt.
PROGRAM = ["$", "file", "write", "copy", "table", "absent", "same", "hidden", "mode", "chmod", "taken", "peer", "breaks", "moved"]
ESCAPES = {"r": b"\r", "n": b"\n", "t": b"\t", "\\": b"\\"}


def unescaped(text):
    out, i = b"", 0
    while i < len(text):
        if text[i] != "\\":
            out, i = out + text[i].encode(), i + 1
        elif text[i + 1] == "x":
            out, i = out + bytes([int(text[i + 2 : i + 4], 16)]), i + 4
        else:
            out, i = out + ESCAPES[text[i + 1]], i + 2
    return out


class Part:
    """A line of a step, with the bytes of the pieces and the fields that follow it, and what the step leaves."""

    def __init__(self, line, number=0):
        self.line, self.number, self.bytes, self.in_rows, self.fields, self.leaves = line, number, None, False, [], []
        # Of the first line of a step: the moment of the line `at` above, if there is one.
        self.moment = None

    def add(self, mark, text):
        if mark == "|":
            piece = (b"\n" if self.in_rows else b"") + text.encode()
        elif mark == ">":
            piece = text.encode() + b"\r\n"
        elif mark == "\\":
            piece = unescaped(text)
        else:
            times, text = text.split(" ", 1)
            piece = unescaped(text) * int(times)
        self.in_rows = mark == "|"
        self.bytes = (self.bytes or b"") + piece


def marked(line, marks):
    for mark in marks:
        if line == mark or line.startswith(mark + " "):
            return mark, line[len(mark) + 1 :]
    return None, None


class Story:
    def __init__(self, name):
        self.name, self.after, self.begins, self.operator, self.links, self.steps, self.plots = name, None, None, None, [], [], []


def read(text):
    """The stories by their names; a step is the bytes of a request and of its reply, an operator's words and the answer, or None."""
    told, at, stories, story, parts = {"token": {}, "reason": {}, "challenge": {}}, None, {}, None, None
    waiting = []
    for number, line in enumerate(text.split("\n"), 1):
        if line in ["", "stops", "stops first-byte", "large", "resumes", "copied"] or line.startswith("#"):
            continue
        mark, rest = marked(line, ["|", ">", "\\", "*"])
        if mark:
            parts[-1].add(mark, rest)
            continue
        if marked(line, ["=", "?", "->", "query"])[0]:
            parts.append(Part(line, number))
            continue
        mark, rest = marked(line, ["+"])
        if mark:
            parts[-1].fields.append(rest)
            continue
        mark, rest = marked(line, ["now"])
        if mark:
            parts[0].leaves.append(rest)
            continue
        mark, rest = marked(line, ["story", "after"])
        if mark == "story":
            if rest in stories:
                sys.exit("stories.py: line %d: an earlier story has the name %s" % (number, rest))
            story = stories[rest] = Story(rest)
            continue
        if mark == "after":
            if rest not in stories:
                sys.exit("stories.py: line %d: no earlier story has the name %s" % (number, rest))
            story.after = stories[rest]
            continue
        mark, rest = marked(line, ["begins"])
        if mark:
            story.begins = rest
            continue
        mark, rest = marked(line, ["operator"])
        if mark:
            story.operator = rest
            continue
        mark, rest = marked(line, ["links"])
        if mark:
            story.links = rest.split(" ")
            continue
        mark, rest = marked(line, ["token", "at", "reason", "challenge"])
        if mark:
            name, what = rest.split(" ", 1)
            if mark == "at":
                at = int(name), what
            else:
                told[mark][name] = what
            continue
        parts = [Part(line, number)]
        parts[0].moment = at and at[0]
        waiting.append((story, at, parts))
    for story, at, parts in waiting:
        story.steps.append(step(told, at, parts))
        story.plots.append(parts)
    return stories


def step(told, at, parts):
    word, _, rest = parts[0].line.partition(" ")
    if word == "admin":
        return at[0], rest, "".join(part.line[2:] + "\n" for part in parts[1:]).encode()
    if word in VALUES + PROGRAM + ["sql", "loopback"]:
        return None
    method = "" if word == "raw" else rest.split(" ")[0]
    sent = parts[0].bytes if word == "raw" else request(told, word, rest, parts[0])
    return at[0], sent, due(told, at, method, parts[1])


def request(told, token, rest, part):
    method, target = rest.split(" ")
    if target[0] not in "/*" and not target.startswith(("http", "HTTP")):
        target = "/v1/acme/" + target
    lines = [method + " " + target + " HTTP/1.1", "Host: c"]
    if token != "-":
        lines.append("Authorization: Bearer " + told["token"][token])
    lines += part.fields
    if part.bytes is not None:
        lines.append("Content-Length: %d" % len(part.bytes))
    return "".join(line + "\r\n" for line in lines + [""]).encode() + (part.bytes or b"")


def asked(tokens, token, head, body=None, fields=()):
    """The request of a head such as `GET state/net`, by a short name of these tokens."""
    part = Part("")
    part.bytes, part.fields = None if body is None else body.encode(), list(fields)
    return request({"token": tokens}, token, head, part)


def due(told, at, method, part):
    status, _, refusal = part.line[2:].partition(" ")
    if status == "nothing":
        return b""
    if status == "raw":
        return part.bytes
    body = ('{"error":"' + refusal + '"}').encode() if refusal else part.bytes or b""
    lines = ["HTTP/1.1 " + status + " " + told["reason"][status], "Date: " + at[1], "Connection: close", "Cache-Control: private, no-store"]
    lines += part.fields
    if refusal in told["challenge"]:
        lines.append("WWW-Authenticate: " + told["challenge"][refusal])
    if body and not any(field.startswith("Content-Type: ") for field in part.fields):
        lines.append("Content-Type: application/json")
    if status != "204":
        lines.append("Content-Length: %d" % len(body))
    return "".join(line + "\r\n" for line in lines + [""]).encode() + (b"" if method == "HEAD" else body)


def steps_of(story):
    """All steps of a story of a store, those that come before it too; None for a story of the program or of values, for one that begins with a file, and for one with a door, which no replay has."""
    if story.begins or story.operator:
        return None
    before = steps_of(story.after) if story.after else []
    steps = [it for it in story.steps if it]
    return before + steps if steps and before is not None else None


def framed(steps):
    out = b""
    for at, sent, _ in steps:
        if isinstance(sent, str):
            out += ("at %d admin %s\n" % (at, sent)).encode()
        else:
            out += ("at %d http %d\n" % (at, len(sent))).encode() + sent + b"\n"
    return out


def printed(steps):
    return b"".join(b"reply %d\n%s\n" % (len(due), due) for _, _, due in steps)


READERS = [1, 7, 1000000000]


def length(sent, due):
    """How many bytes of a request are read: its head, where that is refused."""
    refused = any(due.endswith(b'{"error":"%s"}' % word) for word in [b"bad-message", b"no-length", b"too-large", b"head-too-large"])
    return sent.index(b"\r\n\r\n") + 4 if refused else len(sent)


def broken_requests(story):
    """What is cut, reads and writes that fail."""
    asked = [(length(sent, due), len(due)) for _, sent, due in filter(None, story.steps) if isinstance(sent, bytes)]
    cut = sum(len(READERS) * (n - 1) for n, _ in asked)
    reads = sum(-(-n // most) for n, _ in asked for most in READERS)
    readers = len(READERS) if "again" in story.links else 1
    return {"cut": cut, "reads": reads, "writes": 2 * readers * sum(due for _, due in asked)}


def breaks(stories):
    """A line for each story and way to break but for the changes that are refused: which those are, the rules say."""
    names = {"cut": "cut", "reads": "reads that fail", "writes": "writes that fail"}
    for name, story in stories.items():
        if not story.links:
            continue
        counts = broken_requests(story)
        for word in [word for word in names if word in story.links and counts.get(word)]:
            print("passed %s, %s: %d" % (name, names[word], counts[word]))


def all_stories():
    with open(TEXT, encoding="utf-8") as file:
        return read(file.read())


# ----------------------------------------------------------------------------------------------------
# Some stories as a text of their own
# ----------------------------------------------------------------------------------------------------

# How lines begin that define a short form.
DEFINES = ["token", "reason", "challenge"]


class Block:
    """A story as text: its lines, each with its file and number, the line `at` before it, and the name of the story that it comes after."""

    def __init__(self, moment, lines):
        self.moment, self.lines, self.after = moment, lines, None

    def add(self, line):
        self.lines.append(line)
        if line[2].startswith("after "):
            self.after = line[2][6:]

    def trimmed(self):
        """Its lines without the comments and empty lines at the end, which belong to what follows."""
        count = len(self.lines)
        while self.lines[count - 1][2].startswith("#") or not self.lines[count - 1][2]:
            count -= 1
        return self.lines[:count]


def is_of(line, words):
    return line[2].split(" ", 1)[0] in words


def blocks():
    """The definitions above the first story, and each story by its name."""
    top, found, moment = [], {}, None
    for name in TEXTS:
        # (comments and definitions right above a line `story` belong to that story)
        block, above = None, []
        with open(os.path.join(STORIES, name), encoding="utf-8") as file:
            lines = [(name, number, text) for number, text in enumerate(file.read().split("\n"), 1)]
        for line in lines:
            if is_of(line, ["at"]):
                moment = line
            if line[2].startswith("story "):
                block = found[line[2][6:]] = Block(moment, [*above, line])
                above = []
            elif line[2].startswith("#") or is_of(line, DEFINES):
                above.append(line)
            else:
                for one in [*above, line]:
                    block.add(one) if block else top.append(one)
                above = []
    return [line for line in top if line[2] and not line[2].startswith("#")], found


def is_of_words(name):
    """Whether tools/words.txt has a story of this name."""
    with open(WORDS, encoding="utf-8") as file:
        return "story %s\n" % name in file


def chosen(names, found):
    """The named stories with those that they come after."""
    wanted = set()
    for name in names:
        if is_of_words(name):
            print("stories.py: the story %s is in tools/words.txt. To try it:\n  python3 tools/words.py CUSTODY \"%s\"" % (name, name), file=sys.stderr)
            sys.exit(3)
        if name not in found:
            near = [one for one in found if name.lower() in one.lower()] or difflib.get_close_matches(name, found, 5, 0.5)
            print("stories.py: there is no story %s%s" % (name, "".join("\n  is it: " + one for one in near[:5])), file=sys.stderr)
            sys.exit(3)
        while name and name not in wanted:
            wanted.add(name)
            before = found[name].after
            if before and before not in found:
                print("stories.py: the story %s comes after %s, which does not exist" % (name, before), file=sys.stderr)
                sys.exit(3)
            name = before
    return wanted


def lines_of(names):
    """The lines that run these stories: the definitions, what the stories come after, and the stories, in their order."""
    lines, found = blocks()
    wanted, moment = chosen(names, found), next((line for line in lines if is_of(line, ["at"])), None)
    last = max(place for place, name in enumerate(found) if name in wanted)
    for name, block in list(found.items())[: last + 1]:
        if name not in wanted:
            lines += [line for line in block.lines if is_of(line, DEFINES)]
            continue
        if block.moment != moment:
            lines.append(block.moment)
        lines += [("", 0, ""), *block.trimmed()]
        moment = [block.moment, *(line for line in block.lines if is_of(line, ["at"]))][-1]
    return lines


def text_of(lines):
    return "".join(line[2] + "\n" for line in lines)


def located(output, lines):
    """What the program prints, with the number that a line has in its file."""

    def place(found):
        number = int(found[2])
        file, at, _ = lines[number - 1] if 0 < number <= len(lines) else ("", number, "")
        return "%s%d%s" % (found[1], at, " of longest" if file == "longest" else "")

    return re.sub(r"(?m)^((?:FAILED .*: |FAILED .*, |stories: .* failed: .*, |)line )(\d+)\b", place, output)


def is_older(program):
    """Whether source was changed after the program was built."""
    sources = glob.glob(os.path.join(CRATES, "*", "src", "**", "*.rt"), recursive=True)
    return max(map(os.path.getmtime, sources)) > os.path.getmtime(program)


def try_stories(program, names):
    """Tries stories with a built program, in a copy of the files that some of them use; the status to end with."""
    lines = lines_of(names)
    if not os.path.isfile(program):
        with tempfile.NamedTemporaryFile("w", prefix="stories-", suffix=".txt", delete=False, encoding="utf-8") as text:
            text.write(text_of(lines))
        print("stories.py: there is no program %s, so nothing was tried. The text is in a file. To build and try:" % os.path.relpath(program), file=sys.stderr)
        print("  (cd %s && rt try < %s)" % (os.path.relpath(STORIES), text.name), file=sys.stderr)
        return 3
    if not os.access(program, os.X_OK):
        print("stories.py: %s is not a program" % program, file=sys.stderr)
        return 3
    if is_older(program):
        print("stories.py: source was changed after %s was built" % os.path.relpath(program), file=sys.stderr)
    with tempfile.TemporaryDirectory() as folder:
        shutil.copytree(os.path.join(STORIES, "data"), folder, dirs_exist_ok=True)
        try:
            ran = subprocess.run([os.path.abspath(program)], input=text_of(lines).encode(), capture_output=True, cwd=folder)
        except OSError as fault:
            print("stories.py: %s does not run: %s" % (program, fault.strerror), file=sys.stderr)
            return 3
    sys.stdout.write(located(ran.stdout.decode(errors="replace"), lines))
    sys.stderr.write(located(ran.stderr.decode(errors="replace"), lines))
    return ran.returncode if ran.returncode >= 0 else 128 - ran.returncode


# ----------------------------------------------------------------------------------------------------
# The statements that a step runs
# ----------------------------------------------------------------------------------------------------

# A command that changes nothing. It comes before each step and after the last, so its statements show where a step begins.
BETWEEN = "org-list"

# What gdb does: it notes the text of each statement where its parameters are bound. The text is the third argument, with its length.
TRACE = """
import os, re
import gdb

class Bind(gdb.Breakpoint):
    def stop(self):
        frame = gdb.selected_frame()
        at, length = (int(frame.read_register(name)) & (2**64 - 1) for name in ("rdx", "rcx"))
        text = bytes(gdb.selected_inferior().read_memory(at, length))
        with open(os.environ["NOTED"], "ab") as noted:
            noted.write(b" ".join(text.split()) + b"\\n")
        return False

gdb.execute("starti replay < %(FRAMES)s > /dev/null 2> %(ERRORS)s" % os.environ)
for at in re.findall(r"(?m)^(0x[0-9a-f]+) +sqlite::connection::Connection::bind::<", gdb.execute("info functions Connection::bind", to_string=True)):
    Bind("*" + at, internal=True)
gdb.execute("continue")
"""


def statements_of(program, steps):
    """The statements that the steps run, in turn."""
    with tempfile.TemporaryDirectory() as folder:
        env = {**os.environ, **{name: os.path.join(folder, name.lower()) for name in ["NOTED", "FRAMES", "ERRORS", "TRACE"]}}
        for name, text in [("NOTED", b""), ("FRAMES", framed(steps)), ("ERRORS", b""), ("TRACE", TRACE.encode())]:
            with open(env[name], "wb") as file:
                file.write(text)
        os.rename(env["TRACE"], env["TRACE"] + ".py")
        ran = subprocess.run(["gdb", "-q", "-nx", "-batch", "-x", env["TRACE"] + ".py", program], env=env, stdin=subprocess.DEVNULL, capture_output=True, text=True)
        with open(env["NOTED"], encoding="utf-8") as noted, open(env["ERRORS"], encoding="utf-8") as errors:
            found, why = noted.read().splitlines(), errors.read()
    if why or "exited normally" not in ran.stdout:
        sys.exit("stories.py: %s did not take all frames: %s" % (program, why or (ran.stdout + ran.stderr)[-300:]))
    if not found:
        sys.exit("stories.py: in %s no statement was seen: build a program with `tools/quick-build custody FILE -O0`" % program)
    return found


def parted(own, orgs, listed, found):
    """The statements of each of these steps, with BETWEEN before each and at the end. There were so many organizations and lists of them before."""
    ends = orgs + sum(sent.startswith("org-add ") and due == b"ok\n" for _, sent, due in own if isinstance(sent, str))
    # (a list of organizations is one query, and one more for each of them)
    mark = found[-1 - ends] if len(found) > ends else ""
    marks = [at for at, text in enumerate(found) if text == mark][listed:]
    if len(marks) != len(own) + 1 + sum(sent == BETWEEN for _, sent, _ in own):
        sys.exit("stories.py: the statements of %s do not show where a step begins" % BETWEEN)
    parts, start = [], marks.pop(0)
    for _, sent, due in own:
        first = start + 1 + orgs
        if sent == BETWEEN:
            marks.pop(0)
        start = marks.pop(0)
        parts.append(found[first:start])
        orgs += isinstance(sent, str) and sent.startswith("org-add ") and due == b"ok\n"
    return parts


def show_statements(program, story):
    """Prints each step of a story of a store with its statements."""
    for what, holds in [("there is no program %s; `--program FILE` names another" % os.path.relpath(program), os.path.isfile(program)), ("this needs gdb", shutil.which("gdb"))]:
        if not holds:
            sys.exit("stories.py: " + what)
    own, steps = [step for step in story.steps if step], steps_of(story)
    unframed = [sent for _, sent, _ in steps if isinstance(sent, str) and sent.startswith(("token-list ", "org-remove "))]
    if unframed:
        sys.exit("stories.py: no frame has the command `%s` of this story" % unframed[0])
    before = steps[: len(steps) - len(own)]
    commands = [(sent, due) for _, sent, due in before if isinstance(sent, str)]
    orgs, listed = sum(sent.startswith("org-add ") and due == b"ok\n" for sent, due in commands), sum(sent == BETWEEN for sent, _ in commands)
    told = [one for step in own for one in ((step[0], BETWEEN, None), step)]
    found = statements_of(program, [*before, *told, (own[-1][0], BETWEEN, None)])
    lines = [parts[0].line for parts, step in zip(story.plots, story.steps) if step]
    for line, statements in zip(lines, parted(own, orgs, listed, found)):
        print("\n  ".join([line, *statements]))


def of_a_store(stories, name):
    """The story of this name, if `custody replay` takes its steps."""
    if name not in stories or not steps_of(stories[name]):
        sys.exit("stories.py: no story %s of a store begins empty and without a door" % name)
    return stories[name]


def main():
    word, *names = sys.argv[1:] or [""]
    if word == "try" and names[:1] == ["--program"] and names[2:]:
        sys.exit(try_stories(names[1], names[2:]))
    if word == "try" and names and names[0] != "--program":
        sys.exit(try_stories(BUILT, names))
    if word == "show" and names:
        sys.stdout.write(text_of(lines_of(names)))
        return
    stories = all_stories()
    if word == "sql" and (len(names) == 1 or len(names) == 3 and names[0] == "--program"):
        show_statements(names[1] if names[2:] else CUSTODY, of_a_store(stories, names[-1]))
    elif word == "frames" and len(names) == 1:
        sys.stdout.buffer.write(framed(steps_of(of_a_store(stories, names[0]))))
    elif word == "breaks" and not names:
        breaks(stories)
    elif word:
        sys.exit(__doc__)
    else:
        for name, story in stories.items():
            print("%4d  %s" % (len(story.steps), name))


if __name__ == "__main__":
    main()
