#!/usr/bin/env python3
"""Draws the pictures of docs/ from the source and the pages.

    python3 bench/pictures.py [NAME..]    all, or those of these names

- crates: which crate uses which, by crates.txt. A crate is above all crates that it uses. A line is left out where others lead to the
  same crate. Below its name a crate has the crates of the kit that it uses; those of the kit's SQLite count as one.
- performance: by the tables of docs/PERFORMANCE.md. Above, each row of 'Beside a server in C': the program's time over the other's, with
  the least and the greatest ratio, and a line at 1 and at 2. Below, the first three columns of 'What grows with what': microseconds by
  the number of workspaces, both axes logarithmic. Last, the table of versions kept: milliseconds of a GET and of a POST.
- tables: the tables, columns, keys and references of crates/statements/src/making.rt, and how a text becomes pages.
- post: the functions that a POST of a state passes. Each must exist in the source of its crate, and its number is that of a step in
  docs/ARCHITECTURE.md.
- lives: the steps of runs, as crates/machine/specs/RunSteps.antt lists them, and the life of a token.
- deployment: what docs/operating/ installs around the services, one for each organization.
- pair: the two ways to have a second machine, as docs/GROWING.md describes them.

The script ends with status 1 if the source or a page lacks a name or number that a picture has.
"""
import glob
import itertools
import math
import random
import re
import sys

from top import TOP

PATH_PAGE = f"{TOP}/docs/ARCHITECTURE.md"
MAKING, STEPS, WORDS = f"{TOP}/crates/statements/src/making.rt", f"{TOP}/crates/machine/specs/RunSteps.antt", f"{TOP}/crates/basis/src/runs.rt"
BLUE, YELLOW, GREEN, GRAY, RED = ("#dbe9f4", "#1b6ca8"), ("#fdf1dc", "#d68910"), ("#e2f1e4", "#2e8b57"), ("#f2f2f2", "#777777"), ("#f9e3e0", "#c0392b")
STYLE = (
    "text{font:13px sans-serif;fill:#222}.name{font-weight:bold}.small{font-size:11px;fill:#555}.code{font:11px monospace;fill:#222}"
    ".key{font:bold 11px monospace;fill:#222}.fine{font:10px monospace;fill:#222}.line{stroke:#666;stroke-width:1.4;fill:none}.dash{stroke:#999;stroke-width:1.2;fill:none;stroke-dasharray:4 3}"
)
HEAD = '<marker id="tip" viewBox="0 0 8 8" refX="7" refY="4" markerWidth="8" markerHeight="8" orient="auto"><path d="M0 0L8 4L0 8z" fill="#666"/></marker>'

# Where each table stands in the picture: its column and its top.
SPOTS = {
    "org": (0, 34), "token": (0, 134), "bound": (0, 264), "keeping": (0, 384),
    "ws": (1, 34), "run": (1, 250), "edition": (1, 440), "meta": (1, 505),
    "version": (2, 34), "vpage": (2, 214), "page": (2, 374),
}
WIDTHS, COLUMNS = 190, (20, 290, 560)
# A row of one table that belongs to a row of another by its columns, though no foreign key says so.
OWNERS = [("token", "org"), ("ws", "org"), ("version", "ws"), ("run", "ws"), ("vpage", "version")]

# What a POST of a state passes: step, crate, function, what happens. The crate's source must have the function. The step is that of
# the list 'The path of a request' in docs/ARCHITECTURE.md, whose text must name the crate or the function of one of its rows.
POST = [
    (1, "program", "accept", "a connection is accepted; the clock is read"),
    (2, "wire", "read_message", "bytes become a message, or a refusal"),
    (3, "route", "asked", "path, method, query and token become an act"),
    (4, "tables", "caller", "the token with this digest, and its bounds"),
    (4, "serve", "checked", "caller, role, prefix, reach, digest, document"),
    (4, "docs", "read_state", "the document's serial and lineage"),
    (5, "tables", "unit", "point queries: the workspace, the newest version"),
    (6, "machine", "decide", "the rules: an answer, and a change"),
    (7, "serve", "accepted_reply", "the whole reply is built"),
    (8, "tables", "apply", "one transaction begins"),
    (8, "statements", "add", "INSERT INTO version .."),
    (8, "texts", "add_text", "the text is cut into pages"),
    (8, "pages", "put_own", "uses + 1, or a row"),
    (8, "tables", "apply", "the transaction is committed and synced"),
    (9, "wire", "write_reply", "the reply is written"),
    (10, "docs", "write_log_line", "with --log: the line of this exchange"),
    (11, "program", "after_reply", "a long WAL is checkpointed"),
]
LANES = ["program", "wire", "route", "serve", "docs", "machine", "tables", "statements", "texts", "pages"]

# Where each status of a run stands.
RUNS = {
    "Pending": (84, 90), "Planning": (270, 90), "Planned": (456, 90), "Applying": (642, 90), "Applied": (828, 90),
    "PlannedAndFinished": (222, 200), "Canceled": (590, 200), "Errored": (770, 200), "Discarded": (270, 290),
}
# The way of each step in the picture, and where its label stands.
WAYS = {
    ("Planning", "Planned"): ([(332, 90), (394, 90)], (363, 82)),
    ("Planned", "Applying"): ([(518, 90), (580, 90)], (549, 82)),
    ("Applying", "Applied"): ([(704, 90), (766, 90)], (735, 82)),
    ("Pending", "Discarded"): ([(84, 105), (84, 290), (208, 290)], (140, 282)),
    ("Planning", "PlannedAndFinished"): ([(250, 105), (232, 185)], (206, 150)),
    ("Planning", "Canceled"): ([(282, 105), (300, 172), (540, 172), (550, 186)], (350, 166)),
    ("Planning", "Errored"): ([(300, 105), (314, 140), (730, 140), (745, 186)], (350, 134)),
    ("Planned", "Discarded"): ([(456, 105), (456, 290), (332, 290)], (400, 282)),
    ("Applying", "Canceled"): ([(630, 105), (600, 186)], (588, 124)),
    ("Applying", "Errored"): ([(660, 105), (765, 186)], (708, 124)),
}


def fail(what):
    sys.exit(f"the source has no {what}")


def read(path):
    with open(path, encoding="utf-8") as it:
        return it.read()


def escaped(text):
    return text.replace("&", "&amp;").replace("<", "&lt;")


def words(x, y, text, kind="", anchor="start"):
    return f'<text x="{x:.0f}" y="{y:.0f}" text-anchor="{anchor}" class="{kind}">{escaped(text)}</text>'


def box(x, y, wide, tall, colors, round_by=4):
    return f'<rect x="{x:.0f}" y="{y:.0f}" width="{wide}" height="{tall}" rx="{round_by}" fill="{colors[0]}" stroke="{colors[1]}"/>'


def path(points, kind="line", tip=True):
    drawn = "M" + " L".join(f"{x:.0f} {y:.0f}" for x, y in points)
    return f'<path d="{drawn}" class="{kind}"{" marker-end=" + chr(34) + "url(#tip)" + chr(34) if tip else ""}/>'


def write(name, wide, tall, drawn, style=STYLE, defined=f"<defs>{HEAD}</defs>\n"):
    with open(f"{TOP}/docs/{name}.svg", "w", encoding="utf-8") as out:
        out.write(f'<svg xmlns="http://www.w3.org/2000/svg" width="{wide}" height="{tall}" viewBox="0 0 {wide} {tall}">\n<style>{style}</style>\n{defined}')
        out.write('<rect width="100%" height="100%" fill="#fff"/>\n' + "\n".join(drawn) + "\n</svg>\n")


def split_top(text):
    """The parts of a list between commas that stand in no brackets."""
    parts, depth, last = [], 0, 0
    for at, char in enumerate(text):
        depth += (char == "(") - (char == ")")
        if char == "," and depth == 0:
            parts.append(text[last:at].strip())
            last = at + 1
    return [*parts, text[last:].strip()]


def tables_of(text):
    """Of each table: its columns, those of its primary key, and the tables that its foreign keys name, in the order of TABLES."""
    found = {}
    for name, body in re.findall(r'"CREATE TABLE (\w+) \((.*)\) STRICT"', text):
        columns, key, refers = [], [], []
        for part in split_top(body):
            if part.startswith("PRIMARY KEY"):
                key = re.findall(r"\w+", part[len("PRIMARY KEY"):])
            elif part.startswith("FOREIGN KEY"):
                refers.append(re.search(r"REFERENCES (\w+)", part)[1])
            elif not part.startswith("UNIQUE"):
                columns.append(part.split()[0])
                if "PRIMARY KEY" in part:
                    key = [part.split()[0]]
        found[name] = (columns, key, refers)
    return found or fail("CREATE TABLE")


def table_box(name, columns, key):
    at, top = COLUMNS[SPOTS[name][0]], SPOTS[name][1]
    tall = 26 + 14 * len(columns)
    drawn = [box(at, top, WIDTHS, tall, GREEN if name in ("page", "vpage") else BLUE), words(at + 10, top + 17, name, "name")]
    for n, column in enumerate(columns):
        drawn.append(words(at + 10, top + 33 + 14 * n, column, "key" if column in key else "code"))
    return drawn, tall


def tie(spots, low, high, kind):
    """A line from a table to the one that it belongs to, or refers to."""
    (x, y, tall), (to_x, to_y, to_tall) = spots[low], spots[high]
    if x == to_x:
        down = y > to_y
        return path([(x + 95, y if down else y + tall), (to_x + 95, to_y + to_tall if down else to_y)], kind)
    from_x, end_x = (x, to_x + WIDTHS) if x > to_x else (x + WIDTHS, to_x)
    end_y = min(max(y + 12, to_y + 12), to_y + to_tall - 8)
    middle = (from_x + end_x) / 2
    return path([(from_x, y + 12), (middle, y + 12), (middle, end_y), (end_x, end_y)], kind)


def draw_tables():
    text = read(MAKING)
    tables = tables_of(text)
    names = re.findall(r'"(\w+)"', re.search(r"TABLES: &\[&str\] = &\[(.*?)\];", text, re.S)[1])
    if set(names) != set(SPOTS) or set(names) != set(tables):
        fail("such tables as are drawn here: " + " ".join(names))
    page_bytes = int(re.search(r"PAGE_BYTES: usize = ([\d_]+)", read(f"{TOP}/crates/texts/src/texts.rt"))[1].replace("_", ""))
    boxes, spots = [], {}
    for name in names:
        drawn, tall = table_box(name, *tables[name][:2])
        boxes += drawn
        spots[name] = (COLUMNS[SPOTS[name][0]], SPOTS[name][1], tall)
    lines = [tie(spots, low, high, "dash") for low, high in OWNERS]
    lines += [tie(spots, name, other, "line") for name in names for other in tables[name][2]]
    drawn = [*lines, *boxes]
    drawn += [words(20, 20, "Bold columns are the primary key. A solid arrow is a foreign key. A dashed arrow: the row belongs to a row there, by equal columns.", "small")]
    # how two versions share pages
    top = 590
    drawn.append(words(20, top, f"How two versions share pages: a text is cut into pieces of {page_bytes:,} bytes, and equal pieces are one page", "name"))
    rows = {"version 1": (top + 20, "abcd"), "version 2": (top + 220, "aBcd")}
    ends = {}
    for key, place, y, uses in [("a", 0, 122, 2), ("b", 1, 98, 1), ("B", 1, 146, 1), ("c", 2, 122, 2), ("d", 3, 122, 2)]:
        x = 150 + 180 * place
        drawn += [box(x, top + y, 160, 30, YELLOW if key == "B" else GREEN), words(x + 10, top + y + 20, f"page {key}", "code"), words(x + 150, top + y + 20, f"uses {uses}", "small", "end")]
        ends[key] = top + y
    for label, (y, keys) in rows.items():
        drawn += [words(20, y + 16, label), words(20, y + 32, "its rows of vpage", "small")]
        for place, key in enumerate(keys):
            x = 150 + 180 * place
            drawn += [box(x, y, 160, 34, YELLOW if key == "B" else BLUE), words(x + 80, y + 21, f"place {place}", "code", "middle")]
            drawn.append(path([(x + 80, y + 34), (x + 80, ends[key] - 2)] if label == "version 1" else [(x + 80, y), (x + 80, ends[key] + 32)]))
    drawn += [words(20, top + 137, "rows of page,"), words(20, top + 153, "keyed by SHA-256", "small")]
    drawn.append(words(20, top + 278, "Only the page of the changed piece is new. A page is removed with its last use.", "small"))
    write("tables", 880, top + 295, drawn)


def steps_of_page():
    """The numbered steps of a request, by the page."""
    _, _, behind = read(PATH_PAGE).partition("\n## The path of a request\n")
    return {int(number): said for number, said in re.findall(r"^(\d+)\. (.*)$", behind.partition("\n## ")[0], re.M)}


def labels():
    """The number of each row of POST. Rows of one step also have a letter."""
    steps = [step for step, *_ in POST]
    return [f"{step}{'abcdefgh'[steps[:n].count(step)] if steps.count(step) > 1 else ''}" for n, step in enumerate(steps)]


def draw_post():
    for _, crate, function, _ in POST:
        if not any(re.search(rf"\bfn {function}\b", read(file)) for file in glob.glob(f"{TOP}/crates/{crate}/src/*.rt")):
            fail(f"function {function} in {crate}")
    said_by_page = steps_of_page()
    if sorted(said_by_page) != sorted({step for step, *_ in POST}):
        fail(f"such steps as are drawn here in {PATH_PAGE}: {sorted(said_by_page)}")
    for step, said in said_by_page.items():
        if not any(re.search(rf"\b{word}\b", said) for at, *names, _ in POST if at == step for word in names):
            fail(f"step {step} with a crate or function that is drawn here in {PATH_PAGE}")
    left, step, wide, row, top = 16, 96, 90, 38, 56
    at = {lane: left + step * n for n, lane in enumerate(LANES)}
    tall, end = top + row * len(POST) + 14, left + step * len(LANES) + 140
    drawn = []
    for lane in LANES:
        x = at[lane] + wide / 2
        drawn += [words(x, 30, lane, "name", "middle"), f'<line x1="{x:.0f}" y1="40" x2="{x:.0f}" y2="{tall - 10}" stroke="#ddd"/>']
    colors = {"tables": GREEN, "statements": GREEN, "texts": GREEN, "pages": GREEN, "machine": YELLOW}
    for n, (label, (_, crate, function, said)) in enumerate(zip(labels(), POST)):
        y, x = top + row * n, at[crate]
        before = at[POST[n - 1][1]] if n else -1
        if n:
            start = (before + wide / 2, y - row + 24)
            drawn.append(path([start, (before + wide / 2, y + 12), (x if before < x else x + wide, y + 12)]))
        drawn += [box(x, y, wide, 24, colors.get(crate, BLUE)), words(x + wide / 2, y + 16, function, "fine", "middle")]
        said = f"{label}. {said}"
        if before > x and x < 6 * len(said):
            drawn.append(words(x + wide + 8, y + 27, said, "small"))
        elif before > x:
            drawn.append(words(x - 8, y + 16, said, "small", "end"))
        else:
            drawn.append(words(x + wide + 8, y + 16, said, "small"))
    write("post", end, tall, drawn)


# What the picture of a deployment names: each file must have these words.
DEPLOYED = {
    "docs/operating/nginx.conf": ["listen 443 ssl", "map $custody_token $custody_own", "unix:/run/custody/socket", "location /v1/", "location = /health"],
    "docs/operating/functions.sh": ["unix:/run/custody/$1/socket"],
    "docs/operating/custody@.service": ["--socket /run/custody/%i/socket", "--log", "--operator", "/root/operators/%i", "/var/lib/custody/%i/custody.db"],
    "docs/operating/custody.service": ["--socket /run/custody/socket", "/var/lib/custody/custody.db"],
    "docs/operating/custody-backup@.service": ["backup-daily.sh"],
    "docs/operating/backup.sh": ["kill -STOP"],
    "docs/operating/backup-daily.sh": ["custody check", "rsync"],
    "docs/operating/runner.sh": ["terraform apply"],
    "crates/route/src/doors.rt": ["/operator"],
}
# The services that the picture has: whose it is, and what its file has.
SERVED = [("acme", "its states and tokens"), ("beta", "its states and tokens"), ("none", "empty")]


def part(x, y, wide, tall, colors, name, *lines):
    """A box with a name and small lines."""
    drawn = [box(x, y, wide, tall, colors), words(x + wide / 2, y + 19, name, "name", "middle")]
    return drawn + [words(x + wide / 2, y + 36 + 15 * n, line, "small", "middle") for n, line in enumerate(lines)]


def draw_deployment():
    for file, names in DEPLOYED.items():
        for name in names:
            if name not in read(f"{TOP}/{file}"):
                fail(f"{name} in {file}")
    drawn = [box(204, 14, 662, 430, ("#fafafa", "#bbb")), words(216, 34, "one machine", "name")]
    drawn += [box(896, 244, 176, 200, ("#fafafa", "#bbb")), words(908, 264, "another machine", "name")]
    drawn += part(10, 150, 144, 62, YELLOW, "Terraform", 'backend "http"', "token as user name")
    drawn += part(10, 252, 144, 62, YELLOW, "runner.sh", "takes a queued run,", "plans and applies")
    drawn += part(220, 142, 152, 93, BLUE, "nginx", "TLS; the user name", "becomes a bearer token;", "its organization", "chooses the service")
    drawn += part(466, 30, 184, 46, GRAY, "journald", "the exchange log of all")
    drawn += [box(456, 96, 204, 212, ("#fff", BLUE[1])), box(686, 96, 166, 212, ("#fff", GREEN[1]))]
    for n, (org, holds) in enumerate(SERVED):
        y = 106 + 66 * n
        drawn += part(466, y, 184, 46, BLUE, f"custody@{org}", f"/run/custody/{org}/socket")
        drawn += part(696, y, 146, 46, GREEN, f"{org}/custody.db", holds)
        drawn += [path([(414, y + 23), (466, y + 23)]), path([(650, y + 23), (696, y + 23)])]
    drawn += part(466, 370, 184, 62, YELLOW, "operator", "organizations and tokens,", "as commands")
    drawn += part(686, 370, 166, 62, BLUE, "backup-daily.sh", "of each: pauses, copies,", "checks")
    drawn += part(912, 370, 144, 62, GREEN, "copies", "of each, one a day,", "checked")
    notes = ["no replication: a standby", "starts from copies, or from", "a replicated device below", "the files (GROWING.md)"]
    drawn += [words(908, 286 + 15 * n, line, "small") for n, line in enumerate(notes)]
    drawn += [path([(154, 181), (220, 181)]), words(179, 173, "HTTPS", "small", "middle")]
    drawn += [path([(154, 283), (187, 283), (187, 215), (220, 215)])]
    drawn += [path([(372, 188), (414, 188)], tip=False), path([(414, 129), (414, 261)], tip=False), words(393, 180, "HTTP", "small", "middle")]
    drawn += [path([(558, 96), (558, 76)]), words(566, 91, "--log", "small")]
    drawn += [path([(520, 370), (520, 308)]), words(512, 336, "/operator,", "small", "end"), words(512, 351, "a secret each", "small", "end")]
    drawn += [path([(650, 388), (672, 388), (672, 290), (686, 290)], "dash"), words(664, 336, "while that service", "small", "end"), words(664, 351, "is stopped", "small", "end")]
    drawn += [path([(769, 308), (769, 370)]), path([(852, 401), (912, 401)]), words(882, 393, "rsync", "small", "middle")]
    drawn.append(words(10, 466, "Yellow: who asks. Blue: programs. Green: files, each with its WAL. A service answers one connection at a time, and syncs each commit.", "small"))
    drawn.append(words(10, 482, "Only members of the group custody reach a socket. custody@none answers what names no organization that nginx knows.", "small"))
    drawn.append(words(10, 498, "With one file, the unit custody at /run/custody/socket stands in place of all services, and /var/lib/custody/custody.db in place of all files; everything else is the same.", "small"))
    write("deployment", 1084, 510, drawn)


# What the picture of a second machine names.
PAIRED = {
    "docs/GROWING.md": ["protocol C", "fence-peer", "drbdadm primary custody", "/dev/drbd0", "upstream pair", "/srv/custody-standby", "restore.sh custody"],
    "docs/operating/custody-standby.timer": ["OnCalendar=*:0/5"],
    "docs/operating/backup-standby.sh": ["custody check", "rsync"],
}


def machine(x, y, wide, tall, name):
    return [box(x, y, wide, tall, ("#fafafa", "#bbb")), words(x + 12, y + 20, name, "name")]


def draw_pair():
    for file, names in PAIRED.items():
        for name in names:
            if name not in read(f"{TOP}/{file}"):
                fail(f"{name} in {file}")
    drawn = [words(20, 24, "A pair over DRBD: nothing that was acknowledged is lost", "name")]
    drawn += machine(20, 130, 214, 240, "a") + machine(316, 130, 214, 240, "b")
    drawn += part(195, 44, 160, 50, BLUE, "nginx", "asks both machines")
    drawn += part(36, 164, 182, 62, BLUE, "nginx, custody serve", "serves, and has mounted", "/dev/drbd0")
    drawn += part(332, 164, 182, 62, GRAY, "nginx, custody", "stopped until a is fenced:", "drbdadm primary custody")
    drawn += part(36, 300, 182, 50, GREEN, "its disk", "custody.db, custody.db-wal")
    drawn += part(332, 300, 182, 50, GREEN, "its disk", "equal to that of a")
    drawn += [path([(235, 94), (127, 164)]), path([(315, 94), (423, 164)], "dash"), words(390, 118, "503, or nobody", "small")]
    drawn += [path([(127, 226), (127, 300)]), words(119, 266, "syncs", "small", "end")]
    drawn += [path([(218, 325), (332, 325)]), words(275, 317, "each write,", "small", "middle"), words(275, 342, "protocol C", "small", "middle")]
    drawn += [path([(514, 180), (546, 180), (546, 400), (127, 400), (127, 370)], "dash"), words(330, 416, "fence-peer: cuts the other machine's power before b takes over", "small", "middle")]
    drawn += [words(570, 24, "Copies every five minutes: these minutes can be lost", "name")]
    drawn += machine(570, 130, 214, 240, "first machine") + machine(836, 130, 214, 240, "second machine")
    drawn += part(597, 44, 160, 50, BLUE, "nginx", "asks the first machine")
    drawn += part(586, 164, 182, 46, BLUE, "custody serve", "paused while it is copied")
    drawn += part(586, 236, 182, 46, GREEN, "custody.db", "and its WAL")
    drawn += part(586, 308, 182, 46, BLUE, "backup-standby.sh", "copies, checks, sends")
    drawn += part(852, 164, 182, 46, GRAY, "custody serve", "not started yet")
    drawn += part(852, 236, 182, 46, GRAY, "restore.sh", "checks, moves, starts")
    drawn += part(852, 308, 182, 46, GREEN, "/srv/custody-standby", "custody.db, checked")
    drawn += [path([(720, 94), (720, 164)]), path([(677, 210), (677, 236)]), path([(677, 282), (677, 308)])]
    drawn += [path([(768, 331), (852, 331)]), words(810, 323, "rsync", "small", "middle")]
    drawn += [path([(943, 308), (943, 282)], "dash"), path([(943, 236), (943, 210)], "dash")]
    drawn.append(words(836, 392, "by hand, once the first machine is off", "small"))
    write("pair", 1070, 430, drawn)


def steps_of(text, words_of):
    """The steps of queued runs, by status: (action's word, the next status); `planned` is where a plan leads without auto-apply."""
    queued = re.search(r"queued_steps planned =\n(.*?)\n\n", text, re.S)[1]
    found = re.findall(r"run_step (\w+) (\w+) (\w+)", queued)
    return [(old, words_of[action], "Planned" if new == "planned" else new) for old, action, new in found] or fail("steps of runs")


def center(name):
    return RUNS[name]


def draw_runs(drawn, top):
    source = read(WORDS)
    status = dict(re.findall(r'RunStatus::(\w+) => "(\w+)"', source))
    action = dict(re.findall(r'RunAction::(\w+) => "(\w+)"', source))
    if set(status) != set(RUNS):
        fail("such statuses of runs as are drawn here: " + " ".join(status))
    steps, labels = steps_of(read(STEPS), action), {}
    for old, word, new in steps:
        labels.setdefault((old, new), []).append(word)
    drawn.append(words(20, top + 24, "A queued run. It holds its workspace while it is planning, planned or applying.", "name"))
    holds = {"Planning", "Planned", "Applying"}
    if set(labels) != set(WAYS):
        fail("such steps of runs as are drawn here")
    for step, (points, (x, y)) in WAYS.items():
        drawn += [path([(at_x, at_y + top) for at_x, at_y in points]), words(x, y + top, ", ".join(labels[step]), "code", "middle")]
    x, y = center("Pending")
    to_x, to_y = center("Planning")
    drawn += [path([(x + 62, y + top), (to_x - 62, to_y + top)]), words((x + to_x) / 2, y + top - 8, "starts", "small", "middle")]
    drawn += [words((x + to_x) / 2, y + top + 28, "nobody holds", "small", "middle")]
    x, y = center("Planning")
    to_x, _ = center("Applying")
    drawn += [path([(x, y - 15 + top), (x, y - 38 + top), (to_x, y - 38 + top), (to_x, y - 15 + top)]), words((x + to_x) / 2, y - 43 + top, f"{action['ReportPlanned']}, with auto-apply", "code", "middle")]
    ended = {name for name in RUNS if name not in holds and name != "Pending"}
    for name in RUNS:
        x, y = center(name)
        colors = YELLOW if name in holds else (GRAY if name in ended else BLUE)
        drawn += [box(x - 62 if name != "PlannedAndFinished" else x - 90, y - 15 + top, 124 if name != "PlannedAndFinished" else 180, 30, colors, 15), words(x, y + 5 + top, status[name], "name", "middle")]
    drawn.append(words(20, top + 335, "A plan-only run begins as planning and never holds: after its plan it is planned_and_finished. Blue: waits. Yellow: holds. Gray: ended.", "small"))


def draw_token(drawn, top):
    known = "\n".join(read(file) for file in [*glob.glob(f"{TOP}/crates/command_line/src/*.rt"), *glob.glob(f"{TOP}/crates/basis/src/*.rt")])
    for word in ("token-add", "token-revoke", "until", "prefix", "bad-token", "not-found"):
        if word not in known:
            fail(word)
    drawn.append(words(20, top + 24, "A token", "name"))
    spots = [(110, "unknown", "401 bad-token", GRAY), (390, "valid", "what role and prefix allow", YELLOW), (690, "ended", "401 bad-token; its name stays taken", RED)]
    for x, name, said, colors in spots:
        drawn += [box(x - 70, top + 55, 140, 30, colors, 15), words(x, top + 75, name, "name", "middle"), words(x, top + 102, said, "small", "middle")]
    drawn += [path([(180, top + 65), (320, top + 65)]), words(250, top + 58, "token-add", "code", "middle")]
    drawn += [path([(460, top + 70), (620, top + 70)]), words(540, top + 62, "the moment of --until", "small", "middle")]
    drawn += [path([(320, top + 78), (180, top + 78)]), words(250, top + 94, "token-revoke", "code", "middle")]
    drawn += [path([(690, top + 108), (690, top + 128), (110, top + 128), (110, top + 108)]), words(400, top + 123, "token-revoke", "code", "middle")]
    drawn.append(words(20, top + 155, "Outside its prefix a valid token gets 404 not-found. A lock that it took stays when it ends.", "small"))


def draw_lives():
    drawn = []
    draw_runs(drawn, 10)
    draw_token(drawn, 370)
    write("lives", 910, 540, drawn)


# ----------------------------------------------------------------------------------------------------
# Which crate uses which
# ----------------------------------------------------------------------------------------------------

PROGRAM, TESTS = "custody", "stories"
CRATES_WIDE, BOX, TALL, STEP, GAP = 1_010, 178, 42, 78, 24
CRATE_COLORS = {True: BLUE, False: YELLOW}


def read_list():
    """Each crate with the crates of the repository that it uses, and with those of the kit."""
    with open(f"{TOP}/crates.txt", encoding="utf-8") as it:
        lines = [line.split("#")[0].split(":") for line in it if ":" in line.split("#")[0]]
    named = {name.strip(): uses.split() for name, uses in lines}
    own = {name: [use for use in uses if use in named] for name, uses in named.items()}
    return own, {name: [use for use in uses if use not in named] for name, uses in named.items()}


def below(own, name):
    """All crates that one uses, or that they use."""
    found = set()
    for use in own[name]:
        found |= {use} | below(own, use)
    return found


def lines_of(own):
    """The pairs of a crate and one that it uses, without those that follow from others."""
    return [(name, use) for name in own for use in own[name] if not any(use in below(own, other) for other in own[name])]


def floors(own):
    """The floor of each crate: one above the highest that it uses."""
    floor = {}
    while len(floor) < len(own):
        for name, uses in own.items():
            if all(use in floor for use in uses):
                floor[name] = 1 + max((floor[use] for use in uses), default=-1)
    return floor


def with_bends(pairs, floor):
    """Lines from floor to floor. One over several floors gets a bend on each between, which lines to the same crate share."""
    parts, rows = set(), [[name for name in floor if floor[name] == n] for n in range(1 + max(floor.values()))]
    for name, use in pairs:
        upper = name
        for n in range(floor[name] - 1, floor[use], -1):
            bend = (use, n)
            if bend not in rows[n]:
                rows[n].append(bend)
            parts.add((upper, bend))
            upper = bend
        parts.add((upper, use))
    return sorted(parts, key=str), rows


def cost(rows, parts):
    """How often lines cross, and how far they lean."""
    at = {it: (n, place - (len(row) - 1) / 2) for n, row in enumerate(rows) for place, it in enumerate(row)}
    ends = [(at[upper][0], at[upper][1], at[lower][1]) for upper, lower in parts]
    crossed = sum(a[0] == b[0] and (a[1] - b[1]) * (a[2] - b[2]) < 0 for a, b in itertools.combinations(ends, 2))
    return crossed, sum(abs(upper - lower) for _, upper, lower in ends)


def in_order(rows, parts):
    """An order on each floor by which lines cross seldom: the best of those that begin with 20 fixed ones."""
    best = rows
    for seed in range(20):
        tried = [random.Random(seed).sample(row, len(row)) for row in rows]
        for _ in range(4):
            for n, row in enumerate(tried):
                orders = ([*tried[:n], list(order), *tried[n + 1:]] for order in itertools.permutations(row))
                tried = min(orders, key=lambda rows: cost(rows, parts))
        best = min(best, tried, key=lambda rows: cost(rows, parts))
    return best


def half(it):
    return BOX / 2 if isinstance(it, str) else 6


def places(rows, parts):
    """How far to the right each is: between its neighbours above and below, as near as the order lets it."""
    near = {it: [a if b == it else b for a, b in parts if it in (a, b)] for row in rows for it in row}
    at = {it: CRATES_WIDE / 2 + (place - (len(row) - 1) / 2) * (BOX + GAP) for row in rows for place, it in enumerate(row)}
    for _ in range(400):
        for row in rows:
            for place, it in enumerate(row):
                low = 10 + half(it) if place == 0 else at[row[place - 1]] + half(row[place - 1]) + GAP + half(it)
                high = CRATES_WIDE - 10 - half(it) if place == len(row) - 1 else at[row[place + 1]] - half(row[place + 1]) - GAP - half(it)
                wanted = sum(at[other] for other in near[it]) / len(near[it]) if near[it] else at[it]
                at[it] = max(low, min(high, wanted))
    return at


def line(x, y, to_x, to_y):
    return f'<line x1="{x:.0f}" y1="{y}" x2="{to_x:.0f}" y2="{to_y}"/>'


def kit_words(names):
    """The kit's crates in one line: those of SQLite as one, and those for which there is no room as two points."""
    said = ""
    for name in dict.fromkeys("sqlite" if name.startswith("sqlite") else name for name in names):
        if len(said) + len(name) > 26:
            return f"{said}, .."
        said = f"{said}, {name}" if said else name
    return said


def draw_crates():
    own, kit = read_list()
    parts, rows = with_bends(lines_of(own), floors(own))
    rows = in_order(rows, parts)
    at, program = places(rows, parts), below(own, PROGRAM) | {PROGRAM}
    top = {it: 40 + STEP * (len(rows) - 1 - n) for n, row in enumerate(rows) for it in row}
    drawn = [line(at[upper], top[upper] + TALL, at[lower], top[lower]) for upper, lower in parts]
    drawn += [line(at[it], top[it], at[it], top[it] + TALL) for row in rows for it in row if not isinstance(it, str)]
    for it in (it for row in rows for it in row if isinstance(it, str)):
        drawn.append(box(at[it] - BOX / 2, top[it], BOX, TALL, CRATE_COLORS[it in program]))
        uses = kit_words(kit[it])
        drawn.append(words(at[it], top[it] + (18 if uses else 26), it, "name", "middle"))
        if uses:
            drawn.append(words(at[it], top[it] + 33, uses, "kit", "middle"))
    for place, (inside, text) in enumerate([(True, f"below the program {PROGRAM}"), (False, f"for tests alone, below the program {TESTS}")]):
        x = 20 + 240 * place
        drawn.append(f'<rect x="{x}" y="10" width="12" height="12" fill="{CRATE_COLORS[inside][0]}" stroke="{CRATE_COLORS[inside][1]}"/>')
        drawn.append(f'<text x="{x + 18}" y="21">{text}</text>')
    write("crates", CRATES_WIDE, 40 + STEP * len(rows), drawn, "text{font:13px sans-serif;fill:#222}.name{font-weight:bold}.kit{font-size:11px;fill:#555}line{stroke:#888;stroke-width:1.5}", "")


# ----------------------------------------------------------------------------------------------------
# What is measured
# ----------------------------------------------------------------------------------------------------

PERFORMANCE = f"{TOP}/docs/PERFORMANCE.md"
CURVES = ["#1b6ca8", "#c0392b", "#2e8b57", "#8e44ad", "#d68910", "#16a085", "#7f8c8d", "#2c3e50", "#b03a2e"]
LEFT, WIDE, ROW = 300, 460, 22


def table_of(text, heading):
    """The rows of the first table behind a heading, without its head."""
    _, _, behind = text.partition(f"\n## {heading}")
    lines = re.search(r"(?:^\|.*\n)+", behind, re.M).group().splitlines()
    return [[cell.strip() for cell in line.strip("|").split("|")] for line in lines[2:]]


def label(x, y, text, more=""):
    return f'<text x="{x:.0f}" y="{y:.0f}" {more}>{escaped(text)}</text>'


def axes(names, top, height):
    """The names of the axes: below, and upright on the left."""
    below, left = names
    x, y = LEFT - 56, top + 14 + height / 2
    return [
        label(LEFT + WIDE / 2, top + height + 50, below, 'text-anchor="middle" class="axis"'),
        label(x, y, left, f'text-anchor="middle" class="axis" transform="rotate(-90 {x:.0f} {y:.0f})"'),
    ]


def curves(counts, times, at_x, at_y, top, height):
    """The counts below, and for each name a line with its legend."""
    drawn = [label(at_x(count), top + height + 32, f"{count:,}", 'text-anchor="middle"') for count in counts]
    for place, (name, spent) in enumerate(times.items()):
        color = CURVES[place % len(CURVES)]
        points = " ".join(f"{at_x(count):.0f},{at_y(time):.0f}" for count, time in zip(counts, spent))
        drawn.append(f'<polyline points="{points}" fill="none" stroke="{color}" stroke-width="2"/>')
        drawn.append(f'<rect x="20" y="{top + 20 + 18 * place}" width="12" height="12" fill="{color}"/>')
        drawn.append(label(38, top + 30 + 18 * place, name))
    return drawn


def ratio_of(row):
    """The middle, the least and the greatest ratio of a row."""
    found = re.fullmatch(r"([\d.]+) \(([\d.]+)–([\d.]+)\)", row[3])
    return tuple(map(float, found.groups())) if found else sys.exit(f"{PERFORMANCE}: no ratio with its least and greatest in the row of {row[0]}")


def bars(rows, top):
    """A bar for each request, as long as its ratio, and a thin line from the least to the greatest."""
    ratios = [ratio_of(row) for row in rows]
    marks = math.ceil(max(most for *_, most in ratios))
    scale, drawn = WIDE / marks, [label(20, top, "Beside a server in C, in memory", 'class="head"')]
    end = top + 14 + ROW * len(rows)
    for place, (row, (ratio, least, most)) in enumerate(zip(rows, ratios)):
        y = top + 14 + ROW * place
        drawn.append(label(LEFT - 8, y + 14, row[0], 'text-anchor="end"'))
        drawn.append(f'<rect x="{LEFT}" y="{y + 2}" width="{ratio * scale:.0f}" height="{ROW - 6}" fill="{CURVES[0]}"/>')
        low, high = LEFT + least * scale, LEFT + most * scale
        for x, to_x, up, down in [(low, high, 10, 10), (low, low, 6, 14), (high, high, 6, 14)]:
            drawn.append(f'<line x1="{x:.1f}" y1="{y + up}" x2="{to_x:.1f}" y2="{y + down}" class="range"/>')
        drawn.append(label(LEFT + WIDE + 40, y + 14, f"{ratio:.2f}", 'text-anchor="end"'))
    for mark in range(marks + 1):
        x, kind = LEFT + mark * scale, {1: "one", 2: "limit"}.get(mark, "grid")
        drawn.append(f'<line x1="{x:.0f}" y1="{top + 10}" x2="{x:.0f}" y2="{end}" class="{kind}"/>')
        drawn.append(label(x, end + 14, str(mark), 'text-anchor="middle"'))
    drawn.append(label(LEFT + WIDE / 2, end + 32, "time of custody / time of the server in C", 'text-anchor="middle" class="axis"'))
    drawn.append(label(20, end + 52, "Bar: the middle of three runs. Thin line: the least to the greatest. Solid line: as fast as C. Dashed line: twice C's time.", 'class="axis"'))
    return drawn, end + 86


def growth(rows, top):
    """A line for each exchange, over workspaces by tens."""
    counts, height = [10, 1_000, 99_800], 260
    times = {row[0]: [float(cell.split()[0].replace(",", "")) for cell in row[1:4]] for row in rows if "(" in row[1]}
    low, high = math.floor(math.log10(min(map(min, times.values())))), math.ceil(math.log10(max(map(max, times.values()))))
    at_x = lambda count: LEFT + (math.log10(count) - 1) / 4 * WIDE
    at_y = lambda time: top + 14 + height * (high - math.log10(time)) / (high - low)
    drawn = [label(20, top, "Growth with the organization's workspaces, in memory", 'class="head"')]
    drawn += axes(("workspaces of the organization (logarithmic)", "microseconds (logarithmic)"), top, height)
    for power in range(low, high + 1):
        y = at_y(10 ** power)
        drawn.append(f'<line x1="{LEFT}" y1="{y:.0f}" x2="{LEFT + WIDE}" y2="{y:.0f}" class="grid"/>')
        drawn.append(label(LEFT - 8, y + 4, f"{10 ** power:,}", 'text-anchor="end"'))
    return drawn + curves(counts, times, at_x, at_y, top, height), top + height + 86


def versions(rows, top):
    """A line for GET and one for POST, over versions kept by tens."""
    counts, height = [int(row[0].replace(",", "")) for row in rows], 160
    times = {name: [float(row[at]) for row in rows] for at, name in ((1, "GET"), (2, "POST"))}
    high = math.ceil(max(map(max, times.values())) * 10) / 10
    at_x = lambda count: LEFT + math.log10(count) / math.log10(counts[-1]) * WIDE
    at_y = lambda time: top + 14 + height * (1 - time / high)
    drawn = [label(20, top, "Growth with the versions that a workspace keeps", 'class="head"')]
    drawn += axes(("versions kept (logarithmic)", "milliseconds of processor"), top, height)
    for mark in range(0, round(high * 10) + 1, 2):
        y = at_y(mark / 10)
        drawn.append(f'<line x1="{LEFT}" y1="{y:.0f}" x2="{LEFT + WIDE}" y2="{y:.0f}" class="grid"/>')
        drawn.append(label(LEFT - 8, y + 4, f"{mark / 10:.1f}", 'text-anchor="end"'))
    return drawn + curves(counts, times, at_x, at_y, top, height), top + height + 86


def draw_performance():
    text = read(PERFORMANCE)
    above, top = bars(table_of(text, "Beside a server in C"), 30)
    below, top = growth(table_of(text, "What grows with what"), top)
    last, end = versions(table_of(text, "What grows with versions"), top)
    write("performance", 820, end - 26, [*above, *below, *last], "text{font:13px sans-serif;fill:#222}.head{font-weight:bold}.grid{stroke:#ddd}.one{stroke:#222}.limit{stroke:#c0392b;stroke-dasharray:4 3}.range{stroke:#d68910;stroke-width:2}.axis{font-size:12px;fill:#555}", "")


DRAWINGS = {"crates": draw_crates, "performance": draw_performance, "tables": draw_tables, "post": draw_post, "lives": draw_lives, "deployment": draw_deployment, "pair": draw_pair}


def main():
    unknown = [name for name in sys.argv[1:] if name not in DRAWINGS]
    if unknown:
        sys.exit(f"pictures.py: there is no picture {unknown[0]}; there are {', '.join(DRAWINGS)}")
    for name in sys.argv[1:] or DRAWINGS:
        DRAWINGS[name]()


if __name__ == "__main__":
    main()
