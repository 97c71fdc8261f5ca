#!/usr/bin/env python3
"""Tests the operator's door of a service: `serve --operator`, by requests over 127.0.0.1 and exact replies; and `admin`.

    python3 tools/doors.py CUSTODY    the program as `rt ci` or `rt run` leaves it
    python3 tools/doors.py story      prints the stories of the door: four of the program, for words.txt, with the same requests, replies and lines of the log; and those of a store

It prints a line for each thing that holds, and ends with status 1 at the first that does not.
"""

import base64
import collections
import contextlib
import hashlib
import json
import os
import random
import re
import shutil
import sqlite3
import subprocess
import sys
import threading
import time

from harness import MADE, NEW_FILE, NO_FOLDER, PATIENCE, Service, Wrong, address, free_address, look_at, ok, reply, said, secret_file, wait_until
from harness import OPERATOR as SECRET
from model import AT, CONTINUE, KEYS

TOKEN = b"writewritewrite1"
ADMIN = b"Bearer acme.adminadminadmin1"
# How many clients work while the operator does, and how many rounds each has to complete before and after.
CLIENTS, ROUNDS = 40, 3
DATE = b"Tue, 14 Nov 2023 22:13:20 GMT"
# The most bytes of a WAL that has no change: its header.
BARE_WAL = 41
# Commands and requests behind each of which SQLite reads the rows of a running service. Commands come in the first half of each hundred,
# because they make the service forget.
MEMORY_STEPS = 2_000
# The tokens of each of two organizations: together more than the eight that a service remembers.
NAMES = ["root", "ci", "t2", "t3", "t4", "t5"]
# The name of an operator whose secret stands alone; and how many operators there may be, in how many bytes.
LONE, MOST_OPERATORS, MOST_BYTES = "operator", 100, 65536
# Operators, two of whom end at one moment, and two at another. Secrets differ in one letter.
CREW = b"""\
eye listlistlistlist1 list
gone gonegonegonegone1 until=%d
ops listlistlistlist2
brief gonegonegonegone2 until=%d
brief-eye gonegonegonegone3 until=%d list
gone-eye gonegonegonegone4 until=%d list
operatoroperator1
o listlistlistlist3 until=253402300799"""
# Seconds after which two of them end while a service runs.
TERM = 6
# How many texts by chance are read as operators, and the greatest moment at which one may end.
TEXTS, LAST = 400, 253402300799

REFUSED = {
    "no-method": reply(b"405 Method Not Allowed\r\nAllow: POST", b'{"error":"no-method"}'),
    "bad-query": reply(b"400 Bad Request", b'{"error":"bad-query"}'),
    "bad-token": reply(b'401 Unauthorized\r\nWWW-Authenticate: Operator realm="custody"', b'{"error":"bad-token"}'),
    "bad-digest": reply(b"400 Bad Request", b'{"error":"bad-digest"}'),
    "bad-body": reply(b"400 Bad Request", b'{"error":"bad-body"}'),
    "bad-message": reply(b"400 Bad Request", b'{"error":"bad-message"}'),
    "need-admin": reply(b'403 Forbidden\r\nWWW-Authenticate: Bearer realm="custody", error="insufficient_scope"', b'{"error":"need-admin"}'),
    "no-route": reply(b"404 Not Found", b'{"error":"no-route"}'),
}
# The MD5 of no body here.
OTHER_MD5 = b"Content-MD5: " + base64.b64encode(bytes(16))
# Refusals before a secret is judged, or of the secret: their lines name no operator.
NAMELESS = ["no-method", "bad-query", "bad-token"]
STATUSES = {b"ok\n": b"200 OK", b"refused exists\n": b"409 Conflict", b"refused absent\n": b"404 Not Found", b"refused in-use\n": b"409 Conflict"}
NO_FILE = b"custody: there is no file at the path, or it is empty; only org-add, serve without --check, and --to create one\n"
BAD_LINE, STOPPED = b"custody: bad line %d\n", b"custody: stopped at line %d\n"
RETURN = b"custody: the line ends with a carriage return: each line must end with LF, not with CR LF\n"
# Lines that are no commands, and what the program says of each.
FAULTS = {
    b"org-add \xff": b"the line is not UTF-8",
    b"org-list" + b" " * 4089: b"the line has more than 4096 bytes",
    b"no command": b"the line does not begin with a command that admin --help lists",
    b" # no remark": b"the line does not begin with a command that admin --help lists",
    b"org-add": b"the line must be: org-add ORG [LIMIT], with one space between words",
    b"org-add acme  7": b"the line must be: org-add ORG [LIMIT], with one space between words",
    b"org-limit acme": b"the line must be: org-limit ORG N, with one space between words",
    b"org-remove acme --force": b"the line must be: org-remove ORG [force], with one space between words",
    b"org-list # no remark": b"the line must be: org-list, without other words",
    b"token-add acme ci write": b"the line must be: token-add ORG NAME ROLE SECRET [until=SECONDS] [prefix=TEXT], with one space between words",
    b"token-add acme ci write %s prefix=a until=1" % TOKEN: b"the line must be: token-add ORG NAME ROLE SECRET [until=SECONDS] [prefix=TEXT], with one space between words",
    b"token-list": b"the line must be: token-list ORG, with one space between words",
    b"token-revoke acme": b"the line must be: token-revoke ORG NAME, with one space between words",
    b"token-list Acme": b"the value of ORG must be 1 to 40 of a-z, 0-9 and '-', starting with a letter",
    b"token-add Acme CI all short until=x": b"the value of ORG must be 1 to 40 of a-z, 0-9 and '-', starting with a letter",
    b"token-add acme CI all short until=x": b"the value of NAME must be 1 to 40 of a-z, 0-9 and '-', starting with a letter",
    b"token-add acme ci all short until=x": b"the value of ROLE must be read, write or admin",
    b"token-add acme ci read short until=x": b"the value of SECRET must be 16 to 64 ASCII letters or digits",
    b"token-add acme ci read %s until=x" % TOKEN: b"the value of until= must be 0 to 253402300799 without a leading zero",
    b"token-add acme ci read %s until=1 prefix=." % TOKEN: b"the value of prefix= must be 0 to 90 ASCII letters, digits, '-' and '_'",
    b"org-add acme 007": b"the value of LIMIT must be 0 to 100000 without a leading zero",
    b"org-limit acme +7": b"the value of N must be 0 to 100000 without a leading zero",
}
# The act of each command, as the log has it; and those that an operator may ask for who may only list.
ACTS = {
    b"org-add": "add organization",
    b"org-limit": "limit organization",
    b"org-list": "list organizations",
    b"org-remove": "remove organization",
    b"stop": "stop",
    b"token-add": "add token",
    b"token-list": "list tokens",
    b"token-revoke": "revoke token",
}
LISTS = [b"org-list", b"token-list"]
# What the program says of lines that are no operators.
FORM = b"the line must be: NAME SECRET [until=SECONDS] [list], or SECRET alone, with one space between words"
NAME = b"the value of NAME must be 1 to 40 of a-z, 0-9 and '-', starting with a letter"
SECRET_VALUE = b"the value of SECRET must be 16 to 64 ASCII letters or digits"
UNTIL = b"the value of until= must be 0 to 253402300799 without a leading zero"
SAME_NAME, SAME_SECRET = b"a line before has the same NAME", b"a line before has the same SECRET"
MANY, NONE = b"there are more than 100 operators", b"there is no operator"
LONG_INPUT = b"the lines of the operators have more than 65536 bytes"
TOO_LONG, ENCODING = b"the line has more than 4096 bytes", b"the line is not UTF-8"
CR = RETURN.removeprefix(b"custody: ").removesuffix(b"\n")
# What a service with a door may find on its standard input: the number of the line that is no operator (0: all of them), and what is at
# fault in it.
UNREAD = {
    b"": (1, NONE),
    b"\n": (1, SECRET_VALUE),
    b"\n\n": (1, SECRET_VALUE),
    SECRET + b"\n\n": (2, SECRET_VALUE),
    b"ops listlistlistlist1\n\neye listlistlistlist2\n": (2, SECRET_VALUE),
    b"short\n": (1, SECRET_VALUE),
    b"short": (1, SECRET_VALUE),
    b"a" * 65: (1, SECRET_VALUE),
    b"ops " + b"a" * 15: (1, SECRET_VALUE),
    b"ops " + b"a" * 65: (1, SECRET_VALUE),
    b"ops operatoroperator-": (1, SECRET_VALUE),
    b"ops  " + SECRET: (1, SECRET_VALUE),
    SECRET + b" \n": (1, SECRET_VALUE),
    SECRET + b" ops\n": (1, SECRET_VALUE),
    b"list " + SECRET + b" list\nlist list " + SECRET: (2, SECRET_VALUE),
    b"ops until=1 " + SECRET: (1, SECRET_VALUE),
    b" " + SECRET: (1, NAME),
    b"Ops " + SECRET: (1, NAME),
    b"1ops short until=x\n": (1, NAME),
    b"-ops " + SECRET: (1, NAME),
    b"o_s " + SECRET: (1, NAME),
    b"o" * 41 + b" " + SECRET: (1, NAME),
    b"until=1 ops " + SECRET: (1, NAME),
    b"# operators\n" + SECRET: (1, NAME),
    b"#\n" + SECRET: (1, SECRET_VALUE),
    b"ops\t" + SECRET: (1, SECRET_VALUE),
    b"ops %s " % SECRET: (1, FORM),
    b"ops %s  list" % SECRET: (1, FORM),
    b"ops %s until=1  list" % SECRET: (1, FORM),
    b"ops %s list until=1" % SECRET: (1, FORM),
    b"ops %s list until=x" % SECRET: (1, FORM),
    b"ops %s list list" % SECRET: (1, FORM),
    b"ops %s until=1 until=2" % SECRET: (1, FORM),
    b"ops %s until=1 list more" % SECRET: (1, FORM),
    b"ops %s until=x lists" % SECRET: (1, FORM),
    b"ops %s List" % SECRET: (1, FORM),
    b"ops %s Until=1" % SECRET: (1, FORM),
    b"ops %s prefix=a" % SECRET: (1, FORM),
    b"ops %s # remark" % SECRET: (1, FORM),
    b"ops %s until=" % SECRET: (1, UNTIL),
    b"ops %s until=01" % SECRET: (1, UNTIL),
    b"ops %s until=-1 list" % SECRET: (1, UNTIL),
    b"ops %s until=253402300800" % SECRET: (1, UNTIL),
    b"ops %s until=1,list" % SECRET: (1, UNTIL),
    b"ops listlistlistlist1\nops listlistlistlist2\n": (2, SAME_NAME),
    b"ops listlistlistlist1\nops listlistlistlist1 list\n": (2, SAME_NAME),
    b"ops listlistlistlist1\n%s\noperator listlistlistlist2\n" % SECRET: (3, SAME_NAME),
    b"operator listlistlistlist1\n" + SECRET: (2, SAME_NAME),
    SECRET + b"\n" + SECRET + b"\n": (2, SAME_NAME),
    b"ops listlistlistlist1\neye listlistlistlist2 list\ngone listlistlistlist1 until=1": (3, SAME_SECRET),
    b"ops %s\n%s\n" % (SECRET, SECRET): (2, SAME_SECRET),
    SECRET + b"\r\n": (1, CR),
    b"ops listlistlistlist1\neye listlistlistlist2\r": (2, CR),
    b"ops listlistlistlist1\n\r\n": (2, CR),
    b"ops listlistlistlist1 %s\r\n" % (b"a" * 5000): (1, CR),
    b"\xff\r": (1, CR),
    b"ops \r%s" % SECRET: (1, SECRET_VALUE),
    b"ops %s %s" % (SECRET, b"a" * 4074): (1, FORM),
    b"ops %s %s" % (SECRET, b"a" * 4075): (1, TOO_LONG),
    b"ops %s %s\n" % (SECRET, b"\xff" * 4075): (1, TOO_LONG),
    b"ops %s\n\xff %s\n" % (SECRET, TOKEN): (2, ENCODING),
    b"Ops short until=\xff": (1, ENCODING),
    b"ops\0 " + SECRET: (1, NAME),
}
NO_TOKEN = reply(b'401 Unauthorized\r\nWWW-Authenticate: Bearer realm="custody", error="invalid_token"', b'{"error":"bad-token"}')


def message(line, body=b"", *fields, secret=b"Operator " + SECRET):
    fields = [b"Host: c", *([] if secret is None else [b"Authorization: " + secret]), *fields, b"Content-Length: %d" % len(body)]
    return b"\r\n".join([line, *fields, b"", body])


def ordered(text):
    """`reply` puts the fields of a refusal after the status; this moves them to where the service has them."""
    head, end, body = text.partition(b"\r\n\r\n")
    lines = head.split(b"\r\n")
    own = [line for line in lines if line.startswith((b"Allow:", b"WWW-Authenticate:"))]
    rest = [line for line in lines if line not in own]
    place = next((i for i, line in enumerate(rest) if line.startswith(b"Content-Type:")), len(rest))
    return b"\r\n".join(rest[:place] + own + rest[place:]) + end + body


class Exchange:
    """A request, the reply that is due, and its line of the log."""

    def __init__(self, what, sent, due, **row):
        self.what, self.sent, self.due = what, sent, ordered(due) if due else due
        self.row = {**{key: None for key in KEYS if key != "at"}, "end": "ok", **row}


def at_door(body, *fields, line=b"POST /operator HTTP/1.1", **secret):
    return message(line, body, *fields, **secret)


def turned(what, sent, word, by=LONE):
    """What is refused to an operator, or to nobody who is known."""
    by = None if word in NAMELESS else by
    return Exchange(what, sent, REFUSED[word], operator=by, subject=None, refusal=word, status=int(REFUSED[word].split(b" ")[1]))


def done(command, text, act, org=None, subject=None, sent=None, by=LONE):
    """A command of an operator, and what the program prints of it."""
    status = STATUSES.get(text, b"200 OK")
    refusal = text.decode().split()[1] if text.startswith(b"refused") else None
    due = reply(status, text).replace(b"application/json", b"text/plain; charset=utf-8")
    row = {"act": act, "organization": org, "refusal": refusal, "status": int(status[:3]), "operator": by, "subject": subject}
    return Exchange(command.decode().strip(), sent or at_door(command), due, **row)


def listed(text=b""):
    return done(b"org-list", text, "list organizations")


def refusals(there=b""):
    """What the door turns away, in the order of its checks, and what does not come to it. Nothing changes; `there` are the lines of the organizations."""
    org = b"org-add acme"
    for method in [b"GET", b"PUT", b"DELETE", b"LOCK", b"UNLOCK"]:
        yield turned("the method %s" % method.decode(), at_door(b"", line=method + b" /operator?a HTTP/1.1", secret=None), "no-method")
    for query in [b"?", b"?a=b", b"?access_token=acme." + TOKEN]:
        yield turned("a query", at_door(org, line=b"POST /operator%s HTTP/1.1" % query, secret=None), "bad-query")
    wrong = [None, b"", b"Operator", b"Operator ", SECRET, b"Bearer " + SECRET, b"Basic " + SECRET, b"Bearer acme." + SECRET, b"Operator acme." + SECRET]
    wrong += [b"Operator " + text for text in [SECRET[:-1], SECRET + b"1", SECRET[:-1] + b"2", SECRET.upper(), SECRET + b" " + SECRET, TOKEN]]
    for secret in wrong:
        yield turned("the field %s" % secret, at_door(b"no command", b"Content-MD5: no", secret=secret), "bad-token")
    yield turned("another MD5", at_door(b"no command", OTHER_MD5), "bad-digest")
    for body in [b"", b"\n", b"no command", b"org-add", b"org-add Acme", b"org-add acme\n\n", b"org-add acme\norg-list", b"org-add  acme", b" org-list", b"org-list acme",
                 b"org-add acme\r\n", b"org-remove acme forced", b"token-add acme ci write " + TOKEN[:-1], b"token-add acme ci owner " + TOKEN, b"token-list", b"org-add \xff",
                 b"org-add acme" + b" " * 4085, b"check", b"serve", b"admin org-list"]:
        yield turned("the body %s" % body[:40], at_door(body), "bad-body")
    yield listed(there)
    for path in [b"//operator", b"/operator/", b"/v1/../operator", b"/Operator", b"/operator%20", b"/%6fperator", b"/v1/operator"]:
        yield Exchange("the path %s" % path, at_door(org, line=b"POST %s HTTP/1.1" % path), REFUSED["no-route"], refusal="no-route", status=404)
    yield Exchange("two fields", at_door(org, b"Authorization: Operator " + SECRET), REFUSED["bad-message"], refusal="bad-message", status=400)
    yield listed(there)


def commands():
    """Each command does what the program's command does, and gets its answer."""
    yield done(b"org-add acme\n", b"ok\n", "add organization", "acme")
    yield done(b"org-add acme 7", b"refused exists\n", "add organization", "acme")
    yield done(b"org-limit acme 3", b"ok\n", "limit organization", "acme")
    yield done(b"org-limit beta 3", b"refused absent\n", "limit organization", "beta")
    yield listed(b"acme 0 3\n")
    yield done(b"token-add acme ci write " + TOKEN, b"ok\n", "add token", "acme", "ci")
    yield done(b"token-add acme other write " + TOKEN, b"refused exists\n", "add token", "acme", "other")
    yield done(b"token-add acme root admin adminadminadmin1 until=253402300799 prefix=ne", b"ok\n", "add token", "acme", "root")
    yield done(b"token-list acme", b"ci write - -\nroot admin 253402300799 ne\n", "list tokens", "acme")
    yield done(b"token-list beta", b"refused absent\n", "list tokens", "beta")
    digest = b"Content-MD5: " + base64.b64encode(hashlib.md5(b"org-list").digest())
    for sent in [
        at_door(b"org-list", digest),
        at_door(b"org-list", secret=b"oPERATOR   " + SECRET),
        at_door(b"org-list", line=b"POST http://c/operator HTTP/1.1"),
    ]:
        yield done(b"org-list", b"acme 0 3\n", "list organizations", sent=sent)
    awaited = done(b"org-list", b"acme 0 3\n", "list organizations", sent=at_door(b"org-list", b"Expect: 100-continue"))
    awaited.due = CONTINUE + awaited.due
    yield awaited
    put = message(b"PUT /v1/acme/workspaces/net HTTP/1.1", secret=ADMIN)
    yield Exchange("a token that was added", put, ok(MADE), act="put workspace", organization="acme", status=200, token="root", workspace="net")
    as_token = message(b"GET /v1/acme/workspaces HTTP/1.1", secret=b"Bearer acme." + SECRET)
    yield Exchange("the operator's secret as a token", as_token, NO_TOKEN, act="list workspaces", organization="acme", refusal="bad-token", status=401)
    lock = message(b"LOCK /v1/acme/state/net HTTP/1.1", b'{"ID":"5f2c"}', secret=ADMIN)
    yield Exchange("a lock", lock, ok(), act="lock", id="5f2c", organization="acme", status=200, token="root", workspace="net")
    yield done(b"org-remove acme", b"refused in-use\n", "remove organization", "acme")
    yield done(b"token-revoke acme root", b"ok\n", "revoke token", "acme", "root")
    yield done(b"token-revoke acme root", b"refused absent\n", "revoke token", "acme", "root")
    gone = message(b"GET /v1/acme/workspaces HTTP/1.1", secret=ADMIN)
    yield Exchange("a token that was revoked", gone, NO_TOKEN, act="list workspaces", organization="acme", refusal="bad-token", status=401)
    yield done(b"org-remove acme force", b"ok\n", "remove organization", "acme")
    yield done(b"org-remove acme", b"refused absent\n", "remove organization", "acme")
    yield listed()


def cuts():
    """Whatever is missing of a request, nothing is answered, and nothing changes."""
    whole = at_door(b"org-add acme")
    for cut in range(len(whole)):
        yield Exchange("%d bytes of a request" % cut, whole[:cut], b"", end="ended")
    yield listed()


def stops():
    """What does not stop a service, and `stop`, which does. Nothing of it changes a record."""
    for line, word in [(b"GET /operator HTTP/1.1", "no-method"), (b"POST /operator?stop HTTP/1.1", "bad-query")]:
        yield turned("stop by %s" % line.decode(), at_door(b"stop", line=line), word)
    for secret in [None, SECRET, b"Bearer " + SECRET, b"Operator " + SECRET[:-1], b"Operator " + SECRET + b"1"]:
        yield turned("stop with the field %s" % secret, at_door(b"stop", secret=secret), "bad-token")
    yield turned("stop with another MD5", at_door(b"stop", OTHER_MD5), "bad-digest")
    for body in [b"stop now", b"stop ", b" stop", b"Stop", b"STOP", b"stop\n\n", b"stop\r\n", b"stop\nstop", b"stop\0", b"stops", b"sto", b"admin stop"]:
        yield turned("the body %s" % body, at_door(body), "bad-body")
    yield listed()
    yield done(b"stop\n", b"ok\n", "stop")


class Operator:
    """An operator of the door, by the words of a line."""

    def __init__(self, words):
        self.name, self.secret, *terms = words if len(words) > 1 else [LONE, *words]
        self.lists_only = "list" in terms
        self.until = next((int(term[6:]) for term in terms if term.startswith("until=")), None)

    def counts(self, at):
        return self.until is None or at < self.until


def fault_in(words):
    """What is at fault in the words of a line, from the left; none if they are an operator's."""
    name, secret, *terms = words if len(words) > 1 else [LONE, *words]
    if not re.fullmatch("[a-z][a-z0-9-]{0,39}", name):
        return NAME
    if not re.fullmatch("[A-Za-z0-9]{16,64}", secret):
        return SECRET_VALUE
    if len(terms) < 3 and terms[-1:] == ["list"]:
        terms.pop()
    if not terms:
        return None
    if len(terms) > 1 or not terms[0].startswith("until="):
        return FORM
    return None if re.fullmatch("0|[1-9][0-9]{0,11}", terms[0][6:]) and int(terms[0][6:]) <= LAST else UNTIL


def fault_of(line, before):
    """What is at fault in a line behind these operators; none if it is a further one."""
    if line.endswith(b"\r"):
        return CR
    if len(line) > 4096:
        return TOO_LONG
    try:
        words = line.decode().split(" ")
    except UnicodeDecodeError:
        return ENCODING
    fault = fault_in(words)
    if fault:
        return fault
    one = Operator(words)
    if len(before) == MOST_OPERATORS:
        return MANY
    if one.name in [other.name for other in before]:
        return SAME_NAME
    return SAME_SECRET if one.secret in [other.secret for other in before] else None


def read_operators(given):
    """The operators of a text; and the number of the first line that is none, with what is at fault in it, or None."""
    if len(given) > MOST_BYTES:
        return [], (0, LONG_INPUT)
    found, lines = [], given.split(b"\n")
    for line in lines[:-1] if lines[-1] == b"" else lines:
        fault = fault_of(line, found)
        if fault:
            return found, (len(found) + 1, fault)
        found.append(Operator(line.decode().split(" ")))
    return found, None if found else (1, NONE)


class Door(Service):
    """A service with an open door, and with a log unless `words` are others."""

    def __init__(self, program, path="t.db", words=("--log",), operators=SECRET):
        super().__init__(program, path, None, "--operator", *words, given=secret_file(operators), errors=subprocess.DEVNULL)
        self.place = 0

    def commands(self, *pairs):
        for command, text in pairs:
            said("the reply to %s" % command.decode(), self.asked(at_door(command)), done(command, text, None).due)

    def answers(self, one):
        self.answers_at(one.sent, lambda at: one)

    def answers_at(self, sent, due):
        """`due` gives the exchange that is due to a request at a moment."""
        self.place += 1
        came, line = self.asked(sent), json.loads(self.process.stdout.readline())
        one = due(line.pop("at"))
        said("the reply to %s" % one.what, came, one.due)
        said("the connection of %s" % one.what, line.pop("connection"), self.place)
        said("the line of %s" % one.what, line, one.row)
        return one


def is_read(program, what, given, fault, path="none/t.db"):
    """A service reads operators first, and says what is at fault; where nothing is, that there is no folder."""
    came = program.run(["serve", "--db", path, *address(free_address(program)), "--count", "1", "--operator"], given)
    said(what, came, (2, b"refused usage\n", said_of(*fault)) if fault else (3, b"refused down\n", NO_FOLDER))


def said_of(number, why):
    return (BAD_LINE % number if number else b"") + b"custody: %s\n" % why


def many(count):
    """The lines of so many operators."""
    return [b"op-%d %s" % (place, b"secret%010d" % place) for place in range(count)]


def look_at_unread(program):
    """With a line on its input that is no operator, a service with a door does not start, and creates no file."""
    hundred, last = many(MOST_OPERATORS), many(MOST_OPERATORS + 1)[-1]
    faults = {
        **UNREAD,
        b"\n".join([*hundred, last]): (101, MANY),
        b"\n".join([*hundred, hundred[0]]): (101, MANY),
        b"\n".join([*hundred, b"op-100 short"]): (101, SECRET_VALUE),
        b"\n".join([*hundred, b"", last]): (101, SECRET_VALUE),
        b"\n".join([*hundred[:-1], hundred[0], last]): (100, SAME_NAME),
        b"\n".join([*hundred[:-1], b"another %s" % hundred[0].split(b" ")[1], last]): (100, SAME_SECRET),
        SECRET + b"\n" + b"#" * (MOST_BYTES - len(SECRET) - 1): (2, TOO_LONG),
        SECRET + b"\n" + b"#" * (MOST_BYTES - len(SECRET)): (0, LONG_INPUT),
        b"\n" * MOST_BYTES: (1, SECRET_VALUE),
        b"\n" * (MOST_BYTES + 1): (0, LONG_INPUT),
        b"\r\n" * MOST_BYTES: (0, LONG_INPUT),
    }
    for given, fault in faults.items():
        said("what the model says of %r" % given[:60], read_operators(given)[1], fault)
        is_read(program, "what is said of %r" % given[:60], given, fault, "t.db")
    with open("/dev/zero", "rb") as zeros:
        words = ["serve", "--db", "t.db", *address(free_address(program)), "--count", "1", "--operator"]
        process = program.start(words, zeros)
        said("what is said of an input without end", (*process.communicate(timeout=PATIENCE), process.returncode), (b"refused usage\n", said_of(0, LONG_INPUT), 2))
    said("what lies in the folder", os.listdir(program.folder), [])
    print("right: a service with a door starts only with operators; otherwise it says which line is none and why, and creates no file (%d)" % len(faults))


# Words that an operator's line may not have, or not everywhere.
ODD = ["", "list", "until=", "until=x", "until=01", "until=1", "until=%d" % (LAST + 1), "Ops", "o" * 41, "a" * 15, "a" * 16, "a" * 65, "\u00e4", "a\r", "a\t"]


def words_by_chance(chance):
    """The words of an operator, or nearly."""
    words = [chance.choice(["ops", "eye", "o", "n-1", "o" * 40, "operator", "list"]), chance.choice("abcdefgh") * chance.choice([16, 16, 64])]
    words += ["until=%d" % chance.choice([0, 7, LAST])] if chance.random() < 0.3 else []
    words += ["list"] if chance.random() < 0.3 else []
    words = words[1:2] if chance.random() < 0.15 else words
    place = chance.choice([chance.randrange(len(words)), len(words)])
    if chance.random() < 0.2:
        words[place : place + chance.randint(0, 1)] = chance.choice([[], [chance.choice(words)], [chance.choice(ODD)], [chance.choice(ODD)]])
    return words


def text_by_chance(chance):
    """Lines of operators, most of which are right."""
    lines = [" ".join(words_by_chance(chance)).encode() for _ in range(chance.randint(0, 6))]
    ends = chance.choices([b"\n", b"\r\n", b"\n\n", b" \n", b"\xff\n"], [60, 1, 1, 1, 1], k=len(lines))
    text = b"".join(line + end for line, end in zip(lines, ends))
    return text if chance.random() < 0.5 else text[:-1]


def look_at_texts(program):
    """Texts by chance are read as the model reads them."""
    chance, faults = random.Random(11), collections.Counter()
    for place in range(TEXTS):
        given = text_by_chance(chance)
        fault = read_operators(given)[1]
        is_read(program, "text %d, %r" % (place, given[:200]), given, fault)
        faults[fault and fault[1]] += 1
    missing = [fault for fault in [None, CR, ENCODING, NAME, SECRET_VALUE, UNTIL, FORM, SAME_NAME, SAME_SECRET, NONE] if not faults[fault]]
    said("what no text came to", missing, [])
    print("right: %d texts by chance are read as the model reads them, %d of them as operators" % (TEXTS, faults[None]))


def crew_of(ended, ends):
    """The lines of operators of whom some ended at the first moment, and some end at the second."""
    return CREW % (ended, ends, ends, ended)


def answer_of(model, command):
    """What a command that is carried out is answered; it changes the model."""
    word, *rest = command.decode().split(" ")
    if word == "stop":
        return b"ok\n"
    return model.listed() if word == "org-list" else model.tokens(*rest) if word == "token-list" else model.command(word, *rest)


def by(one, command, *fields, **line):
    return at_door(command, *fields, secret=b"Operator " + one.secret.encode(), **line)


def told(model, one, command, at):
    """The exchange that is due to a command of an operator at a moment."""
    what, sent = "%s by %s" % (command.decode(), one.name), by(one, command)
    word, *names = command.split(b" ")
    if not one.counts(at):
        return turned(what, sent, "bad-token")
    if one.lists_only and word not in LISTS:
        return turned(what, sent, "need-admin", one.name)
    org, subject = (names + [None, None])[:2]
    subject = subject if word in (b"token-add", b"token-revoke") else None
    return done(command, answer_of(model, command), ACTS[word], org and org.decode(), subject and subject.decode(), sent, one.name)


def refused_to(one):
    """What is refused to an operator whose secret counts, and what to others: the line has the name from the secret on."""
    for command in [b"org-list", b"stop", b"no command"]:
        yield turned("GET by %s" % one.name, by(one, command, line=b"GET /operator HTTP/1.1"), "no-method")
        yield turned("a query by %s" % one.name, by(one, command, line=b"POST /operator?a HTTP/1.1"), "bad-query")
        yield turned("another MD5 by %s" % one.name, by(one, command, OTHER_MD5), "bad-digest", one.name)
    for body in [b"", b"no command", b"stop now", b"org-list acme", b"token-revoke acme", b"org-list\nstop", b"org-list\r\n"]:
        yield turned("the body %s by %s" % (body, one.name), by(one, body), "bad-body", one.name)
    for secret in [one.name, "%s %s" % (one.name, one.secret), "%s.%s" % (one.name, one.secret), one.secret + " list", one.secret[:-1], one.secret[:-1] + "9"]:
        yield turned("the secret %s" % secret, at_door(b"org-list", secret=b"Operator " + secret.encode()), "bad-token")


# Before an operator's commands another one adds an organization with a token.
FIRST = [b"org-add acme 2", b"token-add acme root admin rootrootrootroot"]
# Commands that each operator asks for.
EACH = [
    b"token-list acme",
    b"token-revoke acme root",
    b"token-revoke acme root",
    b"token-add acme root admin rootrootrootroot",
    b"org-limit acme 1",
    b"org-list",
    b"org-add beta 3",
    b"org-add beta 3",
    b"token-list beta",
    b"org-remove beta force",
    b"org-remove acme",
    b"org-list",
]


def look_at_operators(program):
    """Several operators ask for each command; the rows behind each are those of the model. Then two of them end while the service runs."""
    began = int(time.time())
    crew, model = read_operators(crew_of(began, began + TERM))[0], Model()
    brief, lister, ops = crew[3], crew[4], crew[2]
    with Door(program, "o.db", operators=crew_of(began, began + TERM)) as door:

        def asks(one, command):
            return door.answers_at(by(one, command), lambda at: told(model, one, command, at)).row["status"]

        said("whether they are let in before their end", [asks(brief, b"org-list"), asks(lister, b"stop")], [200, 403])
        for one in crew:
            for who, command in [(ops, command) for command in FIRST] + [(one, command) for command in EACH] + [(ops, b"org-remove acme force")]:
                asks(who, command)
                said("the rows behind %s by %s" % (command.decode(), who.name), rows_in(program, "o.db"), model.rows())
            for wrong in refused_to(one) if one not in (brief, lister) and one.counts(began) else ():
                door.answers(wrong)
        wait_until(lambda: asks(brief, b"org-list") == 401 and asks(lister, b"stop") == 401, "an operator doesn't end", PATIENCE)
        said("whether they ended not before their moment", time.time() >= began + TERM, True)
        said("what they are told since", [asks(one, command) for one in (brief, lister) for command in [b"org-list", b"stop", b"org-add acme 1"]], [401] * 6)
        said("what another one is told", asks(ops, b"org-list"), 200)
    print("right: %d operators are let in until they end, do what they may, and are named in the log (%d requests)" % (len(crew), door.place))
    for one in read_operators(crew_of(began, LAST))[0]:
        stops_for(program, one, began)


def stops_for(program, one, began):
    """`stop` by an operator ends a service if the secret counts, and the operator may do more than list."""
    with Door(program, "o.db", operators=crew_of(began, LAST)) as door:
        door.answers(told(Model(), one, b"stop", began))
        if one.lists_only or not one.counts(began):
            door.answers(done(b"stop", b"ok\n", "stop"))
        ends_in_order(door, "o.db")


def look_at_hundred(program):
    """As many operators as there may be: each is let in, and named; the last line with or without its line feed."""
    for end in [b"", b"\n"]:
        given = b"\n".join(many(MOST_OPERATORS)) + end
        crew = read_operators(given)[0]
        with Door(program, "h.db", operators=given) as door:
            for one in crew:
                door.answers(told(Model(), one, b"org-list", 0))
            said("how many were let in", door.place, MOST_OPERATORS)
    longest = b"o" * 40 + b" " + b"Z" * 64 + b" until=%d list" % LAST
    with Door(program, "h.db", operators=longest) as door:
        one = read_operators(longest)[0][0]
        for command in [b"org-list", b"stop"]:
            door.answers(told(Model(), one, command, 0))
    print("right: a door has %d operators, each of whom is let in and named" % MOST_OPERATORS)


def look_at_exchanges(program):
    for what, exchanges in [("what comes to the door without its secret or without a command", refusals()), ("commands", commands()), ("requests that are cut off at each byte", cuts())]:
        with Door(program) as door:
            for one in exchanges:
                door.answers(one)
            print("right: %s, with the log's line of each (%d)" % (what, door.place))


def ends_in_order(door, path, rest=b""):
    """A stopped service ends with status 0, and leaves no change in its WAL; nobody listens any more. `rest` came on standard output."""
    said("the status of a stopped service", door.process.wait(PATIENCE), 0)
    said("the rest of its standard output", door.process.stdout.read(), rest)
    wal = "%s/%s-wal" % (door.program.folder, path)
    said("whether its WAL has a change", os.path.exists(wal) and os.path.getsize(wal) > BARE_WAL, False)
    try:
        door.peer().close()
    except ConnectionRefusedError:
        return
    raise Wrong("somebody listens where the service was stopped")


def look_at_stop(program):
    """`stop` with the secret ends a service in order; nothing else does. Twice, over one file: with the log, and without it."""
    with Door(program, "s.db") as door:
        for one in stops():
            door.answers(one)
        ends_in_order(door, "s.db")
    with Door(program, "s.db", ()) as door:
        door.commands((b"org-add acme", b"ok\n"), (b"stop", b"ok\n"))
        ends_in_order(door, "s.db")
    program.is_due("the file of a stopped service", ["org-list", "--db", "s.db"], 0, b"acme 0 200\n")
    said("stop as a word of the program", program.run(["stop", "--db", "s.db"], b"")[:2], (2, b"refused usage\n"))
    program.is_due("stop as a line of admin", ["admin", "--db", "s.db"], 2, b"refused usage\n", BAD_LINE % 1 + b"custody: %s\n" % FAULTS[b"no command"], b"stop\n")
    print("right: stop with the secret ends a service with status 0, and leaves no change in its WAL; nothing else ends it (%d)" % door.place)


def look_at_stop_under_work(program):
    """While clients work, the service is stopped. What it acknowledged is in the file alone."""
    with Door(program, "u.db", ()) as door:
        door.commands((b"org-add acme", b"ok\n"), (b"token-add acme root admin adminadminadmin1", b"ok\n"))
        names, stop = [b"n%03d" % place for place in range(CLIENTS)], threading.Event()
        for name in names:
            said("a new workspace", door.asked(message(b"PUT /v1/acme/workspaces/%s HTTP/1.1" % name, secret=ADMIN)), ok(MADE.replace(b"net", name)))
        clients = [Client(door, name, stop) for name in names]
        for one in clients:
            one.start()
        wait_until(lambda: all(one.failed or one.rounds >= ROUNDS for one in clients), "a client doesn't get on")
        door.commands((b"stop", b"ok\n"))
        ends_in_order(door, "u.db")
        for one in clients:
            one.join()
        said("the requests that were answered otherwise", [str(one.failed) for one in clients if isinstance(one.failed, Wrong) and not str(one.failed).endswith(": b''")], [])
    shutil.copyfile(program.folder + "/u.db", program.folder + "/alone.db")
    with contextlib.closing(sqlite3.connect(program.folder + "/alone.db")) as database:
        newest = dict(database.execute("SELECT ws, max(serial) FROM version GROUP BY ws").fetchall())
    lost = [one.path.decode() for one in clients if newest[one.path[-4:].decode()] < one.posted]
    said("the states that were acknowledged, and are not in the file", lost, [])
    print("right: stopped while %d clients work, a service leaves all that it acknowledged in the file alone" % CLIENTS)


def look_at_closed_door(program):
    """Without the flag nobody is let in."""
    with Service(program, "t.db", 1) as service:
        said("the door that is closed", service.asked(at_door(b"org-list")), REFUSED["no-route"])
    print("right: without the flag there is no door")


def look_at_batches(program):
    """`admin` carries out the commands on standard input in order, up to the first that does not end with status 0."""
    words, before = ["admin", "--db", "b.db"], sorted(os.listdir(program.folder))
    program.is_due("no commands", words, 0, b"")
    program.is_due("a first command that creates no file", words, 3, b"refused down\n", NO_FILE, b"org-list\n")
    for line, fault in FAULTS.items():
        said_of = BAD_LINE % 4 + b"custody: %s\n" % fault
        program.is_due("a line that is not a command: %r" % line, words, 2, b"refused usage\n", said_of, b"# teams\n\norg-add acme\n%s\nno command\n" % line)
        program.is_due("the same at the end: %r" % line, words, 2, b"refused usage\n", said_of, b"# teams\n\norg-add acme\n%s" % line)
    for line in [b"org-list", b"", b"# teams", b"no command"]:
        program.is_due("a line that ends with CR LF: %r" % line, words, 2, b"refused usage\n", BAD_LINE % 2 + RETURN, b"org-add acme\n%s\r\norg-list\n" % line)
    program.is_due("nothing but lines that are skipped", words, 0, b"", b"", b"# org-add acme\n\n#\n#\r\xff %s" % (b"#" * 5000))
    said("what lies in the folder", sorted(os.listdir(program.folder)), before)
    given = b"org-add acme\ntoken-add acme ci write %s\norg-list\ntoken-list acme" % TOKEN
    program.is_due("commands", words, 0, b"ok\nok\nacme 0 200\nci write - -\n", NEW_FILE, given)
    program.is_due("commands up to one that is refused", words, 1, b"ok\nrefused exists\n", STOPPED % 4, b"# twice\norg-limit acme 3\n\norg-add acme\norg-remove acme\n")
    program.is_due("what they did", ["org-list", "--db", "b.db"], 0, b"acme 0 3\n")
    print("right: admin carries out the commands on standard input in order, and says at which line it stops")


class Model:
    """Organizations with their limits, tokens and workspaces, as the commands and requests leave them."""

    def __init__(self):
        self.orgs = {}

    def command(self, word, org, *rest):
        """The text of a command's answer."""
        if (word == "org-add") == (org in self.orgs):
            return b"refused exists\n" if word == "org-add" else b"refused absent\n"
        if word == "org-add":
            self.orgs[org] = [int(rest[0]), {}, set()]
        elif word == "org-limit":
            self.orgs[org][0] = int(rest[0])
        elif word == "org-remove":
            del self.orgs[org]
        elif word == "token-add":
            name, _, secret = rest
            if name in self.orgs[org][1]:
                return b"refused exists\n"
            self.orgs[org][1][name] = secret
        elif rest[0] not in self.orgs[org][1]:
            return b"refused absent\n"
        else:
            del self.orgs[org][1][rest[0]]
        return b"ok\n"

    def request(self, method, org, ws, secret):
        """The status of a request, and the word of its refusal."""
        limit, tokens, names = self.orgs.get(org, (0, {}, ()))
        if secret not in tokens.values():
            return 401, "bad-token"
        if method == "PUT" and ws not in names:
            if len(names) >= limit:
                return 409, "limit"
            names.add(ws)
        elif ws not in names:
            return 404, "not-found"
        elif method == "DELETE":
            names.remove(ws)
        return 200, None

    def rows(self):
        orgs = [(org, limit) for org, (limit, _, _) in self.orgs.items()]
        tokens = [(org, name, hashlib.sha256(secret.encode()).digest()) for org, (_, tokens, _) in self.orgs.items() for name, secret in tokens.items()]
        return sorted(orgs), sorted(tokens), sorted((org, ws) for org, (_, _, names) in self.orgs.items() for ws in names)

    def tokens(self, org):
        return b"".join(b"%s admin - -\n" % name.encode() for name in sorted(self.orgs[org][1])) if org in self.orgs else b"refused absent\n"

    def listed(self):
        return b"".join(b"%s %d %d\n" % (org.encode(), len(names), limit) for org, (limit, _, names) in sorted(self.orgs.items()))


def rows_in(program, path):
    """The same rows by SQLite, in a copy of the file and its WAL, which the service has open."""
    for end in ("", "-wal"):
        shutil.copyfile(program.folder + "/" + path + end, program.folder + "/copy.db" + end)
    with contextlib.closing(sqlite3.connect(program.folder + "/copy.db")) as database:
        return tuple(database.execute(text).fetchall() for text in ["SELECT name, cap FROM org ORDER BY 1", "SELECT org, name, digest FROM token ORDER BY 1, 2", "SELECT org, name FROM ws ORDER BY 1, 2"])


def next_step(chance, orgs, has_commands):
    """A command, or a request with its method, organization, workspace and secret, which is the same in each organization. Mostly an
    organization and its token are there, and requests come one behind the other: what is remembered of them is asked before a command makes
    it forgotten."""
    org, token = chance.choices(["acme", "beta"], [3, 1])[0], chance.choice(NAMES)
    secret = "%s11111111" % token.ljust(8, "0")
    word = chance.choices(["PUT", "DELETE", "GET"], [45, 25, 6])[0]
    if has_commands and org not in orgs and chance.random() < 0.5:
        word = "org-add"
    elif has_commands and org in orgs and token not in orgs[org][1] and chance.random() < 0.5:
        word = "token-add"
    elif has_commands and chance.random() < 0.24:
        word = chance.choices(["org-limit", "org-remove", "token-add", "token-revoke", "org-add"], [8, 2, 4, 6, 4])[0]
    if word in ("PUT", "DELETE", "GET"):
        return word, org, chance.choice("abcd"), secret
    limits = {"org-add": [chance.choice("0123")], "org-limit": [chance.choice("0123")], "org-remove": [], "token-add": [token, "admin", secret], "token-revoke": [token]}
    return word, org, *limits[word]


def look_at_memory(program):
    """What a running service remembers between commands and requests (a token, how many workspaces there are) is what the tables have."""
    chance, model, refused = random.Random(7), Model(), collections.Counter()
    with Door(program, "m.db", ()) as door:
        for step in range(MEMORY_STEPS):
            word, org, *rest = next_step(chance, model.orgs, step % 100 < 50)
            what = "step %d, %s %s %s" % (step, word, org, " ".join(rest))
            if word.isupper():
                status, why = model.request(word, org, *rest)
                came = door.asked(message(b"%s /v1/%s/workspaces/%s HTTP/1.1" % (word.encode(), org.encode(), rest[0].encode()), secret=b"Bearer %s.%s" % (org.encode(), rest[1].encode())))
                said(what, (int(came[9:12]), json.loads(came.partition(b"\r\n\r\n")[2] or b"{}").get("error")), (status, why))
                refused[why, model.orgs[org][0] == 0 if why == "limit" else None] += 1
            else:
                force = " force" if word == "org-remove" and chance.random() < 0.5 else ""
                command = " ".join([word, org, *rest]).encode() + force.encode()
                door.commands((command, model.command(word, org, *rest)))
                door.commands((b"org-list", model.listed()))
            said("the rows behind " + what, rows_in(program, "m.db"), model.rows())
    if min(refused["limit", True], refused["limit", False], refused["bad-token", None], refused["not-found", None]) < 10:
        raise Wrong("too few of a kind: %s" % refused)
    print("right: behind each of %d commands and requests the service and SQLite have the same rows; %d times an organization was at its limit, %d times that was 0" % (MEMORY_STEPS, refused["limit", False], refused["limit", True]))


class Client(threading.Thread):
    """Locks, updates, reads and unlocks a state of its own, round after round."""

    def __init__(self, service, name, stop):
        super().__init__(daemon=True)
        self.service, self.path, self.stop, self.rounds, self.failed = service, b"/v1/acme/state/%s" % name, stop, 0, None
        self.posted = -1    # the serial of the last state that was acknowledged

    def run(self):
        own = self.path[-4:]
        lock = b'{"ID":"%s"}' % own
        try:
            while not self.stop.is_set():
                for method, query, body in [(b"LOCK", b"", lock), (b"POST", b"?ID=" + own, b'{"serial":%d}' % self.rounds), (b"GET", b"", b""), (b"UNLOCK", b"", lock)]:
                    came = self.service.asked(message(b"%s %s%s HTTP/1.1" % (method, self.path, query), body, secret=ADMIN))
                    if not came.startswith(b"HTTP/1.1 200 "):
                        raise Wrong("%s of %s: %s" % (method.decode(), self.path.decode(), came))
                    if method == b"POST":
                        self.posted = self.rounds
                self.rounds += 1
        except (Wrong, OSError) as wrong:
            self.failed = wrong


def look_at_work(program):
    """While clients work, a team is added, its token is replaced, and it is removed. Nobody's request fails."""
    put, first, second = b"PUT /v1/beta/workspaces/net HTTP/1.1", b"Bearer beta.firstfirstfirst11", b"Bearer beta.secondsecond2222"
    with Door(program, "w.db", ()) as door:
        door.commands((b"org-add acme", b"ok\n"), (b"token-add acme root admin adminadminadmin1", b"ok\n"))
        names, stop = [b"n%03d" % place for place in range(CLIENTS)], threading.Event()
        for name in names:
            said("a new workspace", door.asked(message(b"PUT /v1/acme/workspaces/%s HTTP/1.1" % name, secret=ADMIN)), ok(MADE.replace(b"net", name)))
        clients = [Client(door, name, stop) for name in names]

        def rounds_behind(counts):
            wait_until(lambda: all(one.failed or one.rounds >= count + ROUNDS for one, count in zip(clients, counts)), "a client doesn't get on")

        try:
            for one in clients:
                one.start()
            rounds_behind([0] * CLIENTS)
            door.commands((b"org-add beta", b"ok\n"), (b"token-add beta first admin firstfirstfirst11", b"ok\n"))
            said("the team's token", door.asked(message(put, secret=first)), ok(MADE))
            door.commands((b"token-add beta second admin secondsecond2222", b"ok\n"), (b"token-revoke beta first", b"ok\n"))
            said("the token that was revoked", door.asked(message(put, secret=first)), ordered(NO_TOKEN))
            said("the token in its place", door.asked(message(put, secret=second)), ok(MADE))
            door.commands((b"org-list", b"acme %d 200\nbeta 1 200\n" % CLIENTS), (b"org-remove beta", b"ok\n"), (b"org-list", b"acme %d 200\n" % CLIENTS))
            said("a token of a team that is gone", door.asked(message(put, secret=second)), ordered(NO_TOKEN))
            rounds_behind([one.rounds for one in clients])
        finally:
            stop.set()
        for one in clients:
            one.join()
        said("the requests that failed", [str(one.failed) for one in clients if one.failed], [])
    print("right: while %d clients work, a team is added, its token is replaced, and it is removed" % CLIENTS)


# ----------------------------------------------------------------------------------------------------
# The same as stories
# ----------------------------------------------------------------------------------------------------


def escaped(text):
    return "".join(chr(b) if 32 <= b < 127 and b != 92 else "\\x%02x" % b for b in text)


def pieces(text):
    """A message as the lines of a story: its head, and its body."""
    if not text:
        return []
    if text.startswith(CONTINUE):
        return ["> HTTP/1.1 100 Continue", ">", *pieces(text[len(CONTINUE):])]
    head, _, body = text.partition(b"\r\n\r\n")
    lines = [("> " + line.decode()).rstrip() if line.endswith(b":") or not line.endswith(b" ") else "\\ %s\\r\\n" % line.decode() for line in head.split(b"\r\n")]
    plain = all(32 <= b < 127 or b == 10 for b in body) and not body.endswith(b" ")
    return [*lines, ">", *(["| " + line if line else "|" for line in body.decode().split("\n")] if body and plain else ["\\ " + escaped(body)] if body else [])]


def log_of(place, row):
    return json.dumps({**row, "at": AT, "connection": place}, sort_keys=True, separators=(",", ":"))


def story(name, exchanges, more=0, operators=SECRET):
    """`more` is how much greater the count is than the number of exchanges."""
    exchanges = list(exchanges)
    lines = ["story %s" % name, "file m.db", ""]
    for one in exchanges:
        due = one.due.replace(b"Date: DATE", b"Date: " + DATE)
        lines += ["peer", *pieces(one.sent), "=", *pieces(due), ""]
    lines += ["$ serve --db m.db --port 8090 --count %d --log --operator" % (len(exchanges) + more), *rows(operators), "= 0", "| listening 127.0.0.1:8090"]
    lines += ["| " + log_of(place, one.row) for place, one in enumerate(exchanges, 1)]
    return [*lines, "|", "?", "| custody: there was no file at the path; a new one was created", "|", ""]


BASE = "two organizations and an empty workspace"
THERE = b"acme 1 200\nbeta 0 200\n"
PLAIN = b"text/plain; charset=utf-8"


def rows(text):
    """The pieces of a body."""
    if not text:
        return ["|"]
    if text.endswith(b" "):
        front = text.rstrip(b" ")
        return ["\\ " + escaped(front), "* %d \\x20" % (len(text) - len(front))]
    plain = all(32 <= b < 127 or b == 10 for b in text)
    return ["| " + line if line else "|" for line in text.decode().split("\n")] if plain else ["\\ " + escaped(text)]


def short(one):
    """A request and its reply as a step of a store, in short form; as they are if no short form has them."""
    head, _, body = one.sent.partition(b"\r\n\r\n")
    line, *fields = head.decode().split("\r\n")
    if fields[:1] == ["Host: c"] and fields[-1].startswith("Content-Length: ") and not any(field.endswith(" ") for field in fields):
        is_admin = fields[1] == "Authorization: " + ADMIN.decode()
        words = ("A " if is_admin else "- ") + line.removesuffix(" HTTP/1.1").replace(" /v1/acme/", " ")
        asked = [words, *("+ " + field for field in fields[2 if is_admin else 1 : -1]), *rows(body)]
    else:
        asked = ["raw", *pieces(one.sent)]
    head, _, body = one.due.partition(b"\r\n\r\n")
    if one.due.startswith(CONTINUE):
        return [*asked, "= raw", *pieces(one.due.replace(b"Date: DATE", b"Date: " + DATE))]
    line, *fields = head.decode().split("\r\n")
    status, word = line.split(" ")[1], json.loads(body)["error"] if body.startswith(b'{"error":') else ""
    own = [field for field in fields if field.startswith(("Allow:", "WWW-Authenticate:")) or field == "Content-Type: " + PLAIN.decode()]
    if word and not any(field.startswith("WWW-Authenticate: ") for field in own):
        return [*asked, "= %s %s" % (status, word), *("+ " + field for field in own)]
    if own and own[0].startswith("WWW-Authenticate: Bearer"):
        return [*asked, "= %s %s" % (status, word)]
    return [*asked, "= " + status, *("+ " + field for field in own), *(rows(body) if body else [])]


def stored(name, above, exchanges, secret=SECRET):
    """A story of a store, whose door is open to this secret."""
    lines = ["story " + name, *above, *(["operator " + secret.decode()] if secret else [])]
    return [*lines, *(line for one in exchanges for line in short(one)), ""]


def over_links():
    """Each command once, and each kind of reply."""
    yield done(b"org-add acme", b"refused exists\n", None)
    yield done(b"org-add gamma", b"ok\n", None)
    yield done(b"org-limit delta 3", b"refused absent\n", None)
    yield done(b"token-add gamma ci write " + TOKEN, b"ok\n", None)
    yield done(b"token-list gamma", b"ci write - -\n", None)
    yield done(b"token-revoke gamma ci", b"ok\n", None)
    yield done(b"org-remove acme force", b"ok\n", None)
    yield done(b"stop", b"ok\n", None)
    yield done(b"org-list", b"beta 0 200\ngamma 0 200\n", None)


def over_cuts():
    """Each command, with each answer."""
    lock = message(b"LOCK /v1/acme/state/net HTTP/1.1", b'{"ID":"5f2c"}', secret=ADMIN)
    yield Exchange("a lock", lock, ok())
    yield done(b"org-add gamma", b"ok\n", None)
    yield done(b"org-add acme", b"refused exists\n", None)
    yield done(b"org-limit gamma 3", b"ok\n", None)
    yield done(b"org-limit delta 3", b"refused absent\n", None)
    yield done(b"token-add gamma ci write " + TOKEN, b"ok\n", None)
    yield done(b"token-add gamma other read " + TOKEN, b"refused exists\n", None)
    yield done(b"token-list gamma", b"ci write - -\n", None)
    yield done(b"token-list delta", b"refused absent\n", None)
    yield done(b"token-revoke gamma ci", b"ok\n", None)
    yield done(b"token-revoke gamma ci", b"refused absent\n", None)
    yield done(b"org-remove gamma", b"ok\n", None)
    yield done(b"org-remove gamma", b"refused absent\n", None)
    yield done(b"org-remove acme", b"refused in-use\n", None)
    yield done(b"org-remove acme force", b"ok\n", None)
    yield done(b"org-list", b"beta 0 200\n", None)


def turned_away():
    """A request for each check of the door."""
    yield turned("", at_door(b"", line=b"GET /operator?a HTTP/1.1", secret=None), "no-method")
    yield turned("", at_door(b"", line=b"POST /operator?a HTTP/1.1", secret=None), "bad-query")
    yield turned("", at_door(b"org-add gamma", secret=b"Operator " + SECRET[:-1]), "bad-token")
    yield turned("", at_door(b"org-add gamma", OTHER_MD5), "bad-digest")
    yield turned("", at_door(b"org-add Gamma"), "bad-body")


def closed():
    """There is no door without a secret, whatever comes to it."""
    for sent in [at_door(b"org-list"), at_door(b"org-list", secret=None), at_door(b"", line=b"GET /operator?a HTTP/1.1")]:
        yield Exchange("the door that is closed", sent, REFUSED["no-route"])


def taken_for_another():
    """A token's secret at the door, and the operator's secret as a token's."""
    for secret in [b"Bearer acme." + TOKEN, b"Operator acme." + TOKEN, b"Operator adminadminadmin1"]:
        yield turned("", at_door(b"org-list", secret=secret), "bad-token")
    for line in [b"GET /v1/acme/state/net HTTP/1.1", b"POST /v1/acme/state/net HTTP/1.1"]:
        yield Exchange("", message(line, b'{"serial":1}', secret=b"Bearer acme." + SECRET), NO_TOKEN)
    yield listed(THERE)


def by_operators():
    """Several operators ask, some of whom ended at this moment, and some of whom end a second later."""
    crew, model = read_operators(crew_of(AT, AT + 1))[0], Model()
    for command in FIRST:
        yield told(model, crew[2], command, AT)
    for one in crew:
        for command in [b"token-list acme", b"token-revoke acme root", b"org-list"]:
            yield told(model, one, command, AT)
    for one in crew:
        if one.lists_only or not one.counts(AT):
            yield told(model, one, b"stop", AT)
    yield turned("", by(crew[0], b"stop now"), "bad-body", "eye")
    yield turned("", by(crew[0], b"stop", OTHER_MD5), "bad-digest", "eye")
    yield turned("", by(crew[0], b"org-list", line=b"GET /operator HTTP/1.1"), "no-method")
    yield turned("", by(crew[0], b"org-list", line=b"POST /operator?a HTTP/1.1"), "bad-query")
    yield turned("", at_door(b"org-list", secret=b"Operator eye"), "bad-token")
    yield told(model, crew[-1], b"org-list", AT)


def stories():
    after = "after " + BASE
    return [
        *story("operator's commands come by the door", commands()),
        *story("the door turns away what has no secret or no command", refusals()),
        *story("stop at the operator's door ends the service before its count", stops(), 1),
        *story("several operators are let in until they end, and are named in the log", by_operators(), 0, crew_of(AT, AT + 1)),
        *stored("each command at the operator's door, over a store", ["links refused"], [*commands(), done(b"stop", b"ok\n", None), listed()]),
        *stored("commands at the operator's door over links that break", [after, "links cut reads writes again"], over_links()),
        *stored("commands at the operator's door over power that is cut", [after, "stops"], over_cuts()),
        *stored("what a store's door turns away changes nothing", [after], [*refusals(THERE), *taken_for_another()]),
        *stored("what the operator's door turns away, over links that break", [after, "links cut reads writes refused"], turned_away()),
        *stored("without the operator's secret there is no door", [after], closed(), None),
    ]


if __name__ == "__main__":
    if sys.argv[1:] == ["story"]:
        print("\n".join(stories()))
    else:
        look_at(__doc__, look_at_unread, look_at_texts, look_at_exchanges, look_at_operators, look_at_hundred, look_at_stop, look_at_stop_under_work, look_at_closed_door, look_at_batches, look_at_memory, look_at_work)
