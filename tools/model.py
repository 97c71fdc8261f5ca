"""A model of custody: its rules once more in Python, which share nothing with the program.

`Custody` gives the reply to the bytes of a request, with the row of its line in the exchange log, and the answer of an operator's
command. It also knows the pages in which states are kept: each once, under its key and the least free twin number. The stories of
tools/history.py, bounds.py and logs.py, and the checks of logs.py and refusals.py, take what they expect from here.
"""

import base64
import email.utils
import hashlib
import json
import re
import urllib.parse

import stories

# The moment of the stories, at which each version and run is made.
AT = 1700000000
PAGE = 16384
MAX_ITEMS = 50
OPEN = ["pending", "planning", "planned", "applying"]
ACTIONS = ["planned", "unchanged", "fail", "confirm", "applied", "discard", "cancel"]
# The status of a queued run after an action, by its status.
QUEUED = {
    "pending": {"discard": "discarded"},
    "planning": {"planned": "planned", "unchanged": "planned_and_finished", "fail": "errored", "cancel": "canceled"},
    "planned": {"confirm": "applying", "discard": "discarded"},
    "applying": {"applied": "applied", "fail": "errored", "cancel": "canceled"},
}
# A plan-only run ends with its plan.
PLAN_ONLY = {"planning": {**QUEUED["planning"], "planned": "planned_and_finished"}}

# The roles, and the least one that an act needs, if that is not read.
ROLES = ["read", "write", "admin"]
WRITES = ["update state", "lock", "unlock", "make run"] + ACTIONS
ADMINS = ["put workspace", "delete workspace", "purge state", "force unlock"]

# The paths under /v1/ORG: the act of each method (an action is its own word).
ROUTES = {
    "/workspaces": {"GET": "list workspaces"},
    "/workspaces/WS": {"GET": "show workspace", "PUT": "put workspace", "DELETE": "delete workspace"},
    "/state/WS": {"GET": "read state", "POST": "update state", "PUT": "update state", "DELETE": "purge state", "LOCK": "lock", "UNLOCK": "unlock"},
    "/versions/WS": {"GET": "list versions"},
    "/versions/WS/NUMBER": {"GET": "read version"},
    "/runs/WS": {"GET": "list runs", "POST": "make run"},
    "/runs/WS/NUMBER": {"GET": "read run"},
    "/runs/WS/NUMBER/actions/ACTION": {"POST": None},
}
PARTS = {
    "WS": "(?P<ws>[A-Za-z0-9_-]{1,90})",
    "NUMBER": "(?P<number>[1-9][0-9]{0,9})",
    "ACTION": "(?P<action>%s)" % "|".join(ACTIONS),
}
ORGANIZATION = "[a-z][a-z0-9-]{0,39}"
SECRET = "[A-Za-z0-9]{16,64}"

MOST_HEAD, MOST_STATE, MOST_BODY, MOST_ID = 16384, 16777216, 16384, 128
FIRST_LIMIT, FIRST_KEPT, MOST_KEPT, MOST_KEY, MOST_MESSAGE = 200, 100, 1000, 64, 1000
CONTINUE = b"HTTP/1.1 100 Continue\r\n\r\n"

# The status of each refusal.
WORDS = {
    400: ["bad-message", "two-tokens", "bad-query", "bad-digest", "bad-state", "bad-lock", "bad-body"],
    401: ["no-token", "bad-token"],
    403: ["need-write", "need-admin"],
    404: ["no-route", "not-found"],
    405: ["no-method"],
    409: ["limit", "not-held", "not-applying", "lineage", "serial", "held-by-run", "wrong-state", "open-runs"],
    411: ["no-length"],
    413: ["too-large"],
    423: ["locked"],
    431: ["head-too-large"],
    503: ["down"],
}
STATUSES = {word: status for status, words in WORDS.items() for word in words}


class Ended(Exception):
    """Bytes that are no complete message; the line `100 Continue` may have been sent."""


class Refused(Exception):
    """A refusal: its word, the body of its reply if that is not the word, and further fields."""

    def __init__(self, word, body="", fields=()):
        super().__init__(word)
        self.word, self.body, self.fields = word, body, fields


def date_of(at):
    """A moment as the field Date has it."""
    return email.utils.formatdate(at, usegmt=True)


def compact(value):
    return json.dumps(value, separators=(",", ":"), sort_keys=True)


def listed(items):
    return compact({"items": items[:MAX_ITEMS], "more": len(items) > MAX_ITEMS})


# ----------------------------------------------------------------------------------------------------
# A workspace. Each act gives the body of its reply (None: a 204), or raises its refusal.
# ----------------------------------------------------------------------------------------------------


class Pages:
    """Pages under the keys that a function gives, each with its bytes and its uses by its twin number."""

    def __init__(self, key):
        self.key, self.kept = key, {}

    def put(self, page):
        twins = self.kept.setdefault(self.key(page), {})
        for twin, (kept, uses) in twins.items():
            if kept == page:
                twins[twin] = (kept, uses + 1)
                return twin
        twin = next(n for n in range(len(twins) + 1) if n not in twins)
        twins[twin] = (page, 1)
        return twin

    def release(self, page, twin):
        twins = self.kept[self.key(page)]
        uses = twins[twin][1] - 1
        if uses:
            twins[twin] = (page, uses)
        else:
            del twins[twin]

    def all(self):
        return [(twin, uses) for twins in self.kept.values() for twin, (_, uses) in twins.items()]


class Version:
    """A version of a state, and where its pages are."""

    def __init__(self, number, text):
        read = json.loads(text)
        self.number, self.text, self.serial, self.lineage, self.places = number, text, read["serial"], read.get("lineage", ""), []

    def put(self, stores):
        pages = [self.text[at : at + PAGE] for at in range(0, len(self.text), PAGE)]
        self.places = [(store, page, store.put(page)) for store in stores for page in pages]

    def remove(self):
        for store, page, twin in self.places:
            store.release(page, twin)

    def shown(self):
        return {"created": AT, "lineage": self.lineage, "number": self.number, "serial": self.serial, "size": len(self.text)}


class Run:
    def __init__(self, number, key, message, plan_only):
        self.number, self.key, self.message, self.plan_only = number, key, message, plan_only
        self.status, self.action = ("planning" if plan_only else "pending"), None

    def shown(self):
        names = ["action", "key", "message", "number", "plan_only", "status"]
        return {"created": AT, **{name: getattr(self, name) for name in names}}


class Workspace:
    def __init__(self, org, name, stores):
        self.org, self.name, self.stores, self.auto_apply, self.keep = org, name, stores, False, FIRST_KEPT
        self.lock, self.holding, self.released = None, None, None
        self.next_version, self.versions, self.runs = 1, [], []

    def holder_id(self):
        if self.holding:
            return "run-%d" % self.holding.number
        return self.lock[0] if self.lock else None

    def locked(self):
        if self.holding:
            return Refused("locked", compact({"ID": self.holder_id(), "Info": "", "Operation": "run", "Path": self.name, "Version": "", "Who": self.org}))
        return Refused("locked", self.lock[1])

    def shown(self):
        newest = self.versions[-1].number if self.versions else None
        return {"auto_apply": self.auto_apply, "holder": self.holder_id(), "keep_versions": self.keep, "name": self.name, "version": newest}

    def settle(self):
        """If nobody holds, the first pending run starts."""
        waiting = [run for run in self.runs if run.status == "pending"]
        if not self.lock and not self.holding and waiting:
            self.holding = waiting[0]
            self.holding.status = "planning"

    def check_writer(self, lock_id):
        """Refuses a write that does not carry the holder's ID."""
        holder = self.holder_id()
        if holder is None and lock_id is not None:
            raise Refused("not-held")
        if lock_id != holder:
            raise self.locked()
        if self.holding and self.holding.status != "applying":
            raise Refused("not-applying")

    def update(self, text, lock_id):
        self.check_writer(lock_id)
        if self.versions and self.versions[-1].text == text:
            return ""
        made = Version(self.next_version, text)
        if self.versions:
            newest = self.versions[-1]
            if made.lineage and newest.lineage and made.lineage != newest.lineage:
                raise Refused("lineage")
            if made.serial <= newest.serial:
                raise Refused("serial")
        made.put(self.stores)
        self.versions.append(made)
        self.next_version += 1
        self.forget_to(self.keep)
        return ""

    def configure(self, auto_apply, keep):
        """A PUT of the workspace. While anybody holds it, no version is removed."""
        keep = self.keep if keep is None else keep
        if len(self.versions) > keep and self.holder_id() is not None:
            raise self.locked()
        self.auto_apply, self.keep = auto_apply, keep
        self.forget_to(keep)
        return compact(self.shown())

    def forget_to(self, most):
        """Removes the oldest versions, down to so many."""
        while len(self.versions) > most:
            self.versions.pop(0).remove()

    def purge(self, lock_id):
        self.check_writer(lock_id)
        self.forget_to(0)
        return ""

    def newest_text(self):
        return self.versions[-1].text if self.versions else None

    def take_lock(self, lock_id, text):
        if self.holder_id() is None:
            self.lock = (lock_id, text)
        elif not self.lock or self.lock[0] != lock_id:
            raise self.locked()
        return ""

    def free(self):
        self.released, self.lock = self.lock[0], None
        self.settle()
        return ""

    def unlock(self, lock_id):
        if self.lock and self.lock[0] == lock_id:
            return self.free()
        if self.holder_id() is None or lock_id == self.released:
            return ""
        raise Refused("held-by-run") if self.holding else self.locked()

    def force_unlock(self):
        if self.holding:
            raise Refused("held-by-run")
        return self.free() if self.lock else ""

    def make_run(self, key, message, plan_only):
        for run in self.runs:
            if key is not None and run.key == key:
                return compact(run.shown())
        run = Run(len(self.runs) + 1, key, message, plan_only)
        assert len([it for it in self.runs if it.status in OPEN]) < 100
        self.runs.append(run)
        self.settle()
        return compact(run.shown())

    def report(self, number, action):
        run = self.runs[number - 1]
        if run.action != action:
            status = (PLAN_ONLY if run.plan_only else QUEUED).get(run.status, {}).get(action)
            if status is None:
                raise Refused("wrong-state")
            if status == "planned" and self.auto_apply:
                status = "applying"
            run.status, run.action = status, action
            if self.holding is run and status not in OPEN:
                self.holding = None
                self.settle()
        return compact(run.shown())

    def delete(self):
        if self.lock:
            raise self.locked()
        if any(run.status in OPEN for run in self.runs):
            raise Refused("open-runs")
        self.forget_to(0)
        return ""


# ----------------------------------------------------------------------------------------------------
# What a message asks
# ----------------------------------------------------------------------------------------------------


class Message:
    """A complete request: its method, path, query, fields and body."""

    def __init__(self, sent):
        end = sent.find(b"\r\n\r\n") + 4
        if end < 4 or end > MOST_HEAD:
            raise Refused("head-too-large") if len(sent) >= MOST_HEAD else Ended
        first, *lines = sent[: end - 4].decode().split("\r\n")
        words = first.split(" ")
        self.fields = {name.lower(): value.strip() for name, _, value in (line.partition(":") for line in lines)}
        if len(words) != 3 or words[2] != "HTTP/1.1" or "host" not in self.fields:
            raise Refused("bad-message")
        self.method = words[0]
        self.path, _, self.query = words[1].partition("?")
        self.body = self.body_in(sent[end:])

    def body_in(self, rest):
        if "transfer-encoding" in self.fields:
            raise Refused("bad-message" if "content-length" in self.fields else "no-length")
        length = int(self.fields.get("content-length", "0"))
        if length > (MOST_STATE if self.method in ("POST", "PUT") else MOST_BODY):
            raise Refused("too-large")
        if len(rest) < length:
            raise Ended
        return rest[:length]


def waits(sent):
    """Whether the client of a head that is read waits for the line `100 Continue`."""
    head, end, _ = sent.partition(b"\r\n\r\n")
    return bool(end) and b"\r\nExpect: 100-continue" in head


class Asked:
    """What a message asks: the act, the organization and the workspace of its path, and whose token it brings."""

    def __init__(self, message):
        self.org, self.ws, self.number, self.act = self.found(message)
        pairs = urllib.parse.parse_qsl(message.query, keep_blank_values=True)
        used = [(name, value) for name, value in pairs if name in ("access_token", "ID", "after")]
        query = dict(used)
        self.id, self.after = query.get("ID"), query.get("after")
        if len(used) > len(query) or (self.id is not None and not is_id(self.id)) or not self.may_begin():
            raise Refused("bad-query")
        self.caller, self.secret = whose(message.fields.get("authorization", ""), query.get("access_token"))

    @staticmethod
    def found(message):
        for path, methods in ROUTES.items():
            named = "".join(PARTS.get(part, part) for part in re.split("(WS|NUMBER|ACTION)", path))
            found = re.fullmatch("/v1/(?P<org>%s)%s" % (ORGANIZATION, named), message.path)
            if not found:
                continue
            parts = found.groupdict()
            if message.method not in methods:
                raise Refused("no-method", fields=["Allow: " + ", ".join(sorted(methods))])
            act = methods[message.method] or parts["action"]
            if act == "unlock" and not message.body:
                act = "force unlock"
            return parts["org"], parts.get("ws"), int(parts["number"]) if "number" in parts else None, act
        raise Refused("no-route")

    def may_begin(self):
        """A list begins after an item that may exist."""
        form = PARTS["WS"] if self.act == "list workspaces" else r"0|[1-9][0-9]{0,9}"
        return self.after is None or not self.act.startswith("list") or re.fullmatch(form, self.after) is not None


def is_id(text):
    return 1 <= len(text.encode()) <= MOST_ID


def whose(field, in_query):
    """The organization and the secret of the one token of a request."""
    scheme, _, token = field.partition(" ")
    in_field = token.strip() if scheme.lower() == "bearer" else None
    if in_field is not None and in_query is not None:
        raise Refused("two-tokens")
    token = in_query if in_field is None else in_field
    if token is None:
        raise Refused("no-token")
    found = re.fullmatch(r"(%s)\.(%s)" % (ORGANIZATION, SECRET), token)
    if not found:
        raise Refused("bad-token")
    return found.groups()


def object_in(body, word):
    try:
        found = json.loads(body)
    except ValueError:
        found = None
    if not isinstance(found, dict):
        raise Refused(word)
    return found


def member(found, name, word, fits, otherwise):
    """A member of a document, if the document has it."""
    value = found.get(name, otherwise)
    if name in found and not fits(value):
        raise Refused(word)
    return value


def is_text(most):
    return lambda value: isinstance(value, str) and len(value.encode()) <= most


def is_number(least, most):
    return lambda value: type(value) is int and least <= value <= most


def document_of(act, body):
    """What an act takes from its document."""
    is_flag = lambda value: isinstance(value, bool)
    if act == "update state":
        found = object_in(body, "bad-state")
        member(found, "lineage", "bad-state", is_text(256), None)
        if not is_number(0, 2**63 - 1)(found.get("serial")):
            raise Refused("bad-state")
        return body.decode()
    if act in ("lock", "unlock"):
        found = object_in(body, "bad-lock")
        fits = lambda value: isinstance(value, str) and is_id(value) and not value.startswith("run-")
        if not fits(found.get("ID")):
            raise Refused("bad-lock")
        return found["ID"]
    if act == "put workspace":
        found = object_in(body or b"{}", "bad-body")
        return member(found, "auto_apply", "bad-body", is_flag, False), member(found, "keep_versions", "bad-body", is_number(1, MOST_KEPT), None)
    if act == "make run":
        found = object_in(body or b"{}", "bad-body")
        key = member(found, "key", "bad-body", lambda value: is_text(MOST_KEY)(value) and value != "", None)
        return key, member(found, "message", "bad-body", is_text(MOST_MESSAGE), ""), member(found, "plan_only", "bad-body", is_flag, False)
    return None


# ----------------------------------------------------------------------------------------------------
# The exchange log
# ----------------------------------------------------------------------------------------------------

KEYS = ["act", "at", "id", "number", "organization", "refusal", "run", "status", "token", "version", "workspace"]

# The characters that act on a terminal, or on the lines and the order of what it shows. A line has an escape for each.
ACTING = "[\x7f-\x9f\u061c\u200e\u200f\u2028-\u202e\u2066-\u2069]"


def row_of(at, **known):
    """A row in which nothing is known but the moment, and what is given."""
    return {**dict.fromkeys(KEYS), "at": at, **known}


def rows_of_503(sent, row):
    """The rows that a 503 may have in place of the row of this request, by what was read before memory or the store was refused:
    nothing; the head; then the token; then the document. (At the operator's door: nothing; that it came there; the operator; then the command.) The last
    row is due if only the change was left."""
    down = {"at": row["at"], "status": 503, "refusal": "down"}
    rows = [row_of(**down)]
    if "operator" in row:
        return rows + [row_of(**down, operator=by, subject=None) for by in (None, row["operator"])] + [{**row, **down}]
    if row["act"] is not None:
        down.update({key: row[key] for key in ["act", "organization", "workspace"]}, id=Asked(Message(sent)).id)
        rows += [row_of(**down), row_of(**{**down, "token": row["token"]}), row_of(**{**down, "token": row["token"], "id": row["id"]})]
    return rows


def line_of(connection, end, row):
    text = json.dumps({**row, "connection": connection, "end": end}, sort_keys=True, separators=(",", ":"), ensure_ascii=False)
    return re.sub(ACTING, lambda found: "\\u%04x" % ord(found[0]), text).encode() + b"\n"


# ----------------------------------------------------------------------------------------------------
# Custody
# ----------------------------------------------------------------------------------------------------


def defined(mark):
    """What stands for a short form in the text of the stories."""
    with open(stories.TEXT, encoding="utf-8") as text:
        return dict(re.findall(r"(?m)^%s (\S+) (.*)$" % mark, text.read()))


DEFINED = {mark: defined(mark) for mark in ["reason", "challenge"]}


class Told:
    """An exchange: the status of its reply (None if it has none), the body, what refuses it, whether the line `100 Continue` comes
    before that, and its row."""

    def __init__(self, method, is_awaited, row, body="", why=None):
        self.method, self.is_awaited, self.row, self.status = method, is_awaited, row, row["status"]
        self.body, self.fields = (why.body, why.fields) if why else (body, ())

    def end(self):
        return "ok" if self.status else "ended"

    def line(self):
        """The reply's first line in a story."""
        refusal = self.row["refusal"]
        return "= %d%s" % (self.status, " " + refusal if refusal and not self.body else "")

    def reply(self, date):
        """Its bytes, with this date."""
        front = CONTINUE if self.is_awaited else b""
        if self.status is None:
            return front
        part = stories.Part(self.line())
        part.bytes, part.fields = self.body.encode(), list(self.fields)
        return front + stories.due(DEFINED, (None, date), self.method, part)


class Token:
    def __init__(self, secret, role, until=None, prefix=""):
        self.secret, self.role, self.until, self.prefix = secret, ROLES.index(role), until and int(until), prefix

    def counts(self, at):
        return self.until is None or at < self.until

    def line(self, name):
        return " ".join([name, ROLES[self.role], "-" if self.until is None else str(self.until), self.prefix or "-"])


class Organization:
    def __init__(self, limit=FIRST_LIMIT):
        self.limit, self.tokens, self.workspaces = int(limit), {}, {}

    def token(self, secret):
        """The token with this secret, and its name."""
        return next(((token, name) for name, token in self.tokens.items() if token.secret == secret), (None, None))


class Custody:
    """Organizations with their tokens and workspaces: what is answered to bytes, and the row of that in the log."""

    def __init__(self):
        self.orgs = {}
        # (for the key that is SHA-256 stands the page itself, as no two pages meet under it; the other key is a first byte)
        self.stores = [Pages(lambda page: page), Pages(lambda page: page[0])]
        # The workspaces of which a PUT said how many versions are kept: no line has that.
        self.kept = set()

    def operate(self, words):
        """Carries out an operator's command, as a frame has it, and gives the lines of its answer."""
        word, *rest = words.split(" ")
        if word == "org-list":
            return ["%s %d %d" % (name, len(org.workspaces), org.limit) for name, org in sorted(self.orgs.items())]
        if word == "org-add":
            self.orgs[rest[0]] = Organization(*rest[1:])
            return ["ok"]
        tokens = self.orgs[rest[0]].tokens
        if word == "token-list":
            return [tokens[name].line(name) for name in sorted(tokens)]
        if word == "token-revoke":
            return ["ok" if tokens.pop(rest[1], None) else "refused absent"]
        name, role, secret, *bounds = rest[1:]
        if name in tokens or self.orgs[rest[0]].token(secret)[0]:
            return ["refused exists"]
        tokens[name] = Token(secret, role, **dict(bound.split("=") for bound in bounds))
        return ["ok"]

    def workspace(self, org, name):
        return self.orgs[org].workspaces.get(name) if org in self.orgs else None

    def holder(self, row):
        """Who holds the workspace of a row, in its organization."""
        workspace = self.workspace(row["organization"], row["workspace"])
        return workspace and workspace.holder_id()

    def exchange(self, at, sent):
        method, is_read = "", False
        try:
            message = Message(sent)
            method, is_read = message.method, True
            asked = Asked(message)
        except Ended:
            return Told(method, waits(sent), row_of(at))
        except Refused as why:
            method = "HEAD" if sent.startswith(b"HEAD ") else method
            return Told(method, is_read and waits(sent), row_of(at, status=STATUSES[why.word], refusal=why.word), why=why)
        row = row_of(at, act=asked.act, id=asked.id, number=asked.number, organization=asked.caller, workspace=asked.ws)
        try:
            body = self.request(at, asked, message, row)
            row["status"] = 204 if body is None else 200
            return Told(method, waits(sent), row, body or "")
        except Refused as why:
            row.update(status=STATUSES[why.word], refusal=why.word)
            return Told(method, waits(sent), row, why=why)

    def request(self, at, asked, message, row):
        """The checks in their order, and what the workspace does; the row gets what they find."""
        token, name = self.orgs[asked.caller].token(asked.secret) if asked.caller in self.orgs else (None, None)
        if token is None or not token.counts(at):
            raise Refused("bad-token")
        row["token"] = name
        least = 2 if asked.act in ADMINS else 1 if asked.act in WRITES else 0
        if token.role < least:
            raise Refused("need-admin" if least == 2 else "need-write")
        if not (asked.ws or token.prefix).startswith(token.prefix) or asked.org != asked.caller:
            raise Refused("not-found")
        document, why = self.read(asked, message)
        if asked.act in ("lock", "unlock") and why is None:
            row["id"] = document
        workspace = self.workspace(asked.org, asked.ws)
        if not is_found(asked, workspace):
            raise Refused("not-found")
        if why:
            raise why
        if asked.ws is None:
            own = self.orgs[asked.org].workspaces
            return listed([own[name].shown() for name in sorted(own) if name.startswith(token.prefix) and name > (asked.after or "")])
        return self.ruled(asked, workspace, document, message.body, row)

    @staticmethod
    def read(asked, message):
        """The document, or why there is none."""
        digest = message.fields.get("content-md5")
        if digest is not None and digest != base64.b64encode(hashlib.md5(message.body).digest()).decode():
            return None, Refused("bad-digest")
        try:
            return document_of(asked.act, message.body), None
        except Refused as why:
            return None, why

    def ruled(self, asked, workspace, document, body, row):
        """What the workspace does; the row gets the version that is made, the run that begins to hold, and the run that is shown."""
        next_version = workspace.next_version if workspace else None
        held = workspace.holding if workspace else None
        reply = self.act(asked, workspace, document, body)
        after = self.workspace(asked.org, asked.ws)
        if workspace and after:
            if after.next_version != next_version:
                row["version"] = next_version
            if after.holding and after.holding is not held:
                row["run"] = after.holding.number
        if row["number"] is None:
            row["number"] = json.loads(reply)["number"] if asked.act == "make run" else row["version"]
        return reply

    def act(self, asked, it, document, body):
        own, after = self.orgs[asked.org], int(asked.after or 0) if asked.act.startswith("list") else 0
        if asked.act == "put workspace":
            if it is None and len(own.workspaces) >= own.limit:
                raise Refused("limit")
            shown = own.workspaces.setdefault(asked.ws, Workspace(asked.org, asked.ws, self.stores)).configure(*document)
            if document[1] is not None:
                self.kept.add((asked.org, asked.ws))
            return shown
        if asked.act == "delete workspace":
            gone = it.delete()
            del own.workspaces[asked.ws]
            return gone
        rules = {
            "show workspace": lambda: compact(it.shown()),
            "read state": it.newest_text,
            "update state": lambda: it.update(document, asked.id),
            "purge state": lambda: it.purge(asked.id),
            "lock": lambda: it.take_lock(document, body.decode()),
            "unlock": lambda: it.unlock(document),
            "force unlock": it.force_unlock,
            "list versions": lambda: listed([one.shown() for one in it.versions if one.number > after]),
            "read version": lambda: next(one.text for one in it.versions if one.number == asked.number),
            "list runs": lambda: listed([one.shown() for one in it.runs if one.number > after]),
            "make run": lambda: it.make_run(*document),
            "read run": lambda: compact(it.runs[asked.number - 1].shown()),
        }
        return rules[asked.act]() if asked.act in rules else it.report(asked.number, asked.act)


def is_found(asked, workspace):
    """Whether what is asked of exists, or is to be made."""
    if asked.ws is None or asked.act == "put workspace":
        return True
    if workspace is None:
        return False
    if asked.act == "read version":
        return any(version.number == asked.number for version in workspace.versions)
    return asked.number is None or asked.number <= len(workspace.runs)
