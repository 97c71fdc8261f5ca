#!/usr/bin/env python3
"""Prints a story of 400 requests of two organizations, chosen by a fixed seed, with the reply that is due to each.

    python3 tools/history.py          prints it
    python3 tools/history.py check    computes each reply of the other long history, that of one workspace, by the same rules:
                                      whether they are those of crates/stories/stdin, and whether this story stands there

The replies, and what the tables of pages have, are those of tools/model.py. What is printed stands in crates/stories/stdin as the
story of this name.
"""

import random
import re
import sys

import stories
from model import ACTIONS, AT, PAGE, Custody, Workspace, compact, date_of, defined

SEED = 5
REQUESTS = 400
# The tables are queried after each so many requests.
ASKED_EVERY = 40
NAME = "a long history of two organizations that share texts"
# The story whose replies are computed from its requests, and the one before both.
ONE, BASE = "a long history of one workspace", "two organizations and an empty workspace"
TOKENS = defined("token")
HOMES = {"R": "acme", "W": "acme", "A": "acme", "B": "beta"}

# Each act: how often it is chosen, and its method and path.
ACTS = {
    "update state": (36, "POST state/WS"),
    "read state": (12, "GET state/WS"),
    "read version": (6, "GET versions/WS"),
    "list versions": (4, "GET versions/WS"),
    "show workspace": (4, "GET workspaces/WS"),
    "list workspaces": (2, "GET workspaces"),
    "list runs": (1, "GET runs/WS"),
    "read run": (3, "GET runs/WS"),
    "purge state": (5, "DELETE state/WS"),
    "lock": (6, "LOCK state/WS"),
    "unlock": (9, "UNLOCK state/WS"),
    "force unlock": (1, "UNLOCK state/WS"),
    "make run": (4, "POST runs/WS"),
    "report": (5, "POST runs/WS"),
    "put workspace": (5, "PUT workspaces/WS"),
    "delete workspace": (2, "DELETE workspaces/WS"),
}
# What mostly an admin asks.
OF_ADMINS = ["purge state", "put workspace", "delete workspace"]


def begun():
    """What the story before leaves."""
    custody = Custody()
    for at, sent, _ in stories.steps_of(stories.all_stories()[BASE]):
        custody.operate(sent) if isinstance(sent, str) else custody.exchange(at, sent)
    return custody


def pieces(text):
    """The lines of a story that write a body, in which one letter may fill most."""
    found = re.fullmatch(r'(.*")((.)\3{99,})("})', text)
    if found:
        return '| %s\n* %d %s\n\\ "}\n' % (found[1], len(found[2]), found[3])
    return "| %s\n" % text if text else ""


class Teller:
    """Chooses requests by chance, and prints each with its reply."""

    def __init__(self):
        self.chance, self.custody = random.Random(SEED), begun()

    def pick(self, *choices):
        return self.chance.choice(choices)

    def often(self, percent):
        return self.chance.randrange(100) < percent

    def place(self):
        """A token, an organization and a workspace; mostly of the token's own organization."""
        token = self.pick("A", "A", "W", "W", "W", "B", "B", "B", "B", "R")
        org = HOMES[token] if self.often(96) else self.pick("acme", "beta")
        return token, org, self.pick("net", "net", "net", "dev")

    def text(self, it):
        newest = it.versions[-1] if it.versions else None
        if newest and self.often(12):
            return newest.text
        serial = newest.serial + self.pick(1, 1, 1, 1, 1, 1, 2, 0, -1) if newest else self.pick(0, 1, 1)
        size = self.pick(0, 0, PAGE - 1, PAGE, PAGE + 1, 2 * PAGE, 40000, 40000, 40000, 49154)
        lineage, letter = self.pick("", "", "", "", "", "", "a1", "b2"), self.pick("a", "a", "a", "b")
        front = '{"serial":%d' % max(serial, 0) + (',"lineage":"%s"' % lineage if lineage else "")
        return front + ',"x":"' + letter * (size - len(front) - 8) + '"}' if size else front + "}"

    def id_query(self, it):
        """An ID that a write carries, as a query: mostly the holder's."""
        lock_id = it.holder_id() if self.often(75) else self.pick(None, "x1", "x2", "run-1")
        return "?ID=" + lock_id if lock_id else ""

    def reported(self, it):
        number, action = max(1, len(it.runs) - self.pick(0, 1, 2)), self.pick(*ACTIONS)
        if it.holding and self.often(70):
            number = it.holding.number
            action = {"planning": "planned", "planned": "confirm", "applying": "applied"}[it.holding.status]
        return "/%d/actions/%s" % (number, action)

    def document(self, act, it):
        """The members of an act's document that say something."""
        if act in ("lock", "unlock"):
            members = {"ID": it.lock[0] if act == "unlock" and it.lock and self.often(80) else self.pick("x1", "x2")}
        elif act == "make run":
            members = {"key": self.pick(None, None, "k1", "k2", "k3"), "plan_only": self.often(25), "message": self.pick("", "go")}
        elif act == "put workspace":
            members = {"auto_apply": self.often(40), "keep_versions": self.pick(None, None, 1, 2, 2, 3, 1000)}
        else:
            return ""
        said = {name: value for name, value in members.items() if value}
        return compact(said) if said else ""

    def asked(self, act, ws, it):
        """The method and the path of an act on a workspace, and its body."""
        head, body = ACTS[act][1].replace("WS", ws), self.text(it) if act == "update state" else self.document(act, it)
        if act in ("update state", "purge state"):
            head += self.id_query(it)
        if act == "read version":
            head += "/%d" % max(1, it.next_version - self.pick(0, 1, 2, 3))
        if act == "read run":
            head += "/%d" % max(1, len(it.runs) + self.pick(1, 0, 0, -1))
        return head + self.reported(it) if act == "report" else head, body

    def told(self):
        """One request with its reply. Some of what is asked needs an admin, who then mostly asks it."""
        token, org, ws = self.place()
        act = self.chance.choices(list(ACTS), [weight for weight, _ in ACTS.values()])[0]
        it = self.custody.workspace(org, ws) or Workspace(org, ws, [])
        if it.holding and self.often(40):
            act = "report"
        if act in OF_ADMINS and token in "RW" and self.often(80):
            token = "A"
        head, body = self.asked(act, ws, it)
        head = head if org == "acme" else head.replace(" ", " /v1/%s/" % org)
        told = self.custody.exchange(AT, stories.asked(TOKENS, token, head, body or None))
        return "%s %s\n%s%s\n%s" % (token, head, pieces(body), told.line(), pieces(told.body))


def asked(custody):
    """What stands in page and vpage, by both keys."""
    out = ""
    for mark, store in zip(["sql", "sql first-byte"], custody.stores):
        pages = store.all()
        counts = [
            ("SELECT count(*) FROM vpage", sum(uses for _, uses in pages)),
            ("SELECT count(*) FROM page", len(pages)),
            ("SELECT count(*) FROM page WHERE uses > 1", len([1 for _, uses in pages if uses > 1])),
            ("SELECT count(*) FROM page WHERE twin > 0", len([1 for twin, _ in pages if twin > 0])),
            ("SELECT count(*) FROM page WHERE twin > 1", len([1 for twin, _ in pages if twin > 1])),
        ]
        out += "".join("%s %s\n= %d\n" % (mark, sql, count) for sql, count in counts)
    return out


def check():
    one = stories.all_stories()[ONE]
    custody, count = begun(), 0
    for at, sent, due in filter(None, one.steps):
        came, count = custody.exchange(at, sent).reply(date_of(at)), count + 1
        if came != due:
            sys.exit("%s: to %s the reply by the rules is %s, in the text %s" % (ONE, sent, came, due))
    if not count or one.after.name != BASE:
        sys.exit("%s: the text has another story" % ONE)
    print("right: %s, %d requests" % (ONE, count))
    with open(stories.TEXT, encoding="utf-8") as text:
        if story() not in text.read():
            sys.exit("%s: the text has another story" % NAME)
    print("right: %s, %d requests" % (NAME, REQUESTS))


def story():
    teller = Teller()
    out = "story %s\nafter %s\n" % (NAME, BASE)
    for count in range(1, REQUESTS + 1):
        out += teller.told()
        if count % ASKED_EVERY == 0:
            out += asked(teller.custody)
    return out


def main():
    if sys.argv[1:] == ["check"]:
        check()
    elif sys.argv[1:]:
        sys.exit(__doc__)
    else:
        print(story(), end="")


if __name__ == "__main__":
    main()
