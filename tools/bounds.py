#!/usr/bin/env python3
"""A history of tokens with bounds, by chance: an operator adds tokens with ends and prefixes, revokes and lists them, and requests
come by them at moments that go forth and back. What is due is what tools/model.py says.

    python3 tools/bounds.py

What is printed stands in crates/stories/stdin as the story of this name.
"""

import random
import sys

import stories
from model import AT, ROLES, Custody, compact, date_of

NAME = "a history of tokens with bounds"
SEED, STEPS = 30, 400
SPAN = 12
LIMITS = {"acme": 7, "beta": 200}
NAMES = ["a", "a_", "a_1", "a_2", "a-1", "ab", "A_1", "b", "b_a", "net"]
PREFIXES = ["", "", "a", "a_", "a_1", "ab", "A", "b", "x", "a-", "net"]
ROOTS = {"A": "acme.adminadminadmin1", "B": "beta.betabetabetabeta"}
SHORTS = {"X": "acme.firstfirstfirst1", "Y": "acme.secondsecondsec2", "Z": "acme.thirdthirdthird3", "V": "beta.firstfirstfirst1", "U": "beta.fourthfourthfou4"}
TOKENS = {**ROOTS, **SHORTS}
METHODS = {"put": "PUT", "post": "POST", "delete": "DELETE"}


class Teller:
    """Chooses steps by chance, and gives the lines of each with what is due."""

    def __init__(self):
        self.chance, self.at, self.custody = random.Random(SEED), AT, Custody()

    def operated(self, words):
        return ["admin " + words] + ["= " + line for line in self.custody.operate(words)]

    def begun(self):
        for org, limit in LIMITS.items():
            yield from self.operated("org-add %s %d" % (org, limit))
        for token in ROOTS.values():
            yield from self.operated("token-add %s root admin %s" % tuple(token.split(".")))

    def asked(self, short, head, body=None):
        """A request as lines, with its reply; and whether it is accepted."""
        told = self.custody.exchange(self.at, stories.asked(TOKENS, short, head, body))
        lines = [short + " " + head, *(["| " + body] if body else []), told.line(), *(["| " + told.body] if told.body else [])]
        return lines, told.status == 200

    def request(self):
        short, ws = self.chance.choice("AAAAABXXXYYYZZZVU"), self.chance.choice(NAMES)
        own = TOKENS[short].split(".")[0]
        org = own if self.chance.randrange(10) else {"acme": "beta", "beta": "acme"}[own]
        acts = ["list", "put", "put", "put", "post", "post", "delete"] if short in ROOTS else ["list", "list", "list", "put", "put", "get", "get", "get", "post", "post", "show", "delete"]
        act = self.chance.choice(acts)
        target = "state/" + ws if act in ("get", "post") else "workspaces/" + ws
        if act == "list":
            after = self.chance.choice(["", "", "", "a", "a_", "a_1", "b", "zz"])
            target = "workspaces" + ("?after=" + after if after else "")
        head, it = "%s /v1/%s/%s" % (METHODS.get(act, "GET"), org, target), self.custody.workspace(own, ws)
        if act != "post":
            return self.asked(short, head)[0]
        # (the state follows the newest one; a request that is refused tells nothing of it)
        for serial in (it.next_version if it else 1, 1):
            lines, is_accepted = self.asked(short, head, compact({"lineage": "a1", "serial": serial, "version": 4}))
            if is_accepted:
                break
        return lines

    def command(self):
        org, secret = SHORTS[self.chance.choice("XXYYZZVU")].split(".")
        name = self.chance.choice(["one", "two", "three", "t-1"])
        act = self.chance.choice(["add", "add", "add", "add", "revoke", "revoke", "revoke", "list", "all"])
        if act == "revoke":
            return self.operated("token-revoke %s %s" % (org, name))
        if act == "list":
            return self.operated("token-list " + org)
        if act == "all":
            return self.operated("org-list")
        until = None if self.chance.randrange(3) == 0 else AT + self.chance.randrange(1, 2 * SPAN)
        role, prefix = ROLES[self.chance.choice([0, 1, 1, 2, 2, 2])], self.chance.choice(PREFIXES)
        words = ["token-add", org, name, role, secret]
        words += ["until=%d" % until] if until is not None else []
        words += ["prefix=" + prefix] if prefix or self.chance.randrange(2) else []
        return self.operated(" ".join(words))

    def moment(self):
        self.at = AT + self.chance.randrange(SPAN)
        return [moment_line(self.at)]

    def told(self):
        lines = self.moment() if self.chance.randrange(5) == 0 else []
        return lines + (self.command() if self.chance.randrange(4) == 0 else self.request())


def moment_line(at):
    return "at %d %s" % (at, date_of(at))


def main():
    if sys.argv[1:]:
        sys.exit(__doc__)
    teller = Teller()
    for short, token in SHORTS.items():
        print("token %s %s" % (short, token))
    print("story " + NAME)
    print("\n".join(teller.begun()))
    for _ in range(STEPS):
        print("\n".join(teller.told()))
    print(moment_line(AT))


if __name__ == "__main__":
    main()
