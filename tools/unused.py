#!/usr/bin/env python3
"""Lists the lemmas and definitions that nothing names, the names that a file imports and doesn't use, and those that it imports
from a file of ours which doesn't have them.

    python3 tools/unused.py        prints each; ends with status 1 where there is one

It goes by names alone, so a row is a place to look, and `rt check` says whether it can go. Left out are examples, which stand
for themselves, and the files of a function's own proof, which the check reads.
"""

import collections
import glob
import re
import sys

WORD = re.compile(r"[A-Za-z_][A-Za-z0-9_]*(?:[-'][A-Za-z0-9_]+)*")
USE = re.compile(r"^\s*(pub )?(?:ghost )?use (Rattle[^\s{;]*?)(?:\.?\{([^}]*)\})?(?: as (\S+?))?;?\s*$", re.M)
GHOST_USE = re.compile(r"^\s*ghost use [^\n]*$", re.M)
ANY_USE = re.compile(r"^\s*(?:pub )?(?:ghost )?use [^\n]*$", re.M)
ITEM = re.compile(r"^((?:(?:abbrev|unfoldable|pub|data|record|rec|private) )*)([A-Za-z_][A-Za-z0-9_]*(?:[-'][A-Za-z0-9_]+)*)(?: \([^\n]*| \{[^\n]*)? ?: ", re.M)
USING = re.compile(r"\bproofs::(\w+(?:::\w+)*)")
OWN_PROOF = re.compile(r"/proofs/(?![A-Z]\w*\.antt$)")


def read(path):
    """The text without its comments."""
    with open(path, encoding="utf-8") as file:
        return "".join(line for line in file if not line.lstrip().startswith(("//", "--")))


def module(path):
    return "Rattle." + path.removeprefix("crates/").removesuffix(".antt").replace("/", ".")


def names(text):
    return collections.Counter(WORD.findall(text))


def is_named(name, body, counted):
    if not WORD.fullmatch(name):
        return all(part in body for part in name.split("◌") if part)
    return counted[name] > 0


def imports(texts):
    """What is imported of each module, and each import that its file doesn't name, nor passes on to one that does."""
    taken, idle, passed = collections.defaultdict(set), [], []
    for path, text in texts.items():
        body = (ANY_USE if path.endswith(".antt") else GHOST_USE).sub("", text)
        counted = names(body)
        for using in USING.findall(text):
            *inner, last = using.split("::")
            taken["Rattle.%s.proofs.%s" % (path.split("/")[1], ".".join(inner))].add(last)
        for is_passed_on, source, listed, alias in USE.findall(text):
            if not listed:
                taken[source] |= {word for word in counted}
                continue
            for one in filter(None, map(str.strip, listed.split(","))):
                first, _, last = one.partition(" as ")
                taken[source].add(first)
                if not is_named(last or first, body, counted):
                    (passed if is_passed_on else idle).append((path, last or first))
    return taken, idle + [row for row in passed if row[1] not in taken[module(row[0])]]


def missing(texts):
    """Each name that is imported from a file which doesn't have it."""
    counted = {module(path): names(text) for path, text in texts.items() if path.endswith(".antt")}
    for path, text in texts.items():
        for _, source, listed, _ in USE.findall(text):
            for one in filter(None, map(str.strip, (listed or "").split(","))):
                first = one.partition(" as ")[0]
                if source in counted and WORD.fullmatch(first) and not counted[source][first]:
                    yield path, first, source


def items(path, text, taken):
    """What the file defines that nothing names, neither in it nor elsewhere."""
    body = ANY_USE.sub("", text)
    for _, name in ITEM.findall(body):
        heads = r"^(?:(?:abbrev|unfoldable|pub|data|record|rec|private) )*%s(?![\w'-])" % re.escape(name)
        if name not in taken[module(path)] and not names(re.sub(heads, "@", body, flags=re.M))[name]:
            yield name


def main():
    paths = sorted(path for path in glob.glob("crates/**/*", recursive=True) if path.endswith((".rt", ".antt")) and "/out/" not in path)
    texts = {path: read(path) for path in paths}
    taken, idle = imports(texts)
    found = ["%s: %s is imported and not named" % row for row in idle] + ["%s: %s is imported from %s, which does not have it" % row for row in missing(texts)]
    for path, text in texts.items():
        if path.endswith(".antt") and not OWN_PROOF.search(path) and "Examples" not in path:
            found += ["%s: nothing names %s" % (path, name) for name in items(path, text, taken)]
    for row in found:
        print(row)
    sys.exit(1 if found else 0)


if __name__ == "__main__":
    main()
