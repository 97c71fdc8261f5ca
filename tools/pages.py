#!/usr/bin/env python3
"""Checks the pages of the repository: links, anchors, names, and how long they are.

    python3 tools/pages.py [--names] [--long N]

Each relative link of README.md, CHANGELOG.md, CONTRIBUTING.md, docs/*.md and the README.md of crates/stories, tools and bench has to
lead to a file that exists, and each anchor to a heading of that file. Each file of tools/ and bench/ has to have one row in the tables
of the README.md there, which says whether .ci/run runs it. With --names it prints each word in backticks that occurs nowhere in the
repository but on pages: such a word has to be one of the kit, of another program, or an example. With --long N it prints the sentences
of more than N words. At the end it prints how many words each page has, as `wc -w` counts them. It ends with status 1 if a link or an
anchor leads nowhere, or a file has no right row.
"""
import argparse
import glob
import os
import re
import subprocess
import sys

TOP = os.path.dirname(os.path.dirname(os.path.abspath(__file__)))
PAGES = ["README.md", "CHANGELOG.md", "CONTRIBUTING.md", *sorted(os.path.relpath(path, TOP) for path in glob.glob(f"{TOP}/docs/*.md")), "crates/stories/README.md", "tools/README.md", "bench/README.md"]
LINK = re.compile(r"\]\(([^)\s]+)\)")
NAME = re.compile(r"`([^`\n]+)`")
FENCE = re.compile(r"^ *```.*?^ *```", re.M | re.S)


def read(path):
    with open(f"{TOP}/{path}", encoding="utf-8") as file:
        return file.read()


def anchors(text):
    """The anchors of a page's headings, as GitHub makes them."""
    found = {}
    for heading in re.findall(r"^#+ (.*)$", FENCE.sub("", text), re.M):
        anchor = re.sub(r"[^\w\- ]", "", heading.lower()).replace(" ", "-")
        found[anchor] = found.get(anchor, 0) + 1
    return set(found)


def bad_links(page):
    """The links of a page that lead nowhere."""
    for link in LINK.findall(FENCE.sub("", read(page))):
        if re.match(r"[a-z]+:", link):
            continue
        path, _, anchor = link.partition("#")
        target = os.path.normpath(os.path.join(os.path.dirname(page), path)) if path else page
        if not os.path.exists(f"{TOP}/{target}"):
            yield link
        elif anchor and (not target.endswith(".md") or anchor not in anchors(read(target))):
            yield link


def files_of(*folders):
    """The files of the repository, or of these folders."""
    listed = subprocess.run(["git", "ls-files", "-co", "--exclude-standard", *folders], cwd=TOP, capture_output=True, text=True, check=True).stdout.splitlines()
    return [path for path in listed if os.path.isfile(f"{TOP}/{path}")]


def bad_rows(folder):
    """What is wrong with the rows for the files of a folder: a file has another number of them than one, or another word on the gate."""
    rows = re.findall(r"^\| `([^`]+)`[^|]*\| [^|]+ \| (yes|no) \|", read(f"{folder}/README.md"), re.M)
    named, gate = [name for name, _ in rows], read(".ci/run")
    files = [os.path.relpath(path, folder) for path in files_of(folder) if path != f"{folder}/README.md"]
    for name in sorted({*named, *files}):
        if named.count(name) != (name in files):
            yield f"{named.count(name)} rows for {name}" + ("" if name in files else ", which does not exist")
    for name, word in rows:
        if word != ("yes" if re.search(rf"\b{folder}/{re.escape(name)}(?!\S)", gate) else "no"):
            yield f"{name}: whether .ci/run runs it is not {word}"


def words_of_source():
    """All words of the repository outside its pages."""
    found, paths = set(), set()
    for path in files_of():
        paths.update(re.findall(r"[\w.@+-]+", path))
        paths.add(os.path.splitext(os.path.basename(path))[0])
        if path in PAGES:
            continue
        with open(f"{TOP}/{path}", encoding="utf-8", errors="replace") as file:
            found.update(re.findall(r"[A-Za-z_][A-Za-z0-9_]*", file.read()))
    return found | paths


def bad_names(page, known):
    """The words in backticks that occur only on pages."""
    for text in NAME.findall(FENCE.sub("", read(page))):
        for word in re.findall(r"[A-Za-z_][A-Za-z0-9_]{3,}", text):
            if word not in known:
                yield f"{word} in `{text}`"


def sentences(page):
    text = re.sub(r"^\|.*$", "", FENCE.sub("", read(page)), flags=re.M)
    text = re.sub(r"\]\([^)]*\)", "]", text)
    for part in re.split(r"\n\n|\n(?=[-#\d])", text):
        yield from re.split(r"(?<=[.!?:])\s+", part.strip())


def main():
    words = argparse.ArgumentParser(description=__doc__.partition("\n")[0])
    words.add_argument("--names", action="store_true")
    words.add_argument("--long", type=int, default=0)
    given = words.parse_args()
    faults = [f"{page}: {link} leads nowhere" for page in PAGES for link in bad_links(page)]
    faults += [f"{folder}/README.md: {what}" for folder in ("tools", "bench") for what in bad_rows(folder)]
    if given.names:
        known = words_of_source()
        for page in PAGES:
            for name in bad_names(page, known):
                print(f"{page}: not in the repository: {name}")
    if given.long:
        for page in PAGES:
            for sentence in sentences(page):
                if len(sentence.split()) > given.long:
                    print(f"{page}: {len(sentence.split())}: {sentence}")
    print("\n".join(faults) or "each link leads somewhere, and each script has its row")
    paths = [*PAGES, *sorted(os.path.relpath(path, TOP) for path in glob.glob(f"{TOP}/docs/operating/*"))]
    counts = {path: len(read(path).split()) for path in paths}
    for path, count in counts.items():
        print(f"{count:6} {path}")
    print(f"{sum(count for path, count in counts.items() if path.startswith('docs/')):6} docs/")
    sys.exit(1 if faults else 0)


if __name__ == "__main__":
    main()
