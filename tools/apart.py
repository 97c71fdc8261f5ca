#!/usr/bin/env python3
"""Tries the mutants and their twins in rounds: many at once, in one check of a crate over the proved libraries below it.

    python3 tools/apart.py [NAME..]                those of these crates, or of all; builds the libraries first where they are old
    python3 tools/apart.py NAME/WORD..             those of the crate whose names have WORD
    python3 tools/apart.py --over GATE [NAME..]    the same over the libraries that `rt ci` left in the clone GATE, of the same text
    python3 tools/apart.py --unchanged ..          whether the functions that mutants change pass where they are as they were
    python3 tools/apart.py --rounds ..             which would be tried together, and of which functions; builds nothing
    python3 tools/apart.py --applies               whether each mutant and twin still applies, in a second

A mutant, crates/NAME/apart/*.edit, is a planted mistake: a check of the function that it changes has to refuse it, at a goal of
that function or of a lemma that the function rests on. It isn't enough that a proof names what the mutant took away. A twin,
crates/NAME/twins/SAME_NAME.edit, has the shape of a mutant and the right meaning, and has to pass. So it isn't the shape that
the mutant is refused for. A mutant has one if it plants something: if its new text has more calls, branches or functions than
the old one, and no definition turns with it.

No mutant changes a contract, so mutants of different functions don't disturb each other. A round changes each function once at
most, and none that another of the round calls. It checks the changed functions alone (`--only`). The proofs of all others are
left open in the room where the check runs (`Proof.antt`, whose body is a hole): `rt ci` has proved them, and what they promise
is all that a caller rests on.

Alone in their rounds are a mutant that plants a function, and one that turns a definition with the code. Of the latter the
function has to pass, and the goal that refuses it stands in the file that the mutant's line `law: proofs/FILE.antt` names: an
example, or a law. A line `of: PATH` names a function where the text doesn't tell it (a constant is of each function that names it).

What was tried is kept beside what `rt ci` keeps, on this machine alone, by the checksum of all that it read: the mutant, its
crate, the crates below, the kit and this script. RT_JOBS in the environment says how many rounds run at once.

Ends with status 1 where a mutant isn't refused, a twin doesn't pass, or none is there.
"""

import collections
import concurrent.futures
import glob
import hashlib
import json
import os
import re
import shutil
import subprocess
import sys
import tempfile
import time

import over

TOP = os.path.dirname(os.path.dirname(os.path.abspath(__file__)))
PARTS = ("src", "specs", "proofs")
# as many mutants as there may be
MOST = 170
# the memory that a round may take, in bytes
ROUND = 3_500_000_000
# what is said of a goal that isn't proved, and of what can't be read
GOAL = re.compile(r"(?:note: )?(?:\./)?((?:src|specs|proofs)/[^:\s]+):(\d+):\d+: (?:error|it is not proved|.*not proved)")
# what a proof says where it names what isn't there
NAMES = re.compile(r"has no field|is not in scope|has no `|was not admitted")
UNREAD = re.compile(r"(?:\./)?(?:src|specs)/\S+:\d+:\d+: error|error\[")
# what a mutant may plant: a call, a branch, a comparison, a function; and what none of these stands in
PLANTS = re.compile(r"\b[a-z_]\w*!?(?:::<[^>]*>)?\(|\b(?:if|match|fn)\b|&&|\|\||\?|==|\|(?= (?:true|false)\b)")
TEXT = re.compile(r'"(?:[^"\\]|\\.)*"')
IMPORT = re.compile(r"\s*(?:pub )?(?:ghost )?use ")
ITEM = re.compile(r"^([ \t]*)(?:#\[[^\]]*\]\s*)?(?:pub(?:\([^)]*\))? )?(?:(?:const |unsafe )*fn|const|static) (\w+)", re.M)
FN = re.compile(r"\bfn \w+$")
IMPL = re.compile(r"^impl\b[^{;]*", re.M)
STUB = """use Rattle.{place}.Statement.{{statement}}
{laws}
pub {name}_spec : {{M : Type 1}} → statement M
{name}_spec = ?
"""


def lines_of(edit):
    """The words of an edit's lines, with what stands behind each."""
    with open(edit, encoding="utf-8") as it:
        for line in it.read().split("\n"):
            word, colon, text = line.partition(":")
            if colon:
                yield word, text.removeprefix(" ")


def pairs(edit):
    """What an edit replaces: the file, the old text and the new one of each pair."""
    path, old, found = None, None, []
    for word, text in lines_of(edit):
        if word == "file":
            path = text.strip()
        elif word == "old":
            old = text
        elif word == "new":
            found.append((path, old, text))
    return found


def text_of(path):
    with open(path, encoding="utf-8") as it:
        return it.read()


def edited(edit, texts):
    """The new texts of the files that an edit changes, over these, which give a file's text by its path."""
    found = {}
    for path, old, new in pairs(edit):
        text = found.get(path) or texts(path)
        if text.count(old) != 1:
            sys.exit(f"{edit}: {old!r} doesn't stand once in {path}")
        found[path] = text.replace(old, new)
    return found


def plants(edit):
    """Whether an edit has more calls, branches or functions than what it replaces, and no definition turns with it."""
    found = [it for it in pairs(edit) if not IMPORT.match(it[1])]
    count = [sum(len(PLANTS.findall(TEXT.sub("", it[at]))) for it in found) for at in (1, 2)]
    return count[0] < count[1] and all(path.startswith("src/") for path, _, _ in found)


def edits(kind, name):
    """The paths of a crate's edits of this kind, in order."""
    return sorted(glob.glob(f"{TOP}/crates/{name}/{kind}/*.edit"))


def applies():
    """What doesn't hold of the mutants and twins as they stand, a line each."""
    said, names = [], {}
    for name in sorted(os.listdir(f"{TOP}/crates")):
        own = edits("must-fail", name) + edits("apart", name)
        twins = [os.path.basename(it) for it in edits("twins", name)]
        for edit in own:
            base = os.path.basename(edit)
            if base in names:
                said.append(f"{name}/{base}: {names[base]} has an edit of that name")
            names[base] = name
            if plants(edit) and base not in twins:
                said.append(f"{name}/{base}: it plants something, and has no twin")
        for twin in twins:
            if twin not in [os.path.basename(it) for it in own]:
                said.append(f"{name}/{twin}: the twin of no edit")
        for edit in own + edits("twins", name):
            edited(edit, lambda path, name=name: text_of(f"{TOP}/crates/{name}/{path}"))
    if len(names) > MOST:
        said.append(f"{len(names)} edits, of which {MOST} may be")
    return said


def module(name, path):
    """The module that a file is."""
    inner = re.fullmatch(r"src/(.*)\.rt", path)[1]
    return name if inner in ("lib", "main") else f"{name}::{inner.replace('/', '::')}"


def strings(of):
    if isinstance(of, str):
        yield of
    else:
        for it in of.values() if isinstance(of, dict) else of if isinstance(of, list) else ():
            yield from strings(it)


class Crate:
    """A crate whose edits are tried: its texts, its functions with those that they call, and the words that check it."""

    def __init__(self, gate, name):
        self.name, self.folder, self.gate = name, f"{TOP}/crates/{name}", gate
        self.words = over.command(gate, name, [])
        at = self.words.index("--incremental")
        self.words[at : at + 2] = []
        with open(f"{gate}/crates/{name}/out/rlib/{name}.rlib/toolchain/mir.json", encoding="utf-8") as it:
            made = dict(json.load(it))
        self.made = made
        calls = {one: set(strings(of["body"])) & made.keys() if isinstance(of, dict) and "body" in of else set() for one, of in made.items()}
        # a trait's declaration and what drops nothing have no proof
        self.functions = {one: it for one, it in calls.items() if not one.split("::")[-1].endswith("+decl") and "++none" not in one}
        # what drops a type that holds itself has a proof that no file may stand for
        self.own = {one for one in self.functions if "+Destruct::" in one and one in set(strings(made[one]))}
        self.texts = {path: of.decode() for path, of in over.texts(self.folder).items()}
        # functions of a cycle have one proof
        self.cycles = {one for path in self.texts if path.startswith("src/") for item in re.findall(r"#\[cycle\(\w+\)\][^{;]*?\bfn (\w+)", self.texts[path]) for one in self.named(module(name, path), item, "")}
        self.sum = hashlib.sha256(repr([(it, sorted(over.texts(f"{TOP}/crates/{it}").items())) for it in [*over.below(over.crates(), name), name]]).encode()).hexdigest()

    def named(self, inside, name, head):
        """The functions of that name in a module, in the `impl` with that head if there are several."""
        found = [it for it in self.functions if it.split("::")[-1] == name and "::fn::" not in it]
        if not head:
            return [it for it in found if it.rpartition("::")[0] == inside]
        trait, _, of = re.sub(r"^impl\s*(?:<.*?>(?=\s+\w))?\s*", "", head).rpartition(" for ")
        word, has = (re.match(r"\s*(?:\w+::)*(\w+)", it) for it in (of, trait))
        # the functions of an `impl` of another module's type have that module's path
        found = [it for it in found if it.startswith(f"{inside}::") and it.rpartition("::")[0] != inside] or found
        wanted = word[1] + (has[1] if has else "")
        of = [it for it in found if it.split("::")[-2].startswith(wanted)]
        return [it for it in of if it.split("::")[-2] == wanted] or of

    def around(self, path, place):
        """The functions that a place of a file is in, or that name the constant which it is in."""
        text, inside = self.texts[path], module(self.name, path)
        item = collections.deque(ITEM.finditer(text, 0, place), 1)
        if not item:
            return []
        item = item.pop()
        if FN.search(item[0]):
            head = collections.deque(IMPL.finditer(text, 0, item.start()), 1)
            return self.named(inside, item[2], head.pop()[0] if item[1] and head else "")
        found = []
        for other in (it for it in self.texts if it.startswith("src/")):
            if other == path or re.search(rf"\b{item[2]}\b", self.texts[other]):
                for use in re.finditer(rf"(?<!const )(?<!static )\b{item[2]}\b", self.texts[other]):
                    at = collections.deque(ITEM.finditer(self.texts[other], 0, use.start()), 1)
                    if at and FN.search(at[0][0]):
                        found += self.around(other, use.start())
        return list(dict.fromkeys(found))

    def places(self, edit):
        """Where an edit changes code: the file, and the place of the first character that it changes."""
        for path, old, new in pairs(edit):
            if path.startswith("src/") and not IMPORT.match(old):
                yield path, self.texts[path].index(old) + min(len(os.path.commonprefix([old, new])), len(old) - 1)

    def of(self, edit):
        """The functions that an edit changes."""
        found = [text.strip() for word, text in lines_of(edit) if word == "of"]
        for path, place in self.places(edit) if not found else ():
            found += self.around(path, place)
        return list(dict.fromkeys(found))

    def lemmas(self, edit):
        """The files of lemmas that name a constant which an edit changes."""
        items = [collections.deque(ITEM.finditer(self.texts[path], 0, place), 1) for path, place in self.places(edit)]
        names = [it[0][2] for it in items if it and not FN.search(it[0][0])]
        return {path for path, text in self.texts.items() if path.startswith("proofs/") and path.count("/") == 1 and any(re.search(rf"\b{it}\b", text) for it in names)}

    def closures(self, one):
        """The closures of a function, and what makes them callable."""
        inside, _, name = one.rpartition("::")
        return [it for it in self.functions if f"::fn::{name}::" in it or f"::{name}::" in it and "::fn::" in it and it.startswith(inside.rpartition("::")[0])]


class Try:
    """An edit to be tried: of which functions it is, and whether alone."""

    def __init__(self, crate, kind, edit):
        self.crate, self.kind, self.edit = crate, kind, edit
        self.label = f"{crate.name}/{os.path.basename(edit)}" + {"twins": " (twin)", "unchanged": " (unchanged)"}.get(kind, "")
        self.changes = pairs(edit) if kind != "unchanged" else []
        # a function of another module's type stands in a file that its path doesn't name
        self.files = {path for path, _, _ in pairs(edit)}
        self.functions = crate.of(edit)
        self.lemmas = crate.lemmas(edit)
        self.laws = [text.strip() for word, text in lines_of(edit) if word == "law"] if self.changes else []
        self.turns = any(not path.startswith("src/") for path, _, _ in self.changes)
        self.alone = self.turns or any(re.search(r"\bfn \w+[(<]", new) for _, _, new in self.changes)
        self.calls = {called for one in [*self.functions, *(it for f in self.functions for it in crate.closures(f))] for called in crate.functions.get(one, ())}
        with open(edit, "rb") as it, open(os.path.abspath(__file__), "rb") as own:
            self.sum = hashlib.sha256(repr((KIT_SUM, hashlib.sha256(own.read()).hexdigest(), crate.name, crate.sum, kind, os.path.basename(edit), it.read())).encode()).hexdigest()

    def disturbs(self, other):
        """Whether two edits can't be in one round."""
        mine, theirs = set(self.functions), set(other.functions)
        touch = any(a[0] == b[0] and (a[1] in b[1] or b[1] in a[1]) for a in self.changes for b in other.changes)
        # what has to pass may call nothing that has to be refused
        kinds = {self.kind, other.kind}
        calls = kinds == {"apart", "twins"} and (self.calls & theirs if self.kind == "twins" else other.calls & mine)
        return self.alone or other.alone or touch or bool(mine & theirs or calls or self.lemmas & other.lemmas)


def kit_sum():
    """A sum of what names the kit."""
    ran = subprocess.run(["rt", "version"], capture_output=True, text=True, check=True).stdout
    return hashlib.sha256(repr((ran, os.stat(f"{KIT}/bin/rattle").st_size, os.stat(f"{KIT}/bin/rattle").st_mtime_ns)).encode()).hexdigest()


KIT = os.path.dirname(subprocess.run(["rt", "doc"], capture_output=True, text=True, check=True).stdout.strip())
KIT_SUM = kit_sum()
KEPT = f"{os.path.dirname(KIT)}/rattle-kept/apart"


def kept(sum):
    """What an edit of this sum came to in an earlier run, if it was as wanted."""
    try:
        with open(f"{KEPT}/{sum}", encoding="utf-8") as it:
            found = json.load(it)
        return found["told"] if found["sum"] == sum else None
    except (OSError, ValueError, KeyError, TypeError):
        return None


def keep(sum, told):
    try:
        os.makedirs(KEPT, 0o700, exist_ok=True)
        with tempfile.NamedTemporaryFile("w", dir=KEPT, prefix="new-", delete=False, encoding="utf-8") as it:
            json.dump({"sum": sum, "told": told}, it)
        os.replace(it.name, f"{KEPT}/{sum}")
    except OSError:
        # nothing is kept then
        pass


def rounds(tries):
    """The tries of one crate in rounds."""
    found = []
    for one in tries:
        for others in found:
            if not any(one.disturbs(it) for it in others):
                others.append(one)
                break
        else:
            found.append([one])
    return found


def stub(room, crate, one, laws=()):
    """Leaves the proof of a function open in a room."""
    path = one.split("::")[1:]
    folder = f"{room}/proofs/{'/'.join(path)}"
    os.makedirs(folder, exist_ok=True)
    for it in ("Answers", "Invariants"):
        if os.path.exists(f"{folder}/{it}.antt"):
            os.remove(f"{folder}/{it}.antt")
    named = "".join(f"use Rattle.{crate.name}.{it.removesuffix('.antt').replace('/', '.')}\n" for it in laws)
    with open(f"{folder}/Proof.antt", "w", encoding="utf-8") as it:
        it.write(STUB.format(place=".".join([crate.name, "proofs", *path]), name=path[-1], laws=named))


def emptied(crate, path, text, own):
    """The text of a file in which the functions that aren't named do nothing: no one's proof is asked, and what they call isn't read."""
    lines, at = text.split("\n"), 0
    places = [(text.count("\n", 0, item.end()), item) for item in ITEM.finditer(text) if FN.search(item[0])]
    for start, item in reversed(places):
        if "const fn" in item[0] or item[2] in own.get(path, ()):
            continue
        indent = item[1]
        # the layout of rt fmt: a body begins in a line of its own, or at the end of the line that ends what the function takes
        for at in range(start, len(lines)):
            line = lines[at]
            if line.startswith(f"{indent}    "):
                continue
            if line.endswith("{") and (line == f"{indent}{{" or line.startswith(indent)):
                end = next(it for it in range(at + 1, len(lines)) if lines[it] == f"{indent}}}")
                if end > at + 1:
                    # what is said of the lines behind it names their numbers
                    lines[at + 1 : end] = [f"{indent}    loop {{}}", *[""] * (end - at - 2)]
                break
            if at > start and not line.startswith((f"{indent})", f"{indent}where")) or line.endswith((";", "}")):
                break
    return "\n".join(lines)


def checked(tries, over):
    """What the check of a round says, a line each, and its status; `over` keeps what the rounds of a crate have in common."""
    crate = tries[0].crate
    with tempfile.TemporaryDirectory() as room:
        for part in PARTS:
            if os.path.isdir(f"{crate.folder}/{part}"):
                shutil.copytree(f"{crate.folder}/{part}", f"{room}/{part}")
        for one in (it for it in tries if it.changes):
            for path, text in edited(one.edit, lambda path: text_of(f"{room}/{path}")).items():
                with open(f"{room}/{path}", "w", encoding="utf-8") as it:
                    it.write(text)
        tried = {it for one in tries for it in one.functions}
        own = tried | {it for one in tried for it in crate.closures(one)} | crate.cycles
        only, laws = sorted(tried), [it for one in tries for it in one.laws]
        kept = collections.defaultdict(set)
        for path in crate.texts:
            if path.startswith("src/"):
                text = text_of(f"{room}/{path}")
                names = {it.split("::")[-1] for it in own if it.startswith(module(crate.name, path) + "::") or any(path in one.files for one in tries)}
                with open(f"{room}/{path}", "w", encoding="utf-8") as it:
                    it.write(emptied(crate, path, text, {path: names}))
        # what drops a value is there if a function that stays drops it
        drops = {it for one in own for it in strings(crate.made[one]) if "+Destruct::" in it} - crate.own
        for one in crate.functions:
            if one not in own and "::fn::" not in one and ("+" not in one.split("::")[-2] or one in drops or "NameMap" in one):
                stub(room, crate, one)
        if laws:
            # a function that is as it was reads them
            reader = next(it for it in crate.functions if it not in own and "+" not in it and "::fn::" not in it)
            stub(room, crate, reader, laws)
            only.append(reader)
        words = [*crate.words, "--incremental", over, "--allow-holes", *(it for one in only for it in ("--only", one))]
        ran = subprocess.run(words, cwd=room, stdin=subprocess.DEVNULL, stdout=subprocess.PIPE, stderr=subprocess.STDOUT, text=True, errors="replace")
        source = {path: text_of(f"{room}/{path}") for path in crate.texts if path.startswith("src/")}
    return ran.returncode, ran.stdout.split("\n"), source


def is_passed(line):
    """Whether a function's line says that its proof stands, but for proofs that the room leaves open."""
    if line in ("no holes", "proved"):
        return True
    holes = re.fullmatch(r"depends on (?:a hole|holes) in (.*)", line)
    return bool(holes) and all(it.endswith("_spec") and ".Proof." in it for it in re.findall(r"`([^`]+)`", holes[1]))


def lines_around(source, one, name):
    """The file and the lines of what has the name of a function, in a room's texts of the files that an edit changes or that have its module."""
    for path, text in source.items():
        if path in one.files or name.startswith(module(one.crate.name, path) + "::"):
            for item in ITEM.finditer(text):
                if item[2] == name.split("::")[-1]:
                    after = ITEM.search(text, item.end())
                    yield path, text.count("\n", 0, item.start(1)) + 1, text.count("\n", 0, after.start() if after else len(text)) + 1


def judged(tries, status, said, source):
    """What a round's check comes to for each of its tries: as wanted or not, and what to say; None where it says nothing of it."""
    crate = tries[0].crate
    verdicts = {found[1]: found[2] for found in (re.match(r"fn (\S+): (.*)", it) for it in said) if found}
    goals = [(GOAL.match(it), it) for it in said if "is not admitted: has-holes" not in it]
    goals = [(it[1], int(it[2]), line) for it, line in goals if it]
    told = {}
    for one in tries:
        lines = {it: verdicts[it] for it in one.functions if it in verdicts}
        if len(lines) < len(one.functions) or not lines or status not in (0, 1) or any("could not tell" in it for it in lines.values()):
            told[one] = None
            continue
        failing = [it for it, line in lines.items() if not is_passed(line)]
        places = [f"proofs/{'/'.join(it.split('::')[1:])}/" for it in [*failing, *(c for f in failing for c in crate.closures(f))]]
        spans = [span for it in failing for span in lines_around(source, one, it)]
        own = [it for it in goals if any(it[0].startswith(place) for place in places) or any(it[0] == path and first <= it[1] < last for path, first, last in spans)]
        if one.kind == "apart":
            own = [it for it in goals if it[0] in one.lemmas] or own
        meant = [it for it in own if not NAMES.search(it[2])]
        if one.kind != "apart":
            # what fails without a goal of its own calls what fails
            told[one] = (True, "passes") if not failing else (False, f"NOT PASSED: {own[0][2][:300]}") if own else None
        elif one.turns:
            by_law = [it for it in goals if it[0] in one.laws and not NAMES.search(it[2])]
            if failing:
                told[one] = False, f"NOT REFUSED by its law alone, since the function doesn't pass with its definition: {lines}"[:300]
            else:
                told[one] = (True, f"refused: {by_law[0][2][:200]}") if by_law else (False, "NOT REFUSED by the law that it names")
        elif not failing:
            told[one] = False, f"NOT REFUSED: {', '.join(lines)} still {'pass' if len(lines) > 1 else 'passes'}"
        elif meant:
            told[one] = True, f"refused: {meant[0][2][:200]}"
        else:
            told[one] = (False, f"NOT REFUSED for its meaning, but since a proof names what it took away: {own[0][2][:200]}") if own else None
    return told


def tried(tries, over):
    """What a round comes to: for each try, whether it ended as wanted, and what to say."""
    status, said, source = checked(tries, over)
    told = judged(tries, status, said, source)
    if len(tries) == 1:
        only = tries[0]
        if told[only] is None:
            bad = next((it for it in said if UNREAD.search(it)), "") or " ".join(it for it in said if it.startswith("fn "))[:300] or " ".join(said[-6:])[:300]
            told[only] = False, f"NOT TRIED: the check ended with status {status}: {bad[:300]}"
        return told
    # what disturbed it is not known: by itself, then
    for one in [it for it in tries if told[it] is None]:
        told |= tried([one], over)
    return told


def tried_of(plan):
    """What the rounds of a crate come to, one behind the other: lemmas are checked by the first that needs them."""
    with tempfile.TemporaryDirectory() as over:
        for of in plan:
            began, told = time.time(), tried(of, over)
            for one, (is_well, what) in told.items():
                if is_well:
                    keep(one.sum, what)
                print(f"{one.label}: {what}", flush=True)
            print(f"{of[0].crate.name}: a round of {len(of)} in {time.time() - began:.0f} s", flush=True)
            yield told


def lanes():
    """How many rounds run at once: one a processor, as many as memory holds."""
    jobs = os.environ.get("RT_JOBS", "")
    if jobs.isdigit() and int(jobs):
        return int(jobs)
    free = next(1024 * int(it.split()[1]) for it in text_of("/proc/meminfo").split("\n") if it.startswith("MemAvailable"))
    return max(1, min(len(os.sched_getaffinity(0)), int(0.85 * free / ROUND)))


def main():
    asked, gate = sys.argv[1:], None
    if asked[:1] in (["-h"], ["--help"]):
        sys.exit(__doc__)
    if asked == ["--applies"]:
        said = applies()
        print("\n".join(said) or "each edit and each twin applies")
        sys.exit(1 if said else 0)
    shows, kinds = asked[:1] == ["--rounds"], ("apart", "twins")
    asked = asked[shows:]
    if asked[:1] == ["--unchanged"]:
        asked, kinds = asked[1:], ("unchanged",)
    if asked[:1] == ["--over"] and len(asked) > 1:
        gate, asked = os.path.abspath(asked[1]), asked[2:]
    words = collections.defaultdict(list)
    for name, _, word in (it.partition("/") for it in asked):
        words[name].append(word)
    names = [*words] or [it for it in over.crates() if edits("apart", it)]
    lacking = [it for it in names if not edits("apart", it)]
    if lacking or not names:
        sys.exit(f"no crate {lacking[0] if lacking else ''} has mutants in apart/")
    # a list is wanted at once, and building takes an hour
    lacking = [it for it in names if not os.path.isdir(f"{gate or TOP}/crates/{it}/out/rlib/{it}.rlib")] if shows else []
    if lacking:
        sys.exit(f"there is no library of {lacking[0]}: give the clone of a gate by --over")
    for name in names if gate is None and not shows else ():
        if subprocess.run(["rt", "lib"], cwd=f"{TOP}/crates/{name}", stdin=subprocess.DEVNULL).returncode:
            sys.exit(f"{name} is not proved, so its mutants say nothing")
    crates = [Crate(gate or TOP, it) for it in names]
    tries = {it.name: [Try(it, kind, edit) for kind in kinds for edit in edits("twins" if kind == "twins" else "apart", it.name) if any(word in os.path.basename(edit) for word in words[it.name] or [""])] for it in crates}
    if not all(tries.values()):
        sys.exit(f"no mutant has such a name: {' '.join(asked)}")
    known = {one: kept(one.sum) for of in tries.values() for one in of} if not shows else {}
    left = {name: [it for it in of if not known.get(it)] for name, of in tries.items()}
    plan = [it for it in map(rounds, left.values()) if it]
    if shows:
        for of in (it for one in plan for it in one):
            print(f"{of[0].crate.name}: {len(of)}")
            print("".join(f"    {it.label}{' alone' if it.alone else ''}: {', '.join(it.functions) or 'NO FUNCTION'}\n" for it in of), end="")
        return
    told = {one: (True, f"{it} (kept)") for one, it in known.items() if it}
    new = sum(len(it) for one in plan for it in one)
    # the crates with most rounds first, since they take longest
    plan.sort(key=lambda it: -len(it) * sum(map(len, it[0][0].crate.texts.values())))
    with concurrent.futures.ThreadPoolExecutor(lanes()) as pool:
        for done in concurrent.futures.as_completed([pool.submit(lambda of: list(tried_of(of)), it) for it in plan]):
            for of in done.result():
                told |= of
    wrong = [one for one, (is_well, _) in told.items() if not is_well]
    for one in wrong:
        print(f"FAILED: {one.label}: {told[one][1]}")
    of = [sum(it.kind == kind and it not in wrong for it in told) for kind in ("apart", "twins", "unchanged")]
    print(f"{of[0]} mutants refused, {of[1]} twins passed, {f'{of[2]} unchanged passed, ' * (of[2] > 0)}{len(wrong)} failed; {len(told) - new} of them kept, {sum(map(len, plan))} rounds for the others")
    sys.exit(1 if wrong else 0)


if __name__ == "__main__":
    main()
