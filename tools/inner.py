"""Says where something public names a definition of a folder specs/Inner.

What stands under specs/Inner are contracts between functions of one crate: nobody has to believe them, since
they are tied to the definitions beside that folder. So no clause of a function, a method or a trait that a crate
exports may name one, no ghost member of an exported type either (what its value is seen as), and no file of specs/
outside the folder may import one. A clause reaches to the brace that closes it, on whatever line. A method of an
`impl Trait for Type` is as public as the type, and so is a `pub` method, whichever module the `impl` is in. An import may give a name
another one (`as`), be of a module (`y` of `y.name`), of the folder, or of what is above it, and may name what an earlier one gave a name.
Nor may docs/THEOREMS.md use a name that only a definition or a module under specs/Inner has: it names what has to be read.

    python3 tools/inner.py [FOLDER]    prints each such place in the crates of FOLDER (crates), and in THEOREMS beside it; ends with
                                       status 1 where there is one, or where a place that is made for it isn't found
"""

import pathlib
import re
import sys
import tempfile

USE = re.compile(r"^\s*(?:pub )?(?:ghost )?use ([\w.+◌]+?)(?:\.\{([^}]*)\})?(?: as ([\w+]+))?;?$", re.M)
DEFINITION = re.compile(r"^\s*(?:(?:abbrev|record|data|opaque|open) )*pub (?:(?:abbrev|record|data|opaque) )*([\w']+)", re.M)
NAMED = re.compile(r"\b(?:fn|struct|enum|trait|type|const|mod|ghost|ensures|requires) (\w+)")
# what the kit has, too: `Spans` of httparse
KIT = {"Spans"}
SPAN = re.compile(r"```.*?```|`[^`\n]+`", re.S)
CLAUSE = re.compile(r"^\s*(?:requires|ensures|ghost \w+\s*[:=])")
ITEM = re.compile(r"^(pub )?(?:const )?(fn|trait|struct|enum) (\w+)")
DECLARED = re.compile(r"^(?:pub(?:\([^)]*\))? )?(?:const )?(?:fn|trait|struct|enum) (\w+)", re.M)
IMPL = re.compile(r"^impl\b")
METHOD = re.compile(r"^    (pub |pub\([^)]*\) )?(?:const )?fn (\w+)")
MEMBER = re.compile(r"^    ghost (\w+)\s*[:=]")


def exports(root):
    """The modules that a crate's root makes public, and the items that it passes on."""
    modules = set(re.findall(r"^pub mod (\w+);", root, re.M))
    items = set()
    for module, braced, single in re.findall(r"^pub use (\w+)::(?:\{([^}]*)\}|(\w+));", root, re.M):
        for name in (braced or single).split(","):
            if name.strip():
                items.add((module, name.strip()))
    return modules, items


def imports(text):
    """The names that a file imports from a folder Inner, as it spells them, each with the line that imports it."""
    found, known = {}, {}
    for use in USE.finditer(text):
        path, braced, alias = use.groups()
        # (an earlier import may have given the front of the path its name)
        front, _, rest = path.partition(".")
        path = ".".join(filter(None, [known.get(front, front), rest]))
        names = [part.strip().partition(" as ") for part in (braced or "").split(",") if part.strip()] if braced is not None else [("", "", alias or path.split(".")[-1])]
        line = text.count("\n", 0, use.start(1)) + 1
        for name, _, given in names:
            given, whole = given.strip() or name, path + ("." + name if name else "")
            known[given] = whole
            if re.match(r"Rattle\.\w+\.specs\.Inner(?:\.|$)", whole):
                found[given] = line
    return found


def named(line, names):
    return [name for name in sorted(names) if re.search(r"(?<![\w◌.-])%s(?![\w◌-])" % re.escape(name), line)]


def names_in(line, names):
    """The names of a line that are imported from a folder Inner, or that reach into one from above."""
    return named(line, names) + re.findall(r"(?<![\w◌-])\w+(?:\.\w+)*\.(Inner\.[\w.◌]+)", line)


def without_brackets(text):
    """What stands outside of `<..>`; `->` is no bracket."""
    depth, kept = 0, ""
    for at, letter in enumerate(text):
        if letter == "<":
            depth += 1
        elif letter == ">" and text[at - 1] != "-":
            depth -= 1
        elif depth == 0:
            kept += letter
    return kept


def impl_of(line):
    """The type of an `impl`, and whether it is one of a trait."""
    words = without_brackets(line.partition("{")[0]).partition(" where ")[0].split()
    of_trait = "for" in words
    name = words[words.index("for") + 1] if of_trait else words[1]
    return name.split("::")[-1], of_trait


def clause_at(lines, start):
    """The lines of the clause that begins here: up to the brace that closes its first one, or the line's end where it has none."""
    depth, opened, found = 0, False, []
    for number in range(start, len(lines)):
        found.append((number + 1, lines[number]))
        for letter in lines[number]:
            if letter == "{":
                depth, opened = depth + 1, True
            elif letter == "}":
                depth -= 1
        if not opened or depth <= 0:
            break
    return found


def public_clauses(lines, is_public):
    """The lines of the clauses of public items, each with the item's name and the line's number."""
    owner, kind, public, item, of_trait = None, None, False, None, False
    for at, line in enumerate(lines):
        at_root, method, member = ITEM.match(line), METHOD.match(line), MEMBER.match(line)
        if at_root:
            word, kind, item = at_root.groups()
            owner, public = item, bool(word) and kind in ("fn", "trait") and is_public(item)
        elif IMPL.match(line):
            owner, of_trait = impl_of(line)
            kind, public, item = "impl", False, owner
        elif method:
            item = f"{owner}::{method.group(2)}"
            public = is_public(owner) and (kind == "trait" or kind == "impl" and of_trait or method.group(1) == "pub ")
        elif member and kind in ("impl", "trait"):
            item, public = f"{owner}::{member.group(1)}", is_public(owner)
        elif line.startswith("pub(crate)"):
            kind, public = "fn", False
        if public and CLAUSE.match(line):
            for number, text in clause_at(lines, at):
                yield item or owner, number, text


def items_of(text):
    """The items of a file, by name, and whether each is `pub`."""
    return {name: bool(word) for word, _, name in (found.groups() for found in map(ITEM.match, text.splitlines()) if found)}


def places(crates):
    """Each place in these crates."""
    found = []
    for crate in sorted(path for path in crates.iterdir() if (path / "src").is_dir()):
        root = crate / "src" / "lib.rt"
        modules, items = exports(root.read_text()) if root.exists() else (set(), set())
        sources = {source: source.read_text() for source in sorted((crate / "src").rglob("*.rt"))}
        is_open = lambda module, item: module in modules or module == "lib" or (module, item) in items
        declared = {name for text in sources.values() for name in DECLARED.findall(text)}
        exported = {name for source, text in sources.items() for name, is_pub in items_of(text).items() if is_pub and is_open(source.stem, name)}
        for source, text in sources.items():
            module = source.stem
            names = imports(text)
            hidden = {name for name, is_pub in items_of(text).items() if not is_pub}
            # a type that the crate does not declare is another crate's
            known = lambda item: item not in hidden and (is_open(module, item) or item in exported or item not in declared)
            for item, number, line in public_clauses(text.splitlines(), known):
                for name in names_in(line, names):
                    found.append(f"{source}:{number}: a clause of {item} names {name}")
        for definitions in sorted((crate / "specs").rglob("*.antt")):
            if "Inner" in definitions.parts:
                continue
            text = definitions.read_text()
            lines = dict.fromkeys(imports(text).values())
            lines.update(dict.fromkeys(number for number, line in enumerate(text.splitlines(), 1) if "Inner." in line.partition("--")[0]))
            found += [f"{definitions}:{number}: {text.splitlines()[number - 1].strip()}" for number in sorted(lines)]
    return found


def is_inner(path):
    return "Inner" in path.parts or path.name == "Inner.antt"


def names_only_inner(crates):
    """The names that only definitions and modules under specs/Inner have, of all crates."""
    inner, others = set(), set()
    for path in crates.glob("*/specs/**/*.antt"):
        (inner if is_inner(path) else others).update([path.stem, *DEFINITION.findall(path.read_text())])
    for path in crates.glob("*/src/**/*.rt"):
        others.update([path.stem, *NAMED.findall(path.read_text())])
    return inner - others - KIT


def in_theorems(crates, page):
    """Each place of a page that uses a name which only what stands under specs/Inner has."""
    text, only = page.read_text(), names_only_inner(crates)
    for span in SPAN.finditer(text):
        for name in sorted(only & set(re.findall(r"[\w']+", span[0]))):
            yield "%s:%d: the page names %s" % (page, text.count("\n", 0, span.start()) + 1, name)


# a crate with a place of each kind, by the name that each names, and some that are none
MADE = """\
ghost use Rattle.made.specs.Inner.All.{one, two, three, four, five, six, seven};

pub struct Seen {
    it: u64,
}

struct Hidden {
    it: u64,
}

impl Model for Seen {
    ghost use Rattle.made.specs.Inner.All.{eight};

    ghost view = { eight };
}

impl<'a, T: Fn(u8) -> u8> Shown<T> for Seen {
    fn show(&self) -> u64
        ensures { result ≡ one }
    {
        self.it
    }
}

impl Shown for Hidden {
    fn show(&self) -> u64
        ensures { result ≡ seven }
    {
        self.it
    }
}

impl Seen {
    pub fn get(&self) -> u64
        ensures known { result ≡ 1
            → two }
    {
        self.it
    }

    fn own(&self) -> u64
        ensures { result ≡ seven }
    {
        self.it
    }
}

pub trait Kept {
    ghost rows: { three };

    fn look(&self)
        ensures { four };
}

pub fn all()
    requires { five }
    ensures { six }
{}
"""
# a module that is not exported, with more of the exported type
APART = """\
ghost use Rattle.made.specs.Inner.All.{seven, nine, ten, eleven};

impl Seen {
    pub fn more(&self) -> u64
        ensures { result ≡ nine }
    {
        self.it
    }

    pub(crate) fn less(&self) -> u64
        ensures { result ≡ seven }
    {
        self.it
    }
}

impl Kept for Seen {
    fn look(&self)
        ensures { ten }
    {}
}

impl Kept for u64 {
    fn look(&self)
        ensures { eleven }
    {}
}

pub fn inside()
    ensures { seven }
{}
"""
# a module in which imports give other names: to a definition, a module, the folder, what is above it, and one by another
RENAMED = """\
ghost use Rattle.made.specs.Inner.All as all;
ghost use Rattle.made.specs.Inner as inner;
ghost use Rattle.made.specs as specs;
ghost use Rattle.made.specs.Inner.All.{thirteen as other};
ghost use all.{fourteen};
ghost use Rattle.made.specs.Inner.Some;
ghost use Rattle.made.specs.Outer as outer;

pub fn renamed()
    ensures { all.twelve }
    ensures { inner.All.twelve }
    ensures { specs.Inner.All.twelve }
    ensures { other }
    ensures { fourteen }
    ensures { Some.twelve }
    ensures { outer.twelve }
{}
"""
# a file of specs/ with each of these
SPECS = """\
-- Inner.All is no import
use Rattle.made.specs.Inner.All as all
use Rattle.made.specs as above
use Rattle.made.specs.Inner.All.{fifteen}
use Rattle.made.specs.Outer.{sixteen}
abbrev pub seventeen : above.Inner.All.twelve
"""
INNER = "abbrev pub twelve : ℕ\n  record pub Eighteen : ℕ\nabbrev pub seventeen : ℕ\n"
PAGE = "`seventeen` and `made`, twelve\nbut `twelve old new`, `All`\n```\nx : Eighteen\n```\n"

NAMES = ["eight", "eleven", "five", "four", "nine", "one", "six", "ten", "three", "two"]
NAMES += ["Inner.All.twelve", "Some", "all", "fourteen", "inner", "other", "specs.2", "specs.4", "specs.6", "page.All", "page.Eighteen", "page.twelve"]


def missed():
    """Of the places of each kind that are made for it, those that aren't found, and what is found and is none."""
    with tempfile.TemporaryDirectory() as room:
        crate = pathlib.Path(room) / "made"
        for part in ("src", "specs/Inner"):
            (crate / part).mkdir(parents=True)
        (crate / "src" / "lib.rt").write_text("mod apart;\npub mod made;\npub mod renamed;\n")
        (crate / "src" / "renamed.rt").write_text(RENAMED)
        (crate / "specs" / "Outer.antt").write_text(SPECS)
        (crate / "specs" / "Inner" / "All.antt").write_text(INNER)
        (pathlib.Path(room) / "page.md").write_text(PAGE)
        (crate / "src" / "made.rt").write_text(MADE)
        (crate / "src" / "apart.rt").write_text(APART)
        found = ["specs." + place.split(":")[1] if place.startswith(str(crate / "specs")) else place.split()[-1] for place in places(pathlib.Path(room))]
        found += ["page." + place.split()[-1] for place in in_theorems(pathlib.Path(room), pathlib.Path(room) / "page.md")]
        return sorted(set(NAMES) ^ set(found))


def main():
    wrong = missed()
    if wrong:
        print(f"made for this look, and told wrongly: {', '.join(wrong)}")
        return 1
    crates = pathlib.Path(sys.argv[1] if len(sys.argv) > 1 else "crates")
    page = crates.parent / "docs" / "THEOREMS.md"
    if not any(crates.glob("*/src/*.rt")) or not page.is_file():
        print(f"{crates} has no crate, or there is no {page}")
        return 1
    found = places(crates) + list(in_theorems(crates, page))
    print("\n".join(found) or "no public clause names what stands under specs/Inner, nor does THEOREMS")
    return 1 if found else 0


sys.exit(main())
