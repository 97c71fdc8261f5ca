#!/usr/bin/env python3
"""Checks a crate over the libraries that a gate has left in another clone, so that none of the crates below is built anew.

    python3 tools/over.py GATE CRATE [--source A,B] [options of `rattle check`]

GATE is the top of a clone in which `rt ci` without names, or `rt check` of CRATE, has proved the crates below CRATE, whose
text has to be the same (`rt ci NAME` leaves no libraries); CRATE is the crate's name here. It is what `rt check` does but
for that, and is for working alone: only `rt ci` decides. What it has checked is kept in GATE/crates/CRATE/out/over, and
taken by the next call. Crates named by `--source` are read as source: of one whose text has changed no library is needed
then, nor a proof, but each crate between it and CRATE is to be named, too. OVER_JOBS in the environment says how many processes
check at once (1).
Examples, from the top of the repository:

    python3 tools/over.py ../gate program --only program::serving --allow-holes
    python3 tools/over.py ../gate tables --only 'tables::store::SqlKeep::close' --allow-holes
    python3 tools/over.py ../gate tables --source statements,pages,texts --only tables::steps --allow-holes
"""
import os
import subprocess
import sys

TOP = os.path.dirname(os.path.dirname(os.path.abspath(__file__)))


def crates():
    """What each crate of crates.txt stands on, in its order."""
    found = {}
    with open(f"{TOP}/crates.txt", encoding="utf-8") as file:
        for line in file:
            name, colon, below = line.partition("#")[0].partition(":")
            if colon:
                found[name.split()[0]] = below.split()
    return found


def below(of, name):
    """Our crates below this one, lowest first."""
    found = []
    for one in of[name]:
        if one in of:
            found += [it for it in [*below(of, one), one] if it not in found]
    return found


def texts(folder):
    """The files of a crate that are proved, with their bytes."""
    found = {}
    for part in ("src", "specs", "proofs"):
        for here, _, names in os.walk(f"{folder}/{part}"):
            for name in names:
                with open(f"{here}/{name}", "rb") as file:
                    found[os.path.relpath(f"{here}/{name}", folder)] = file.read()
    return found


def command(gate, name, source):
    """The words that check this crate over the libraries in `gate`, in whichever copy of its folder they are run."""
    of = crates()
    if name not in of:
        sys.exit(f"{name} is no crate of crates.txt")
    kit = os.path.dirname(subprocess.run(["rt", "doc"], capture_output=True, text=True, check=True).stdout.strip())
    folder, ours = f"{TOP}/crates/{name}", below(of, name)
    built = [one for one in ours if one not in source]
    for one in built:
        if not os.path.isdir(f"{gate}/crates/{one}/out/rlib/{one}.rlib"):
            sys.exit(f"{gate} has no library of {one}: let rt ci prove it there")
        if texts(f"{gate}/crates/{one}") != texts(f"{TOP}/crates/{one}"):
            sys.exit(f"{one} is another one in {gate}: its library is of no use here")
    root = "src/lib.rt" if os.path.exists(f"{folder}/src/lib.rt") else "src/main.rt"
    kept = f"{gate}/crates/{name}/out/over"
    os.makedirs(kept, exist_ok=True)
    words = [f"{kit}/bin/rattle", "check", "--crate-name", name, root, "--extern", f"std={kit}/rlibs/std.rlib"]
    for one in dict.fromkeys(it for crate in [*(it for it in ours if it in source), name] for it in of[crate]):
        if one not in source:
            words += ["--extern", f"{one}={gate}/crates/{one}/out/rlib/{one}.rlib" if one in of else f"{one}={kit}/rlibs/{one}.rlib"]
    words += ["-L", f"dependency={kit}/rlibs"]
    for one in built:
        words += ["-L", f"dependency={gate}/crates/{one}/out/rlib"]
    for one in ours:
        if one in source:
            words += ["--lib", f"{one}:{','.join(['std', *of[one]])}={TOP}/crates/{one}/src/lib.rt"]
    words += ["--antt-project", f"{kit}/rattle/logic/antt-project.json", "--logic-built", f"{kit}/logic_built", "--links", f"{name}="]
    return [*words, "--jobs", os.environ.get("OVER_JOBS", "1"), "--incremental", kept]


def main():
    if len(sys.argv) < 3 or sys.argv[1] in ("-h", "--help"):
        sys.exit(__doc__)
    gate, name, more = os.path.abspath(sys.argv[1]), sys.argv[2], sys.argv[3:]
    source = []
    if more[:1] == ["--source"]:
        source, more = more[1].split(","), more[2:]
    sys.exit(subprocess.run([*command(gate, name, source), *more], cwd=f"{TOP}/crates/{name}").returncode)


if __name__ == "__main__":
    main()
