#!/usr/bin/env python3
"""Tests tools/package: what is in the package of a program, and what is refused.

    python3 tools/packaged.py PROGRAM

It builds the package several times, in temporary folders, and compares the bytes. dpkg-deb lists and unpacks it; the files have to be those
of the repository, with their modes, and the program the given one, which prints the package's version. The man page and the completion have
to name the commands, options and numbers that the program's help names, for each command. The scripts that dpkg runs are run with
stand-ins for all that they call. Nothing is installed. What is missing here is left out, and named: systemd-analyze (verifies the units, and
refuses one with a planted mistake), systemd-sysusers and systemd-tmpfiles (as root), man, lintian, readelf.
"""

import glob
import gzip
import os
import re
import shutil
import subprocess
import sys
import tempfile

from harness import HERE, PATIENCE, Wrong, bytes_of, compile_c, look_at, said

TOP = os.path.dirname(HERE)
PACKAGE = HERE + "/package"
EPOCH = "1700000000"     # 2023-11-14 22:13:20 UTC
DOC, SHARED, UNITS = "usr/share/doc/custody", "usr/share/custody", "usr/lib/systemd/system"
JOURNAL = "usr/lib/systemd/journald@custody.conf.d/custody.conf"
EXAMPLES = ["Caddyfile", "Containerfile", "corosync.conf", "custody.crm", "custody.res", "nginx.conf"]


def right(what):
    print("right:", what)


def left(what, tool):
    """Whether a tool is here; if it is not, says what is left out."""
    if shutil.which(tool):
        return False
    print("left: %s (no %s)" % (what, tool))
    return True


def ran(words, **how):
    """The status, and what came on both streams."""
    how = {"stdin": subprocess.DEVNULL, "capture_output": True, "text": True, "timeout": PATIENCE, "check": False, **how}
    done = subprocess.run(words, **how)
    return done.returncode, done.stdout, done.stderr


def environment(**more):
    """This environment with a fixed date, and with these changes; None removes a variable."""
    env = {**os.environ, "SOURCE_DATE_EPOCH": EPOCH, **more}
    return {name: value for name, value in env.items() if value is not None}


def built(path, out, cwd=None, **env):
    """The path of the package that is built."""
    status, output, errors = ran([sys.executable, PACKAGE, path, out], cwd=cwd, env=environment(**env))
    said("a build", (status, errors), (0, ""))
    return os.path.join(cwd or "", output.removesuffix("\n"))


class Unpacked:
    """A package that was built and unpacked, of which the checks ask."""

    def __init__(self, program):
        self.deb = built(program.path, program.folder)
        self.tree = program.folder + "/tree"
        said("dpkg-deb -x", ran(["dpkg-deb", "-x", self.deb, self.tree]), (0, "", ""))
        said("dpkg-deb -e", ran(["dpkg-deb", "-e", self.deb, self.tree + "-control"]), (0, "", ""))

    def file(self, path):
        return self.tree + "/" + path

    def read(self, path):
        return bytes_of(self.file(path))


def unpacked(program):
    if not hasattr(program, "package"):
        program.package = Unpacked(program)
    return program.package


# ----------------------------------------------------------------------------------------------------
# The package
# ----------------------------------------------------------------------------------------------------


def same_bytes(program):
    """Neither the folder, the umask, the time zone, the program's mode nor its age is in the package. Its date is that of the last commit."""
    first = unpacked(program)
    name = os.path.basename(first.deb)
    with tempfile.TemporaryDirectory() as other:
        copy = other + "/a program"
        shutil.copyfile(program.path, copy)
        os.chmod(copy, 0o600)
        os.utime(copy, (1, 1))
        with open("%s/%s" % (other, name), "w", encoding="ascii") as file:
            file.write("an older package")
        before = os.umask(0o077)
        try:
            second = built(copy, ".", cwd=other, TZ="Asia/Tokyo", LC_ALL="C", DPKG_DEB_COMPRESSOR_TYPE="gzip")
        finally:
            os.umask(before)
        said("whether a second build has the same bytes", bytes_of(second) == bytes_of(first.deb), True)
        said("what it leaves in its folder", sorted(os.listdir(other)), ["a program", name])
        status, day, _ = ran(["git", "-C", TOP, "log", "-1", "--format=%cd", "--date=format-local:%F %H:%M"], env=environment(TZ="UTC"))
        if status:
            print("left: the date of the last commit (no repository)")
        else:
            third = built(copy, other, SOURCE_DATE_EPOCH=None)
            lines = ran(["dpkg-deb", "-c", third], env=environment(TZ="UTC"))[1].splitlines()
            said("the times without SOURCE_DATE_EPOCH", {" ".join(line.split()[3:5]) for line in lines}, {day.strip()})
    right("the same program gives the same bytes")


def operating(*ends):
    return [os.path.basename(path) for path in glob.glob(TOP + "/docs/operating/*") if path.endswith(ends)]


def pages():
    """The pages of the repository: their paths, and those in the package."""
    paths = ["README.md"] + [path for path in ["CHANGELOG.md"] if os.path.exists("%s/%s" % (TOP, path))]
    paths += [os.path.relpath(path, TOP) for path in glob.glob(TOP + "/docs/*.md") + glob.glob(TOP + "/docs/*.svg")]
    for path in paths:
        small = path.endswith(".svg") or os.path.getsize("%s/%s" % (TOP, path)) <= 4096
        yield path, "%s/%s%s" % (DOC, path, "" if small else ".gz")


def files_due():
    """The mode of each file of the package."""
    due = {"usr/bin/custody": "-rwxr-xr-x"}
    due.update(("%s/%s" % (SHARED, name), "-rwxr-xr-x" if name != "functions.sh" else "-rw-r--r--") for name in operating(".sh"))
    plain = ["%s/%s" % (UNITS, name) for name in operating(".service", ".timer", ".socket", ".path", ".target")]
    plain += ["%s/examples/%s" % (DOC, name) for name in EXAMPLES]
    plain += [JOURNAL, DOC + "/changelog.gz", DOC + "/copyright", "usr/lib/sysusers.d/custody.conf", "usr/lib/tmpfiles.d/custody.conf"]
    plain += ["usr/share/bash-completion/completions/custody", "usr/share/lintian/overrides/custody", "usr/share/man/man1/custody.1.gz"]
    plain += [place for _, place in pages()]
    due.update((path, "-rw-r--r--") for path in plain)
    return due


def has_files(program):
    package, due = unpacked(program), files_due()
    status, output, errors = ran(["dpkg-deb", "-c", package.deb], env=environment(TZ="UTC"))
    said("dpkg-deb -c", (status, errors), (0, ""))
    lines = [line.split(None, 5) for line in output.splitlines()]
    said("owners and times", {(owner, day, time) for _, owner, _, day, time, _ in lines}, {("root/root", "2023-11-14", "22:13")})
    folders = {"./"}
    for path in due:
        while path := os.path.dirname(path):
            folders.add("./%s/" % path)
    due = {**{"./" + path: mode for path, mode in due.items()}, **dict.fromkeys(folders, "drwxr-xr-x")}
    said("the files and modes", sorted((path, mode) for mode, _, _, _, _, path in lines), sorted(due.items()))
    right("%d files and folders have their modes" % len(due))


def has_contents(program):
    package = unpacked(program)
    said("whether the program in it is the given one", package.read("usr/bin/custody") == bytes_of(program.path), True)
    said("what both print", ran([package.file("usr/bin/custody"), "--version"])[:2], ran([program.path, "--version"])[:2])
    same = [("docs/operating/" + name, "%s/%s" % (SHARED, name)) for name in operating(".sh")]
    same += [("docs/operating/" + name, "%s/%s" % (UNITS, name)) for name in operating(".service", ".timer", ".socket", ".path", ".target")]
    same += [("docs/operating/" + name, "%s/examples/%s" % (DOC, name)) for name in EXAMPLES]
    same += [("docs/operating/journald@custody.conf", JOURNAL), *pages()]
    for path, place in same:
        content = package.read(place)
        if place.endswith(".gz"):
            content = gzip.decompress(content)
        said("whether %s is %s" % (place, path), content == bytes_of("%s/%s" % (TOP, path)), True)
    for path in glob.glob(package.tree + "/**/*.gz", recursive=True):
        # RFC 1952: no name among the flags, no time; the greatest compression
        said("flags, time and compression of " + path, bytes_of(path)[3:9], b"\0\0\0\0\0\2")
    for path in glob.glob(package.tree + "-control/*") + [package.file(DOC + "/copyright")]:
        said("what is left to fill in " + path, re.findall(rb"@[A-Z_]+@", bytes_of(path)), [])
    for path in ["usr/share/man/man1/custody.1.gz", DOC + "/changelog.gz"]:
        said("what is left to fill in " + path, re.findall(rb"@[A-Z_]+@", gzip.decompress(package.read(path))), [])
    right("the program is the given one, and each file that of the repository")


def version_of(program):
    found = re.fullmatch(rb"custody (\S+) \(schema \d+\)\n", program.run(["--version"])[1])
    if not found:
        raise Wrong("the program's version cannot be read")
    return found[1].decode()


def has_control(program):
    package, version = unpacked(program), version_of(program)
    said("the name", os.path.basename(package.deb), "custody_%s_amd64.deb" % version)
    fields = dict(re.findall(r"^(\S+): (.*)$", ran(["dpkg-deb", "-f", package.deb])[1], re.M))
    size = int(fields.pop("Installed-Size"))
    due = {"Package": "custody", "Version": version, "Architecture": "amd64", "Section": "admin", "Priority": "optional"}
    said("the fields", {name: fields.get(name) for name in due}, due)
    said("all fields", sorted(fields), sorted([*due, "Maintainer", "Depends", "Suggests", "Description"]))
    kib = sum(-(-os.path.getsize(os.path.join(folder, name)) // 1024) for folder, _, names in os.walk(package.tree) for name in names)
    said("whether the installed size is that of the files and at most 100 folders", kib <= size <= kib + 100, True)
    needs = fields["Depends"].split(", ")
    said("what it needs besides the C library", needs[1:], ["libjemalloc2", "systemd | systemd-standalone-sysusers", "systemd | systemd-standalone-tmpfiles"])
    if not left("which C library the program needs", "readelf"):
        found = re.findall(r"Name: GLIBC_(\d+)\.(\d+)", ran(["readelf", "-V", program.path])[1])
        said("the C library", needs[0], "libc6 (>= %d.%d)" % max((int(major), int(minor)) for major, minor in found))
    said("the control files", sorted(os.listdir(package.tree + "-control")), ["control", "md5sums", "postinst", "postrm", "prerm"])
    said("md5sum -c", ran(["md5sum", "-c", "--quiet", "--strict", package.tree + "-control/md5sums"], cwd=package.tree), (0, "", ""))
    sums = [line.partition("  ")[2] for line in bytes_of(package.tree + "-control/md5sums").decode().splitlines()]
    said("the files that have sums", sorted(sums), sorted(files_due()))
    info = ran(["dpkg-deb", "-I", package.deb])[1]
    said("the scripts", re.findall(r"\* +(\S+) +#!/bin/sh$", info, re.M), ["postinst", "postrm", "prerm"])
    right("the control fields and sums are those due")


# ----------------------------------------------------------------------------------------------------
# What its files say
# ----------------------------------------------------------------------------------------------------


def scripts_call(program):
    """What the scripts of dpkg call: neither a start nor a removal of data."""
    package, running = unpacked(program), os.path.isdir("/run/systemd/system")
    reloads = ["systemctl daemon-reload"] if running else []
    stops = ["deb-systemd-invoke stop custody-backup* custody-standby* custody.service custody@*.service"] if running else []
    cleans = ["find /etc/systemd/system -path *.wants/custody* -xtype l -lname */lib/systemd/system/custody* -delete"]
    creates = ["systemd-sysusers custody.conf", "systemd-tmpfiles --create custody.conf"]
    due = [
        ("postinst", ["configure"], creates + reloads), ("postinst", ["configure", "0.9"], creates + reloads),
        ("postinst", ["abort-remove"], reloads),
        ("prerm", ["upgrade", "2"], []), ("prerm", ["remove"], stops), ("prerm", ["failed-upgrade", "0.9"], []),
        ("postrm", ["remove"], reloads), ("postrm", ["upgrade", "2"], reloads), ("postrm", ["purge"], cleans + reloads),
    ]
    with tempfile.TemporaryDirectory() as folder:
        for name in ["systemctl", "deb-systemd-invoke", "systemd-sysusers", "systemd-tmpfiles", "find", "rm", "userdel", "mv"]:
            with open("%s/%s" % (folder, name), "w", encoding="ascii") as file:
                file.write('#!/bin/sh\necho %s "$@" >> %s/calls\n' % (name, folder))
            os.chmod(file.name, 0o755)
        for script, words, calls in due:
            with open(folder + "/calls", "w", encoding="ascii"):
                pass
            status, output, errors = ran(["/bin/sh", "%s-control/%s" % (package.tree, script), *words], env={"PATH": folder})
            said("%s %s" % (script, words), (status, errors, bytes_of(folder + "/calls").decode().splitlines()), (0, "", calls))
            said("whether %s %s says what stays" % (script, words), "stay" in output, words == ["purge"])
    right("the scripts of dpkg start nothing and remove no data")


def units_fit(program):
    package = unpacked(program)
    paths = sorted(glob.glob("%s/%s/*" % (package.tree, UNITS)))
    for path in paths:
        for named in re.findall(r"^ExecStart=(/\S+)", bytes_of(path).decode(), re.M):
            said("whether %s has %s" % (os.path.basename(path), named), os.access(package.tree + named, os.X_OK), True)
    if not left("whether systemd reads the units", "systemd-analyze"):
        verified(package, paths)
    if os.geteuid():
        print("left: the user and the folder (not root)")
    elif not (left("the user", "systemd-sysusers") or left("the folder", "systemd-tmpfiles")):
        os.mkdir(package.file("etc"))
        said("systemd-sysusers", ran(["systemd-sysusers", "--root=" + package.tree, "custody.conf"])[0], 0)
        said("systemd-tmpfiles", ran(["systemd-tmpfiles", "--root=" + package.tree, "--create", "custody.conf"])[0], 0)
        user = re.findall(r"^custody:[^:]*:(\d+):(\d+):[^:]*:(.*)$", package.read("etc/passwd").decode(), re.M)
        said("the user", [tail for _, _, tail in user], ["/var/lib/custody:/usr/sbin/nologin"])
        folder = os.stat(package.file("var/lib/custody"))
        said("the folder", (oct(folder.st_mode), str(folder.st_uid), str(folder.st_gid)), ("0o40700", *user[0][:2]))
        right("systemd makes the user and the folder")
    right("the units name what the package has")


def verified(package, paths):
    """Whether systemd reads the units, and notices a mistake in one. Their programs are those of the tree."""
    with tempfile.TemporaryDirectory() as folder:
        for path in paths:
            with open("%s/%s" % (folder, os.path.basename(path)), "w", encoding="utf-8") as file:
                file.write(bytes_of(path).decode().replace("=/usr/", "=%s/usr/" % package.tree))
        names = ["%s/%s" % (folder, os.path.basename(path)) for path in paths]
        said("systemd-analyze verify", ran(["systemd-analyze", "--man=no", "verify", *names]), (0, "", ""))
        with open(folder + "/custody.service", encoding="utf-8") as file:
            text = file.read()
        with open(folder + "/custody.service", "w", encoding="utf-8") as file:
            file.write(text.replace("Restart=", "Restrat="))
        errors = ran(["systemd-analyze", "--man=no", "verify", folder + "/custody.service"])[2]
        said("whether systemd-analyze notices a mistake", "Restrat" in errors, True)
    right("systemd reads the units")


def options_in(text):
    return set(re.findall(r"--[a-z]+(?:-[a-z]+)*", text)) - {"--help", "--version"}


def helps(program):
    """The commands of the program, each with its help but for the example at its end."""
    def help_of(*words):
        status, output, errors = program.run([*words, "--help"])
        said("help", (status, output), (0, b""))
        return re.sub(r"^Example: .*$", "", errors.decode(), flags=re.M)

    names = re.findall(r"^  ([a-z-]+) ", help_of().partition("Options:")[0].partition("Commands:")[2], re.M)
    return {name: help_of(name) for name in names if name != "help"}


def describes(program):
    """The man page names what the help names, for each command."""
    package, commands = unpacked(program), helps(program)
    roff = gzip.decompress(package.read("usr/share/man/man1/custody.1.gz")).decode()
    said("the version of the man page", re.findall(r'^\.TH CUSTODY 1 "2023-11-14" "custody (\S+)"', roff), [version_of(program)])
    text = roff.replace("\\-", "-").partition(".SH COMMANDS\n")[2].partition("\n.SH ")[0]
    heads = [(found[1], found.start()) for found in re.finditer(r'^\.TP\n\.BI? "?([a-z]+(?:-[a-z]+)?)\b(?=[" \n])', text, re.M)]
    said("the commands", [name for name, _ in heads], [*commands, "help"])
    ends = [start for _, start in heads[1:]]
    for (name, start), end in zip(heads, ends):
        own, told = text[start:end], commands[name]
        said("the options of " + name, options_in(own), options_in(told))
        wrong = set(re.findall(r"\d{2,}", re.sub(r"\\f.|\\\(..", "", own))) - set(re.findall(r"\d{2,}", told))
        said("the numbers of %s that its help does not have" % name, wrong, set())
        missing = set(re.findall(r"\d{2,}", told.partition("Options:")[2])) - set(re.findall(r"\d{2,}", own))
        said("the numbers of %s that only its help has" % name, missing, set())
    if not left("whether man can show the page", "man"):
        path = package.file("usr/share/man/man1/custody.1.gz")
        status, output, errors = ran(["man", "--warnings", "-l", path], env=environment(LC_ALL="C.UTF-8", MANWIDTH="80", MANROFFSEQ=""))
        said("the warnings of man", (status, errors, "EXIT STATUS" in output), (0, "", True))
    right("the man page names the %d commands with their options and numbers" % len(commands))


def completes(program):
    """The completion offers what the help names."""
    path, commands = unpacked(program).file("usr/share/bash-completion/completions/custody"), helps(program)

    def offered(*words):
        script = 'source "$1"; shift; COMP_WORDS=("$@"); COMP_CWORD=$(($# - 1)); _custody; printf "%s\\n" "${COMPREPLY[@]}"'
        status, output, errors = ran(["bash", "-c", script, "bash", path, "custody", *words])
        said("the completion of %s" % [*words], (status, errors), (0, ""))
        return set(output.split())

    said("the first words", offered(""), {*commands, "help", "--help", "--version"})
    said("a beginning", offered("token-"), {name for name in commands if name.startswith("token-")})
    for name, told in commands.items():
        roles = {"read", "write", "admin"} if "read, write or admin" in told else set()
        said("the words of " + name, offered(name, ""), options_in(told) | roles | {"--help"})
    for name, told in commands.items():
        for option, value in re.findall(r"^ +(--[a-z]+(?:-[a-z]+)*)(?: <(.*?)>)? ", told, re.M):
            words = {HERE + "/harness.py"} if value == "PATH" else set() if value else offered(name, "")
            said("the words after %s %s" % (name, option), offered(name, option, HERE + "/harness.p" if value == "PATH" else ""), words)
    right("the completion offers the commands and their options")


def lints(program):
    if not left("what lintian says", "lintian"):
        status, output, errors = ran(["lintian", "--allow-root", "--fail-on", "error,warning", unpacked(program).deb])
        said("what lintian says", (status, output), (0, ""))
        right("lintian finds nothing wrong")


# ----------------------------------------------------------------------------------------------------
# What is refused
# ----------------------------------------------------------------------------------------------------


def refused(program):
    elf = bytes_of(program.path)
    with tempfile.TemporaryDirectory() as folder:
        def made(name, content, mode=0o755):
            with open("%s/%s" % (folder, name), "wb") as file:
                file.write(content)
            os.chmod(file.name, mode)
            return file.name

        out = folder + "/out"
        os.mkdir(out)
        tools = {}
        for name, kept in [("bare", ["git"]), ("gitless", ["dpkg-deb"]), ("failing", ["git"])]:
            tools[name] = "%s/%s" % (folder, name)
            os.mkdir(tools[name])
            for tool in kept:
                os.symlink(shutil.which(tool), "%s/%s" % (tools[name], tool))
        made("failing/dpkg-deb", b"#!/bin/sh\necho no room >&2; exit 2\n")
        made("other.c", b'#include <stdio.h>\nint main(void) { puts("custody x.0.0 (schema 3)"); return 0; }\n')
        compile_c(folder + "/other.c", folder + "/other")
        usage = "    tools/package PROGRAM [OUTDIR]"
        due = [
            ("no words", [], {}, usage), ("three words", [program.path, out, out], {}, usage), ("an option", ["--help"], {}, usage),
            ("no file", [folder + "/none", out], {}, "none cannot be read: No such file or directory"),
            ("an empty word", ["", out], {}, "cannot be read"),
            ("a folder", [folder, out], {}, "cannot be read: Is a directory"),
            ("an empty file", [made("empty", b""), out], {}, "empty is no program for amd64"),
            ("a script", [made("script", b"#!/bin/sh\necho 'custody 1.0.0 (schema 3)'\n"), out], {}, "script is no program for amd64"),
            ("another processor", [made("arm", elf[:18] + b"\xb7\0" + elf[20:]), out], {}, "arm is no program for amd64"),
            ("half of a program", [made("half", elf[:len(elf) // 2]), out], {}, "half does not run"),
            ("another program", [shutil.which("true"), out], {}, "true is no custody: `--version` printed b'true"),
            ("a program that fails", [shutil.which("false"), out], {}, "false does not run: `--version` ended with status 1"),
            ("a version in another form", [folder + "/other", out], {}, "other is no custody: `--version` printed b'custody x"),
            ("a library of its own", [made("lib", elf + b"\0libcrypto.so.3\0"), out], {}, "needs a library whose package is not known: libcrypto.so.3"),
            ("no such folder", [program.path, folder + "/none"], {}, "none is no folder"),
            ("a file for a folder", [program.path, folder + "/empty"], {}, "empty is no folder"),
            ("no dpkg-deb", [program.path, out], {"PATH": tools["bare"]}, "there is no dpkg-deb: install Debian's package dpkg"),
            ("a dpkg-deb that fails", [program.path, out], {"PATH": tools["failing"]}, "dpkg-deb failed: no room"),
            ("no date", [program.path, out], {"PATH": tools["gitless"], "SOURCE_DATE_EPOCH": None}, "set SOURCE_DATE_EPOCH"),
            ("a date in words", [program.path, out], {"SOURCE_DATE_EPOCH": "today"}, "SOURCE_DATE_EPOCH is not a number of seconds: 'today'"),
        ]
        for what, words, env, why in due:
            status, output, errors = ran([sys.executable, PACKAGE, *words], cwd=out, env=environment(**env))
            said("%s, which says: %s" % (what, errors), (status, output, why in errors, os.listdir(out)), (1, "", True, []))
        unplaced(program, folder, out)
    right("%d wrong inputs are refused, each with its reason" % (len(due) + 2))


def unplaced(program, folder, out):
    """A copy of the repository with a file that has no place, and one in which a file is missing."""
    copy = folder + "/copy"
    for name in ["docs", "package"]:
        shutil.copytree("%s/%s" % (TOP, name), "%s/%s" % (copy, name))
    os.mkdir(copy + "/tools")
    shutil.copy(PACKAGE, copy + "/tools")
    shutil.copy(TOP + "/README.md", copy)
    words = [sys.executable, copy + "/tools/package", program.path, out]
    with open(copy + "/docs/operating/custody.conf", "w", encoding="ascii"):
        pass
    said("a file without a place", ran(words, env=environment()), (1, "", "package: docs/operating/custody.conf has no place in the package: give it one in tools/package\n"))
    os.remove(copy + "/docs/operating/custody.conf")
    os.remove(copy + "/package/prerm")
    status, output, errors = ran(words, env=environment())
    said("a missing file", (status, output, errors.startswith("package: [Errno 2]"), os.listdir(out)), (1, "", True, []))


if __name__ == "__main__":
    look_at(__doc__, same_bytes, has_files, has_contents, has_control, scripts_call, units_fit, describes, completes, refused, lints)
