#!/usr/bin/env python3
"""What Pacemaker decides over docs/operating/custody.crm, the resources of a pair of machines. It starts no machine.

    python3 tools/decides.py DEBIAN    as root

DEBIAN is a folder. If it does not exist, the script makes it by debootstrap, from a mirror: a Debian 12 with Pacemaker, crmsh, DRBD's
tools and the resource agents. It works in a copy of that folder which is dropped at the end (an overlay).

crmsh has to take the file, with another fence agent in place of the shipped one, and `crm_verify` has to find nothing. Then crm_simulate,
which has the scheduler of Pacemaker, says for each case who is fenced, and at the end whose disk is promoted, whose disk follows it, and
where the service runs. The scores of the disks are those that DRBD's agent gives: 10000 to one in step, 10 to a machine that has lost
its own. A link that is cut stands in the resources as DRBD's handler crm-fence-peer.sh puts it there. What the agents themselves do, and
how long it takes, is not tested here.
"""

import os
import re
import shutil
import subprocess
import sys
import tempfile

from harness import HERE, Wrong, said

MIRROR, SUITE = "http://deb.debian.org/debian", "bookworm"
PACKAGES = "pacemaker crmsh pacemaker-cli-utils resource-agents drbd-utils"
RESOURCES = os.path.join(os.path.dirname(HERE), "docs/operating/custody.crm")

# (in a namespace of its own: what it mounts goes with it)
INSTALL = """set -e
debootstrap --variant=minbase %(suite)s %(root)s %(mirror)s
printf '#!/bin/sh\\nexit 101\\n' > %(root)s/usr/sbin/policy-rc.d; chmod 755 %(root)s/usr/sbin/policy-rc.d
mount -t proc proc %(root)s/proc; mount --bind /dev %(root)s/dev
DEBIAN_FRONTEND=noninteractive LC_ALL=C.UTF-8 chroot %(root)s apt-get install -y --no-install-recommends %(packages)s
"""
ENTER = """set -e
mount -t overlay overlay -o lowerdir=%(lower)s,upperdir=%(room)s/upper,workdir=%(room)s/work %(room)s/root
mount -t proc proc %(room)s/root/proc
exec chroot %(room)s/root bash /decide
"""

# A fence agent that the scheduler never calls: only what it says of itself is read.
AGENT = """#!/bin/sh
cat <<'END'
<?xml version="1.0" ?><resource-agent name="fence_switch" shortdesc="a switch"><longdesc>A switch.</longdesc><parameters>%s</parameters><actions>%s</actions></resource-agent>
END
""" % (
    '<parameter name="ip"><getopt mixed="--ip"/><content type="string"/><shortdesc lang="en">its address</shortdesc></parameter>',
    "".join('<action name="%s"/>' % name for name in ("on", "off", "reboot", "status", "monitor", "metadata")),
)

# (-F: without systemd, crmsh finds no unit)
DECIDE = """export HOME=/root LC_ALL=C.UTF-8; cd /root
export CIB_file=/root/cib.xml
cibadmin --empty > cib.xml
crm -F configure load update /root/custody.crm > crm.said 2>&1 || { cat crm.said; exit 1; }
crm_verify -V -x cib.xml
unset CIB_file
sed -i 's#<nodes */>#<nodes><node id="1" uname="a"/><node id="2" uname="b"/></nodes>#; s#<status */>#%(status)s#; s#<cib #<cib have-quorum="1" #' cib.xml
decide() { echo "== $1"; crm_simulate -x "$2" -S "${@:3}"; }
decide 'both start' cib.xml -O both.xml
decide 'a fails' both.xml --node-fail=a
decide 'b fails' both.xml --node-fail=b
link='%(link)s'
sed "s|</constraints>|$link</constraints>|" both.xml > link.xml
decide 'the link is cut, then a fails' link.xml --node-fail=a
sed -E '/status-1-disk/s/value="[0-9]+"/value="10"/' both.xml > disk.xml
decide 'the disk of a fails' disk.xml
decide 'the program fails' both.xml --op-inject=custody-service_monitor_10000@a=7
cp both.xml standby.xml; CIB_file=standby.xml crm_attribute --node a --name standby --update on
decide 'a is put on standby' standby.xml
sed 's/have-quorum="1"/have-quorum="0"/' cib.xml > alone.xml
decide 'a starts alone' alone.xml --node-down=b
"""
STATE = (
    '<node_state id="%d" uname="%s" in_ccm="true" crmd="online" join="member" expected="member"><transient_attributes id="%d"><instance_attributes id="status-%d">'
    '<nvpair id="status-%d-disk" name="master-custody-disk" value="10000"/></instance_attributes></transient_attributes><lrm id="%d"><lrm_resources/></lrm></node_state>'
)
LINK = (
    '<rsc_location rsc="custody-disks" id="drbd-fence-by-handler-custody-custody-disks"><rule role="Master" score="-INFINITY" id="drbd-fence-by-handler-custody-rule-custody-disks">'
    '<expression attribute="#uname" operation="ne" value="a" id="drbd-fence-by-handler-custody-expr-custody-disks"/></rule></rsc_location>'
)
# Who is fenced; and then whose disk is promoted, whose disk follows it, and where the service runs.
DUE = {
    "both start": ("", "a", "b", "a"),
    "a fails": ("a", "b", "", "b"),
    "b fails": ("b", "a", "", "a"),
    "the link is cut, then a fails": ("a", "", "b", ""),
    "the disk of a fails": ("", "b", "a", "b"),
    "the program fails": ("", "a", "b", "a"),
    "a is put on standby": ("", "b", "", "b"),
    "a starts alone": ("", "", "", ""),
}


def ran(script):
    """What a script of the shell prints, in namespaces of its own."""
    done = subprocess.run(["unshare", "-m", "sh", "-c", script], stdin=subprocess.DEVNULL, stdout=subprocess.PIPE, stderr=subprocess.STDOUT, text=True, errors="replace", check=False)
    if done.returncode:
        raise Wrong("status %d: %s" % (done.returncode, done.stdout[-3000:]))
    return done.stdout


def put(path, text, mode=0o644):
    os.makedirs(os.path.dirname(path), exist_ok=True)
    with open(path, "w", encoding="ascii") as file:
        file.write(text)
    os.chmod(path, mode)


def make(debian):
    new = debian + ".new"
    ran(INSTALL % {"suite": SUITE, "root": new, "mirror": MIRROR, "packages": PACKAGES})
    os.rename(new, debian)


def resources():
    """The shipped resources, with an agent that Debian does not ship in place of one that asks for an address and a secret."""
    with open(RESOURCES, encoding="ascii") as file:
        text = file.read()
    changed = re.sub("ip=.* lanplus=1", "ip=10.0.2.1", text.replace("fence_ipmilan", "fence_switch"))
    said("fence agents in the resources", changed.count("fence_switch params") + changed.count("fence_switch \\\n"), 2)
    return changed


def decided(debian):
    """What was printed for each case."""
    with tempfile.TemporaryDirectory() as room:
        for name in ("upper", "work", "root"):
            os.mkdir("%s/%s" % (room, name))
        upper = room + "/upper"
        put(upper + "/root/custody.crm", resources())
        put(upper + "/usr/sbin/fence_switch", AGENT, 0o755)
        states = "".join(STATE % (at, name, at, at, at, at) for at, name in enumerate("ab", 1))
        put(upper + "/decide", DECIDE % {"status": "<status>%s</status>" % states, "link": LINK})
        first, *parts = ran(ENTER % {"lower": debian, "room": room}).split("== ")
    if first.strip():
        raise Wrong("crm_verify: " + first)
    return dict(part.split("\n", 1) for part in parts)


def look_at(parts):
    said("the cases", list(parts), list(DUE))
    for name, text in parts.items():
        # (the last status is that after the transition)
        after = text.split("Cluster Status:")[-1]
        patterns = (r"Fence \(\w+\) (\w)", text), (r"\* Promoted: \[ (\w) \]", after), (r"\* Unpromoted: \[ (\w) \]", after), (r"custody-service.*Started (\w)", after)
        found = tuple("".join(re.findall(*pattern)) for pattern in patterns)
        said(name, found, DUE[name])
        print("%s: fenced: %s; promoted: %s; follows: %s; serves: %s" % (name, *(one or "nobody" for one in found)))


def main():
    if len(sys.argv) != 2 or sys.argv[1].startswith("-"):
        sys.exit(__doc__)
    debian = os.path.abspath(sys.argv[1])
    if os.geteuid():
        sys.exit("decides.py: only root can mount the overlay")
    if not os.path.isdir(debian) and not shutil.which("debootstrap"):
        sys.exit("decides.py: install debootstrap")
    try:
        if not os.path.isdir(debian):
            make(debian)
        look_at(decided(debian))
    except (Wrong, OSError) as wrong:
        print("WRONG:", wrong)
        sys.exit(1)


if __name__ == "__main__":
    main()
