#!/bin/sh
# Gives each organization of the one service (custody.service) a service of its own (custody@ORG), one after the other.
#     apart.sh [ORG ..]
# Without ORG it moves all of them; then custody@none takes the place of the one service. While an organization is copied, its requests get
# 503, and Terraform retries; those of others wait only while backup.sh copies the file, and during the removal (15 to 30 ms a MB).
#
# It ends at the first refusal, and can be run again. An organization is removed from the one service only if its copy has no fault and
# the same lists, and if the exchange log of the one service names it in no exchange since its requests were held back.
set -eu
here=$(dirname "$0")
. "$here/functions.sh"
one=/var/lib/custody room=/var/lib/custody/.apart     # (one file system: a folder is renamed)

refuse() { echo "$*" >&2; exit 1; }
list() { echo "$@" | operator; }

# ORG SECONDS: what the log of the one service says of it after then
acts_since() { exchanges "$1" --since "@$2" | jq -r "select(.at > $2) | .act" | sort -u; }

# ORG: holds its requests back, and copies its record to a new folder of `room`
copy() {
    rm -rf "$room/now" "$room/$1" "$room/$1.removed"
    held=$1
    to_own_service "$1"
    since=$(date +%s)
    sleep 1.1     # (the log has whole seconds)
    "$here/backup.sh" "$(systemctl show -p MainPID --value custody)" "$one/custody.db" "$room/now"
    chown -R custody: "$room/now"
    install -d -m 700 -o custody -g custody "$room/$1"
    as_custody org-copy --db "$room/now/custody.db" --to "$room/$1/custody.db" "$1" || refuse "$1 is not copied"
    rm -rf "$room/now"
}

# ORG: whether the copy has all of it
compare() {
    as_custody check --db "$room/$1/custody.db" || refuse "the copy of $1 has faults"
    as_custody org-list --db "$room/$1/custody.db" > "$room/list"
    list org-list | grep "^$1 " | cmp - "$room/list" || refuse "the copy of $1 has other workspaces"
    as_custody token-list --db "$room/$1/custody.db" "$1" > "$room/list"
    list "token-list $1" | cmp - "$room/list" || refuse "the copy of $1 has other tokens"
    # that command has a line in the log: if there is no other, nobody has sent anything since
    tries=0
    until acts=$(acts_since "$1" "$since") && [ "$acts" ]; do
        tries=$((tries + 1))
        [ "$tries" -lt 50 ] || refuse "the exchange log of the one service cannot be read"
        sleep 0.2
    done
    [ "$acts" = "list tokens" ] || refuse "the one service was asked about $1 meanwhile: $acts"
}

# ORG: the copy becomes the file of its own service
serve() {
    mv -T "$room/$1" "$one/$1"
    rm -f "$room/$1.removed"
    start_service "$1"
    echo "$1 has its own service"
}

move() {
    [ ! -e "$one/$1/custody.db" ] || refuse "$1 is in the one service and in $one/$1: remove it from one of them"
    [ ! -e "$one/$1" ] || rmdir "$one/$1"
    copy "$1"
    compare "$1"
    touch "$room/$1.removed"
    held=
    [ "$(list "org-remove $1 force")" = ok ] || refuse "whether $1 is removed is not known: run this again"
    serve "$1"
}

# a refusal before the removal: the one service goes on
held=
trap '[ -z "$held" ] || { rm -f "/etc/custody/organizations/$held"; systemctl reload nginx; }' EXIT
trap 'exit 1' HUP INT TERM

if [ -e "$one/custody.db" ]; then
    install -d -m 700 -o custody -g custody "$room"
    all=$(list org-list)
    all=$(printf '%s\n' "$all" | sed 's/ .*//')
    # what an earlier run has removed, and does not serve yet
    for removed in "$room"/*.removed; do
        org=$(basename "$removed" .removed)
        [ ! -e "$room/$org" ] || printf '%s\n' "$all" | grep -qx "$org" || serve "$org"
    done
    for org in ${*:-$all}; do
        [ "$org" != none ] || refuse "none is the service for all others: the organization none stays"
        if printf '%s\n' "$all" | grep -qx "$org"; then
            move "$org"
        else
            organizations | grep -qx "$org" || refuse "nobody has $org"
        fi
    done
    [ $# = 0 ] || exit 0
    all=$(list org-list)
    [ -z "$all" ] || refuse "the one service has organizations"
    add_organization none
    systemctl disable --now custody
    former=$one/.former-$(date -u +%F-%H%M%S)
    mkdir -m 700 "$former" && mv "$one"/custody.db* "$former/"
    rm -rf "$room"
    echo "the file of the one service, without organizations, is in $former"
fi
for org in $(organizations) none; do
    start_service "$org"
done
