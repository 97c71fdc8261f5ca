#!/bin/sh
# Makes an older version of a workspace its newest, under a lock: the text of version N, with a serial above the newest.
#     export CUSTODY=https://state.example.com/v1/acme TOKEN="acme.$(cat FILE)"; rollback.sh WORKSPACE N
set -eu
umask 077
ws=$1 n=$2 id=rollback-$$-$(date +%s)
work=$(mktemp -d)
ask() { # PATH [MORE OF CURL'S WORDS]
    path=$1; shift
    printf 'header = "Authorization: Bearer %s"\n' "$TOKEN" |
        curl -sS -f --retry 6 --retry-connrefused -K - "$@" "$CUSTODY/$path"
}
serial() { sed -n 's/^  "serial": \([0-9]*\),$/\1/p' "$1"; }   # as Terraform writes it: the outermost member

trap 'rm -r "$work"' EXIT
ask "state/$ws" -X LOCK -d "{\"ID\":\"$id\",\"Who\":\"rollback\",\"Created\":\"$(date -u +%FT%TZ)\"}"
trap 'rm -r "$work"; ask "state/$ws" -X UNLOCK -d "{\"ID\":\"$id\"}"' EXIT
trap 'exit 1' HUP INT TERM
ask "state/$ws" > "$work/newest"
ask "versions/$ws/$n" > "$work/old"
[ "$(serial "$work/newest")" ] && [ "$(serial "$work/old")" ] || { echo "a serial isn't where it is looked for" >&2; exit 1; }
next=$(($(serial "$work/newest") + 1))
sed "s/^  \"serial\": [0-9]*,\$/  \"serial\": $next,/" "$work/old" > "$work/next"
ask "state/$ws?ID=$id" -H 'Content-Type: application/json' --data-binary "@$work/next"
echo "the text of version $n is the newest, with serial $next"
