#!/bin/sh
# Copies a database and its WAL into a new folder while their service is paused. On a file system that shares blocks between files (XFS,
# btrfs), and in a folder there, the pause does not grow with the file.
#     backup.sh PID DATABASE FOLDER
set -eu
pid=$1 db=$2 to=$3
umask 077
[ "$pid" -gt 0 ] || { echo "the service isn't running: copy the file and its log" >&2; exit 1; }
mkdir "$to"
trap 'kill -CONT "$pid"' EXIT
trap 'exit 1' HUP INT TERM
kill -STOP "$pid"
tries=0
until [ "$(sed 's/.*) \(.\).*/\1/' "/proc/$pid/stat")" = T ]; do   # a system call in progress ends first
    tries=$((tries + 1))
    [ "$tries" -lt 500 ] || { echo "process $pid doesn't stop" >&2; exit 1; }
    sleep 0.02
done
cp --reflink=auto -p "$db" "$db-wal" "$to/"
