#!/bin/sh
# Puts a copy in the place of a service's database: checks it on the same disk, stops the service, moves the files, starts the service.
#     restore.sh SERVICE FOLDER
# SERVICE is `custody` or `custody@NAME`. FOLDER has custody.db, and its custody.db-wal if it has one; it stays as it is. The files that were
# there go to a folder whose name is printed. The program has to be of the copy's schema: `check` raises none.
set -eu
service=$1 from=$2
file=$(realpath -m "/var/lib/$(echo "$service" | tr @ /)/custody.db")     # custody follows symbolic links, too
home=$(dirname "$file") now=$(date -u +%F-%H%M%S)
new=$home/new-$now lost=$home/lost-$now
umask 077
mkdir "$new"
trap 'rm -rf "$new"' EXIT
trap 'exit 1' HUP INT TERM
cp --reflink=auto "$from"/custody.db* "$new/"
chown -R custody: "$new"
runuser -u custody -- custody check --db "$new/custody.db"
systemctl stop "$service"
# a service would write on into a file that is moved away, and what it acknowledges would be lost
if [ "$(find /proc/[0-9]*/fd -lname "$file" 2> /dev/null)" ]; then
    echo "a process has $file open: nothing was moved" >&2
    exit 1
fi
mkdir "$lost"
chown custody: "$lost"
for old in "$file" "$file-wal" "$file-journal"; do
    [ ! -e "$old" ] || mv "$old" "$lost/"
done
for end in "" -wal; do
    [ ! -e "$new/custody.db$end" ] || mv "$new/custody.db$end" "$file$end"
done
systemctl start "$service"
echo "the former files are in $lost"
