#!/bin/sh
# Copies a running service's database, checks the copy, sends it to another machine, and removes local copies after DAYS days.
#     backup-daily.sh SERVICE DATABASE FOLDER DAYS TARGET
# TARGET is rsync's, such as backup@other.example.com:/srv/custody/. Nothing is removed there, so no fault here deletes older copies.
set -eu
service=$1 db=$2 folder=$3 days=$4 target=$5
umask 077
mkdir -p "$folder"
new=$folder/unchecked
rm -rf "$new"
"$(dirname "$0")/backup.sh" "$(systemctl show -p MainPID --value "$service")" "$db" "$new"
# `check` also copies the WAL into the file
custody check --db "$new/$(basename "$db")" > "$new/check" || { cat "$new/check"; exit 1; }
cat "$new/check"
mv "$new" "$folder/$(date -u +%Y-%m-%d-%H%M%S)"     # so each folder with a date is checked
rsync -a "$folder/" "$target"
find "$folder" -mindepth 1 -maxdepth 1 -name '20*' -mtime "+$days" -exec rm -r {} +
