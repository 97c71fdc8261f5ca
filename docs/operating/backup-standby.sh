#!/bin/sh
# Copies a running service's database, checks the copy, and sends it to another machine in place of the one before. rsync sends only what
# differs, and replaces the file there when it is complete.
#     backup-standby.sh SERVICE DATABASE FOLDER TARGET
# FOLDER is made anew; on the database's file system, the pause is short (backup.sh). TARGET is rsync's, such as
# backup@b.example.com:/srv/custody-standby/.
set -eu
service=$1 db=$2 folder=$3 target=$4
umask 077
rm -rf "$folder"
"$(dirname "$0")/backup.sh" "$(systemctl show -p MainPID --value "$service")" "$db" "$folder"
# `check` also copies the WAL into the file
custody check --db "$folder/$(basename "$db")"
rsync -pt "$folder/$(basename "$db")" "$target"
