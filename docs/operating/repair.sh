#!/bin/sh
# Copies the rows of a database whose checksums another program has spoiled into a new one that has checksums.
#     repair.sh DATABASE FOLDER
# DATABASE and its WAL are not changed, and nobody else may have them open. FOLDER is made, and gets custody.db with the rows of custody's
# tables. (A dump would cut each text at its first NUL.)
set -eu
db=$(realpath "$1") to=$2
umask 077
mkdir "$to"
trap 'rm -f "$to"/old.db* "$to"/rows.db*' EXIT
trap 'exit 1' HUP INT TERM
cp --reflink=auto "$db" "$to/old.db"
[ ! -e "$db-wal" ] || cp "$db-wal" "$to/old.db-wal"
sqlite3 "$to/old.db" '.schema --nosys' | sqlite3 -bail "$to/rows.db"
sqlite3 "$to/old.db" "SELECT printf('INSERT INTO main.\"%w\" SELECT * FROM old.\"%w\";', name, name) FROM sqlite_schema
    WHERE type = 'table' AND name NOT LIKE 'sqlite\\_%' ESCAPE '\\'" > "$to/rows.db.sql"
(cd "$to" && { echo "ATTACH 'old.db' AS old; BEGIN;"; cat rows.db.sql; echo 'COMMIT;'; } | sqlite3 -bail rows.db)
custody compact --db "$to/rows.db" --to "$to/custody.db"
custody check --db "$to/custody.db"
