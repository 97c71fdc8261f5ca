#!/usr/bin/env bash
# Two servers side by side, in small batches by turns:
#     bash bench/compare.sh A_CMD B_CMD [options of load.py]
# A command is the path of a program, and in the same word the flags it is to have. `anchor` is the server in C beside this
# file, which is built first (cc, libsqlite3-dev, libssl-dev), and `baseline` the one in Python:
#     bash bench/compare.sh crates/custody/out/custody anchor
#     bash bench/compare.sh anchor "anchor --body-column" --many
#     bash bench/compare.sh "crates/custody/out/custody --log" crates/custody/out/custody --only small,locks
# A program named custody... is set up by org-add and token-add, which don't get the flags; any other by `setup`.
# PERF_DIR names the folder under which the databases stand (else that of mktemp).
set -eu
here=$(cd "$(dirname "$0")" && pwd)
[ $# -ge 2 ] || { sed -n 2,11p "$0"; exit 2; }
a_cmd=$1 b_cmd=$2
shift 2

if [ -n "${PERF_DIR:-}" ]; then work=$(mktemp -d "$PERF_DIR/perf.XXXXXX"); else work=$(mktemp -d); fi
pids=()
finish() {
    for pid in "${pids[@]}"; do kill "$pid" 2>>"$work/log" || true; done
    rm -rf "$work"
}
trap finish EXIT
trap 'exit 130' INT TERM

# run WORD COMMAND ARGUMENTS...: the program's word, with its own flags last
run() {
    local word=$1 program flags
    read -r program flags <<<"$2"
    shift 2
    case $program in *.py) program="python3 $program" ;; esac
    exec $program "$word" "$@" $flags
}

# The program that a command means.
meant() {
    case $1 in
    anchor*)
        [ -x "$work/anchor" ] || cc -O2 -Wall -o "$work/anchor" "$here/anchor.c" -lsqlite3 -lcrypto
        echo "$work/$1" ;;
    baseline*) echo "$here/baseline.py${1#baseline}" ;;
    *) echo "$1" ;;
    esac
}
a_cmd=$(meant "$a_cmd") b_cmd=$(meant "$b_cmd")

setup() {
    local command=$1 db=$2 plain name
    plain=${command%% *}
    name=$(basename "$plain")
    case $name in
    custody*)
        (run org-add "$plain" --db "$db" --limit 100000 acme) || {
            (run org-add "$plain" --db "$db" acme) && (run org-limit "$plain" --db "$db" acme 100000) || echo "compare.sh: $name keeps its own limit of workspaces"
        }
        echo adminadminadmin1 | (run token-add "$plain" --db "$db" acme root admin)
        echo writewritewrite1 | (run token-add "$plain" --db "$db" acme ci write)
        echo readreadreadread | (run token-add "$plain" --db "$db" acme eye read) ;;
    *) (run setup "$command" --db "$db") ;;
    esac
}

count=$(python3 "$here/load.py" --connections "$@")
ports=()
start() {
    local side=$1 command=$2 port tries=0
    mkdir "$work/$side"
    setup "$command" "$work/$side/custody.db" >"$work/$side/setup"
    port=$(python3 "$here/../tools/harness.py")
    (run serve "$command" --db "$work/$side/custody.db" --port "$port" --count "$count") >"$work/$side/out" &
    pids+=($!)
    ports+=("$port")
    until grep -qs "^listening 127.0.0.1:$port" "$work/$side/out"; do
        tries=$((tries + 1))
        [ $tries -lt 200 ] || { echo "compare.sh: $command doesn't listen"; exit 3; }
        sleep 0.05
    done
}
start a "$a_cmd"
start b "$b_cmd"

name() { local first=${1%% *}; basename "$first" .py; }
echo "A: $(name "$a_cmd")$(case $a_cmd in *\ *) echo " ${a_cmd#* }" ;; esac)   B: $(name "$b_cmd")$(case $b_cmd in *\ *) echo " ${b_cmd#* }" ;; esac)   $count connections each"
status=0
python3 "$here/load.py" "${ports[@]}" --pids "${pids[0]},${pids[1]}" --names "A,B" "$@" || status=$?

# both end by themselves after so many connections
for side in a b; do
    pid=${pids[0]}
    [ $side = a ] || pid=${pids[1]}
    for _ in $(seq 100); do kill -0 "$pid" 2>>"$work/log" || break; sleep 0.05; done
    if kill -0 "$pid" 2>>"$work/log"; then echo "$side: still there after its connections, stopped"; kill "$pid"; wait "$pid" || true
    else code=0; wait "$pid" || code=$?; echo "$side: ended with status $code"; fi
    # (sqlite3 spoils the sums of a file that it writes to, so it looks at a copy)
    mkdir "$work/$side/copied"
    cp "$work/$side"/custody.db* "$work/$side/copied"
    python3 - "$work/$side/copied/custody.db" <<'PY' || true
import os, sqlite3, sys
try:
    db = sqlite3.connect(sys.argv[1])
    names = [r[0] for r in db.execute("SELECT name FROM sqlite_master WHERE type = 'table'")]
except sqlite3.DatabaseError as fault:
    sys.exit(f"   {fault}")
size = os.path.getsize(sys.argv[1])
print(f"   journal_mode {db.execute('PRAGMA journal_mode').fetchone()[0]}, page size {db.execute('PRAGMA page_size').fetchone()[0]},"
      f" file {size / 1e6:.1f} MB, {db.execute('SELECT count(*) FROM version').fetchone()[0]} versions"
      + (f", {db.execute('SELECT count(*) FROM page').fetchone()[0]} pages" if 'page' in names else ', body column'))
PY
done
pids=()
exit $status
