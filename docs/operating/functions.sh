# Functions for the shell of an operator, as root: `. functions.sh`. OPERATING.md shows how to use them.

# Runs a command of custody as the service's user.
as_custody() { runuser -u custody -- custody "$@"; }

# Prints a new secret.
some_secret() { head -c 24 /dev/urandom | od -An -v -tx1 | tr -d ' \n'; }

# FILE: writes a new secret to a new file that only its owner may read.
new_secret() { (umask 077; set -C; echo "$(some_secret)" > "$1"); }

# [ORG]: adds the operator `operator` to the one service or the organization's own, or gives it a new secret. It is root's and the unit's:
# the functions below and `ExecStop=` send its secret. A service takes it at its next start.
new_operator() {
    local file=/root/operator
    [ -z "${1-}" ] || { file=/root/operators/$1; install -d -m 700 /root/operators; }
    add_operator "$file" operator
}

# FILE NAME [until=SECONDS] [list]: adds an operator to a service's file (/root/operator, /root/operators/ORG), or replaces the one of this
# name. Leaves curl's header with the new secret in FILE.NAME.curl (of `operator` in FILE.curl). A service takes the file at its next start.
add_operator() {
    local file=$1 name=$2 secret="$(some_secret)" line header
    shift 2 || return 2
    line="$name $secret${*:+ $*}" header=$file.$name.curl
    [ "$name" != operator ] || header=$file.curl
    [ "$line" != "operator $secret" ] || line=$secret
    { other_operators "$file" "$name" && echo "$line"; } | check_operators "$file.new" &&
        (umask 077; echo "header = \"Authorization: Operator $secret\"" > "$header") &&
        mv "$file.new" "$file"
}

# FILE NAME: removes an operator from a service's file, and its header. The service refuses its secret from the next start on.
remove_operator() {
    list_operators "$1" | cut -d ' ' -f 1 | grep -qxF -e "$2" || { echo "$1 has no operator $2" >&2; return 1; }
    other_operators "$1" "$2" | check_operators "$1.new" && mv "$1.new" "$1" && rm -f "$1.$2.curl"
}

# FILE: prints the operators of a service's file without their secrets. (A secret alone is that of `operator`.)
list_operators() { awk 'NF == 1 { print "operator" } NF > 1 { $2 = $1; $1 = ""; print substr($0, 2) }' "$1"; }

# FILE NAME: prints the lines of the other operators.
other_operators() { [ ! -e "$1" ] || awk -v name="$2" '(NF > 1 ? $1 : "operator") != name' "$1"; }

# NEW: writes the lines on standard input to this file. If a service would refuse them, it says why, and removes the file. (The program
# reads the operators first. At these paths nothing can be opened, so it then ends with status 3.)
check_operators() {
    local said status=0
    rm -f "$1"
    (umask 077; cat > "$1") || return
    said=$(custody serve --db /dev/null/none --socket /dev/null/none --count 1 --operator < "$1" 2>&1) || status=$?
    [ "$status" = 3 ] || { rm -f "$1"; echo "$said" >&2; return 1; }
}

# [ORG]: sends the command on standard input to an operator's door, and never to a proxy: of the organization's own service if it has
# one, otherwise of the one at SOCKET (/run/custody/socket), or at PORT if that is set, with curl's header in OPERATOR (/root/operator.curl).
# A service that starts has a minute to make its socket.
operator() {
    local socket=${SOCKET:-/run/custody/socket} port=${PORT:-} header=${OPERATOR:-/root/operator.curl} left=60
    if [ "${1-}" ] && [ -e "/root/operators/$1" ]; then
        socket=/run/custody/$1/socket port= header=/root/operators/$1.curl
    fi
    if [ "$port" ]; then
        set -- "http://127.0.0.1:$port/operator"
    else
        set -- --unix-socket "$socket" http://localhost/operator
        until [ -S "$socket" ] || [ $((left -= 1)) -lt 0 ]; do sleep 1; done
    fi
    curl -sS --noproxy '*' --fail-with-body --retry 6 --retry-connrefused -K "$header" --data-binary @- "$@"
}

# ORG NAME: leaves a new secret in /root/ORG.NAME, and curl's header with it in /root/ORG.NAME.curl.
token_files() {
    new_secret "/root/$1.$2" && (umask 077; echo "header = \"Authorization: Bearer $1.$(cat "/root/$1.$2")\"" > "/root/$1.$2.curl")
}

# ORG NAME ROLE [until=SECONDS] [prefix=TEXT]: adds a token, and leaves its files. If the service refuses the command, or nobody
# listens, it removes them.
new_token() {
    local org=$1 name=$2 role=$3 bound status
    shift 3 || return 2
    for bound; do
        case $bound in
            until=*[!0-9]* | until=) echo "until= needs seconds since 1970: $bound" >&2; return 2 ;;
            until=*) [ "${bound#until=}" -gt "$(date +%s)" ] || { echo "$bound has passed" >&2; return 2; } ;;
            prefix=) echo "an empty prefix= admits every workspace: leave it out" >&2; return 2 ;;
        esac
    done
    token_files "$org" "$name" || return
    status=0
    echo "token-add $org $name $role" "$(cat "/root/$org.$name")" "$@" | operator "$org" || status=$?
    case $status in
        0) ;;
        7 | 22) rm -f "/root/$org.$name" "/root/$org.$name.curl" ;;
        *) echo "whether $org has the token $name, token-list says" >&2 ;;
    esac
    return $status
}

# FILE: adds each of its lines as an organization, with the admin's token `root`. It passes over those that have both, and ends at the
# first that fails, so it can be run again.
new_teams() {
    local team answer
    while read -r team || [ "$team" ]; do
        [ "$team" ] || continue
        answer=$(echo "org-add $team" | operator "$team" 2> /dev/null)
        case $answer in ok | 'refused exists') ;; *) echo "$team is not added: ${answer:-no answer}" >&2; return 1 ;; esac
        answer=$(echo "token-list $team" | operator "$team") || { echo "the tokens of $team are not known: $answer" >&2; return 1; }
        if printf '%s\n' "$answer" | grep -q '^root '; then
            [ -s "/root/$team.root" ] && continue
            echo "$team has the token root, but /root/$team.root is missing: revoke it" >&2
            return 1
        fi
        rm -f "/root/$team.root" "/root/$team.root.curl"
        new_token "$team" root admin > /dev/null || { echo "$team has no token yet" >&2; return 1; }
        echo "$team is added"
    done < "$1"
}

# ORG: deletes each of its workspaces, by its token `root`, so that nobody waits long for its removal. Ends at one that is held.
empty_organization() {
    local all="$(dirname "$CUSTODY")/$1/workspaces" names name
    while names=$(curl -sS -f -K "/root/$1.root.curl" "$all" | jq -r '.items[].name') && [ "$names" ]; do
        for name in $names; do
            curl -sS -f -K "/root/$1.root.curl" -X DELETE "$all/$name" || { echo "$1/$name is held" >&2; return 1; }
        done
    done
}

# [ORG]: prints the lines of the exchange logs of all services, or those that name ORG; the other words are those of journalctl.
exchanges() {
    case ${1-} in
        '' | -*) set -- '' -u 'custody@*' "$@" ;;
        *) local org=$1; shift; set -- ".*\"organization\":\"$org\"" -u custody@none -u "custody@$org" "$@" ;;
    esac
    local line=$1; shift
    journalctl --namespace=custody -o cat -u custody "$@" | grep --line-buffered "^{$line"
}

# ---- A service for each organization (GROWING.md). nginx knows an organization by its file in /etc/custody/organizations.

# Prints the organizations that have a service of their own.
organizations() { ls /etc/custody/organizations | grep -vx none; }

# CMD ..: runs CMD .. ORG for each of them. Where one fails, it goes on, and ends with status 1.
each_organization() {
    local org status=0
    for org in $(organizations); do
        "$@" "$org" || { echo "$* $org: status $?" >&2; status=1; }
    done
    return $status
}

# ORG: prints the line of its own service's list; starts a checked copy of its file; says whether its service answers.
list_organization() { echo org-list | operator "$1"; }
back_up_organization() { systemctl start "custody-backup@$1"; }
is_alive() { [ "$(curl -sS -m 10 -o /dev/null -w '%{http_code}' --unix-socket "/run/custody/$1/socket" http://localhost/v1/health)" = 404 ]; }

# ORG: the line by which nginx chooses its socket. (In a query each letter may be percent-encoded.) That of `none` is for all other names.
front_line() {
    local key=default
    [ "$1" = none ] || key="\"~^$(printf '%s.' "$1" | od -An -v -tx1 | tr -d '\n' | sed 's/ \(..\)/(?:\\x\1|%(?i:\1))/g')\""
    echo "$key unix:/run/custody/$1/socket;"
}

# Lets nginx, if it is here, read its files again. Returns once no process of it goes by the former ones: each ends with its last request.
reload_front() {
    local pid old tries=0
    command -v nginx > /dev/null || return 0
    old=$(pgrep -P "$(cat /run/nginx.pid)") || :
    nginx -t -q && systemctl reload nginx || return
    for pid in $old; do
        while [ -e "/proc/$pid" ]; do
            tries=$((tries + 1))
            [ "$tries" -lt 1500 ] || { echo "a request of before the reload still runs" >&2; return 1; }
            sleep 0.2
        done
    done
}

# ORG: lets nginx choose the organization's own service from now on. While that is not running, its requests get 503.
to_own_service() {
    local folder=/etc/custody/organizations
    install -d -m 755 "$folder" && front_line "$1" > "$folder/.$1" && mv "$folder/.$1" "$folder/$1" || return
    # (with a configuration of before, the requests would go on to the one service)
    nginx -T 2> /dev/null | grep -q "^# configuration file $folder/$1:" || { echo "nginx does not read $folder/$1: install its newest custody.conf" >&2; return 1; }
    reload_front
}

# ORG: starts its own service, now and at each boot, and waits until it answers.
start_service() {
    local tries=0
    [ -s "/root/operators/$1" ] || new_operator "$1" || return
    systemctl enable --quiet --now "custody@$1" || return
    until is_alive "$1" 2> /dev/null; do
        tries=$((tries + 1))
        [ "$tries" -lt 300 ] || { echo "custody@$1 does not answer" >&2; return 1; }
        sleep 0.2
    done
    [ ! -e /etc/default/custody-backup ] || systemctl enable --quiet --now "custody-backup@$1.timer"
}

# ORG [LIMIT]: adds an organization with a service of its own, and its admin's token `root`. It can be run again. `none` is no
# organization, but the service, with an empty file, of everything that names none of the others.
add_organization() {
    local org=$1 file=/var/lib/custody/$1/custody.db answer
    case $org in [!a-z]* | *[!a-z0-9-]* | '') echo "not a name: $org" >&2; return 2 ;; esac
    [ "${#org}" -le 40 ] || { echo "a name has at most 40 letters: $org" >&2; return 2; }
    if [ -e /var/lib/custody/custody.db ]; then
        answer=$(echo org-list | operator) || { echo "what the one service has is not known: $answer" >&2; return 1; }
        if [ "$org" = none ] && [ "$answer" ]; then
            echo "the one service has organizations, and would get no more requests: apart.sh moves them" >&2
            return 1
        fi
        ! printf '%s\n' "$answer" | grep -q "^$org " || { echo "the one service has $org: apart.sh moves it" >&2; return 1; }
    fi
    if [ ! -e "$file" ]; then
        install -d -m 700 -o custody -g custody "${file%/*}" && (umask 077 && runuser -u custody -- touch "$file") || return
    fi
    start_service "$org" || return
    if [ "$org" != none ]; then
        answer=$(echo "org-add $*" | operator "$org" 2> /dev/null)
        case $answer in ok | 'refused exists') ;; *) echo "$org is not added: ${answer:-no answer}" >&2; return 1 ;; esac
        answer=$(echo "token-list $org" | operator "$org") || return
        if ! printf '%s\n' "$answer" | grep -q '^root '; then
            rm -f "/root/$org.root" "/root/$org.root.curl"
            new_token "$org" root admin > /dev/null || return
        fi
    fi
    to_own_service "$org"
}

# ORG [force]: removes an organization that has a service of its own, with its file. Its backups stay. It can be run again. Ends while
# a lock holds or a run is open, unless `force` is added.
remove_organization() {
    local org=$1 answer
    case $org in none | *[!a-z0-9-]* | '') echo "not the name of an organization: $org" >&2; return 2 ;; esac
    [ -e "/root/operators/$org" ] || { echo "$org has no service of its own" >&2; return 1; }
    # (neither: a run before has removed it, and ended early)
    if [ -e "/etc/custody/organizations/$org" ] || systemctl is-active -q "custody@$org"; then
        answer=$(echo "org-remove $*" | operator "$org" 2> /dev/null)
        case $answer in ok | 'refused absent') ;; *) echo "$org is not removed: ${answer:-no answer}" >&2; return 1 ;; esac
    fi
    rm -f "/etc/custody/organizations/$org" && reload_front || return
    systemctl disable --quiet --now "custody@$org" "custody-backup@$org.timer" &&
        rm -rf "/var/lib/custody/$org" && rm -f "/root/operators/$org" "/root/operators/$org".*
}
