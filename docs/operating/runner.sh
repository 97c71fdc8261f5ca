#!/bin/sh
# Takes one run of one workspace from the queue to its end, and reports each step to custody.
#     export CUSTODY=https://state.example.com/v1/acme TOKEN="acme.$(cat FILE)"; runner.sh WORKSPACE KEY [plan_only]
# Start it in the configuration's folder. KEY, up to 64 letters, digits or '-', is the pipeline's number: no other run has it.
set -eu
umask 077                                             # the plan has secrets
ws=$1 key=$2
case "${3-}" in '') plan_only=false ;; plan_only) plan_only=true ;; *) echo "not plan_only: $3" >&2; exit 2 ;; esac
[ ! -e errored.tfstate ] || { echo "errored.tfstate has to be pushed first" >&2; exit 1; }

ask() { # PATH [MORE OF CURL'S WORDS]: sets the run's number n and status s; curl reads the token from standard input, so no process list shows it
    path=$1 s=; shift
    eval "$(printf 'header = "Authorization: Bearer %s"\n' "$TOKEN" |
        curl -sS -f --retry 6 --retry-connrefused -K - "$@" "$CUSTODY/runs/$ws$path" |
        sed -n 's/.*"number":\([0-9]*\).*"status":"\([a-z_]*\)".*/n=\1 s=\2/p')"
}
await() { # A B: waits while the status is A. If the next status is not B, the run has ended, or has another runner
    while [ "$s" = "$1" ]; do sleep 2; ask "/$n"; done
    [ "$s" = "$2" ] || { [ -z "$s" ] || last=; exit 1; }
}
finish() { # with errored.tfstate the run still holds, until that file is pushed (docs/RUNNERS.md)
    rm -f "run-$n.plan"
    [ -z "$last" ] || [ -e errored.tfstate ] || ask "/$n/actions/$last" -X POST
    echo "run-$n: ${s:-no answer}" >&2
    case "$s" in applied | planned_and_finished) exit 0 ;; *) exit 1 ;; esac
}

ask "" -d "{\"key\":\"$key\",\"plan_only\":$plan_only}"; [ "$s" ] || exit 1
last=discard                                          # what is reported at the end
trap finish EXIT
trap 'exit 1' HUP INT TERM
await pending planning; last=fail

export TF_HTTP_ADDRESS="$CUSTODY/state/$ws?ID=run-$n" TF_HTTP_USERNAME="$TOKEN" TF_HTTP_PASSWORD=- TF_HTTP_RETRY_MAX=6
# through caddy: TF_HTTP_ADDRESS="$CUSTODY/state/$ws?ID=run-$n&access_token=$TOKEN", and neither user name nor password
unset TF_HTTP_LOCK_ADDRESS TF_HTTP_UNLOCK_ADDRESS     # the run holds the workspace, so a LOCK would be answered 423
terraform init -input=false
code=0; terraform plan -input=false -detailed-exitcode -out="run-$n.plan" || code=$?
case "$code" in 0) last=unchanged; exit ;; 2) ;; *) exit 1 ;; esac
ask "/$n/actions/planned" -X POST                     # then applying under auto_apply, or ended if it is plan-only
[ "$s" != planned ] || { last=discard; echo "run-$n waits for confirm or discard" >&2; }
await planned applying; last=fail
terraform apply -input=false "run-$n.plan"
last=applied
