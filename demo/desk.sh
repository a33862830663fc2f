#!/usr/bin/env bash
# A session with the desk: starts it on the demo network, with a caller ann who has two calls, and asks it with curl. Ann asks a query,
# and asks it again, which gives the kept answer. Another query under the same number differs. She fetches what is kept, asks for a
# column that isn't shown, which spends no call, spends her second call, and has none left. Stores and key lie in a folder of their
# own, which goes at the end. It wants curl, and the proved programs, which the gate (.ci/run) builds in crates/pdn/out and
# crates/pdn_serve/out. A word, if there is one, is the port.
set -eu
demo=$(cd "$(dirname "$0")" && pwd)
crates=$(cd "$demo/../crates" && pwd)
port=${1:-18080}
for program in pdn pdn_serve; do
    [ -x "$crates/$program/out/$program" ] || { echo "no program in crates/$program/out: run .ci/run first" >&2; exit 1; }
done
folder=$(mktemp -d)
desk=
trap 'kill $desk 2>/dev/null || true; rm -r "$folder"' EXIT

cd "$folder"
sed 's/^floor 3$/floor 3\ncaller ann calls 2/' "$demo/net.schema" > net.schema
(umask 077 && od -An -tx1 -N32 /dev/urandom | tr -d ' \n' > tape.key)
"$crates/pdn/out/pdn" load a diag 0 "$demo/a_diag.csv"
"$crates/pdn/out/pdn" load b diag 0 "$demo/b_diag.csv"
"$crates/pdn_serve/out/pdn_serve" "$port" 1 7 > ends &
desk=$!
# Where the port is another program's, the desk has ended by now.
sleep 0.3
kill -0 "$desk" 2>/dev/null || { cat ends; exit 1; }

# Asks under a number of ann's, with a query or, for what is kept, without; shows the body and the status. Waits while nobody listens
# yet, as long as the desk runs.
ask() {
    local path=callers/ann/queries/$1 status
    shift
    if [ $# -eq 0 ]; then
        echo "GET $path"
    else
        echo "POST $path  $1"
        set -- --data-binary "$1"
    fi
    while :; do
        status=0
        curl -s -w '  (%{http_code})\n' "$@" "http://127.0.0.1:$port/$path" || status=$?
        [ "$status" -eq 7 ] || return "$status"
        kill -0 "$desk" 2>/dev/null || { cat ends; exit 1; }
        sleep 0.1
    done
}

cdiff="SELECT COUNT(*) AS n FROM diag WHERE code = 'cdiff';"
late="SELECT COUNT(*) AS n FROM diag WHERE day >= 60;"
ask 1 "$cdiff"
ask 1 "$cdiff"
ask 1 "$late"
ask 1
ask 2 "SELECT code FROM diag;"
ask 2 "$late"
ask 3 "$late"
wait "$desk"
desk=
echo "The desk says of its connections:"
cat ends
