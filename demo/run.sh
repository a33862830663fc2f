#!/usr/bin/env bash
# Gives two hospitals their rows, demo/a_diag.csv and demo/b_diag.csv, each as batch 0 of the table diag, and answers the queries of
# demo/q.sql, by the schema demo/net.schema. The hospitals keep their rows in demo/a.db and demo/b.db, the desk its tickets in
# demo/desk.db. With words it runs the one command that they say. It runs the proved program where the gate (.ci/run) has built it from
# the sources as they stand, else a quick build that is not proved. The key of the tape is made from the system's random source where
# there is none.
set -u
demo=$(cd "$(dirname "$0")" && pwd)
crates=$(cd "$demo/../crates" && pwd)
program=$crates/pdn/out/pdn

# Whether the built program is newer than every source that it could be made from.
is_current() {
    [ -x "$program" ] && [ -z "$(find "$crates" -path '*/out' -prune -o -type f \( -name '*.rt' -o -name '*.antt' \) -newer "$program" -print -quit)" ]
}

cd "$demo" || exit 1
if [ ! -f tape.key ]; then
    (umask 077 && od -An -tx1 -N32 /dev/urandom | tr -d ' \n' > tape.key && echo >> tape.key) || exit 1
fi
if is_current; then
    echo "the proved program:" >&2
    [ $# -eq 0 ] || exec "$program" "$@"
    "$program" load a diag 0 a_diag.csv || exit
    "$program" load b diag 0 b_diag.csv || exit
    exec "$program" run q.sql 1
fi
echo "a quick build that is not proved, over the stores in crates/pdn/data; what it writes is lost (run .ci/run for the proved program):" >&2
[ $# -gt 0 ] || set -- run q.sql 1
cd "$crates/pdn" || exit 1
data=(--data "tape.key=$demo/tape.key" --data "a.db=data/a.db" --data "b.db=data/b.db")
for file in net.schema q.sql a_diag.csv b_diag.csv more.csv; do
    data+=(--data "$file=$demo/$file")
done
exec rt try "${data[@]}" -- "$@"
