#!/usr/bin/env bash
# Tells seconds and peak memory of the proved program on two queries: the recurrent diagnosis of the demo network, and groups over
# 512 rows with HAVING. The program is the one that the gate (.ci/run) or `rt run` built in crates/pdn/out.
set -eu
demo=$(cd "$(dirname "$0")" && pwd)
program=$(cd "$demo/../crates" && pwd)/pdn/out/pdn
[ -x "$program" ] || { echo "no program in crates/pdn/out: run .ci/run first" >&2; exit 1; }
folder=$(mktemp -d)
trap 'rm -r "$folder"' EXIT

# Gives both sites their rows, runs the queries of the current folder, and tells what that took.
measure() {
    printf '%064d\n' 0 > tape.key
    "$program" load a diag 0 a_diag.csv > /dev/null
    "$program" load b diag 0 b_diag.csv > /dev/null
    python3 - "$program" "$1" <<'END'
import resource, subprocess, sys, time
start = time.time()
ran = subprocess.run([sys.argv[1], "run", "q.sql", "1"], stdout=subprocess.PIPE, text=True)
took = time.time() - start
peak = resource.getrusage(resource.RUSAGE_CHILDREN).ru_maxrss / 1024
print(f"{sys.argv[2]}: status {ran.returncode}, {took:.2f} s, {peak:.0f} MB; {ran.stdout.splitlines()[0] if ran.stdout else 'no text'}")
END
}

mkdir "$folder/recurrent" "$folder/groups"
cd "$folder/recurrent"
cp "$demo/net.schema" "$demo/a_diag.csv" "$demo/b_diag.csv" .
sed '/^SELECT code/,$d' "$demo/q.sql" > q.sql
measure "recurrent diagnosis"

cd "$folder/groups"
cat > net.schema <<'END'
version 1
floor 3
table diag rows 256
column pid int public per 4
column code code protected
column day int private
end
END
echo "SELECT code, COUNT(*) AS n FROM diag GROUP BY code HAVING COUNT(*) >= 3;" > q.sql
for site in a b; do
    echo "pid,code,day" > "${site}_diag.csv"
    for ((row = 0; row < 256; row++)); do
        echo "$((row / 4)),c$((row % 10)),$row"
    done >> "${site}_diag.csv"
done
measure "groups over 512 rows"
