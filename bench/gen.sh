#!/usr/bin/env bash
# Measures `pdn gen` with the program crates/pdn, which the gate (.ci/run) or `rt run` built, and prints a table, a row for each number of
# patients and of workers. Beside it stand the dealer's rate and the shares of dealing and halves, where crates/pdn_bench is built too, and
# what the sqlite3 shell takes for the same three queries over the union in plain, where it is there. `bench/gen.sh | bench/gen.py` draws
# bench/rates.svg from the table.
set -eu
here=$(cd "$(dirname "$0")" && pwd)
program=$here/../crates/pdn/out/pdn
[ -x "$program" ] || { echo "no program in crates/pdn/out: run .ci/run first, or rt run in crates/pdn" >&2; exit 1; }
exec python3 "$here/gen_rates.py" "$program" "$here/../crates/pdn_bench/out/pdn_bench"
