#!/usr/bin/env bash
# Measures the phases of circuits' secret runs, and views printed and read, with the program crates/pdn_bench, which the gate (.ci/run)
# or `rt run` built: the words of this script are the program's, else a few sizes are measured. After each table stands the peak memory.
set -eu
program=$(cd "$(dirname "$0")/../crates/pdn_bench" && pwd)/out/pdn_bench
[ -x "$program" ] || { echo "no program in crates/pdn_bench/out: run .ci/run first, or rt run in crates/pdn_bench" >&2; exit 1; }

measure() {
    echo "pdn_bench $*"
    python3 - "$program" "$@" <<'END'
import resource, subprocess, sys
ran = subprocess.run(sys.argv[1:])
print(f"status {ran.returncode}, peak {resource.getrusage(resource.RUSAGE_CHILDREN).ru_maxrss / 1024:.0f} MB", flush=True)
END
}

if [ $# -gt 0 ]; then
    measure "$@"
else
    measure wide 64 5
    measure wide 512 5
    measure wide 1340 2
    measure deep 300 4000 3
    measure deep 10 4000 3
    measure view 262144 3
    measure view 1048576 3
    measure view 4194304 3
fi
