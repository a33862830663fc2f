#!/usr/bin/env python3
"""Tells how long the proved program takes over stores on files: to load a batch of 256 rows into each of 8 tables, to load the same
again, and to run a query over these stores and over stores without rows. A query's circuits depend on the schema's bounds and not on
how many rows there are, so the second run does all but read rows. It wants crates/pdn/out/pdn, as bench/faults.py does.
"""
import os, resource, shutil, statistics, subprocess, tempfile, time

HERE = os.path.dirname(os.path.abspath(__file__))
PROGRAM = os.path.join(HERE, "..", "crates", "pdn", "out", "pdn")
TABLES = 8
TURNS = 5


def put(folder, name, text):
    with open(os.path.join(folder, name), "w") as out:
        out.write(text)


def took(folder, *words, wanted=0):
    start = time.time()
    ran = subprocess.run([PROGRAM, *words], cwd=folder, stdout=subprocess.PIPE, text=True)
    if ran.returncode != wanted:
        raise SystemExit(f"{words}: {ran.returncode} {ran.stdout}")
    return time.time() - start


def schema():
    lines = [f"table t{it} rows 256\ncolumn pid int public per 4\ncolumn code code protected\ncolumn day int private" for it in range(TABLES)]
    return "version 1\nfloor 3\n" + "\n".join(lines) + "\nend\n"


def run(folder):
    """The median of several runs, in ms."""
    return 1000 * statistics.median(took(folder, "run", "q.sql", "1") for _ in range(TURNS))


def main():
    if not os.access(PROGRAM, os.X_OK):
        raise SystemExit("no program in crates/pdn/out: run .ci/run first, or rt run in crates/pdn")
    folder = tempfile.mkdtemp()
    try:
        put(folder, "tape.key", "0f" * 32)
        put(folder, "rows.csv", "pid,code,day\n" + "".join(f"{it // 4},c{it % 10},{it}\n" for it in range(256)))
        put(folder, "q.sql", "SELECT COUNT(*) FROM t0 WHERE day >= 60;")
        put(folder, "net.schema", schema())
        checks = statistics.median(took(folder, "check", "q.sql") for _ in range(TURNS))
        print(f"check, which opens no store: {1000 * checks:.0f} ms")
        empty = run(folder)
        for site in "ab":
            loads = [took(folder, "load", site, f"t{it}", "0", "rows.csv") for it in range(TABLES)]
            print(f"site {site}, a batch of 256 rows into each of {TABLES} tables, ms:", *(f"{1000 * it:.0f}" for it in loads))
            again = [took(folder, "load", site, f"t{it}", "0", "rows.csv") for it in range(TABLES)]
            print(f"site {site}, the same again, ms:", *(f"{1000 * it:.0f}" for it in again))
        print(f"run over stores without rows: {empty:.0f} ms, over {TABLES} tables of 256 rows a site: {run(folder):.0f} ms")
        for it in ["a.db", "a.db-wal", "desk.db"]:
            path = os.path.join(folder, it)
            print(f"{it}: {os.path.getsize(path) if os.path.exists(path) else 0} bytes")
        print(f"peak {resource.getrusage(resource.RUSAGE_CHILDREN).ru_maxrss / 1024:.0f} MB")
    finally:
        shutil.rmtree(folder)


if __name__ == "__main__":
    main()
