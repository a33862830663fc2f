#!/usr/bin/env python3
"""What bench/gen.sh measures: for each size of a stated network and each number of workers the time and the memory of `pdn gen`, its And
words a second, and how the processor time of one worker divides.

And words are counted in the views of site A, which `pdn run .. show a` prints over the same rows, given to the sites as batches.
"""
import os, re, shutil, statistics, subprocess, sys, tempfile, time

SEED = 7
SIZES = [6, 12, 25, 50, 100]
WORKERS = [1, 2, 4, 16]
TURNS = 5

SCHEMA = """version 1
floor 3
table diag rows 256
column pid int public per 4
column code code protected
column day int private
end
"""
QUERIES = """WITH d AS (SELECT pid, day, ROW_NUMBER() OVER (PARTITION BY pid ORDER BY day) AS r FROM diag WHERE code = 'cdiff')
SELECT DISTINCT a.pid FROM d a JOIN d b ON a.pid = b.pid AND b.r = a.r + 1
WHERE b.day >= a.day + 15 AND b.day <= a.day + 56 ORDER BY pid;
SELECT code, COUNT(*) AS n FROM diag GROUP BY code HAVING COUNT(*) >= 3 ORDER BY n DESC LIMIT 2;
SELECT COUNT(*) FROM diag WHERE day >= 30;
"""


def rows(patients):
    """The rows of both sites, by docs/FORMATS.md."""
    a, b = [], []
    for p in range(1, patients + 1):
        q, g = (7 * p + 13 * SEED) % 11, (5 * p + SEED) % 60
        if q != 0:
            a.append((p, "cdiff", 10 + q))
        if q != 1:
            b.append((p, "flu" if (p + SEED) % 4 == 0 else "cdiff", 10 + q + g))
    return a, b


def put(folder, name, text):
    with open(os.path.join(folder, name), "w") as out:
        out.write(text)


def new_folder():
    folder = tempfile.mkdtemp()
    put(folder, "tape.key", "ab" * 32)
    return folder


def lines_of(folder, *words):
    """The lines that a command prints, one after the other: those of views can be many."""
    with subprocess.Popen(words, cwd=folder, stdout=subprocess.PIPE, text=True) as running:
        yield from running.stdout
    if running.returncode != 0:
        raise SystemExit(f"{' '.join(words)}: status {running.returncode}")


def in_numbers(line):
    """A line `query <i> .. rows <k> ..` in short: i and k."""
    found = re.match(r"query (\d+) (?:ticket \d+ )?rows (\d+)", line)
    return found and found.groups()


def counted(program, patients):
    """And words of the three queries, over all their secure units and roots."""
    folder = new_folder()
    put(folder, "net.schema", SCHEMA)
    put(folder, "q.sql", QUERIES)
    for site, of_site in zip("ab", rows(patients)):
        put(folder, site + ".csv", "pid,code,day\n" + "".join(f"{p},{code},{day}\n" for p, code, day in of_site))
        list(lines_of(folder, program, "load", site, "diag", "0", site + ".csv"))
    ands, answers = 0, []
    for line in lines_of(folder, program, "run", "q.sql", "1", "show", "a"):
        unit = re.match(r"unit \d+ .* ands (\d+) masks \d+$", line)
        if unit:
            ands += int(unit[1])
        answers.append(in_numbers(line))
    in_short = [in_numbers(line) for line in lines_of(folder, program, "gen", str(SEED), str(patients), "1")]
    shutil.rmtree(folder)
    if list(filter(None, answers)) != list(filter(None, in_short)):
        raise SystemExit(f"{patients} patients: run and gen answer with other rows")
    return ands


def run_once(program, patients, workers):
    """Seconds by the clock, seconds of the processors, and the peak memory in MB, of one call in a process of its own."""
    folder = new_folder()
    start = time.monotonic()
    pid = os.fork()
    if pid == 0:
        os.chdir(folder)
        os.dup2(os.open(os.devnull, os.O_WRONLY), 1)
        os.execv(program, [program, "gen", str(SEED), str(patients), str(workers)])
    _, status, used = os.wait4(pid, 0)
    took = time.monotonic() - start
    shutil.rmtree(folder)
    if status != 0:
        raise SystemExit(f"gen {SEED} {patients} {workers}: status {os.waitstatus_to_exitcode(status)}")
    return took, used.ru_utime + used.ru_stime, used.ru_maxrss / 1024


def measured(program, patients, workers):
    """The medians of some calls."""
    turns = [run_once(program, patients, workers) for _ in range(TURNS)]
    return [statistics.median(of) for of in zip(*turns)]


def seconds_an_and(bench):
    """Processor seconds of one And word in dealing alone, in dealing and splitting, and in both halves, over a circuit of some hundred
    thousand And gates; none where pdn_bench isn't built."""
    if not os.access(bench, os.X_OK):
        return None
    table = subprocess.run([bench, "wide", "128", "5"], stdout=subprocess.PIPE, text=True, check=True).stdout.splitlines()
    turns = [dict(zip(table[1].split(), map(int, row.split()))) for row in table[2:]]
    each = {name: statistics.median(turn[name] for turn in turns) / 1e12 for name in turns[0]}
    return each["deal"], each["deal"] + each["split"], each["order"] + each["new"] + each["run"]


def in_plain(patients):
    """Seconds that the sqlite3 shell takes for the three queries over the union, and nothing where it isn't there."""
    if shutil.which("sqlite3") is None:
        return None
    a, b = rows(patients)
    script = "CREATE TABLE diag(pid INT, code TEXT, day INT);\n"
    script += "".join(f"INSERT INTO diag VALUES({p},'{code}',{day});\n" for p, code, day in a + b)
    script += ".timer on\n" + QUERIES.replace("ORDER BY pid", "ORDER BY a.pid")
    text = subprocess.run(["sqlite3", ":memory:"], input=script, stdout=subprocess.PIPE, text=True).stdout
    return sum(float(n) for n in re.findall(r"Run Time: real ([0-9.]+)", text))


def main():
    program, bench = os.path.abspath(sys.argv[1]), os.path.abspath(sys.argv[2])
    each = seconds_an_and(bench)
    if each:
        print(f"dealer {1 / each[0]:.0f} And words a second")
    print("patients workers and_words seconds and_words_a_second mb processor_seconds")
    for patients in SIZES:
        ands = counted(program, patients)
        alone = None
        for workers in WORKERS:
            took, used, mb = measured(program, patients, workers)
            print(f"{patients} {workers} {ands} {took:.3f} {ands / took:.0f} {mb:.0f} {used:.3f}", flush=True)
            alone = alone or used
        if each:
            deal, halves = ands * each[1] / alone, ands * each[2] / alone
            print(f"{patients} patients, of one worker's time: dealing {deal:.0%}, halves {halves:.0%}, the rest {1 - deal - halves:.0%}")
        plain = in_plain(patients)
        if plain is not None:
            print(f"{patients} patients in plain, by sqlite3: {plain:.4f} seconds")


main()
