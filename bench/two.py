#!/usr/bin/env python3
"""Has several processes use one network's stores at once: each loads batches of its own into both sites, and runs queries between.

Nothing may be lost: a batch that was answered is there in the end, whole and once; no ticket is given twice; a store that another
process uses is `refused 10 ..` at worst, and is tried again. It wants crates/pdn/out/pdn, as bench/faults.py does.
"""
import collections, os, re, subprocess, sys, tempfile, threading, time
from concurrent.futures import ThreadPoolExecutor

HERE = os.path.dirname(os.path.abspath(__file__))
PROGRAM = os.path.join(HERE, "..", "crates", "pdn", "out", "pdn")
PROCESSES = int(sys.argv[1]) if len(sys.argv) > 1 else 2
BATCHES = 12
ROWS = 4


def put(folder, name, text):
    with open(os.path.join(folder, name), "w") as out:
        out.write(text)


class Network:
    def __init__(self, folder):
        self.folder, self.ends, self.tickets = folder, collections.Counter(), []
        self.lock = threading.Lock()
        put(folder, "net.schema", "version 1\nfloor 3\ntable t rows 256\ncolumn c int private\nend\n")
        put(folder, "q.sql", "SELECT COUNT(*) FROM t;")
        put(folder, "t.csv", "c\n" + "5\n" * ROWS)
        put(folder, "tape.key", "0f" * 32)

    def ask(self, *words):
        """The text of a command, which is given again where an object outside failed."""
        for _ in range(1000):
            ran = subprocess.run([PROGRAM, *words], cwd=self.folder, stdout=subprocess.PIPE, text=True, timeout=60)
            with self.lock:
                self.ends[f"{words[0]} {ran.returncode}" + (f" {ran.stdout.strip()}" if ran.returncode else "")] += 1
                self.tickets += [int(it) for it in re.findall(r"ticket (\d+)", ran.stdout)]
            if ran.returncode == 0:
                return ran.stdout
            if ran.returncode != 10:
                raise RuntimeError(f"{words}: status {ran.returncode}, {ran.stdout!r}")
            time.sleep(0.005)
        raise RuntimeError(f"{words} is refused for ever")

    def work(self, number):
        for batch in range(number * BATCHES, (number + 1) * BATCHES):
            for site in "ab":
                self.ask("load", site, "t", str(batch), "t.csv")
            self.ask("run", "q.sql", "1")


def main():
    if not os.access(PROGRAM, os.X_OK):
        raise SystemExit("no program in crates/pdn/out: run .ci/run first, or rt run in crates/pdn")
    with tempfile.TemporaryDirectory() as folder:
        network = Network(folder)
        with ThreadPoolExecutor(PROCESSES) as workers:
            # What a worker raises is raised here.
            list(workers.map(network.work, range(PROCESSES)))
        count = int(network.ask("run", "q.sql", "1").split("\n")[2])
        wanted = 2 * PROCESSES * BATCHES * ROWS
        again = sum("again" in network.ask("load", site, "t", str(it), "t.csv") for site in "ab" for it in range(PROCESSES * BATCHES))
    for end, times in sorted(network.ends.items()):
        print(f"{times:6} {end}")
    print(f"rows {count} of {wanted}, batches kept {again} of {2 * PROCESSES * BATCHES}")
    print(f"tickets {len(network.tickets)}, the last {max(network.tickets)}, given twice {len(network.tickets) - len(set(network.tickets))}")
    sys.exit(count != wanted or again != 2 * PROCESSES * BATCHES or len(network.tickets) != len(set(network.tickets)))


if __name__ == "__main__":
    main()
