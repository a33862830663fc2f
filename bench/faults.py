#!/usr/bin/env python3
"""Has each call that the proved program makes of the machine go wrong in turn, one a run, and looks at what stands after.

A library that is loaded in front of the C library counts the program's calls, and at the n-th
  memory  gives no memory,
  error   fails a call on a file (EIO),
  short   moves one byte of a read or a write of several,
  stop    ends the process before a call on a file.
A kind with a number behind it, as in memory/10, takes one in so many calls. After each run the same command is given again with nothing going wrong. What it prints must be what a whole command or none leaves,
and no ticket may come twice. It wants crates/pdn/out/pdn, which the gate (.ci/run) or `rt run` in crates/pdn builds, and a C compiler.
"""
import collections, os, re, shutil, subprocess, sys, tempfile

HERE = os.path.dirname(os.path.abspath(__file__))
PROGRAM = os.path.join(HERE, "..", "crates", "pdn", "out", "pdn")
KINDS = ["memory", "error", "short", "stop"]
MOST = 20_000

SHIM = r"""
#define _GNU_SOURCE
#include <dlfcn.h>
#include <errno.h>
#include <fcntl.h>
#include <signal.h>
#include <stdarg.h>
#include <stdlib.h>
#include <sys/file.h>
#include <sys/mman.h>
#include <sys/stat.h>
#include <sys/syscall.h>
#include <unistd.h>

/* The count is in a file of one word, so that it is there however the process ends. */
static long unseen, *count = &unseen, at;
static char kind;

__attribute__((constructor)) static void start(void) {
    const char *how = getenv("FAULT_KIND"), *when = getenv("FAULT_AT"), *where = getenv("FAULT_COUNT");
    if (!how || !when || !where) return;
    int fd = syscall(SYS_openat, AT_FDCWD, where, O_RDWR);
    void *word = mmap(NULL, sizeof *count, PROT_READ | PROT_WRITE, MAP_SHARED, fd, 0);
    syscall(SYS_close, fd);
    if (word == MAP_FAILED) _exit(99);
    count = word; at = atol(when); kind = how[0];
    if (kind == 's') kind = how[1];  /* h: short, t: stop */
}
static int hit(void) { return __atomic_add_fetch(count, 1, __ATOMIC_SEQ_CST) == at; }
static int no_memory(void) { return kind == 'm' && hit(); }
/* whether a call on a file goes wrong; moves tells a read or a write of several bytes */
static int wrong(int moves) {
    if (kind == 'e' && hit()) { errno = EIO; return 1; }
    if (kind == 't' && hit()) kill(getpid(), SIGKILL);
    if (kind == 'h' && moves && hit()) return 2;
    return 0;
}
#define REAL(name) static __typeof__(name) *real; if (!real) real = (__typeof__(name) *)dlsym(RTLD_NEXT, #name)

void *malloc(size_t n) { REAL(malloc); return no_memory() ? NULL : real(n); }
void *realloc(void *p, size_t n) { REAL(realloc); return no_memory() ? NULL : real(p, n); }
ssize_t read(int fd, void *to, size_t n) {
    REAL(read); int w = wrong(n > 1); return w == 1 ? -1 : real(fd, to, w == 2 ? 1 : n); }
ssize_t write(int fd, const void *from, size_t n) {
    REAL(write); int w = wrong(n > 1); return w == 1 ? -1 : real(fd, from, w == 2 ? 1 : n); }
ssize_t pread(int fd, void *to, size_t n, off_t o) {
    REAL(pread); int w = wrong(n > 1); return w == 1 ? -1 : real(fd, to, w == 2 ? 1 : n, o); }
ssize_t pwrite(int fd, const void *from, size_t n, off_t o) {
    REAL(pwrite); int w = wrong(n > 1); return w == 1 ? -1 : real(fd, from, w == 2 ? 1 : n, o); }
int fsync(int fd) { REAL(fsync); return wrong(0) ? -1 : real(fd); }
int fdatasync(int fd) { REAL(fdatasync); return wrong(0) ? -1 : real(fd); }
int ftruncate(int fd, off_t n) { REAL(ftruncate); return wrong(0) ? -1 : real(fd, n); }
int flock(int fd, int how) { REAL(flock); return wrong(0) ? -1 : real(fd, how); }
int fchmod(int fd, mode_t m) { REAL(fchmod); return wrong(0) ? -1 : real(fd, m); }
int fchown(int fd, uid_t u, gid_t g) { REAL(fchown); return wrong(0) ? -1 : real(fd, u, g); }
char *realpath(const char *name, char *to) { REAL(realpath); return wrong(0) ? NULL : real(name, to); }
int statx(int d, const char *name, int flags, unsigned mask, struct statx *to) {
    REAL(statx); return wrong(0) ? -1 : real(d, name, flags, mask, to); }
int open(const char *name, int flags, ...) {
    REAL(open); va_list v; va_start(v, flags); mode_t m = va_arg(v, mode_t); va_end(v);
    return wrong(0) ? -1 : real(name, flags, m); }
int fcntl(int fd, int what, ...) {
    REAL(fcntl); va_list v; va_start(v, what); void *arg = va_arg(v, void *); va_end(v);
    return wrong(0) ? -1 : real(fd, what, arg); }
"""

SCHEMA = "version 1\nfloor 3\ntable t rows 8\ncolumn c int private\nend\n"
QUERY = "SELECT COUNT(*) FROM t WHERE c = 5;"
LOAD, RUN, TWIN = "load a t 0 a.csv", "run q.sql 1", "twin a q.sql other 1"


def put(folder, name, text):
    with open(os.path.join(folder, name), "w") as out:
        out.write(text)


def network(folder):
    """A network whose site A has the file a.csv and has kept nothing."""
    os.mkdir(folder)
    os.mkdir(os.path.join(folder, "other"))
    put(folder, "net.schema", SCHEMA)
    put(folder, "q.sql", QUERY)
    put(folder, "a.csv", "c\n5\n5\n7\n")
    put(folder, "b.csv", "c\n5\n")
    put(folder, "other/t.csv", "c\n7\n")
    put(folder, "tape.key", "0f" * 32)


class Came(collections.namedtuple("Came", "status text calls")):
    """How a command ended, what it printed, and how many calls were counted."""


class Tries:
    def __init__(self, folder):
        self.folder, self.shim = folder, os.path.join(folder, "shim.so")
        put(folder, "shim.c", SHIM)
        source = os.path.join(folder, "shim.c")
        subprocess.run([os.environ.get("CC", "cc"), "-O1", "-shared", "-fPIC", "-o", self.shim, source, "-ldl"], check=True)

    def run(self, network, command, kind="", at=0):
        counted = os.path.join(self.folder, "count")
        env = {"LD_PRELOAD": self.shim, "FAULT_COUNT": counted, "FAULT_KIND": kind, "FAULT_AT": str(at)} if kind else {}
        with open(counted, "wb") as out:
            out.write(bytes(8))
        ran = subprocess.run([PROGRAM, *command.split()], cwd=network, env=env, stdout=subprocess.PIPE, timeout=60)
        with open(counted, "rb") as it:
            return Came(ran.returncode, ran.stdout.decode(), int.from_bytes(it.read(), "little"))

    def each(self, command, before, kind, every, judge):
        """Tries each call of a command, or one in so many; gives how many calls there are and how often each end came."""
        start, now, ends = (os.path.join(self.folder, it) for it in ["start", "now", "ends"])
        shutil.rmtree(start, ignore_errors=True)
        network(start)
        for word in before:
            assert self.run(start, word).status == 0, word
        shutil.rmtree(now, ignore_errors=True)
        shutil.copytree(start, now)
        whole = self.run(now, command)
        assert whole.status == 0, whole
        ends = collections.Counter()
        for at in range(1, MOST, every):
            shutil.rmtree(now)
            shutil.copytree(start, now)
            came = self.run(now, command, kind, at)
            if came.calls < at:
                return came.calls, ends
            after = [self.run(now, it) for it in (command, RUN)]
            fault = judge(whole, came, after, kind)
            ends[f"status {came.status}, {fault or standing(command, after)}"] += 1
            if fault:
                print(f"  {command!r} {kind} {at}: {fault}: {brief(came)}, then {[brief(it) for it in after]}")
        raise SystemExit("too many calls")


def brief(came):
    return f"status {came.status}, {came.text[:60]!r}"


def tickets(text):
    return [int(it) for it in re.findall(r"ticket (\d+)", text)]


def standing(command, after):
    """What the command had left, in words."""
    if command.startswith("load"):
        return "batch kept" if after[0].text.startswith("loaded again") else "nothing kept"
    return "ticket taken" if min(tickets(after[0].text)) == 1 else "no ticket taken"


# A short read or write is taken up again, or is told as a fault of its object: the counts tell how often.
STATUSES = {"memory": [0, 1, 12], "error": [0, 1, 10], "short": [0, 10], "stop": [-9]}


def judge(whole, came, after, kind):
    """What is wrong, if anything."""
    if came.status not in STATUSES[kind]:
        return "a status without its cause"
    if came.status == 0 and came.text != whole.text:
        return "another text"
    if came.status in (1, 10) and came.text and not re.fullmatch(r"(refused 10|fault 1) [a-z. ]+\n", came.text):
        return "another line"
    if came.status in (12, -9) and not whole.text.startswith(came.text):
        return "another text"
    if any(it.status for it in after):
        return "refused after"
    if "loaded" in whole.text:
        wanted = ["loaded again", "loaded new"]
        if came.text.startswith("loaded"):
            wanted = ["loaded again"]
        elif came.status == 12:
            wanted = ["loaded new"]
        if after[0].text not in [f"{it} t batch 0 rows 3\n" for it in wanted]:
            return "the batch isn't whole"
        if after[1].text != "query 1 ticket 0 rows 1\ncount\n2\n":
            return "another answer"
        return None
    mark = re.compile(r"ticket \d+|[0-9a-f]{16}")
    if mark.sub("", after[0].text) != mark.sub("", whole.text):
        return "another answer"
    given = sorted(set(tickets(came.text))) + sorted(set(tickets(after[0].text))) + tickets(after[1].text)
    if given != sorted(set(given)) or given[-1] > 2:
        return "a ticket twice, or two lost"
    return None


def main():
    if not os.access(PROGRAM, os.X_OK):
        raise SystemExit("no program in crates/pdn/out: run .ci/run first, or rt run in crates/pdn")
    commands = [(LOAD, []), (RUN, [LOAD, "load b t 0 b.csv"]), (TWIN, [LOAD, "load b t 0 b.csv"])]
    room = "/dev/shm" if os.path.isdir("/dev/shm") else None
    with tempfile.TemporaryDirectory(dir=room) as folder:
        tries = Tries(folder)
        for command, before in commands:
            for word in sys.argv[1:] or KINDS:
                kind, _, every = word.partition("/")
                calls, ends = tries.each(command, before, kind, int(every or 1), judge)
                print(f"{command}: {kind}, {calls} calls: " + "; ".join(f"{n} {end}" for end, n in sorted(ends.items())), flush=True)


if __name__ == "__main__":
    main()
