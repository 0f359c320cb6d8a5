#!/usr/bin/env python3
"""Measures installs and updates beside the real ostree.

usage: speed.py FPK [FILES] [DIRECTORIES] [ROUNDS]

FPK is the program that was built; Debian's packages ostree and strace are needed. `ostree commit` makes a runtime of FILES files of
4 KiB in DIRECTORIES directories (20000 in 200 where nothing is said). Both programs bring it from that folder into a new store and lay
it out with hard links, both looking at each digest: `fpk install`, and `ostree pull-local --untrusted` with `ostree checkout -H -U`.
Then one file of each directory is changed, and both bring that; then nothing is changed. It prints for each step the time by the
clock, that of the processor, the peak of memory, and the first divided by that of ostree: of ROUNDS rounds (1 where nothing is said)
the one in the middle by the clock of fpk. The last round also prints which calls of the system fpk makes, counted by `strace -c` over a
second installation. Both work on a new ext4 of their own, on a loop device, where one may be mounted, else in a new folder. The
repository is in a folder below TMPDIR: then nothing can be linked from it. No file is deleted there before: ext4 looks at inodes that
went lately.
"""

import contextlib
import os
import subprocess
import sys
import tempfile

REF = "runtime/org.x.Big/x86_64/1"
SIZE = 4096
# the bytes of the file system that is made
DISK = 4 << 30
# what strace -c is asked for
ROWS = 10


# Starts a program on two files, and prints its status, its seconds by the clock and of the processor, and the peak of its memory in
# KiB. A process begins with the peak of the one that started it, so it is started by a small one.
STARTER = """
import os, sys, time
given, printed, *words = sys.argv[1:]
begun = time.monotonic()
child = os.fork()
if not child:
    os.dup2(os.open(given, os.O_RDONLY), 0)
    os.dup2(os.open(printed, os.O_WRONLY | os.O_CREAT | os.O_TRUNC, 0o600), 1)
    os.execvp(words[0], words)
_, status, used = os.wait4(child, 0)
print(os.waitstatus_to_exitcode(status), time.monotonic() - begun, used.ru_utime + used.ru_stime, used.ru_maxrss)
"""


def started(words, given, printed, env=None):
    """The status of a program, its seconds by the clock and of the processor, the peak of its memory in KiB, and what it complained of."""
    front = [sys.executable, "-c", STARTER, given, printed]
    run = subprocess.run([*front, *words], env=env, capture_output=True, text=True, check=True)
    status, clock, processor, memory = run.stdout.split()
    return int(status), float(clock), float(processor), int(memory), run.stderr


class Cost:
    """What some programs took: seconds by the clock and of the processor, and the peak of memory in KiB."""

    def __init__(self):
        self.clock, self.processor, self.memory = 0.0, 0.0, 0

    def run(self, words, env=None, given=os.devnull):
        """Runs a program, which has to end with status 0, and adds what it took. Answers what it printed."""
        with tempfile.NamedTemporaryFile() as sink:
            status, clock, processor, memory, said = started(words, given, sink.name, env)
            text = sink.read().decode()
        self.clock += clock
        self.processor += processor
        self.memory = max(self.memory, memory)
        if status != 0:
            sys.exit(f"{' '.join(words)}: status {status}, {text}{said}")
        return text


@contextlib.contextmanager
def own_disk(folder):
    """A new ext4 on a loop device, or else a new folder."""
    image, place = os.path.join(folder, "disk.img"), os.path.join(folder, "disk")
    os.mkdir(place)
    with open(image, "wb") as out:
        out.truncate(DISK)
    quiet = {"stdout": subprocess.DEVNULL, "stderr": subprocess.DEVNULL, "check": False}
    steps = [["mkfs.ext4", "-q", "-F", image], ["mount", "-o", "loop", image, place]]
    is_mounted = os.geteuid() == 0 and all(subprocess.run(step, **quiet).returncode == 0 for step in steps)
    print("on a new ext4" if is_mounted else "in a new folder", flush=True)
    try:
        yield place
    finally:
        if is_mounted:
            subprocess.run(["umount", place], check=True)
        os.remove(image)


class Bench:
    """A repository, an installation of fpk, and a store of ostree with what is laid out of it."""

    def __init__(self, fpk, folder, remotes, files, directories):
        self.fpk, self.folder = os.path.abspath(fpk), folder
        self.files, self.directories = files, directories
        self.tree, self.repo = (os.path.join(remotes, name) for name in ("tree", "repo"))
        self.store = os.path.join(folder, "store")
        for repo in (self.repo, self.store):
            Cost().run(["ostree", "init", "--mode=bare-user-only", "--repo", repo])
        self.offered = None

    # ---- what is offered

    def path(self, number):
        return os.path.join(self.tree, "files", str(number % self.directories), str(number // self.directories))

    def write(self, number):
        os.makedirs(os.path.dirname(self.path(number)), exist_ok=True)
        with open(self.path(number), "wb") as out:
            out.write(os.urandom(SIZE))

    def make(self):
        for number in range(self.files):
            self.write(number)
        with open(os.path.join(self.tree, "metadata"), "w", encoding="ascii") as out:
            out.write("[Runtime]\nname=org.x.Big\n")
        self.commit()

    def change(self):
        """Changes one file of each directory."""
        for number in range(self.directories):
            self.write(number)
        self.commit()

    def commit(self):
        words = ["ostree", "commit", "--repo", self.repo, "-b", REF, "--subject=", self.tree]
        self.offered = Cost().run(words).strip()

    # ---- what is measured

    def environment(self, installation):
        return dict(os.environ, FPK_INSTALLATION=os.path.join(self.folder, installation))

    def fpk_run(self, words, front=(), installation="installation"):
        cost = Cost()
        cost.run([*front, self.fpk, *words], self.environment(installation))
        return cost

    def ostree_run(self):
        """Brings what is offered, and lays it out where it isn't yet."""
        cost, place = Cost(), os.path.join(self.folder, "checkout", self.offered)
        cost.run(["ostree", "pull-local", "--untrusted", "--repo", self.store, self.repo, REF])
        if not os.path.exists(place):
            os.makedirs(os.path.dirname(place), exist_ok=True)
            cost.run(["ostree", "checkout", "-H", "-U", "--repo", self.store, self.offered, place])
        return cost

    def traced(self, title, words):
        """Prints which calls of the system fpk makes."""
        sums = os.path.join(self.folder, "sums")
        self.fpk_run(words, ("strace", "-f", "-c", "-S", "calls", "-o", sums), "traced")
        with open(sums, encoding="ascii") as it:
            rows = [line.split() for line in it]
        rows = [row for row in rows if len(row) >= 5 and row[0][0].isdigit() and row[-1] != "total"]
        counts = [f"{row[-1]} {row[3]}" for row in rows[:ROWS]]
        total = sum(int(row[3]) for row in rows)
        print(f"calls of {title}: {total}: {', '.join(counts)}")


class Rounds:
    """What each step took, round by round."""

    def __init__(self):
        self.steps = {}

    def add(self, title, fpk, ostree=None):
        self.steps.setdefault(title, []).append((fpk, ostree))

    def tell(self):
        """Prints of each step the round in the middle."""
        for title, costs in self.steps.items():
            told(title, *sorted(costs, key=lambda pair: pair[0].clock)[len(costs) // 2])


def told(title, fpk, ostree=None):
    """Prints what a step took."""
    text = f"{title}: fpk {fpk.clock:.2f} s, processor {fpk.processor:.2f} s, {fpk.memory / 1024:.0f} MiB"
    if ostree:
        text += f"; ostree {ostree.clock:.2f} s, {ostree.processor:.2f} s, {ostree.memory / 1024:.0f} MiB"
        ratios = (fpk.clock / ostree.clock, fpk.processor / ostree.processor, fpk.memory / ostree.memory)
        text += "; fpk / ostree: clock {:.1f}, processor {:.1f}, memory {:.1f}".format(*ratios)
    print(text, flush=True)


def play(bench, rounds, is_last):
    url = "file://" + bench.repo
    bench.make()
    for installation in ("installation", "traced"):
        bench.fpk_run(["remote-add", "hub", url], installation=installation)
    traced = bench.traced if is_last else lambda *_: None
    os.sync()
    rounds.add("install", bench.fpk_run(["install", "hub", REF]), bench.ostree_run())
    traced("install", ["install", "hub", REF])
    bench.change()
    os.sync()
    rounds.add("update", bench.fpk_run(["update"]), bench.ostree_run())
    traced("update", ["update"])
    rounds.add("idle update", bench.fpk_run(["update"]), bench.ostree_run())
    traced("idle update", ["update"])
    rounds.add("pin", bench.fpk_run(["pin", "app/*/*/*"]))
    traced("pin", ["pin", "app/*/*/*"])
    rounds.add("list", bench.fpk_run(["list"]))
    rounds.add("rollback", bench.fpk_run(["rollback", REF]))
    rounds.add("uninstall", bench.fpk_run(["uninstall", REF]))


def main():
    if not 2 <= len(sys.argv) <= 5:
        sys.exit(__doc__)
    os.umask(0o022)
    files, directories, count = [int(word) for word in sys.argv[2:5]] + [20000, 200, 1][len(sys.argv[2:5]) :]
    rounds = Rounds()
    for number in range(count):
        with contextlib.ExitStack() as places:
            remotes = places.enter_context(tempfile.TemporaryDirectory(prefix="speed"))
            folder = places.enter_context(own_disk(remotes))
            play(Bench(sys.argv[1], folder, remotes, files, directories), rounds, number == count - 1)
    rounds.tell()


if __name__ == "__main__":
    main()
