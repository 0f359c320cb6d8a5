#!/usr/bin/python3
"""Runs two fpk on one installation, kills some, and counts what the next one syncs.

`two_at_once.py PROGRAM` runs PROGRAM, a built fpk, on a folder of its own, and needs `strace`. It tries that

- a look makes nothing where there is no installation,
- 60 pins each of two runs side by side are all there afterwards, from a folder on that is not there at first,
- a batch that waits for its input holds no lock,
- a run that waits says so once on standard error, and goes on when the lock is free; after ten seconds it says who holds it,
- an update that is held in its pull keeps no look waiting: `list`, `info` and `launch` answer within a second, by the state of before,
- a look asks nothing of the folder once it has printed its first piece, which is when it lets its lock go,
- a change that is about to replace a file waits for those who look, and until then the file stands,
- a run that waits for a lock file that is taken away meanwhile holds the one that stands there afterwards,
- a run that is killed by SIGKILL while it holds the lock leaves none,
- after such a run the next one that changes something syncs every file and folder that is fpk's, and none of others, and
  the one after it only what it changes,
- a mark of an earlier start of the machine means nothing,
- no change makes the lock file longer.

It prints what it counted; the status is 0 where nothing was amiss.
"""

import contextlib
import fcntl
import glob
import os
import re
import select
import shutil
import subprocess
import sys
import tempfile
import time

LOCK = ".lock"
APP = "app/org.x.Held/x86_64/1"
LOOKS = [["list"], ["list", "--pins"], ["list", "--remotes"], ["list", "--exports"]]


class Runs:
    """Runs of the program on one folder."""

    def __init__(self, program, folder):
        self.program = program
        self.folder = folder
        self.environment = {"FPK_INSTALLATION": folder, "PATH": os.environ["PATH"]}

    def start(self, *words, before=()):
        return subprocess.Popen(
            [*before, self.program, *words],
            env=self.environment,
            stdin=subprocess.PIPE,
            stdout=subprocess.PIPE,
            stderr=subprocess.PIPE,
            text=True,
        )

    def run(self, *words):
        return self.start(*words).communicate()

    def pins(self):
        return self.run("list", "--pins")[0].splitlines()

    def fsyncs(self, *words):
        """How many files and folders a run syncs."""
        with tempfile.NamedTemporaryFile("r") as trace:
            run = self.start(*words, before=["strace", "-f", "-e", "trace=fsync", "-o", trace.name])
            run.communicate()
            return len(re.findall(r"fsync\(", trace.read()))

    def lock(self):
        return open(os.path.join(self.folder, LOCK), "r+")

    @contextlib.contextmanager
    def folder_lock(self, how):
        """The lock of the folder, while it is held."""
        folder = os.open(self.folder, os.O_RDONLY)
        try:
            fcntl.flock(folder, how)
            yield
        finally:
            os.close(folder)

    def export(self, ref, *lines):
        """Offers a tree of these lines, and names its commit."""
        text = "".join(line + "\n" for line in ["timestamp 1", "subject a tree", *lines])
        said = self.start("export", "lab", ref).communicate(text)[0]
        return said.removeprefix("commit ").rstrip("\n")

    def size_of_lock(self):
        return os.stat(os.path.join(self.folder, LOCK)).st_size

    def add_files(self, folder):
        """200 files in a folder of the installation."""
        os.mkdir(os.path.join(self.folder, folder))
        for i in range(200):
            with open(os.path.join(self.folder, folder, f"file{i}"), "w"):
                pass


def side_by_side(runs):
    """Two loops of pins at once."""
    script = 'for i in $(seq 60); do "$0" pin "app/org.x.A$1_$i/*/*" || exit 1; done'
    loops = [
        subprocess.Popen(
            ["sh", "-c", script, runs.program, str(i)],
            env=runs.environment,
            stdout=subprocess.DEVNULL,
            stderr=subprocess.DEVNULL,
        )
        for i in (1, 2)
    ]
    assert [loop.wait() for loop in loops] == [0, 0]


def waiting_batch(runs):
    """Whether a pin goes on while a batch waits for its input."""
    batch = runs.start("batch")
    time.sleep(0.3)
    said = runs.run("pin", "app/org.x.Beside/*/*")[1]
    printed, _ = batch.communicate("pin app/org.x.Batch/*/*\n")
    return said == "" and printed == "pinned app/org.x.Batch/*/*\n"


def waiting(runs):
    """What a run says that has to wait for half a second, and its status."""
    with runs.folder_lock(fcntl.LOCK_EX):
        waiter = runs.start("list", "--pins")
        time.sleep(0.5)
        assert waiter.poll() is None
    _, said = waiter.communicate()
    return said, waiter.returncode


def waiting_long(runs):
    """The same of one that has to wait until it says who holds the lock, but no longer than a minute."""
    with runs.lock() as lock:
        fcntl.flock(lock, fcntl.LOCK_EX)
        waiter = runs.start("pin", "app/org.x.Long/*/*")
        said = waiter.stderr.readline()
        if select.select([waiter.stderr], [], [], 60)[0]:
            said += waiter.stderr.readline()
    _, rest = waiter.communicate()
    return said + rest, waiter.returncode


def behind_a_look(runs):
    """What a change says that waits for a look, whether it replaced nothing meanwhile, and whether it is done then."""
    config = os.path.join(runs.folder, "config")
    with runs.folder_lock(fcntl.LOCK_SH):
        before = os.stat(config).st_ino
        changing = runs.start("pin", "app/org.x.Behind/*/*")
        time.sleep(0.5)
        stays = changing.poll() is None and os.stat(config).st_ino == before
        looks = runs.start("list", "--pins")
        _, said = looks.communicate(timeout=1)
        stays = stays and said == ""
    _, said = changing.communicate()
    return said, stays, changing.returncode == 0 and os.stat(config).st_ino != before


def asked_late(runs):
    """What looks ask of the folder after they began to print."""
    late = []
    for words in [*LOOKS, ["launch", APP], ["info", APP], ["fsck"]]:
        with tempfile.NamedTemporaryFile("r") as trace:
            runs.start(*words, before=["strace", "-f", "-e", "trace=%file,write", "-o", trace.name]).communicate()
            _, printed, rest = trace.read().partition(" write(1, ")
        late += [f"{words}: {line}" for line in rest.splitlines() if runs.folder in line]
        late += [] if printed or words in LOOKS else [f"{words} printed nothing"]
    return late


def beside_a_pull(runs):
    """How long the slowest of three looks took beside an update that is held in its pull, whether they told the state of before, and
    what looks asked late."""
    runtime = ["[Runtime]", "name=org.x.P"]
    application = ["[Application]", "name=org.x.Held", "runtime=org.x.P/x86_64/1"]
    files = [f"file metadata 644 {''.join(line + chr(10) for line in lines).encode().hex()}" for lines in (runtime, application)]
    runs.export("runtime/org.x.P/x86_64/1", files[0])
    old = runs.export(APP, files[1], "file files/a 644 61")
    runs.run("remote-add", "lab", f"file://{runs.folder}/made/lab")
    runs.run("install", "lab", APP)
    late = asked_late(runs)
    stood = set(glob.glob(f"{runs.folder}/made/lab/objects/*/*.file"))
    new = runs.export(APP, files[1], "file files/a 644 62")
    (held,) = set(glob.glob(f"{runs.folder}/made/lab/objects/*/*.file")) - stood
    slow = ["strace", "-f", "-o", "/dev/null", "-P", held, "-e", "trace=openat", "-e", "inject=openat:delay_enter=4000000"]
    update = runs.start("update", APP, before=slow)
    time.sleep(1.5)
    begun, tells, slowest = time.monotonic(), True, 0.0
    for words in (["list"], ["info", APP], ["launch", APP]):
        begun = time.monotonic()
        shown, said = runs.run(*words)
        slowest = max(slowest, time.monotonic() - begun)
        tells = tells and old in shown and new not in shown and said == ""
    is_held = update.poll() is None
    printed, _ = update.communicate()
    tells = tells and is_held and printed == f"updated {APP} {new}\n" and new in runs.run("list")[0]
    runs.run("uninstall", APP)
    runs.run("uninstall", "--unused")
    shutil.rmtree(os.path.join(runs.folder, "made"))
    return slowest, tells, late


def taken_away(runs):
    """Whether a run that waited for a lock file that was taken away holds the one that stands there. Its syncs are slow."""
    slow = ["strace", "-f", "-e", "inject=fsync:delay_enter=300000", "-o", "/dev/null"]
    with runs.lock() as lock:
        fcntl.flock(lock, fcntl.LOCK_EX)
        waiter = runs.start("pin", "app/org.x.Away/*/*", before=slow)
        time.sleep(1)
        os.remove(os.path.join(runs.folder, LOCK))
        fcntl.flock(lock, fcntl.LOCK_UN)
    time.sleep(0.5)
    holds = False
    with runs.lock() as lock:
        try:
            fcntl.flock(lock, fcntl.LOCK_EX | fcntl.LOCK_NB)
        except BlockingIOError:
            holds = True
    waiter.communicate()
    return holds and waiter.returncode == 0


def killed(runs):
    """Kills a run at its second sync, while it holds the lock. What the lock file holds afterwards."""
    inject = ["strace", "-f", "-e", "inject=fsync:signal=SIGKILL:when=2", "-o", "/dev/null"]
    runs.start("pin", "app/org.x.K/*/*", before=inject).communicate()
    with runs.lock() as lock, runs.folder_lock(fcntl.LOCK_EX | fcntl.LOCK_NB):
        fcntl.flock(lock, fcntl.LOCK_EX | fcntl.LOCK_NB)
        return lock.read()


def main():
    program = os.path.abspath(sys.argv[1])
    top = tempfile.mkdtemp()
    wrong = []

    def see(what, value, good):
        print(f"{what}: {value}")
        if not good:
            wrong.append(what)

    try:
        runs = Runs(program, os.path.join(top, "installation"))
        runs.pins()
        made = os.path.exists(runs.folder)
        see("a look made the folder", made, not made)
        side_by_side(runs)
        count = len(runs.pins())
        see("pins of two runs side by side, of 120", count, count == 120)
        beside = waiting_batch(runs)
        see("a pin goes on beside a batch that waits for its input", beside, beside)
        said, status = waiting(runs)
        want = f"fpk: waiting for another fpk that works on {runs.folder}\n"
        see("said by the one that waited", repr(said), said == want and status == 0)
        said, status = waiting_long(runs)
        want += f"fpk: still waiting: the lock of {runs.folder}/{LOCK} is held by process {os.getpid()} (python3)\n"
        see("said by the one that waited long", repr(said), said == want and status == 0)
        said, stays, done = behind_a_look(runs)
        want = f"fpk: waiting for another fpk that looks at {runs.folder}\n"
        see("said by a change that waited for a look", repr(said), said == want)
        see("it replaced nothing before, and then it did", (stays, done), stays and done)
        slowest, tells, late = beside_a_pull(runs)
        see("seconds of the slowest look beside a pull", f"{slowest:.2f}", slowest < 1)
        see("the looks told what was before", tells, tells)
        see("asked after a look began to print", late, not late)
        holds = taken_away(runs)
        see("one that waited for a lock file that was taken away holds the new one", holds, holds)
        runs.add_files("made")
        runs.add_files("theirs")
        size = runs.size_of_lock()
        idle = runs.fsyncs("pin", "app/org.x.A1_1/*/*")
        see("syncs of a run that changes nothing", idle, idle < 20)
        one = runs.fsyncs("pin", "app/org.x.One/*/*")
        see("syncs of one pin", one, one < 30)
        mark = killed(runs)
        with open("/proc/sys/kernel/random/boot_id", encoding="ascii") as start:
            see("mark after the kill", repr(mark), mark == start.read())
        after = runs.fsyncs("pin", "app/org.x.Two/*/*")
        see("syncs after the kill", after, 200 <= after < 300)
        again = runs.fsyncs("pin", "app/org.x.Three/*/*")
        see("syncs of the run after that", again, again < 30)
        with runs.lock() as lock:
            lock.write("00000000-0000-0000-0000-000000000000\n")
        other = runs.fsyncs("pin", "app/org.x.Four/*/*")
        see("syncs with a mark of an earlier start", other, other < 30)
        with runs.lock() as lock:
            text = lock.read()
        see("text of the lock file", repr(text), text == "-" * 36 + "\n" and size == len(text))
        names = [name.split("/")[1] for name in runs.pins()]
        kept = all(f"org.x.{name}" in names for name in ("Beside", "Batch", "Long", "Behind", "Away", "One", "Two", "Three", "Four"))
        see("all of it is pinned", kept, kept)
    finally:
        shutil.rmtree(top)
    if wrong:
        print("amiss: " + "; ".join(wrong))
    return 1 if wrong else 0


if __name__ == "__main__":
    sys.exit(main())
