#!/usr/bin/env python3
"""Kills `fpk batch` at random moments, and looks at what it leaves.

usage: kill_loop.py PROGRAM ROUNDS SEED

PROGRAM is a built fpk, which runs on a folder of its own; Debian's package ostree is needed. `ostree commit` makes a repository with a
runtime and two applications of several commits each. Each round offers random commits of them, gives `batch` a random list of commands
that all can be done (pins, remotes, installs, updates, rollbacks, uninstalls), kills the run by SIGKILL at a random moment, and then
asks for all three lists. They must read, and show the installation as it is after the commands whose lines were printed, or after one
more. Then the folder is read without fpk: each path of each shown commit, and of the one before it, is as `ostree checkout` lays it
out; each of its files is a hard link of its object; all that stands below `repo/objects` has the digest of its name; what stands below
`repo/refs` names commits that are there. Once in ten rounds `ostree fsck` looks at what the kill left, and has to pass. One round in
eight begins anew with an installation of layout 1, which the batch migrates. In one round of three, and on each full file system, looks
run beside the batch, one after another: each of `list`, `list --pins`, `list --remotes`, `info` and `launch` has to show the
installation as it is after the commands whose lines were printed at some moment of the look, or after one more, and with no error.
Where it may mount, once in five rounds a batch of its own runs on a new tmpfs that is too small for it: what fails for want of room has
to leave the same, and the status is 3. A killed process loses nothing that it wrote: what a power cut leaves isn't tried here.

The moment is even over the time that the batch should take, by what each kind of operation took before: the time of the processor, so
that a busy machine shifts it little, and plain time where looks run beside. Loops with seeds of their own can run side by side.

At the end it prints what it counted; SIGTERM asks for that after the present round. The status is 0 where nothing was amiss. Else the
folders stay, and are named. kill_loop_faults.py tries whether faults are told.
"""

import collections
import contextlib
import hashlib
import os
import random
import re
import shutil
import signal
import struct
import subprocess
import sys
import tempfile
import threading
import time

NAMES = ["art", "lab", "lux", "x_1", "a.b-c"]
URLS = ["file:///", "file:///lab", "file:///l?%20"]
RUNTIME = "runtime/org.x.Platform/x86_64/1"
APPS = ["app/org.x.Ape/x86_64/stable", "app/org.x.Bee/x86_64/stable"]
PINS = ["app/*/*/*", "runtime/*/*/*", RUNTIME, APPS[0]]
# What stands where an installation of the present layout has a store that was made to its end.
STORE = ["config", "repo/config", "repo/refs/heads", "repo/refs/remotes"]
LOOKS = [["list"], ["list", "--pins"], ["list", "--remotes"]]
LOOKS += [["info", ref] for ref in [RUNTIME] + APPS] + [["launch", ref] for ref in APPS]
COMMITS = 3
FILES = 12
# How many commands a batch has.
LENGTHS = [1, 2, 3, 5, 8, 15]
# What is taken to be the seconds of an operation before one of its kind was seen, of a run that hangs, and of a look that does.
GUESS = 0.02
LIMIT = 600
PATIENCE = 60


class Remote:
    """The repository that `ostree` makes, and what each of its commits has."""

    def __init__(self, folder):
        self.repo = os.path.join(folder, "hub")
        self.folder = folder
        tool("ostree", "init", "--mode=bare-user-only", "--repo", self.repo)
        self.commits = {ref: [self.commit(ref, n) for n in range(COMMITS)] for ref in [RUNTIME] + APPS}
        self.trees = {c: self.checkout(c) for commits in self.commits.values() for c in commits}
        self.offered = {}

    def commit(self, ref, number):
        """Makes a commit: some files are the same in all of them."""
        tree = os.path.join(self.folder, "tree")
        shutil.rmtree(tree, ignore_errors=True)
        os.makedirs(os.path.join(tree, "files/lib"))
        name = ref.split("/")[1]
        text = f"[Runtime]\nname={name}\n"
        if ref.startswith("app/"):
            text = f"[Application]\nname={name}\nruntime={RUNTIME.removeprefix('runtime/')}\n"
        write(os.path.join(tree, "metadata"), text)
        for place in range(FILES):
            own = place % 3 == 0
            write(os.path.join(tree, f"files/lib/{place}"), f"{place} {ref if own else ''} {number if own else ''}\n" * 400)
        os.chmod(os.path.join(tree, "files/lib/1"), 0o755)
        os.symlink(f"{number}", os.path.join(tree, "files/lib/link"))
        words = ("-b", ref, "--subject=", "--timestamp=@5", tree)
        return tool("ostree", "commit", "--repo", self.repo, *words).strip()

    def checkout(self, commit):
        """What a commit has at each path, by the real `ostree checkout`."""
        place = os.path.join(self.folder, "checkout", commit)
        os.makedirs(os.path.dirname(place), exist_ok=True)
        tool("ostree", "checkout", "-U", "--repo", self.repo, commit, place)
        return {path: what for path, (what, _) in entries(place).items()}

    def offer(self, rng):
        """Offers random commits."""
        for ref, commits in self.commits.items():
            self.offered[ref] = rng.choice(commits)
            write(os.path.join(self.repo, "refs/heads", ref), self.offered[ref] + "\n")


class Model:
    """What an installation shows: pins, remotes, and for each ref its commit and the one before it."""

    def __init__(self, pins=(), remotes=(), refs=()):
        self.pins, self.remotes, self.refs = set(pins), dict(remotes), dict(refs)

    def copy(self):
        return Model(self.pins, self.remotes, self.refs)

    def shown(self):
        """What the three lists print."""
        lines = [f"{ref} {self.refs[ref][0]} hub" for ref in sorted(self.refs)] + sorted(self.pins)
        lines += [f"{name} {self.remotes[name]}" for name in sorted(self.remotes)]
        return "".join(line + "\n" for line in lines)

    def told(self, words):
        """The status of a look, and the text that it prints, or the digests where it says more than those."""
        if words == ["list"]:
            return 0, "".join(f"{ref} {self.refs[ref][0]} hub\n" for ref in sorted(self.refs))
        if words == ["list", "--pins"]:
            return 0, "".join(pin + "\n" for pin in sorted(self.pins))
        if words == ["list", "--remotes"]:
            return 0, "".join(f"{name} {self.remotes[name]}\n" for name in sorted(self.remotes))
        command, ref = words
        if ref not in self.refs:
            return 1, f"error: not installed {ref}\n"
        commit, other = self.refs[ref]
        if command == "launch":
            other = self.refs[RUNTIME][0]
        return 0, [commit, other] if other else [commit]

    # ---- commands: each gives its words and, for each operation, the line and the model after it

    def command(self, rng, remote):
        """A command that can be done here."""
        if "hub" not in self.remotes:
            return self.add("hub", "file://" + remote.repo)
        kind = rng.choice(["pin", "remote", "install", "install", "update", "update", "rollback", "uninstall"])
        return {"pin": self.pin, "remote": self.remote}.get(kind, self.ref)(rng, remote, kind)

    def pin(self, rng, *_):
        after, pin = self.copy(), rng.choice(PINS)
        if pin in self.pins:
            after.pins.discard(pin)
            return f"unpin {pin}", [(f"unpinned {pin}", after)]
        after.pins.add(pin)
        return f"pin {pin}", [(f"pinned {pin}", after)]

    def add(self, name, url):
        after = self.copy()
        after.remotes[name] = url
        return f"remote-add {name} {url}", [(f"remote added {name}", after)]

    def remote(self, rng, *_):
        after, name, url = self.copy(), rng.choice(NAMES), rng.choice(URLS)
        if name not in self.remotes:
            return self.add(name, url)
        if rng.random() < 0.5:
            del after.remotes[name]
            return f"remote-delete {name}", [(f"remote deleted {name}", after)]
        after.remotes[name] = url
        return f"remote-modify {name} {url}", [(f"remote modified {name}", after)]

    def ref(self, rng, remote, kind):
        absent = [ref for ref in [RUNTIME] + APPS if ref not in self.refs]
        if kind == "install" and absent:
            return self.install(rng.choice(absent), remote)
        if kind == "rollback":
            able = sorted(ref for ref in self.refs if self.refs[ref][1])
            if able:
                return self.rollback(rng.choice(able))
        if kind == "uninstall":
            return self.uninstall(rng)
        return self.update(rng, remote)

    def set(self, ref, commit, previous):
        after = self.copy()
        after.refs[ref] = (commit, previous)
        return after

    def install(self, ref, remote):
        done, model = [], self
        for one in [RUNTIME, ref] if ref != RUNTIME and RUNTIME not in self.refs else [ref]:
            model = model.set(one, remote.offered[one], None)
            done.append((f"installed {one} {remote.offered[one]}", model))
        return f"install hub {ref}", done

    def update(self, rng, remote):
        named = rng.choice([None] + sorted(self.refs))
        done, model = [], self
        for ref in [named] if named else sorted(self.refs, key=lambda it: (it != RUNTIME, it)):
            commit = model.refs[ref][0]
            if commit != remote.offered[ref]:
                model = model.set(ref, remote.offered[ref], commit)
                done.append((f"updated {ref} {remote.offered[ref]}", model))
        return f"update {named}" if named else "update", done

    def rollback(self, ref):
        commit, previous = self.refs[ref]
        return f"rollback {ref}", [(f"rolled back {ref} {previous}", self.set(ref, previous, commit))]

    def uninstall(self, rng):
        apps = [ref for ref in APPS if ref in self.refs]
        after = self.copy()
        if apps:
            ref = rng.choice(apps)
            del after.refs[ref]
            return f"uninstall {ref}", [(f"uninstalled {ref}", after)]
        if RUNTIME not in self.refs or {RUNTIME, "runtime/*/*/*"} & self.pins:
            return "uninstall --unused", []
        del after.refs[RUNTIME]
        return "uninstall --unused", [(f"uninstalled {RUNTIME}", after)]


# ---- what is read without fpk


def tool(*words):
    """Runs another program, which has to end with status 0."""
    done = subprocess.run(words, capture_output=True, text=True, check=False)
    if done.returncode != 0:
        sys.exit(f"{' '.join(words)}: {done.stdout}{done.stderr}")
    return done.stdout


def write(path, text):
    os.makedirs(os.path.dirname(path), exist_ok=True)
    with open(path, "w", encoding="ascii") as out:
        out.write(text)


def read(path):
    with open(path, "rb") as it:
        return it.read()


def entries(root):
    """What stands at each path below a folder, and its inode."""
    found = {}
    for folder, folders, names in os.walk(root):
        for name in folders + names:
            path = os.path.join(folder, name)
            stat = os.lstat(path)
            if os.path.islink(path):
                what = ("link", os.readlink(path))
            elif os.path.isdir(path):
                what = ("folder",)
            else:
                what = ("file", stat.st_mode & 0o7777, read(path))
            found[os.path.relpath(path, root)] = (what, stat.st_ino)
    return found


def digest(name, what):
    """The digest of an object, as ostree computes it: of a file or a link with a header before its content."""
    if not name.endswith(".file"):
        return hashlib.sha256(what[2]).hexdigest()
    mode, target, content = (0o120777, what[1].encode(), b"") if what[0] == "link" else (0o100000 | what[1], b"", what[2])
    header = struct.pack(">IIII", 0, 0, mode, 0) + target + b"\0"
    header += bytes([len(header)])
    return hashlib.sha256(struct.pack(">II", len(header), 0) + header + content).hexdigest()


def previous_of(deploy, commits):
    """The commits that a file `deploy` names."""
    return [commit for commit in commits if commit.encode() in deploy]


def is_commit(text, objects):
    """Whether the text of a ref names a commit that stands among the objects."""
    return re.fullmatch("[0-9a-f]{64}\n", text) and f"{text[:2]}/{text[2:-1]}.commit" in objects


def amiss(installation, model, remote, linked=True):
    """What isn't whole in the folder of an installation; None where all is. A file may be no link of its object where that is said."""
    objects = entries(os.path.join(installation, "repo/objects"))
    inodes = set()
    for path, (what, inode) in objects.items():
        if what[0] != "folder":
            inodes.add(inode)
            if digest(path, what) != path.replace("/", "").rpartition(".")[0]:
                return f"{path} has another digest"
    for path, (what, _) in entries(os.path.join(installation, "repo/refs")).items():
        if what[0] == "file" and not is_commit(what[2].decode("ascii", "replace"), objects):
            return f"{path} names no commit"
    for ref, (commit, previous) in model.refs.items():
        home = os.path.join(installation, ref)
        if os.readlink(os.path.join(home, "active")) != commit:
            return f"{ref} isn't at {commit}"
        named = set(previous_of(read(os.path.join(home, commit, "deploy")), remote.commits[ref]))
        if named != {commit, previous or commit}:
            return f"{ref}: deploy names {sorted(named)}"
        for one in named:
            text = amiss_commit(os.path.join(home, one), remote.trees[one], inodes if linked else None)
            if text:
                return f"{ref} at {one}: {text}"
    return None


def amiss_commit(folder, tree, inodes):
    """What isn't as in the commit with these paths."""
    found = entries(folder)
    found.pop("deploy", None)
    if found.keys() != tree.keys():
        return f"paths {sorted(found.keys() ^ tree.keys())}"
    for path, (what, inode) in found.items():
        if what != tree[path]:
            return f"{path} is another"
        if what[0] == "file" and inodes is not None and inode not in inodes:
            return f"{path} is no link of the store"
    return None


# ---- looks beside a batch


def standing(process):
    """What a process does that doesn't end: its state, its time in ticks of the system, and the call and the place that it is at."""
    with contextlib.suppress(OSError):
        words = read(f"/proc/{process.pid}/stat").rpartition(b")")[2].split()
        where = [read(f"/proc/{process.pid}/{name}").strip() for name in ["syscall", "wchan"]]
        return f"process {process.pid}: {b' '.join([words[0], *words[11:13], *where]).decode()}"
    return f"process {process.pid} ended"


class Looks:
    """Looks that run beside a batch, and what each of them told."""

    def __init__(self, program, folder, rng):
        self.program, self.folder, self.rng, self.seen = program, folder, rng, []

    def look(self, acknowledged, batch):
        """Runs one. The function tells how many lines the batch has printed."""
        words, before = self.rng.choice(LOOKS), acknowledged()
        with subprocess.Popen([self.program, *words], stdout=subprocess.PIPE, stderr=subprocess.PIPE, text=True) as process:
            try:
                told, said = process.communicate(timeout=PATIENCE)
            except subprocess.TimeoutExpired:
                # one that has ended by now was only not read: this script may have been stopped for a while
                stands = ""
                if process.poll() is None:
                    stands = f"{standing(process)}, the batch is {standing(batch)}, locks {read('/proc/locks').decode()}"
                    process.kill()
                told, said = process.communicate()
                told += stands
        if process.returncode == 0 and words[0] in ("info", "launch"):
            told = re.findall(r"\b[0-9a-f]{64}\b", told)
        self.seen.append((words, before, acknowledged(), (process.returncode, told), said))

    def amiss(self, models):
        """The first that is another than each of these models tells between its start and its end."""
        quiet = ["", f"fpk: waiting for another fpk that works on {self.folder}\n", f"fpk: no installation at {self.folder}\n"]
        for words, first, last, told, said in self.seen:
            if told not in [model.told(words) for model in models[first : last + 2]] or told[0] == 0 and said not in quiet:
                return f"{' '.join(words)} beside it, after {first} to {last} lines: {told}, {said!r}"
        return None


# ---- rounds


def old_layout(folder, model):
    """Makes the folder an installation of layout 1."""
    shutil.rmtree(folder, ignore_errors=True)
    os.mkdir(folder)
    model.refs.clear()
    remotes = "".join(f'[remote "{name}"]\nurl={model.remotes[name]}\n' for name in sorted(model.remotes))
    write(os.path.join(folder, "remotes.conf"), remotes)
    write(os.path.join(folder, "pins"), "".join(pin + "\n" for pin in sorted(model.pins)))


def kinds(lines, beside):
    """What tells how long each operation takes: its line's first word, whether it is the first of its batch, and whether looks run."""
    return [(line.split()[0], number == 0, beside) for number, line in enumerate(lines)]


def moment(rng, lines, beside, costs):
    """A random moment of a batch: after how many lines, and how many seconds later."""
    each = [costs.get(kind, GUESS) for kind in kinds(lines, beside)] or [GUESS]
    rest = rng.random() * sum(each)
    for place, cost in enumerate(each):
        if rest < cost:
            break
        rest -= cost
    return place, min(rest, cost)


def learn(lines, times, beside, costs):
    """Takes note of how long the operations took whose lines were seen at these times."""
    for kind, before, after in zip(kinds(lines, beside), times, times[1:]):
        costs[kind] = (costs.get(kind, after - before) * 7 + after - before) / 8


def watch(process, printed, at, clock, times):
    """Notes when each line of a process is seen, and kills it at a moment, where one is given."""
    end = time.monotonic() + LIMIT
    while process.poll() is None:
        now, lines = clock(), printed()
        times += [now] * (lines + 1 - len(times))
        if at and (lines > at[0] or lines == at[0] and now - times[lines] >= at[1]):
            process.kill()
            break
        if time.monotonic() > end:
            process.send_signal(signal.SIGABRT)
        time.sleep(0.001)
    process.wait()


def run_killed(program, text, at=None, looks=None):
    """What a batch printed up to the moment when it was killed, its status, and when its lines were seen. Looks may run beside it."""
    with tempfile.TemporaryFile() as source, tempfile.TemporaryFile() as sink:
        source.write(text.encode("ascii"))
        source.seek(0)
        process = subprocess.Popen([program, "batch"], stdin=source, stdout=sink)
        begun, worked, times = time.monotonic(), ~process.pid << 3 | 2, [0.0]

        def clock():
            """The seconds that passed, or those that the process worked, which Linux tells by a clock of its own."""
            try:
                return time.monotonic() - begun if looks else time.clock_gettime(worked)
            except OSError:
                return times[-1]

        def printed():
            return os.pread(sink.fileno(), 1 << 20, 0).count(b"\n")

        watcher = threading.Thread(target=watch, args=(process, printed, at, clock, times))
        watcher.start()
        while looks and process.poll() is None:
            looks.look(printed, process)
        watcher.join()
        sink.seek(0)
        return sink.read().decode("ascii"), process.returncode, times


def listed(program):
    """What the lists print, or None where one doesn't end with status 0."""
    text = ""
    for words in ([], ["--pins"], ["--remotes"]):
        done = subprocess.run([program, "list", *words], stdout=subprocess.PIPE, check=False)
        if done.returncode != 0:
            print(f"list {words}: status {done.returncode}, {done.stdout!r}")
            return None
        text += done.stdout.decode("ascii")
    return text


def batch(model, rng, remote, count):
    """The lines of a batch, what it prints, and the models at first and after each line."""
    words, lines, models = [], [], [model]
    for _ in range(count):
        word, done = models[-1].command(rng, remote)
        words.append(word + "\n")
        lines += [line for line, _ in done]
        models += [after for _, after in done]
    return words, lines, models


def one_round(program, folder, rng, model, remote, counts, costs):
    """One batch that is killed. What is shown now, or None where something isn't as it must be."""
    if rng.random() < 0.125:
        old_layout(folder, model)
    # an earlier round may have been killed before it migrated
    is_old = os.path.exists(os.path.join(folder, "pins")) and not os.path.exists(os.path.join(folder, "config"))
    counts["of layout 1"] += is_old
    remote.offer(rng)
    words, lines, models = batch(model, rng, remote, rng.choice(LENGTHS))
    if is_old:
        lines.insert(0, "migrated layout 2")
        models.insert(0, model)
    looks = Looks(program, folder, rng) if rng.random() < 1 / 3 else None
    at = moment(rng, lines, looks is not None, costs)
    printed, status, times = run_killed(program, "".join(words), at, looks)
    learn(lines, times, looks is not None, costs)
    if is_amiss_beside(looks, models, counts):
        return None
    counts["killed" if status < 0 else "ended"] += 1
    whole = printed.split("\n")[:-1]
    counts["acknowledged"] += len(whole)
    if status < 0 and len(whole) < len(lines):
        counts["killed before " + lines[len(whole)].split()[0]] += 1
    if whole != lines[: len(whole)] or status not in (0, -9):
        print(f"status {status}, printed {printed!r} for {words!r}")
        return None
    text = listed(program)
    for place in (len(whole), len(whole) + 1):
        if text is not None and place < len(models) and models[place].shown() == text:
            counts["with one more"] += place - len(whole)
            return checked(folder, models[place], remote, counts, printed, words)
    print(f"shown {text!r} after {printed!r} for {words!r}")
    return None


def is_amiss_beside(looks, models, counts):
    """Whether a look beside a batch told otherwise than these models do."""
    text = looks.amiss(models) if looks else None
    counts["looks beside changes"] += len(looks.seen) if looks else 0
    if text:
        print(text)
    return text is not None


def complaint(folder):
    """What ostree has against the store: nothing, for commits come after all their objects and go before them."""
    done = subprocess.run(["ostree", "fsck", "--repo", os.path.join(folder, "repo")], capture_output=True, text=True, check=False)
    return done.stdout + done.stderr if done.returncode else None


def checked(folder, model, remote, counts, printed, words):
    """The model, where the folder is whole."""
    counts["rounds"] += 1
    text = amiss(folder, model, remote)
    if text is None and counts["rounds"] % 10 == 0 and all(os.path.exists(os.path.join(folder, name)) for name in STORE):
        text = complaint(folder)
        counts["looked at by ostree fsck"] += 1
    if text is None:
        counts["refs looked at"] += len(model.refs)
        return model
    print(f"{text}, after {printed!r} for {words!r}")
    return None


# ---- a file system that is full


def may_mount():
    """Whether a tmpfs can be mounted here."""
    with tempfile.TemporaryDirectory(prefix="kill_loop") as folder:
        if os.geteuid() != 0 or subprocess.run(["mount", "-t", "tmpfs", "none", folder], check=False).returncode != 0:
            return False
        tool("umount", folder)
        return True


def full_round(program, home, rng, remote, counts):
    """One batch on a tmpfs that may be too small for it. Answers whether all is as it must be."""
    place = os.path.join(home, "full")
    os.makedirs(place, exist_ok=True)
    tool("mount", "-t", "tmpfs", "-o", f"size={rng.randrange(16, 800)}k", "none", place)
    folder, before = os.path.join(place, "installation"), os.environ["FPK_INSTALLATION"]
    os.environ["FPK_INSTALLATION"] = folder
    try:
        is_whole = full_batch(program, folder, rng, remote, counts)
        if not is_whole:
            kept(home, folder, f"{counts['begun']}.full")
        return is_whole
    finally:
        os.environ["FPK_INSTALLATION"] = before
        tool("umount", place)


def full_batch(program, folder, rng, remote, counts):
    remote.offer(rng)
    words, lines, models = batch(Model(), rng, remote, rng.randrange(2, 10))
    looks = Looks(program, folder, rng)
    printed, status, _ = run_killed(program, "".join(words), looks=looks)
    if is_amiss_beside(looks, models, counts):
        return False
    whole = printed.split("\n")[:-1]
    counts["on a full disk" if status == 3 else "on a small disk"] += 1
    if whole != lines[: len(whole)] or status not in (0, 3) or status == 0 and whole != lines:
        print(f"full: status {status}, printed {printed!r} for {words!r}")
        return False
    text = listed(program) if os.path.isdir(folder) else Model().shown()
    for model in models[len(whole) : len(whole) + 2]:
        if model.shown() == text:
            found = amiss(folder, model, remote) if os.path.isdir(os.path.join(folder, "repo/objects")) else None
            if found is None:
                return True
            text = found
    print(f"full: {text!r} after {printed!r} for {words!r}")
    return False


def kept(home, folder, number):
    """Sets a folder aside in which something is amiss."""
    aside = os.path.join(home, f"amiss.{number}")
    if os.path.isdir(folder):
        tool("cp", "-a", folder, aside)
    print(f"round {number}: {aside}", flush=True)


def main():
    """Runs the rounds, and prints the counts."""
    if len(sys.argv) != 4:
        sys.exit(__doc__)
    program, rounds, seed = os.path.abspath(sys.argv[1]), int(sys.argv[2]), int(sys.argv[3])
    os.umask(0o022)
    rng, asked = random.Random(seed), []
    signal.signal(signal.SIGTERM, lambda *_: asked.append(True))
    home = tempfile.mkdtemp(prefix="kill_loop")
    folder = os.path.join(home, "installation")
    os.mkdir(folder)
    os.environ["FPK_INSTALLATION"] = folder
    remote, model, mounts = Remote(home), Model(), may_mount()
    counts, costs = collections.Counter(), {}
    while counts["begun"] < rounds and not asked:
        if mounts and counts["begun"] % 5 == 0:
            counts["amiss"] += not full_round(program, home, rng, remote, counts)
        counts["begun"] += 1
        model = one_round(program, folder, rng, model, remote, counts, costs)
        if model is None:
            counts["amiss"] += 1
            kept(home, folder, counts["begun"])
            shutil.rmtree(folder, ignore_errors=True)
            os.mkdir(folder)
            model = Model()
        if counts["begun"] % 100 == 0:
            print(f"round {counts['begun']}: killed {counts['killed']}, amiss {counts['amiss']}", file=sys.stderr, flush=True)
    if not counts["amiss"]:
        shutil.rmtree(home)
    print(f"rounds {counts['begun']}, amiss {counts['amiss']}")
    names = ["killed", "ended", "of layout 1", "acknowledged", "with one more", "refs looked at", "looked at by ostree fsck"]
    names += ["looks beside changes", "on a full disk", "on a small disk"]
    for name in names + sorted(name for name in counts if name.startswith("killed before")):
        print(f"{name} {counts[name]}")
    return 1 if counts["amiss"] else 0


if __name__ == "__main__":
    sys.exit(main())
