#!/usr/bin/env python3
"""Kills fpk before each of its system calls that can change something, one run for each, and looks at what it leaves.

usage: kill_each_call.py PROGRAM [NUMBER..]

PROGRAM is a built fpk; Debian's packages ostree and strace are needed. Over the repository of kill_loop.py each command of the table below
runs once to the end. Then, for each call that a thread of it made, it begins with the same folder and is killed by SIGKILL before this
call. What is left has to show the installation as it is after the lines that were printed, or after one more; it is looked at as
kill_loop.py does it, and by `ostree fsck`. Then the command, run once more where it hasn't been done, has to do it. With NUMBERs, it is
these commands of the table, from 0. It prints how often each was killed; the status is 0 where nothing was amiss.
"""

import collections
import os
import re
import shutil
import subprocess
import sys
import tempfile

import kill_loop
from kill_loop import APPS, RUNTIME, STORE, Model, Remote, amiss, complaint, listed, old_layout

CALLS = "openat,mkdir,mkdirat,rename,renameat,renameat2,link,linkat,symlink,symlinkat,unlink,unlinkat,rmdir,write,pwrite64,fsync,fdatasync"
CALLS += ",ftruncate,fchmod,fchmodat,chmod,utimensat"


def made(remote, before, *refs):
    """A model with some refs: each with the number of its commit and of the one before it, or None."""
    def commit(ref, number):
        return None if number is None else remote.commits[ref][number]

    return Model(before.pins, before.remotes, {ref: (commit(ref, one), commit(ref, other)) for ref, one, other in refs})


def table(remote):
    """The commands: the words, what is offered, the models before it and after each of its lines, and the commands that make the first one,
    where it isn't an installation of layout 1."""
    ape, bee = APPS
    hub = Model(remotes={"hub": "file://" + remote.repo})
    runtime, one = made(remote, hub, (RUNTIME, 0, None)), made(remote, hub, (RUNTIME, 0, None), (ape, 0, None))
    newer, two = made(remote, hub, (RUNTIME, 1, 0)), made(remote, hub, (RUNTIME, 1, 0), (ape, 1, 0))
    pinned, added, migrated = one.copy(), one.copy(), hub.copy()
    for model in [pinned, migrated]:
        model.pins.add("app/*/*/*")
    added.remotes["lab"] = "file:///lab"
    begin = [(["remote-add", "hub", "file://" + remote.repo], 0)]
    first = [*begin, (["install", "hub", ape], 0)]
    second = [*first, (["update"], 1)]
    return [
        (["remote-add", "hub", "file://" + remote.repo], 0, [Model(), hub], []),
        (["install", "hub", ape], 0, [hub, runtime, one], begin),
        (["install", "hub", bee], 1, [one, made(remote, hub, (RUNTIME, 0, None), (ape, 0, None), (bee, 1, None))], first),
        (["update", ape], 1, [one, made(remote, hub, (RUNTIME, 0, None), (ape, 1, 0))], first),
        (["update"], 1, [one, made(remote, hub, (RUNTIME, 1, 0), (ape, 0, None)), two], first),
        (["rollback", ape], 1, [two, made(remote, hub, (RUNTIME, 1, 0), (ape, 0, 1))], second),
        (["uninstall", ape], 1, [two, newer], second),
        (["uninstall", "--unused"], 1, [newer, hub], [*second, (["uninstall", ape], 1)]),
        (["pin", "app/*/*/*"], 0, [one, pinned], first),
        (["remote-add", "lab", "file:///lab"], 0, [one, added], first),
        (["pin", "app/*/*/*"], 0, [hub, hub, migrated], None),
    ]


def offer(remote, number):
    for ref in remote.commits:
        kill_loop.write(os.path.join(remote.repo, "refs/heads", ref), remote.commits[ref][number] + "\n")


def looked_at(program, folder, remote, models):
    """What is amiss, and which of the models is shown, where nothing is."""
    text = listed(program) if os.path.isdir(folder) else ""
    found = f"shown {text!r}"
    for model in models:
        if model.shown() == text:
            found = amiss(folder, model, remote) if os.path.isdir(os.path.join(folder, "repo/objects")) else None
            if found is None and all(os.path.exists(os.path.join(folder, name)) for name in STORE):
                found = complaint(folder)
            if found is None:
                return None, model
    return found, None


def begun(folder):
    """Puts the folder back as it was before the command."""
    shutil.rmtree(folder, ignore_errors=True)
    subprocess.run(["cp", "-a", folder + ".before", folder], check=True)


def calls(program, folder, words):
    """Each name of a call, and how many of them a thread of the command made at most."""
    begun(folder)
    log, counts = folder + ".calls", collections.Counter()
    kill_loop.tool("strace", "-f", "-qq", "-o", log, f"--trace={CALLS}", program, *words)
    for call in re.findall(r"^(\d+) +(\w+)\(", kill_loop.read(log).decode(errors="replace"), re.M):
        counts[call] += 1
    return {name: max(count for (_, other), count in counts.items() if other == name) for _, name in counts}


def killed(program, folder, remote, row, name, number):
    """Whether the run was killed before this call of this name, and what is amiss."""
    words, _, models, _ = row
    begun(folder)
    strace = ["strace", "-f", "-qq", "-o", "/dev/null", f"--trace={name}", f"--inject={name}:signal=KILL:when={number}"]
    done = subprocess.run([*strace, program, *words], capture_output=True, text=True, check=False)
    lines = done.stdout.count("\n")
    found, shown = looked_at(program, folder, remote, models[lines : lines + 2])
    if found is None and shown is not models[-1]:
        again = subprocess.run([program, *words], capture_output=True, text=True, check=False)
        found, _ = looked_at(program, folder, remote, models[-1:])
        if again.returncode != 0:
            found = f"again: status {again.returncode}, {again.stdout!r}, {again.stderr!r}"
    if found is None and done.returncode not in (0, -9, 137):
        found = "another status"
    if found:
        found = f"{' '.join(words)}, before {name} {number}, status {done.returncode}, printed {done.stdout!r}: {found}"
    return done.returncode != 0, found


def main():
    """Goes through the table."""
    if len(sys.argv) < 2:
        sys.exit(__doc__)
    program, named = os.path.abspath(sys.argv[1]), [int(word) for word in sys.argv[2:]]
    os.umask(0o022)
    faults = 0
    with tempfile.TemporaryDirectory(prefix="kill_each") as home:
        folder = os.environ["FPK_INSTALLATION"] = os.path.join(home, "installation")
        remote = Remote(home)
        for place, row in enumerate(table(remote)):
            if named and place not in named:
                continue
            words, offered, models, begin = row
            shutil.rmtree(folder, ignore_errors=True)
            os.mkdir(folder)
            if begin is None:
                old_layout(folder, models[0])
            for earlier, number in begin or []:
                offer(remote, number)
                kill_loop.tool(program, *earlier)
            offer(remote, offered)
            shutil.rmtree(folder + ".before", ignore_errors=True)
            os.rename(folder, folder + ".before")
            times = 0
            for name, most in sorted(calls(program, folder, words).items()):
                for number in range(1, most + 1):
                    was_killed, found = killed(program, folder, remote, row, name, number)
                    times += was_killed
                    if found:
                        faults += 1
                        print(found, flush=True)
            print(f"{' '.join(words)}, {len(models) - 1} lines: killed {times} times", flush=True)
    return 1 if faults else 0


if __name__ == "__main__":
    sys.exit(main())
