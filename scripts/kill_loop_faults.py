#!/usr/bin/env python3
"""Breaks on purpose what kills leave, and looks whether kill_loop.py tells it.

usage: kill_loop_faults.py PROGRAM [FAULT..]

PROGRAM is a built fpk; Debian's package ostree is needed, and root for the full file system. Rounds of kill_loop.py go on, and after each
kill that left what the fault needs, the fault is done before the loop looks, until it was done five times. In the round where it was done
the loop has to find something amiss, and in no other. `ostree fsck` looks in each round here. The status is 0 where that is so. The faults
are the functions below, with their names for FAULT.
"""

import collections
import contextlib
import glob
import io
import os
import random
import shutil
import subprocess
import sys
import tempfile

import kill_loop
from kill_loop import Looks, Model, Remote, listed, run_killed

TIMES = 5
ROUNDS = 300


def files(*folders):
    """The files below folders that aren't symlinks."""
    return sorted(os.path.join(at, name) for root in folders for at, _, names in os.walk(root) for name in names
                  if not os.path.islink(os.path.join(at, name)))


def laid_out(folder):
    """The folders of the commits that are active."""
    return [os.path.realpath(link) for link in glob.glob(f"{folder}/*/*/*/*/active")]


def an_object(folder, rng):
    """An object that stands in an active commit."""
    used = {os.lstat(path).st_ino for path in files(*laid_out(folder))}
    return rng.choice([path for path in files(folder + "/repo/objects") if os.lstat(path).st_ino in used])


def a_file(folder, rng):
    return rng.choice(files(*[one + "/files" for one in laid_out(folder)]))


# ---- faults: each breaks an installation, and stops with IndexError where there is nothing that it could break


def object_removed(folder, rng):
    os.remove(an_object(folder, rng))


def object_longer(folder, rng):
    with open(an_object(folder, rng), "ab") as out:
        out.write(b"\n")


def object_empty(folder, rng):
    os.truncate(rng.choice(files(folder + "/repo/objects")), 0)


def commit_removed(folder, rng):
    """An object of metadata that an active commit needs: its own."""
    name = os.path.basename(rng.choice(laid_out(folder)))
    os.remove(f"{folder}/repo/objects/{name[:2]}/{name[2:]}.commit")


def mode_changed(folder, rng):
    os.chmod(a_file(folder, rng), 0o600)


def copy_for_link(folder, rng):
    path = a_file(folder, rng)
    shutil.copy2(path, path + ".copy")
    os.rename(path + ".copy", path)


def path_removed(folder, rng):
    os.remove(a_file(folder, rng))


def path_added(folder, rng):
    kill_loop.write(rng.choice(laid_out(folder)) + "/files/added", "")


def link_changed(folder, rng):
    path = rng.choice(laid_out(folder)) + "/files/lib/link"
    os.remove(path)
    os.symlink("other", path)


def ref_empty(folder, rng):
    os.truncate(rng.choice(files(folder + "/repo/refs")), 0)


def deploy_empty(folder, rng):
    os.truncate(rng.choice(laid_out(folder)) + "/deploy", 0)


def active_removed(folder, rng):
    os.remove(os.path.dirname(rng.choice(laid_out(folder))) + "/active")


def config_empty(folder, rng):
    kill_loop.read(rng.choice(glob.glob(folder + "/config")))
    os.truncate(folder + "/config", 0)


def operation_dropped(folder, _):
    """All that the batch did, at least one operation: the folder is as it was before."""
    if not Before.lines:
        raise IndexError
    shutil.rmtree(folder)
    os.rename(folder + ".before", folder)


FAULTS = [object_removed, object_longer, object_empty, commit_removed, mode_changed, copy_for_link, path_removed, path_added, link_changed,
          ref_empty, deploy_empty, active_removed, config_empty, operation_dropped]


class Before:
    """How many lines the last batch printed. The folder as it was before stands beside it."""

    lines = 0

    @staticmethod
    def run(program, text, at=None, looks=None):
        folder = os.environ["FPK_INSTALLATION"]
        shutil.rmtree(folder + ".before", ignore_errors=True)
        if os.path.isdir(folder):
            subprocess.run(["cp", "-a", folder, folder + ".before"], check=True)
        done = run_killed(program, text, at, looks)
        Before.lines = done[0].count("\n")
        return done


def rounds(program, home, remote, do, one):
    """How often a fault was done and told, and what else was told. The function does it, if it can."""
    folder = os.environ["FPK_INSTALLATION"]
    rng, counts, costs, model = random.Random(1), collections.Counter(), {}, Model()
    shutil.rmtree(folder, ignore_errors=True)
    os.mkdir(folder)
    done = []

    def broken(path):
        with contextlib.suppress(IndexError, FileNotFoundError):
            do(path, rng)
            done.append(path)

    kill_loop.listed = lambda it: broken(os.environ["FPK_INSTALLATION"]) or listed(it)
    first = ""
    for _ in range(ROUNDS):
        if counts["done"] == TIMES:
            break
        done.clear()
        counts["rounds"] = 9
        with contextlib.redirect_stdout(io.StringIO()) as said:
            after = one(program, home, folder, rng, model, remote, counts, costs)
        counts["done"] += bool(done)
        counts["told" if done else "told for nothing"] += after is None
        if after is None:
            first = first or said.getvalue()
            shutil.rmtree(folder, ignore_errors=True)
            os.mkdir(folder)
        model = Model() if after is None else after
    kill_loop.listed = listed
    return counts, first


def killed(program, _, folder, rng, model, remote, counts, costs):
    return kill_loop.one_round(program, folder, rng, model, remote, counts, costs)


def tried(fault, program, home, remote):
    """Tries a fault, and says what came of it. Whether it was told each time."""
    counts, first = rounds(program, home, remote, fault, killed)
    said = " ".join(first.split())[:110]
    others = counts["told for nothing"]
    print(f"{fault.__name__}: done {counts['done']}, told {counts['told']}, told for nothing {others}: {said}", flush=True)
    return counts["done"] == counts["told"] == TIMES and not others


def look_lies(program, home, remote):
    """A look that lacks its last line."""
    done, look = [], Looks.look

    def lying(self, *words):
        look(self, *words)
        words, first, last, (status, told), said = self.seen[-1]
        if words[0] == "list" and told:
            self.seen[-1] = (words, first, last, (status, told[: told[:-1].rfind("\n") + 1]), said)
            done.append(words)

    def nothing(*_):
        if not done:
            raise IndexError
        done.clear()

    Looks.look = lying
    # the loop stops at such a look before it asks for the lists, so that the fault is told of by what it prints
    counts, first = rounds(program, home, remote, nothing, killed)
    Looks.look = look
    print(f"look_lies: told {counts['told for nothing']}: {' '.join(first.split())[:110]}", flush=True)
    return "beside it" in first


def full_is_said_to_be_done(program, home, remote):
    """A batch that found no room and ends with status 0."""
    done = []

    def lying(*words, **more):
        printed, status, times = run_killed(*words, **more)
        if status == 3:
            done.append(status)
        return printed, 0, times

    if not kill_loop.may_mount():
        print("full_is_said_to_be_done: left out, it needs root")
        return True
    kill_loop.run_killed = lying
    rng, counts, told = random.Random(1), collections.Counter(), 0
    for _ in range(ROUNDS):
        if len(done) == TIMES:
            break
        with contextlib.redirect_stdout(io.StringIO()):
            told += not kill_loop.full_round(program, home, rng, remote, counts)
    kill_loop.run_killed = run_killed
    print(f"full_is_said_to_be_done: done {len(done)}, told {told}", flush=True)
    return len(done) == told == TIMES


def main():
    """Tries the faults."""
    if len(sys.argv) < 2:
        sys.exit(__doc__)
    program, named = os.path.abspath(sys.argv[1]), sys.argv[2:]
    os.umask(0o022)
    is_right = True
    with tempfile.TemporaryDirectory(prefix="kill_loop") as home:
        os.environ["FPK_INSTALLATION"] = os.path.join(home, "installation")
        remote = Remote(home)
        kill_loop.run_killed = Before.run
        for fault in FAULTS:
            if not named or fault.__name__ in named:
                is_right &= tried(fault, program, home, remote)
        kill_loop.run_killed = run_killed
        for other in [look_lies, full_is_said_to_be_done]:
            if not named or other.__name__ in named:
                is_right &= other(program, home, remote)
    return 0 if is_right else 1


if __name__ == "__main__":
    sys.exit(main())
