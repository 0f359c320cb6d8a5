#!/usr/bin/env python3
"""Damages the store of an installation in many ways, and looks at what fpk does beside that.

usage: damaged_store.py PROGRAM

PROGRAM is a built fpk, which runs on a folder of its own; Debian's package ostree is needed. `ostree commit` makes a repository with a
runtime and two applications, which are installed. Then

- each byte of a dirtree, of a dirmeta and of a commit that an installed application needs is changed in turn, and each of the three is
  taken away: a pin is done, standard error names the object and a ref that needs it, and no object of the store goes;
- a dirmeta that all commits need is taken away: an update brings it again;
- a dirtree that `fpk fsck` calls bad: the uninstall of what needs it works, what nothing needs goes then, and it can be installed again.

Whether an object is whole is found by its digest, without fpk. Each row that is otherwise is printed; the status is 0 where none is.
"""

import os
import sys
import tempfile

from kill_loop import APPS, RUNTIME, Model, Remote, amiss, digest, entries, tool, write

import subprocess

APP = APPS[0]
PIN = "runtime/org.x.Other/*/*"


class Store:
    """An installation, and the rows that were otherwise."""

    def __init__(self, program, home):
        self.program, self.home = program, home
        self.folder = os.path.join(home, "installation")
        self.remote = Remote(home)
        self.tried, self.wrong, self.is_pinned = 0, 0, False

    def run(self, *words):
        """The status of a command, what it printed and what it said."""
        environment = {"FPK_INSTALLATION": self.folder, "PATH": os.environ["PATH"]}
        done = subprocess.run([self.program, *words], env=environment, capture_output=True, text=True, timeout=60, check=False)
        return done.returncode, done.stdout, done.stderr

    def hold(self, what, holds, found):
        self.tried += 1
        if not holds:
            self.wrong += 1
            print(f"otherwise: {what}: {found}")

    def offer(self, number):
        """Offers the commit of this number of each ref."""
        for ref, commits in self.remote.commits.items():
            write(os.path.join(self.remote.repo, "refs/heads", ref), commits[number] + "\n")

    def path(self, name):
        return os.path.join(self.folder, "repo/objects", name)

    def objects(self):
        """The names of the objects."""
        found = entries(os.path.join(self.folder, "repo/objects"))
        return {name for name, (what, _) in found.items() if what[0] != "folder"}

    def pin(self):
        """A change that needs no commit."""
        self.is_pinned = not self.is_pinned
        return self.run("pin" if self.is_pinned else "unpin", PIN)

    def is_whole(self, refs):
        """Whether the list shows these refs, and the folder is as they say."""
        model = Model(remotes={"hub": "file://" + self.remote.repo}, refs=refs)
        return self.run("list")[:2] == model.told(["list"]) and amiss(self.folder, model, self.remote) is None


def named(name):
    """How an object is called, of its path below the folder of objects."""
    return name.replace("/", "")


def needed(store):
    """A dirtree, a dirmeta and the commit that the application needs and no other installed ref, but for the dirmeta."""
    commit = store.remote.commits[APP][0]
    words = ["ostree", "ls", f"--repo={store.remote.repo}", "-d", "-C", commit]
    tree, meta = tool(*words).split()[4:6]
    kinds = [(tree, "dirtree"), (meta, "dirmeta"), (commit, "commit")]
    return [f"{one[:2]}/{one[2:]}.{kind}" for one, kind in kinds]


def damaged(store, name, bytes_, what):
    """What a change does over an object with these bytes, or without it."""
    at, before = store.path(name), store.objects()
    with open(at, "rb") as file:
        whole = file.read()
    os.remove(at)
    if bytes_ is not None:
        with open(at, "wb") as file:
            file.write(bytes_)
        os.chmod(at, 0o644)
    status, out, said = store.pin()
    kept = store.objects() | {name}
    holds = status == 0 and "pinned" in out and named(name) in said and any(ref in said for ref in [APP, APPS[1], RUNTIME])
    store.hold(what, holds and kept == before, (status, out, said, sorted(before - kept)))
    with open(at, "wb") as file:
        file.write(whole)
    os.chmod(at, 0o644)


def each_byte(store):
    for name in needed(store):
        with open(store.path(name), "rb") as file:
            whole = file.read()
        for place in range(len(whole)):
            changed = whole[:place] + bytes([whole[place] ^ 1]) + whole[place + 1 :]
            damaged(store, name, changed, f"byte {place} of {name}")
        damaged(store, name, None, f"{name} is missing")
    store.hold("whole again", store.pin()[2] == "", "")


def missing(store, refs):
    """What an update does where an object is missing that its order has."""
    meta = needed(store)[1]
    os.remove(store.path(meta))
    store.offer(1)
    found = store.run("update")
    with open(store.path(meta), "rb") as file:
        what = ("file", 0, file.read())
    after = {ref: (store.remote.commits[ref][1], commit) for ref, (commit, _) in refs.items()}
    store.hold("an update over a missing object", found[0] == 0 and digest(meta, what) + ".dirmeta" == named(meta), found)
    store.hold("the installation after it", store.is_whole(after), "")
    return after


def bad(store, refs):
    """The way for an object that is bad."""
    commit = refs[APP][0]
    tree = tool("ostree", "ls", f"--repo={store.remote.repo}", "-d", "-C", commit).split()[4]
    name = f"{tree[:2]}/{tree[2:]}.dirtree"
    with open(store.path(name), "rb") as file:
        whole = file.read()
    with open(store.path(name), "wb") as file:
        file.write(whole[:-1] + bytes([whole[-1] ^ 1]))
    status, out, _ = store.run("fsck")
    store.hold("fsck tells it", status == 0 and f"bad {named(name)}" in out, out)
    found = store.run("uninstall", APP)
    left = {ref: refs[ref] for ref in refs if ref != APP}
    store.hold("the uninstall", found[0] == 0 and store.is_whole(left), found)
    store.hold("what nothing needs is gone", name not in store.objects(), "")
    found = store.run("install", "hub", APP)
    store.hold("the install", found[0] == 0 and store.is_whole({**left, APP: (commit, None)}), found)
    status, out, _ = store.run("fsck")
    store.hold("fsck afterwards", status == 0 and out.endswith(" 0 bad\n"), out)


def main():
    if len(sys.argv) != 2:
        sys.exit(__doc__)
    os.umask(0o022)
    with tempfile.TemporaryDirectory(prefix="damaged_store") as home:
        store = Store(os.path.abspath(sys.argv[1]), home)
        store.offer(0)
        refs = {ref: (store.remote.commits[ref][0], None) for ref in [RUNTIME] + APPS}
        for words in [["remote-add", "hub", f"file://{store.remote.repo}"], *(["install", "hub", app] for app in APPS)]:
            found = store.run(*words)
            store.hold(" ".join(words), found[0] == 0, found)
        each_byte(store)
        bad(store, missing(store, refs))
        print(f"{store.tried} rows, {store.wrong} otherwise")
        sys.exit(store.wrong > 0)


if __name__ == "__main__":
    main()
