#!/usr/bin/python3
"""Installs more copies of one file than a file system gives names to a file.

`many_names.py PROGRAM` runs PROGRAM, a built fpk, as root on an ext4 file system of its own in a file that is mounted, where a file
has at most 65,000 names. It needs `ostree`, `mkfs.ext4` and a loop device. An application with 65,100 empty files is installed: each of
them has to be there and empty, the store's one among those that share a file, and the others have to be copies. `ostree fsck` has to
find the store whole, and when the application is uninstalled nothing of it may be left.

The status is 1 where something was amiss, and each such place is printed.
"""

import collections
import os
import pathlib
import subprocess
import sys
import tempfile

REF = "app/org.x.Many/x86_64/1"
RUNTIME = "runtime/org.x.P/x86_64/1"
FOLDERS = 93
FILES = 700
MOST_NAMES = 65_000


def commit(remote, name, metadata, tree):
    """Commits a tree as a ref, with this metadata."""
    pathlib.Path(tree, "metadata").write_text(metadata, encoding="ascii")
    words = [f"--repo={remote}", "commit", f"--branch={name}", "--canonical-permissions"]
    text = f"--add-metadata-string=xa.metadata={metadata}"
    subprocess.run(["ostree", *words, text, tree], stdout=subprocess.DEVNULL, check=True)


def remote_in(top):
    """A remote with an application of many empty files, and its runtime."""
    os.umask(0o022)
    remote = os.path.join(top, "remote")
    subprocess.run(["ostree", f"--repo={remote}", "init", "--mode=bare-user-only"], check=True)
    runtime = os.path.join(top, "runtime")
    os.makedirs(os.path.join(runtime, "files"))
    commit(remote, RUNTIME, "[Runtime]\nname=org.x.P\n", runtime)
    tree = os.path.join(top, "tree")
    for folder in range(FOLDERS):
        at = os.path.join(tree, "files", f"f{folder:02}")
        os.makedirs(at)
        for number in range(FILES):
            pathlib.Path(at, f"e{number:03}").touch()
    commit(remote, REF, "[Application]\nname=org.x.Many\nruntime=org.x.P/x86_64/1\n", tree)
    return remote


def empty_files(folder):
    """How many empty files are below a folder, by the file that they are names of."""
    names = collections.Counter()
    for at, _, found in os.walk(folder):
        for name in found:
            stat = os.lstat(os.path.join(at, name))
            if stat.st_size == 0:
                names[stat.st_ino] += 1
    return names


def faults(run, root):
    """What is amiss with the application in the installation."""
    run("install", "hub", REF)
    below = empty_files(os.path.join(root, "app"))
    stored = empty_files(os.path.join(root, "repo", "objects"))
    if sum(below.values()) != FOLDERS * FILES:
        yield f"{sum(below.values())} empty files in place of {FOLDERS * FILES}"
    shared = [number for number in below if below[number] > 1]
    if len(stored) != 1 or shared != list(stored) or below[shared[0]] != MOST_NAMES - 1:
        yield f"the store's empty file isn't the one that has all the names: {below.most_common(2)}"
    if subprocess.run(["ostree", f"--repo={root}/repo", "fsck", "--quiet"], check=False).returncode != 0:
        yield "ostree fsck finds the store damaged"
    run("uninstall", REF)
    if empty_files(os.path.join(root, "app")):
        yield "something is left"


def main():
    program = os.path.abspath(sys.argv[1])
    with tempfile.TemporaryDirectory() as top:
        remote = remote_in(top)
        image = os.path.join(top, "image")
        mounted = os.path.join(top, "mounted")
        os.mkdir(mounted)
        subprocess.run(["truncate", "-s", "512M", image], check=True)
        subprocess.run(["mkfs.ext4", "-q", "-N", "100000", image], check=True)
        subprocess.run(["mount", "-o", "loop", image, mounted], check=True)
        root = os.path.join(mounted, "root")

        def run(*words):
            env = {"FPK_INSTALLATION": root, "PATH": os.environ["PATH"]}
            subprocess.run([program, *words], env=env, stdout=subprocess.DEVNULL, check=True)

        try:
            run("remote-add", "hub", f"file://{remote}")
            amiss = list(faults(run, root))
        finally:
            subprocess.run(["umount", mounted], check=True)
    for fault in amiss:
        print(fault)
    print(f"amiss {len(amiss)}")
    return 1 if amiss else 0


if __name__ == "__main__":
    sys.exit(main())
