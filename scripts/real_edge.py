#!/usr/bin/env python3
"""Looks at what fpk does in folders that aren't its own, and beside programs that are in its way.

usage: real_edge.py PROGRAM

PROGRAM is a built fpk. It runs in a new folder below the current one. Debian's package strace is needed for the symlink that comes in
the place of the lock file; where it is absent that row is left out. Each row that is otherwise is printed; the status is 0 where none
is.
"""

import os
import resource
import shutil
import subprocess
import sys
import tempfile
import time

PIN = ["pin", "runtime/org.x.Platform/*/*"]


class Rows:
    """The rows that were tried, and those that were otherwise."""

    def __init__(self, program, folder):
        self.program, self.folder, self.tried, self.wrong = program, folder, 0, 0

    def path(self, name):
        return os.path.join(self.folder, name)

    def run(self, root, words, **more):
        """The status, the output and what is said on standard error of a command over a folder."""
        done = subprocess.run([self.program, *words], env={"FPK_INSTALLATION": self.path(root)}, capture_output=True, text=True,
                              timeout=60, **more)
        return done.returncode, done.stdout, done.stderr

    def hold(self, what, holds, found):
        self.tried += 1
        if not holds:
            self.wrong += 1
            print(f"otherwise: {what}: {found}")

    def write(self, name, text=""):
        os.makedirs(os.path.dirname(self.path(name)), exist_ok=True)
        with open(self.path(name), "w", encoding="utf-8") as file:
            file.write(text)


def foreign(rows):
    """Folders with others' files are not changed, and what stands there is named."""
    for name in ["exports/photos/a.jpg", "repo/tmp/mine/draft", "repo/tmp/new1x"]:
        root = "of_others" + str(rows.tried)
        rows.write(f"{root}/{name}", "kept")
        status, out, said = rows.run(root, PIN)
        stands = "/".join(name.split("/")[:3 if name.startswith("repo") else 2])
        holds = status == 3 and out == "" and f"{root}/{stands}:" in said and os.path.exists(rows.path(f"{root}/{name}"))
        rows.hold(f"a folder with {name}", holds and not os.path.exists(rows.path(f"{root}/.lock")), (status, said))
    rows.write("ours/exports/photos/a.jpg")
    rows.write("ours/.lock")
    rows.hold("a folder with a lock file", rows.run("ours", PIN)[0] == 0, "")


def masked(rows):
    """Folders above the root are made as the umask says, those of fpk's may be read."""
    rows.run("u/v/root", PIN, umask=0o077)
    bits = [os.stat(rows.path(name)).st_mode & 0o777 for name in ["u", "u/v", "u/v/root", "u/v/root/.lock"]]
    rows.hold("the umask 077", bits == [0o700, 0o700, 0o755, 0o644], [oct(one) for one in bits])


def unsynced(rows):
    """The folders of /proc take no sync."""
    done = subprocess.run([rows.program, *PIN], env={"FPK_INSTALLATION": "/proc/self/cwd/below_proc"}, capture_output=True, text=True,
                          timeout=60, cwd=rows.folder)
    rows.hold("a root below /proc", done.returncode == 0, done.stderr)


def odd_name(rows):
    """A name that isn't UTF-8 is looked over."""
    rows.run("odd", PIN)
    os.makedirs(os.fsencode(rows.path("odd/app")) + b"/\xff")
    found = rows.run("odd", ["list"])
    rows.hold("a name that isn't UTF-8", found == (0, "", ""), found)


def nobody(rows):
    """A look where no folder is says so. A reader that is gone is told nothing."""
    found = rows.run("nowhere", ["list"])
    rows.hold("no installation", found == (0, "", f"fpk: no installation at {rows.path('nowhere')}\n"), found)
    for words in [["--help"], ["list", "--pins"]]:
        read, write = os.pipe()
        os.close(read)
        done = subprocess.run([rows.program, *words], env={"FPK_INSTALLATION": rows.path("odd")}, stdout=write, stderr=subprocess.PIPE,
                              timeout=60)
        os.close(write)
        rows.hold(f"a closed pipe of {words}", (done.returncode, done.stderr) == (3, b""), (done.returncode, done.stderr))


def limited(rows):
    """Where a file may not be so large, the command says so. Linux would end it."""

    def limit(most):
        return lambda: resource.setrlimit(resource.RLIMIT_FSIZE, (most, most))

    found = rows.run("tiny", PIN, preexec_fn=limit(36))
    said = f"fpk: cannot use the folder {rows.path('tiny')}: File too large (os error 27)\n"
    rows.hold("files of 36 bytes", found == (3, "", said), found)
    tree = "timestamp 1\nsubject t\nfile f 644 " + "61" * 100_000 + "\n"
    words = ["export", "lab", "app/org.x.A/x86_64/1"]
    status, out, said = rows.run("small", words, input=tree, preexec_fn=limit(65536))
    holds = (status, out) == (3, "") and said.startswith("fpk: cannot write to ") and said.endswith(": File too large (os error 27)\n")
    rows.hold("a file above 64 KiB", holds, (status, out, said))
    rows.hold("the same with no limit", rows.run("small", words, input=tree)[0] == 0, "")


def pipes(rows):
    """A pipe among the objects is told by fsck, and one among what is exported goes. None is opened."""
    rows.run("pipes", PIN)
    for name in ["pipes/repo/objects/aa", "pipes/exports"]:
        os.makedirs(rows.path(name), exist_ok=True)
        os.mkfifo(rows.path(f"{name}/pipe"))
    status, out, said = rows.run("pipes", ["fsck"])
    rows.hold("a pipe among the objects", status == 0 and "repo/objects/aa" in out and said == "", (status, out, said))
    found = rows.run("pipes", ["unpin", PIN[1]])
    rows.hold("a change beside pipes", found[0] == 0 and not os.path.lexists(rows.path("pipes/exports/pipe")), found)


def in_between(rows):
    """A symlink that comes in the place of the lock file after it was looked for."""
    if not shutil.which("strace"):
        return
    os.makedirs(rows.path("between"))
    rows.write("secret", "secret")
    os.chmod(rows.path("secret"), 0o600)
    lock = rows.path("between/.lock")
    traced = ["strace", "-f", "-o", rows.path("trace"), "-P", lock, "-e", "trace=openat", "-e", "inject=openat:delay_enter=3000000"]
    run = subprocess.Popen([*traced, rows.program, *PIN], env={**os.environ, "FPK_INSTALLATION": rows.path("between")},
                           stdout=subprocess.DEVNULL, stderr=subprocess.DEVNULL)
    time.sleep(1.5)
    os.symlink("../secret", lock)
    status = run.wait(60)
    bits = os.stat(rows.path("secret")).st_mode & 0o777
    rows.hold("a symlink at .lock", (status, bits) == (3, 0o600), (status, oct(bits)))


def main():
    if len(sys.argv) != 2:
        sys.exit(__doc__)
    with tempfile.TemporaryDirectory(dir=".") as folder:
        rows = Rows(os.path.abspath(sys.argv[1]), os.path.abspath(folder))
        for part in [foreign, masked, unsynced, odd_name, nobody, limited, pipes, in_between]:
            part(rows)
        print(f"{rows.tried} rows, {rows.wrong} otherwise")
        sys.exit(rows.wrong > 0)


main()
