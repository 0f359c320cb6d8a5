#!/usr/bin/env python3
"""Installs, updates, rolls back and uninstalls on file systems that are unlike a plain disk, as a user without rights.

usage: odd_folders.py PROGRAM [FILES [PLACE..]]

PROGRAM is a built fpk. Debian's package ostree is needed, and root for what is mounted, in a mount namespace of its own. The places are

- a tmpfs at `/var` of a system whose root is a squashfs (squashfs-tools, a loop device),
- a FUSE file system, `bindfs` over a folder (bindfs),
- an overlay of two folders, where the installation stands in the upper one, and where it stands in the lower one, and files may be copies,
- a home that autofs mounts when it is entered, which no command finds mounted (autofs; where this kernel lacks it, in a User-Mode Linux
  over the files of this system, by Debian's package user-mode-linux),
- a plain folder, by a process that may have 64 open files.

Each PLACE is a word of `squashfs`, `fuse`, `upper`, `lower`, `autofs` and `few_files`; with none it is all of them. What can't be had
here is left out, and said. At each place a remote is added, an application of FILES files (400) installed with its runtime, updated,
rolled back, updated again and uninstalled, by the user nobody. After each command its status has to be 0, the list as it should, and what
stands there as `ostree checkout` lays it out, with the digests that its names say. The status is 0 where nothing was amiss.
"""

import contextlib
import glob
import os
import resource
import shutil
import subprocess
import sys
import tempfile
import time

import kill_loop
from kill_loop import APPS, RUNTIME, Model, Remote, amiss

USER = 65534
APP = APPS[0]
MODULES = "/usr/lib/uml/modules"
# The first process of a User-Mode Linux, whose root is that of this system and isn't written. What it makes stands on a tmpfs.
FIRST = """#!/bin/sh
export PATH="{path}" ODD_FOLDERS="{home}/guest"
mount -t proc none /proc
mount -t sysfs none /sys
mount -t devtmpfs none /dev
mount -t tmpfs none /run
mount -t tmpfs none /tmp
mkdir -p "{home}"
mount -t hostfs -o "{home}" none "{home}"
mount -t tmpfs -o mode=755 none "{home}/guest"
insmod "{module}"
{{ uname -sr; "{python}" "{home}/odd_folders.py" "{home}/fpk" {files} autofs; echo "status $?"; }} > "{home}/told" 2>&1
sync
echo o > /proc/sysrq-trigger
sleep 60
"""


class Skipped(Exception):
    """Why a place can't be had."""


def need(*programs):
    for program in programs:
        if not shutil.which(program):
            raise Skipped(f"there is no {program}")


def root(*words):
    """Runs a command as root."""
    if os.geteuid() != 0:
        raise Skipped("it needs root")
    done = subprocess.run(words, capture_output=True, text=True, check=False)
    if done.returncode != 0:
        raise Skipped(f"{' '.join(words)}: {done.stderr.strip()}")
    return done.stdout


def owned(*folders):
    """Makes folders that are the user's."""
    for folder in folders:
        os.makedirs(folder, exist_ok=True)
        if os.geteuid() == 0:
            os.chown(folder, USER, USER)


class Place:
    """Where fpk runs: the folder of the installation as fpk knows it and as this script does, and what stands before the command."""

    def __init__(self, folder, seen=None, before=None, files=None, remote=None, ready=None, linked=True):
        self.folder, self.seen, self.files, self.remote = folder, seen or folder, files, remote
        self.ready, self.linked = ready, linked
        drop = ["setpriv", f"--reuid={USER}", f"--regid={USER}", "--clear-groups", "--no-new-privs"] if os.geteuid() == 0 else []
        self.before = drop if before is None else before

    def run(self, program, *words):
        """The status of a command, what it printed and what it said."""

        def limit():
            if self.files:
                resource.setrlimit(resource.RLIMIT_NOFILE, (self.files, self.files))

        if self.ready:
            self.ready()
        environment = {"PATH": os.environ["PATH"], "FPK_INSTALLATION": self.folder}
        done = subprocess.run([*self.before, program, *words], env=environment, capture_output=True, text=True, timeout=900, preexec_fn=limit,
                              cwd="/", check=False)
        return done.returncode, done.stdout, done.stderr


@contextlib.contextmanager
def squashfs(home, remote, program):
    """A system with a root that is never written, and a tmpfs at /var."""
    need("mksquashfs", "ldd", "chroot")
    system, image, top = (os.path.join(home, name) for name in ["system", "image", "top"])
    for folder in ["bin", "proc", "dev", "var", "hub"]:
        os.makedirs(os.path.join(system, folder))
    os.makedirs(top)
    shutil.copy(program, os.path.join(system, "bin/fpk"))
    for word in subprocess.run(["ldd", program], capture_output=True, text=True, check=False).stdout.split():
        if word.startswith("/"):
            os.makedirs(system + os.path.dirname(word), exist_ok=True)
            shutil.copy(word, system + word)
    root("mksquashfs", system, image, "-quiet", "-no-progress")
    root("mount", "-o", "loop,ro", "-t", "squashfs", image, top)
    root("mount", "-t", "tmpfs", "-o", "mode=1777", "none", os.path.join(top, "var"))
    root("mount", "--bind", remote.repo, os.path.join(top, "hub"))
    root("mount", "-t", "proc", "none", os.path.join(top, "proc"))
    before = ["chroot", f"--userspec={USER}:{USER}", "--groups=", top]
    yield Place("/var/lib/fpk", top + "/var/lib/fpk", before, remote="/hub"), "/bin/fpk"


@contextlib.contextmanager
def fuse(home, *_):
    """bindfs over a folder."""
    need("bindfs")
    below, top = os.path.join(home, "below_fuse"), os.path.join(home, "fuse")
    owned(below, top)
    root("bindfs", "-o", "allow_other", below, top)
    try:
        yield Place(os.path.join(top, "a/installation")), None
    finally:
        root("umount", top)


def overlay(home, name):
    """Two folders, one over the other."""
    lower, upper, work, top = (os.path.join(home, name, part) for part in ["lower", "upper", "work", "top"])
    owned(lower, upper, work, top)
    root("mount", "-t", "overlay", "-o", f"lowerdir={lower},upperdir={upper},workdir={work}", "overlay", top)
    return lower, top


@contextlib.contextmanager
def upper(home, *_):
    """An overlay."""
    _, top = overlay(home, "upper")
    yield Place(os.path.join(top, "installation")), None


@contextlib.contextmanager
def lower(home, remote, program):
    """An overlay over a folder that has an installation already, of an older commit."""
    folder = os.path.join(home, "lower/lower/installation")
    owned(os.path.dirname(folder))
    place = Place(folder)
    for words in begin(remote, place):
        status, _, said = place.run(program, *words)
        if status != 0:
            raise Skipped(f"{words}: {said}")
    _, top = overlay(home, "lower")
    # what is linked to a file of the lower folder is linked to a copy of it
    yield Place(os.path.join(top, "installation"), linked=False), None


@contextlib.contextmanager
def autofs(home, *_):
    """A home that is mounted when it is entered."""
    need("automount")
    if not has_autofs():
        raise Skipped("this kernel has no autofs")
    homes, top = os.path.join(home, "homes"), os.path.join(home, "auto")

    def unmounted():
        for _ in range(600):
            if not mounted(top + "/me"):
                return
            time.sleep(0.1)
        raise Skipped("the home stays mounted")

    owned(os.path.join(homes, "me"))
    os.makedirs(top)
    for name, text in [("master", f"{top} file:{home}/map --timeout=1\n"), ("map", f"* -fstype=bind :{homes}/&\n")]:
        with open(os.path.join(home, name), "w", encoding="ascii") as out:
            out.write(text)
    if os.geteuid() != 0:
        raise Skipped("it needs root")
    words = ["automount", "-f", "-p", f"{home}/pid", f"{home}/master"]
    # in a session of its own: nothing is mounted for a process of the daemon's group
    daemon = subprocess.Popen(words, stdout=subprocess.DEVNULL, stderr=subprocess.PIPE, start_new_session=True)
    try:
        for _ in range(500):
            if daemon.poll() is not None:
                raise Skipped(f"automount: {daemon.stderr.read().decode().strip()}")
            if os.path.isdir(os.path.join(top, "me")):
                break
            time.sleep(0.2)
        if not mounted(top) or not mounted(top + "/me"):
            raise Skipped("nothing is mounted")
        yield Place(os.path.join(top, "me/fpk"), ready=unmounted), None
    finally:
        daemon.terminate()
        daemon.wait()


@contextlib.contextmanager
def few_files(home, *_):
    """A process that may have 64 open files."""
    owned(os.path.join(home, "few"))
    yield Place(os.path.join(home, "few/installation"), files=64), None


PLACES = [squashfs, fuse, upper, lower, autofs, few_files]


def has_autofs():
    return b"autofs" in kill_loop.read("/proc/filesystems").split()


def mounted(folder):
    """Whether something is mounted at a folder, without a look at it."""
    return f" {folder} ".encode() in kill_loop.read("/proc/self/mounts")


def user_mode(home):
    """What the place `autofs` tells in a User-Mode Linux."""
    need("automount", "linux.uml")
    modules = glob.glob(f"{MODULES}/*/kernel/fs/autofs/autofs4.ko")
    if not modules or os.geteuid() != 0:
        raise Skipped("it needs root, and the module autofs4 of User-Mode Linux")
    owned(os.path.join(home, "guest"))
    first = os.path.join(home, "first")
    for script in [__file__, kill_loop.__file__]:
        shutil.copy(script, home)
    words = {"module": modules[0], "python": sys.executable, "path": os.environ["PATH"], "home": home, "files": kill_loop.FILES}
    kill_loop.write(first, FIRST.format(**words))
    os.chmod(first, 0o755)
    machine = ["linux.uml", "mem=512M", "rootfstype=hostfs", "rootflags=/", "ro", f"init={first}", "con=null", "con0=fd:0,fd:1"]
    with subprocess.Popen(machine, stdin=subprocess.DEVNULL, stdout=subprocess.PIPE, stderr=subprocess.STDOUT) as running:
        said = running.communicate(timeout=6 * 3600)[0].decode(errors="replace")
    told = os.path.join(home, "told")
    if not os.path.exists(told):
        raise Skipped(f"User-Mode Linux: {said[-500:]}")
    return kill_loop.read(told).decode(errors="replace")


def begin(remote, place):
    """The first commands."""
    return [["remote-add", "hub", "file://" + (place.remote or remote.repo)], ["install", "hub", APP]]


def go(remote, program, place, is_begun):
    """What is amiss at a place, or None."""
    old, new = remote.commits[APP][0], remote.commits[APP][1]
    runtime = (remote.commits[RUNTIME][0], None)
    after = [
        (old, [["update"]] if is_begun else begin(remote, place), {APP: (old, None), RUNTIME: runtime}),
        (new, [["update", APP]], {APP: (new, old), RUNTIME: runtime}),
        (new, [["rollback", APP]], {APP: (old, new), RUNTIME: runtime}),
        (new, [["update"]], {APP: (new, old), RUNTIME: runtime}),
        (new, [["fsck"]], {APP: (new, old), RUNTIME: runtime}),
        (new, [["uninstall", APP]], {RUNTIME: runtime}),
        (new, [["uninstall", "--unused"]], {}),
    ]
    for offered, commands, refs in after:
        offer(remote, offered)
        for words in commands:
            status, out, said = place.run(program, *words)
            if status != 0:
                return f"{' '.join(words)}: status {status}, {out!r}, {said!r}"
        model = Model(refs=refs)
        status, out, said = place.run(program, "list")
        if (status, out) != (0, model.shown()):
            return f"list after {commands}: status {status}, {out!r}, {said!r}"
        found = amiss(place.seen, model, remote, place.linked)
        if found:
            return f"after {commands}: {found}"
    return None


def offer(remote, commit):
    """Offers a commit of the application, and the first one of the runtime."""
    for ref, one in [(APP, commit), (RUNTIME, remote.commits[RUNTIME][0])]:
        kill_loop.write(os.path.join(remote.repo, "refs/heads", ref), one + "\n")


def go_through(program, home):
    """Goes through the places, in a mount namespace of its own where it may: what is mounted ends with it."""
    faults = 0
    remote = Remote(home)
    own = os.path.join(home, "fpk")
    shutil.copy(program, own)
    for name in [place for place in PLACES if not sys.argv[3:] or place.__name__ in sys.argv[3:]]:
        offer(remote, remote.commits[APP][0])
        begun = time.monotonic()
        try:
            if name is autofs and not has_autofs() and os.path.basename(home) != "guest":
                told = user_mode(home)
                faults += not told.endswith("status 0\n")
                print(f"autofs, in User-Mode Linux: {told}", end="", flush=True)
                continue
            with name(home, remote, own) as (place, other):
                found = go(remote, other or own, place, name is lower)
        except Skipped as why:
            print(f"{name.__name__}: left out, {why}", flush=True)
            continue
        faults += found is not None
        print(f"{name.__name__}: {found or 'as it should be'}, {time.monotonic() - begun:.0f} s", flush=True)
    return 1 if faults else 0


def main():
    """Runs this script once more in a mount namespace, over a folder that is taken away afterwards."""
    if len(sys.argv) < 2 or {*sys.argv[3:]} - {place.__name__ for place in PLACES}:
        sys.exit(__doc__)
    os.umask(0o022)
    kill_loop.FILES = int(sys.argv[2]) if len(sys.argv) > 2 else 400
    program = os.path.abspath(sys.argv[1])
    if "ODD_FOLDERS" in os.environ:
        return go_through(program, os.environ["ODD_FOLDERS"])
    with tempfile.TemporaryDirectory(prefix="odd_folders") as home:
        os.chmod(home, 0o755)
        inside = ["unshare", "--mount", "--propagation", "private"] if os.geteuid() == 0 else []
        again = subprocess.run([*inside, sys.executable, *sys.argv], env={**os.environ, "ODD_FOLDERS": home}, check=False)
    return again.returncode


if __name__ == "__main__":
    sys.exit(main())
