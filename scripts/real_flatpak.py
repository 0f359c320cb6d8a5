#!/usr/bin/env python3
"""Installs with fpk what the real flatpak builds.

A runtime and an application are built with `flatpak build-init`, `build-finish` and `build-export` into an OSTree repository of
mode `bare-user-only`, in a folder of its own. Then fpk adds it as a remote, installs, updates, rolls back and uninstalls. After each
step the real `ostree fsck` passes over fpk's store, every deployed file but `deploy` is a link of the store, and what is deployed
equals what `ostree checkout` makes of the same commit. As root it then has flatpak install the two for all users, in a folder of
its own, and brings them into a repository that fpk reads, as docs/GUIDE.md says.

usage: real_flatpak.py FPK

FPK is the program that was built. Debian's packages ostree and flatpak are needed. It prints the commands and what fpk printed, and
ends with status 0 where everything held.
"""

import filecmp
import os
import shutil
import subprocess
import sys
import tempfile

RUNTIME = "runtime/org.example.Platform/x86_64/1"
APP = "app/org.example.Hello/x86_64/1"
PLATFORM_METADATA = """[Runtime]
name=org.example.Platform
runtime=org.example.Platform/x86_64/1
sdk=org.example.Platform/x86_64/1
"""


class Bench:
    """A folder with a repository, the user folder of the real flatpak, and an installation of fpk."""

    def __init__(self, fpk, folder):
        self.fpk = os.path.abspath(fpk)
        self.folder = folder
        self.repo = os.path.join(folder, "repo")
        self.installation = os.path.join(folder, "installation")
        self.env = dict(
            os.environ,
            FLATPAK_USER_DIR=os.path.join(folder, "user"),
            FPK_INSTALLATION=self.installation,
            HOME=folder,
        )
        self.faults = 0

    def tool(self, *words):
        """Runs another program, which has to end with status 0."""
        done = subprocess.run(words, env=self.env, cwd=self.folder, capture_output=True, text=True)
        if done.returncode != 0:
            sys.exit(f"{' '.join(words)}: {done.stdout}{done.stderr}")
        return done.stdout

    def run(self, *words, status=0):
        """Runs fpk, prints what it printed, and returns its lines."""
        print("$ fpk", " ".join(words).replace(self.folder, "/srv"))
        done = subprocess.run([self.fpk, *words], env=self.env, cwd=self.folder, capture_output=True, text=True)
        print(done.stdout.replace(self.folder, "/srv"), end="")
        if done.returncode != status:
            self.fault(f"status {done.returncode}, not {status}: {done.stderr.strip()}")
        return done.stdout.splitlines()

    def fault(self, text):
        print("AMISS:", text)
        self.faults += 1

    def want(self, lines, wanted):
        if lines != wanted:
            self.fault(f"printed {lines}, not {wanted}")

    def commit(self, ref):
        """The commit that the repository offers under a ref."""
        return self.tool("ostree", "rev-parse", "--repo", self.repo, ref).strip()

    # ---- what is built

    def script(self, folder, name, text):
        path = os.path.join(self.folder, folder, name)
        os.makedirs(os.path.dirname(path), exist_ok=True)
        with open(path, "w") as out:
            out.write(f"#!/bin/sh\necho {text}\n")
        os.chmod(path, 0o755)

    def export_runtime(self, text):
        os.makedirs(os.path.join(self.folder, "platform/files"), exist_ok=True)
        with open(os.path.join(self.folder, "platform/metadata"), "w") as out:
            out.write(PLATFORM_METADATA)
        self.script("platform", "usr/bin/greet", text)
        self.export("platform", "--runtime")

    def export_application(self, text):
        app = os.path.join(self.folder, "hello")
        shutil.rmtree(app, ignore_errors=True)
        platform = ("org.example.Platform", "org.example.Platform", "1")
        self.tool("flatpak", "build-init", "--arch=x86_64", "hello", "org.example.Hello", *platform)
        self.script("hello/files", "bin/hello", text)
        os.symlink("hello", os.path.join(app, "files/bin/hi"))
        self.tool("flatpak", "build-finish", "hello", "--command=hello", "--share=network", "--socket=wayland")
        self.export("hello")

    def export(self, folder, *options):
        words = ("--no-update-summary", "--disable-sandbox", "--arch=x86_64")
        self.tool("flatpak", "build-export", *words, *options, self.repo, folder, "1")
        self.tool("ostree", "summary", "-u", "--repo", self.repo)

    # ---- what is checked

    def check(self, deployed):
        """The store, and each deployed ref of `deployed`, which has the commit of each."""
        store = os.path.join(self.installation, "repo")
        done = subprocess.run(["ostree", "fsck", "--repo", store], capture_output=True, text=True)
        if done.returncode != 0:
            self.fault("ostree fsck: " + done.stdout + done.stderr)
        objects = set()
        for folder, _, names in os.walk(os.path.join(store, "objects")):
            objects.update(os.lstat(os.path.join(folder, name)).st_ino for name in names)
        for ref, commit in deployed.items():
            self.check_deployed(ref, commit, objects)

    def check_deployed(self, ref, commit, objects):
        home = os.path.join(self.installation, ref)
        if os.readlink(os.path.join(home, "active")) != commit:
            self.fault(f"{ref} isn't at {commit}")
        here = os.path.join(home, commit)
        there = os.path.join(self.folder, "checkout")
        shutil.rmtree(there, ignore_errors=True)
        self.tool("ostree", "checkout", "-U", "--repo", self.repo, commit, there)
        names = {os.path.relpath(p, here) for p in walk(here)} - {"deploy"}
        wanted = {os.path.relpath(p, there) for p in walk(there)}
        if names != wanted:
            self.fault(f"{ref}: {sorted(names ^ wanted)}")
        for name in sorted(names & wanted):
            self.check_path(ref, name, os.path.join(here, name), os.path.join(there, name), objects)

    def check_path(self, ref, name, here, there, objects):
        if os.path.islink(there):
            if not os.path.islink(here) or os.readlink(here) != os.readlink(there):
                self.fault(f"{ref}: {name} is another link")
        elif os.path.isfile(there):
            if not filecmp.cmp(here, there, shallow=False):
                self.fault(f"{ref}: {name} has other bytes")
            if os.lstat(here).st_mode != os.lstat(there).st_mode:
                self.fault(f"{ref}: {name} has another mode")
            if os.lstat(here).st_ino not in objects:
                self.fault(f"{ref}: {name} is no link of the store")


def walk(root):
    """Each path below a folder, folders too."""
    for folder, folders, names in os.walk(root):
        for name in folders + names:
            yield os.path.join(folder, name)


def main():
    if len(sys.argv) != 2:
        sys.exit(__doc__)
    with tempfile.TemporaryDirectory() as folder:
        bench = Bench(sys.argv[1], folder)
        bench.tool("ostree", "init", "--mode=bare-user-only", "--repo", bench.repo)
        bench.export_runtime("platform")
        bench.tool("flatpak", "--user", "remote-add", "--no-gpg-verify", "local", "file://" + bench.repo)
        bench.tool("flatpak", "--user", "install", "-y", "--noninteractive", "local", RUNTIME)
        bench.export_application("hello")
        play(bench)
        bring_in(bench)
        print("amiss:", bench.faults)
        sys.exit(1 if bench.faults else 0)


def play(bench):
    """The whole life of an application."""
    platform, first = bench.commit(RUNTIME), bench.commit(APP)
    bench.want(bench.run("remote-add", "local", "file://" + bench.repo), ["remote added local"])
    installed = [f"installed {RUNTIME} {platform}", f"installed {APP} {first}"]
    bench.want(bench.run("install", "local", APP), installed)
    bench.check({RUNTIME: platform, APP: first})
    bench.run("list")
    bench.run("info", APP)
    bench.want(bench.run("update"), [])
    bench.export_application("hello again")
    second = bench.commit(APP)
    bench.want(bench.run("update"), [f"updated {APP} {second}"])
    bench.check({RUNTIME: platform, APP: second})
    bench.want(bench.run("rollback", APP), [f"rolled back {APP} {first}"])
    bench.check({RUNTIME: platform, APP: first})
    bench.run("uninstall", RUNTIME, status=1)
    bench.want(bench.run("uninstall", APP), [f"uninstalled {APP}"])
    bench.check({RUNTIME: platform})
    bench.want(bench.run("uninstall", "--unused"), [f"uninstalled {RUNTIME}"])
    bench.check({})
    objects = os.path.join(bench.installation, "repo/objects")
    left = [p for p in walk(objects) if not os.path.isdir(p)]
    if left:
        bench.fault(f"objects are left: {left}")


def bring_in(bench):
    """What an installed Flatpak has, by the words of docs/GUIDE.md."""
    if os.geteuid():
        print("skipped, for flatpak installs for all users only as root: applications of an installed Flatpak")
        return
    system, ours = (os.path.join(bench.folder, name) for name in ("system", "ours"))
    bench.env["FLATPAK_SYSTEM_DIR"] = system
    bench.tool("flatpak", "--system", "remote-add", "--no-gpg-verify", "flathub", "file://" + bench.repo)
    bench.tool("flatpak", "--system", "install", "-y", "--noninteractive", "flathub", APP)
    bench.tool("ostree", "init", "--mode=bare-user-only", "--repo=" + ours)
    for ref in (APP, RUNTIME):
        commit = bench.tool("ostree", "rev-parse", f"--repo={system}/repo", "flathub:" + ref).strip()
        bench.tool("ostree", "pull-local", "--repo=" + ours, f"{system}/repo", commit)
        bench.tool("ostree", "refs", "--repo=" + ours, "--create=" + ref, commit)
    commits = {ref: bench.commit(ref) for ref in (RUNTIME, APP)}
    bench.want(bench.run("remote-add", "ours", "file://" + ours), ["remote added ours"])
    bench.want(bench.run("install", "ours", APP), [f"installed {ref} {commit}" for ref, commit in commits.items()])
    bench.check(commits)


if __name__ == "__main__":
    main()
