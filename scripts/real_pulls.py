#!/usr/bin/env python3
"""Installs and updates a runtime of 2,000 files with names and modes that are rare, from what the real ostree committed.

usage: real_pulls.py FPK

FPK is the program that was built; Debian's package ostree is needed. `ostree commit` makes two commits of 200 directories in a
repository of the mode bare-user: names of 255 bytes, names with a newline, a backslash and letters beyond ASCII, links, empty
files, the modes 0664, 0775 and 0400, and further keys in the metadata. `ostree pull-local` brings them into a repository of the
mode bare-user-only, which is fpk's remote. After each of `fpk install` and `fpk update` the new store has exactly the objects that
`ostree ls` tells of the commits, and `ostree fsck` finds no fault there. It ends with 0 where all is so.
"""
import os
import re
import subprocess
import sys
import tempfile

REF = "runtime/org.x.Names/x86_64/1"
DIRECTORIES = 200
MODES = [0o644, 0o664, 0o755, 0o775, 0o400]
OBJECT = re.compile(r"^[-ld]\d{5} +\d+ +\d+ +\d+ ([0-9a-f]{64})(?: ([0-9a-f]{64}))? /", re.M)


def ran(*words, **how):
    done = subprocess.run(words, capture_output=True, **how)
    if done.returncode:
        sys.exit(f"real_pulls: {' '.join(words)}: {done.stderr.decode(errors='replace')}")
    return done.stdout.decode(errors="surrogateescape")


def names(number):
    """Ten names of a directory."""
    return [
        "plain",
        f"line\nbreak{number}",
        f"back\\slash{number}",
        f"\u00e9\u4e2d\U0001f600{number}",
        f"{number:03}" + "n" * 252,
        " space and 'quotes' ",
        "#hash",
        "-dash",
        "empty",
        "many",
    ]


def content(number, place, version):
    if place == 8:
        return b""
    if place == 9:
        return b"the same everywhere\n"
    # One file in fifty is another one in the second commit.
    changed = version if (number * 10 + place) % 50 == 0 else 1
    return f"{number} {place} {changed}\n".encode() * (1 + place)


def make_tree(tree, version):
    os.mkdir(tree)
    with open(f"{tree}/metadata", "w") as file:
        file.write("[Runtime]\nname=org.x.Names\n")
    for number in range(DIRECTORIES):
        folder = f"{tree}/files/{number % 20}/{number}"
        os.makedirs(folder)
        for place, name in enumerate(names(number)):
            with open(f"{folder}/{name}", "wb") as file:
                file.write(content(number, place, version))
            os.chmod(f"{folder}/{name}", MODES[(number + place) % len(MODES)])
        os.symlink(names(number)[number % 10].replace("\n", " "), f"{folder}/link")


def commit(folder, version):
    """The commit of a version, in the remote."""
    tree, source, remote = f"{folder}/tree{version}", f"{folder}/source", f"{folder}/remote"
    make_tree(tree, version)
    keys = ["--add-metadata-string=org.x.note=more", "--add-metadata=org.x.numbers=[uint32 1, 2]"]
    words = ["--owner-uid=0", "--owner-gid=0", "--no-xattrs", f"--timestamp=@{version}", *keys]
    ran("ostree", f"--repo={source}", "commit", f"--branch={REF}", *words, f"--tree=dir={tree}")
    ran("ostree", f"--repo={remote}", "pull-local", source, REF)
    return ran("ostree", f"--repo={remote}", "rev-parse", REF).strip()


def objects_of(remote, digest):
    """The names of the objects of a commit, by what ostree tells of it."""
    found = {f"{digest}.commit"}
    for it in OBJECT.finditer(ran("ostree", f"--repo={remote}", "ls", "-R", "-C", digest)):
        first, second = it.groups()
        found |= {f"{first}.dirtree", f"{second}.dirmeta"} if second else {f"{first}.file"}
    return found


def objects_in(store):
    found = set()
    for above, _folders, files in os.walk(f"{store}/objects"):
        found |= {os.path.basename(above) + name for name in files}
    return found


def look(store, wanted, when):
    """How much is amiss in the store."""
    found = objects_in(store)
    bad = subprocess.run(["ostree", f"--repo={store}", "fsck"], capture_output=True).returncode
    print(f"{when}: {len(found)} objects, {len(wanted - found)} absent, {len(found - wanted)} more; ostree fsck {bad}")
    return len(wanted ^ found) + bad


def main():
    program = os.path.abspath(sys.argv[1])
    with tempfile.TemporaryDirectory() as folder:
        how = {"env": {**os.environ, "FPK_INSTALLATION": f"{folder}/installation"}}
        remote, store = f"{folder}/remote", f"{folder}/installation/repo"
        ran("ostree", f"--repo={folder}/source", "init", "--mode=bare-user")
        ran("ostree", f"--repo={remote}", "init", "--mode=bare-user-only")
        first = commit(folder, 1)
        wanted = objects_of(remote, first)
        print(ran(program, "remote-add", "hub", f"file://{remote}", **how), end="")
        print(ran(program, "install", "hub", REF, **how), end="")
        amiss = look(store, wanted, "after the install")
        second = commit(folder, 2)
        more = objects_of(remote, second)
        print(f"of {len(more)} objects of the second commit the first has {len(more & wanted)}")
        print(ran(program, "update", **how), end="")
        amiss += look(store, wanted | more, "after the update")
        print(f"amiss: {amiss}")
        sys.exit(1 if amiss else 0)


if len(sys.argv) != 2:
    sys.exit(__doc__)
main()
