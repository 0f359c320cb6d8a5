#!/usr/bin/python3
"""Compares what `fpk fsck` finds in a store with what the real `ostree fsck` does.

usage: real_fsck.py [FILES] PROGRAM..        as: real_fsck.py 10000 crates/fpk/out/fpk

A store of FILES files, each in a directory of its own, is made by `ostree commit`: some 2,000 objects where FILES isn't said. It is
checked by both as it is, and once with each kind of damage: both have to call the same store good, and fpk has to name just the object
that was damaged. What is known to differ, and why, stands in KNOWN. It needs Debian's package ostree. The last line is `all the same` or the number of differences that aren't known."""
import os, re, shutil, subprocess, sys, tempfile, time

REF = "app/org.x.App/x86_64/stable"
NAME = re.compile("objects/[0-9a-f]{2}/[0-9a-f]{62}[.](commit|dirtree|dirmeta|file)")
# The damage that the two judge differently: what fpk finds, and why.
KNOWN = {
    "a file that has no object's name": "ostree passes over names that are no object's; fpk calls them stray",
    "a file below a folder with an object's name": "the same",
    "a metadata object's file with other bits outside 0775": "ostree takes the digest of the bytes alone; fpk asks for 0775",
    "a file absent": "ostree walks commits and misses what they name; fpk looks at what is there",
    "a dirtree absent": "the same",
}


def ostree(*words):
    return subprocess.run(["ostree", *words], capture_output=True, text=True)


def make(folder, files):
    """An installation whose store has this many files, and somewhat more than as many other objects."""
    tree, repo = folder + "/tree", folder + "/installation/repo"
    os.makedirs(folder + "/installation")
    for number in range(files):
        directory = f"{tree}/files/{number % 50}/{number}"
        os.makedirs(directory)
        with open(directory + "/data", "wb") as file:
            file.write(b"%d\n" % number * (1 + number % 97))
    with open(tree + "/files/large", "wb") as file:
        file.write(bytes(range(256)) * 1024)
    os.symlink("large", tree + "/files/link")
    with open(tree + "/metadata", "w") as file:
        file.write("[Application]\nname=org.x.App\nruntime=org.x.P/x86_64/1\n")
    ostree("--repo=" + repo, "init", "--mode=bare-user-only").check_returncode()
    ostree("--repo=" + repo, "commit", "-b", REF, "--tree=dir=" + tree, "--timestamp=@7").check_returncode()
    shutil.rmtree(tree)
    return repo


def names(repo):
    """The paths of the objects, ascending."""
    found = []
    for above, _folders, files in os.walk(repo + "/objects"):
        found += [os.path.join(above, name) for name in files]
    return sorted(found)


def object_of(repo, path):
    return os.path.relpath(path, repo + "/objects").replace("/", "", 1)


def first(paths, kind, is_link=False, least=1, most=1 << 40):
    for path in paths:
        if path.endswith("." + kind) and os.path.islink(path) == is_link and (is_link or least <= os.path.getsize(path) <= most):
            return path
    raise SystemExit("no " + kind)


def put(path, data):
    """Other bytes in a new file, with the permission bits of the old one."""
    mode = os.stat(path).st_mode & 0o7777
    os.unlink(path)
    with open(path, "wb") as file:
        file.write(data)
    os.chmod(path, mode)


def read(path):
    with open(path, "rb") as file:
        return file.read()


def turned(data, at):
    return data[:at] + bytes([data[at] ^ 1]) + data[at + 1:]


def relink(path, text):
    os.unlink(path)
    os.symlink(text, path)


def beside(path, name):
    os.makedirs(os.path.dirname(os.path.join(os.path.dirname(path), name)), exist_ok=True)
    with open(os.path.join(os.path.dirname(path), name), "w") as file:
        file.write("x\n")


def damages(repo):
    """Each kind of damage: what it is called, the object that is then bad, the stray path, and what does it."""
    paths = names(repo)
    file, link, tree, meta, commit = (first(paths, "file"), first(paths, "file", True), first(paths, "dirtree"), first(paths, "dirmeta"), first(paths, "commit"))
    large = first(paths, "file", least=200000)
    bad = lambda path, do: (object_of(repo, path), None, lambda: do(path))
    gone = lambda path: (None, None, lambda: os.unlink(path))
    stray = lambda name: (None, os.path.relpath(os.path.join(os.path.dirname(file), name), os.path.dirname(repo)), lambda: beside(file, name))
    return [
        ("the store as it is", (None, None, lambda: None)),
        ("a file's first byte", bad(file, lambda p: put(p, turned(read(p), 0)))),
        ("a file's last byte", bad(file, lambda p: put(p, turned(read(p), -1 % len(read(p)))))),
        ("a large file's byte in the middle", bad(large, lambda p: put(p, turned(read(p), 150000)))),
        ("a large file's last byte", bad(large, lambda p: put(p, turned(read(p), len(read(p)) - 1)))),
        ("a file cut", bad(file, lambda p: put(p, read(p)[:-1]))),
        ("a file longer", bad(file, lambda p: put(p, read(p) + b"\0"))),
        ("a file empty", bad(file, lambda p: put(p, b""))),
        ("a file replaced by another", bad(file, lambda p: put(p, read(large)))),
        ("a file that may be run", bad(file, lambda p: os.chmod(p, 0o755))),
        ("a file that all may write", bad(file, lambda p: os.chmod(p, 0o666))),
        ("a file as a link", bad(file, lambda p: relink(p, "x"))),
        ("a link with another text", bad(link, lambda p: relink(p, "larger"))),
        ("a link as a file", bad(link, lambda p: (os.unlink(p), beside(p, os.path.basename(p))))),
        ("a dirtree's first byte", bad(tree, lambda p: put(p, turned(read(p), 0)))),
        ("a dirtree cut", bad(tree, lambda p: put(p, read(p)[:-1]))),
        ("a dirmeta's last byte", bad(meta, lambda p: put(p, turned(read(p), len(read(p)) - 1)))),
        ("a dirmeta longer", bad(meta, lambda p: put(p, read(p) + b"\0"))),
        ("a commit's byte", bad(commit, lambda p: put(p, turned(read(p), 20)))),
        ("a commit replaced by a dirtree", bad(commit, lambda p: put(p, read(tree)))),
        ("a metadata object's file with other bits outside 0775", bad(meta, lambda p: os.chmod(p, 0o666))),
        ("a file absent", gone(file)),
        ("a dirtree absent", gone(tree)),
        ("a file that has no object's name", stray("x")),
        ("a file below a folder with an object's name", stray("0" * 62 + ".file/x")),
    ]


def expected(repo, damaged, stray):
    """The lines of `fsck`: what is in the store is counted from its names."""
    objects = [p for p in names(repo) if NAME.fullmatch(os.path.relpath(p, repo))]
    lines = []
    if damaged:
        lines.append((f"repo/objects/{damaged[:2]}/{damaged[2:]}", f"bad {damaged}"))
    if stray:
        lines.append((stray, f"stray {stray}"))
    said = "".join(line + "\n" for _path, line in sorted(lines))
    return said + f"fsck {len(objects)} objects, {1 if damaged else 0} bad\n"


def main():
    program, unknown, files = sys.argv[1:], 0, 1000
    if program and program[0].isdigit():
        files = int(program.pop(0))
    if not program:
        raise SystemExit(__doc__)
    program[0] = os.path.abspath(program[0]) if os.path.exists(program[0]) else program[0]
    os.umask(0o022)
    with tempfile.TemporaryDirectory() as folder:
        repo = make(folder, files)
        whole = repo + ".whole"
        shutil.copytree(repo, whole, symlinks=True)
        count, spent = len(damages(repo)), {"fpk": 0.0, "ostree": 0.0}
        for at in range(count):
            shutil.rmtree(repo)
            shutil.copytree(whole, repo, symlinks=True)
            name, (damaged, stray, do) = damages(repo)[at]
            do()
            want = expected(repo, damaged, stray)
            begun = time.monotonic()
            ours = subprocess.run([*program, "fsck"], env=dict(os.environ, FPK_INSTALLATION=os.path.dirname(repo)), capture_output=True, text=True)
            spent["fpk"] += time.monotonic() - begun
            begun = time.monotonic()
            theirs = ostree("--repo=" + repo, "fsck", "--all")
            spent["ostree"] += time.monotonic() - begun
            is_good = ours.stdout == want[want.rindex("fsck "):] and not damaged and not stray
            faults = []
            if ours.returncode != 0 or ours.stdout != want:
                faults.append(f"fpk printed {ours.stdout!r} (status {ours.returncode}), and not {want!r}")
            if is_good != (theirs.returncode == 0) and name not in KNOWN:
                faults.append(f"ostree ends with {theirs.returncode}: {(theirs.stdout + theirs.stderr).strip().splitlines()[-1:]}")
            known = " (known: " + KNOWN[name] + ")" if name in KNOWN and is_good != (theirs.returncode == 0) else ""
            print(("DIFFERS " if faults else "same    ") + name + known)
            for fault in faults:
                print("        " + fault)
            unknown += bool(faults)
        print(f"seconds for {count} checks: fpk {spent['fpk']:.1f}, ostree {spent['ostree']:.1f}")
    print("all the same" if not unknown else f"{unknown} differences")
    sys.exit(bool(unknown))


main()
