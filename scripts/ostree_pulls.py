#!/usr/bin/env python3
"""What the real `ostree` command makes of the commits of crates/ost_pull_tests.

    scripts/ostree_pulls.py

It makes the same trees as src/offers.rt there, commits them, and prints what the tests there expect: the files below `objects` of
a repository with the commit of the few files, and the digest of that list for the many; the same of the commits of no file, of a
link of one letter, and of a file of more than 64 MiB; the objects of a commit as `ostree ls` lists them; the digests of files in
several pieces, whole and cut; and the table of src/made_breaks.rt. It needs Debian's package ostree.
"""
import contextlib
import hashlib
import pathlib
import struct
import subprocess
import tempfile

METADATA = b"[Application]\nname=org.example.App\nruntime=org.example.Platform/x86_64/1\n"


def put(root, path, mode, content):
    path = root / path
    path.parent.mkdir(parents=True, exist_ok=True)
    path.write_bytes(content)
    path.chmod(mode)


def link(root, path, target):
    path = root / path
    path.parent.mkdir(parents=True, exist_ok=True)
    path.symlink_to(target)


def few(root):
    put(root, "metadata", 0o644, METADATA)
    put(root, "files/bin/run", 0o755, b"#!/bin/sh\n")
    put(root, "files/bin/again", 0o755, b"#!/bin/sh\n")
    link(root, "files/link", "bin/run")
    (root / "empty").mkdir()


def many(root):
    put(root, "metadata", 0o644, METADATA)
    for i in range(300):
        path = f"files/d{i % 8}/e{i % 5}/f{i}"
        if i % 10 == 9:
            link(root, path, f"f{i % 70}")
        else:
            put(root, path, 0o755 if i % 3 == 0 else 0o644, b"text %d\n" % (i % 130))


def bare(root):
    pass


def letter(root):
    link(root, "l", "f")


def big(root):
    put(root, "big", 0o644, bytes(67_108_865))


@contextlib.contextmanager
def repository(fill):
    """A repository with the commit of this tree, and the digits of the commit."""
    with tempfile.TemporaryDirectory() as folder:
        top = pathlib.Path(folder)
        repo, tree = top / "repo", top / "tree"
        subprocess.run(["ostree", f"--repo={repo}", "init", "--mode=bare-user-only"], check=True)
        tree.mkdir()
        fill(tree)
        for inner in [tree, *tree.rglob("*")]:
            if inner.is_dir() and not inner.is_symlink():
                inner.chmod(0o755)
        made = subprocess.run(
            ["ostree", f"--repo={repo}", "commit", "--no-xattrs", "--owner-uid=0", "--owner-gid=0",
             "--branch=app/org.example.App/x86_64/stable", "--subject=subject", "--timestamp=@1700000000",
             "--parent=none", str(tree)], check=True, capture_output=True, text=True)
        yield repo, made.stdout.strip()


def files_below(repo):
    return sorted(p for p in (repo / "objects").rglob("*") if p.is_symlink() or p.is_file())


def objects_of(fill):
    """The files and links below `objects` of a repository with the commit of this tree, ascending, one a line."""
    with repository(fill) as (repo, _):
        return "".join(f"{p.relative_to(repo.parent)}\n" for p in files_below(repo))


def listing_of(fill):
    """The commit of this tree, and what `ostree ls` says of it: of a folder its dirtree and its dirmeta."""
    with repository(fill) as (repo, commit):
        said = subprocess.run(["ostree", f"--repo={repo}", "ls", "-R", "-C", commit], check=True, capture_output=True, text=True)
        return f"{commit}\n{said.stdout}"


def content_digest(mode, target, content):
    """The digest of a file or link: of a header as OSTree spells it, and of the content."""
    header = struct.pack(">IIII", 0, 0, mode, 0) + target + b"\0"
    header += bytes([len(header)])
    return hashlib.sha256(struct.pack(">II", len(header), 0) + header + content).hexdigest()


def digest(kind, mode, content):
    if kind == "link":
        return content_digest(0o120777, content, b"")
    if kind == "file":
        return content_digest(0o100000 | mode, b"", content)
    return hashlib.sha256(content).hexdigest()


def read(path):
    """What kind of object stands at a path, its permission bits and its bytes; of a link its text."""
    if path.is_symlink():
        return "link", 0o777, str(path.readlink()).encode()
    kind = path.suffix[1:]
    return kind, (path.stat().st_mode & 0o777 if kind == "file" else 0o644), path.read_bytes()


def breaks():
    """For each object of the few files: cut by a byte, with a byte more, and in its place another object of its kind."""
    with repository(bare) as (repo, commit):
        other_commit = (repo / "objects" / commit[:2] / f"{commit[2:]}.commit").read_bytes()
    with repository(few) as (repo, _):
        objects = [(p.parent.name + p.name, *read(p)) for p in files_below(repo)]
    others = {"commit": (0o644, other_commit), "dirmeta": (0o644, struct.pack(">III", 0, 0, 0o40700)), "link": (0o777, b"other")}
    for at, (name, kind, mode, content) in enumerate(objects):
        assert digest(kind, mode, content) == name.split(".")[0]
        after = objects[at + 1:] + objects[:at]
        other = others.get(kind) or next(found[2:] for found in after if found[1] == kind)
        for bits, broken in [(mode, content[:-1]), (mode, content + b"n"), other]:
            instead = f"link:{broken.decode()}" if kind == "link" else f"{bits:o}:{broken.hex()}"
            yield name, instead, digest(kind, bits, broken)


print(objects_of(few), end="")
print(hashlib.sha256(objects_of(many).encode()).hexdigest())
for fill in (bare, letter, big):
    print(objects_of(fill), end="")
for fill in (bare, few):
    print(listing_of(fill), end="")
for size in (196_608, 327_680):
    print(size, digest("file", 0o644, bytes(size)), digest("file", 0o644, bytes(size - 1)))
for name, instead, broken in breaks():
    print(f"{name}={instead} => error: corrupt object {name} {broken}")
