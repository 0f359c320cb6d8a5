#!/usr/bin/env python3
"""Prints cases of metadata objects of repositories that the real `ostree` command made: each has the bytes of an object, and
what `show` prints of it by what `ostree show` and `ostree ls` say. It needs Debian's package ostree. The same trees give the
same objects.

    scripts/ostree_shows.py >crates/fpk_cases/data/objects.case
"""
import datetime
import os
import re
import subprocess
import tempfile

ENTRY = re.compile(rb"(.)([0-7]{5}) \d+ \d+ +\d+ ([0-9a-f]{64})(?: ([0-9a-f]{64}))? /")


def ostree(*words):
    return subprocess.run(["ostree", *words], stdout=subprocess.PIPE, check=True).stdout


def escaped(text):
    return "".join(f"\\{b:02x}" if b < 0x20 or b in (0x5C, 0x7F) else chr(b) for b in text).encode("latin-1").decode()


def fill(top):
    """Makes files, folders and links below a folder, some of them with names that are hard to print."""
    for name in ["files/bin", "files/share/übung", "files/none", "odd/dir\nline", "odd/a\ttab"]:
        os.makedirs(f"{top}/{name}")
    texts = {"files/bin/hello": "hello\n", "files/share/empty": "", "files/share/übung/日本": "data\n",
             "metadata": "[Application]\nname=org.x.App\n", "odd/back\\slash": "x", "odd/del\x7f": "x", "odd/plain name": "x"}
    for name, text in texts.items():
        with open(f"{top}/{name}", "w", encoding="utf-8") as it:
            it.write(text)
        os.chmod(f"{top}/{name}", 0o755 if name.endswith("hello") else 0o644)
    os.symlink("bin/hello", f"{top}/files/link")
    os.symlink("x", f"{top}/odd/esc\x1b")
    for folder, _, _ in os.walk(top):
        os.chmod(folder, 0o755)


def entries(repo, commit, path):
    """Returns what `ostree ls` says of a folder and what is in it: kind, mode, digest, digest of the dirmeta, name."""
    names = ostree(f"--repo={repo}", "ls", "--nul-filenames-only", commit, path).split(b"\0")
    rest, found = ostree(f"--repo={repo}", "ls", "-C", commit, path), []
    for name in names[:-1]:
        kind, mode, digest, meta = ENTRY.match(rest).groups()
        rest = rest[rest.index(b" " + name) + 1 + len(name):]
        rest = rest[rest.index(b"\n") + 1:]
        found.append((kind, mode.decode(), digest.decode(), (meta or b"").decode(), name.rsplit(b"/", 1)[1]))
    return found


def tree_text(repo, commit, path):
    own, *inside = entries(repo, commit, path)
    lines = [f"{own[2]} dirtree"]
    for kind, _, digest, meta, name in inside:
        lines.append(f"dir {escaped(name)} {digest} {meta}" if kind == b"d" else f"file {escaped(name)} {digest}")
    return own[2], lines


def meta_text(repo, commit):
    own = entries(repo, commit, "/")[0]
    return own[3], [f"{own[3]} dirmeta", f"mode 04{own[1][1:]}"]


def commit_text(repo, commit):
    said = ostree(f"--repo={repo}", "show", commit).decode()
    head, message = said.split("\n\n", 1)
    fields = dict(line.split(":", 1) for line in head.split("\n")[1:])
    date = datetime.datetime.strptime(fields["Date"].strip(), "%Y-%m-%d %H:%M:%S %z")
    subject = "\n".join(line[4:] for line in message.split("\n\n")[0].rstrip("\n").split("\n"))
    root = entries(repo, commit, "/")[0]
    return commit, [f"{commit} commit", f"parent {fields.get('Parent', '-').strip()}", f"timestamp {int(date.timestamp())}",
                    f"subject {escaped(subject.encode())}", f"tree {root[2]}", f"meta {root[3]}"]


NAMES = ["a commit without a parent", "a commit with a parent and a body", "a commit whose subject is escaped",
         "a dirtree with a file and two dirs", "a dirtree with a link", "an empty dirtree",
         "a dirtree with a dir that is not ASCII", "a dirtree whose names are escaped", "a dirmeta"]


def main():
    with tempfile.TemporaryDirectory() as work:
        os.environ["TZ"] = "UTC"
        repo, tree = f"{work}/repo", f"{work}/tree"
        fill(tree)
        ostree(f"--repo={repo}", "init", "--mode=bare-user-only")

        def commit(time, subject, *more):
            return ostree(f"--repo={repo}", "commit", "--canonical-permissions", "--branch=app/org.x.App/x86_64/stable",
                          f"--timestamp=@{time}", f"--subject={subject}", *more, tree).decode().strip()

        first = commit(1_000_000_000, "The first", "--add-metadata-string=xa.note=one")
        commits = [first, commit(1_700_000_000, "Ünicode, and more", "--body=A body\nof two lines"),
                   commit(5, "tab\there, back\\slash, del\x7f,\nline \x1b[1m")]
        shown = [("commit", *commit_text(repo, it)) for it in commits]
        shown += [("dirtree", *tree_text(repo, first, it)) for it in ["/", "/files", "/files/none", "/files/share", "/odd"]]
        shown.append(("dirmeta", *meta_text(repo, first)))
        print("# Metadata objects of a repository that the `ostree` command made, and what it says of them")
        print("# (`scripts/ostree_shows.py` asks it).")
        for name, (kind, digest, lines) in zip(NAMES, shown, strict=True):
            with open(f"{repo}/objects/{digest[:2]}/{digest[2:]}.{kind}", "rb") as it:
                digits = it.read().hex()
            print(f"\ncase {name}\n$ show {kind}")
            for at in range(0, len(digits), 96):
                print(f"<x {digits[at:at + 96]}")
            for line in lines:
                print(f"  {line}")


main()
