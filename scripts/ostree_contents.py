#!/usr/bin/env python3
"""Prints the objects of a small repository that OSTree makes, with their names, as tables for tests.

    python3 scripts/ostree_contents.py > crates/ost_tests/src/made_contents.rt && (cd crates/ost_tests && rt fmt)

It needs Debian's package ostree. Nothing of ours is used: the names are those that OSTree gave.
"""

import os
import subprocess
import tempfile

FILES = [
    ("empty", 0o644, b""),
    ("hello", 0o644, b"hello\n"),
    ("run", 0o755, b"#!/bin/sh\necho hello\n"),
    ("nothing-to-run", 0o755, b""),
    ("group", 0o664, b"of a group\n"),
    ("group-runs", 0o775, b"#!/bin/sh\n"),
    ("reads", 0o444, b"is only read\n"),
    ("secret", 0o400, b"is read by one\n"),
    ("a-block-with-its-header", 0o644, bytes(range(38))),
    ("bytes", 0o644, bytes(range(256))),
    ("für-日本", 0o644, "für 日本\n".encode()),
]
LINKS = ["f0", "hello", "../up/and/away", "/usr/bin/env", "für/日本", "with space\nand line", "back\\slash"]
# Links whose text is so many letters n: the last offset of one byte, the first of two, and the longest text.
LONG_LINKS = [237, 238, 4095]
COMMIT = ["--subject=Files and links", "--timestamp=@1700000000"]


def ostree(*words):
    subprocess.run(["ostree", *words], check=True, stdout=subprocess.DEVNULL)


def made(folder):
    """Makes a repository in the folder and gives the names of its objects."""
    repository, tree = os.path.join(folder, "repository"), os.path.join(folder, "tree")
    os.makedirs(os.path.join(tree, "folder"))
    for name, mode, content in FILES:
        path = os.path.join(tree, name)
        with open(path, "wb") as file:
            file.write(content)
        os.chmod(path, mode)
    for number, text in enumerate(LINKS + ["n" * count for count in LONG_LINKS]):
        os.symlink(text, os.path.join(tree, "folder", f"link{number}"))
    # with the permission bits that OSTree makes of them, and as they are, by way of another kind of repository
    archive = os.path.join(folder, "archive")
    ostree("init", f"--repo={repository}", "--mode=bare-user-only")
    ostree("commit", f"--repo={repository}", "--branch=canonical", "--canonical-permissions", *COMMIT, tree)
    ostree("init", f"--repo={archive}", "--mode=archive")
    ostree("commit", f"--repo={archive}", "--branch=plain", "--owner-uid=0", "--owner-gid=0", "--no-xattrs", *COMMIT, tree)
    ostree("pull-local", f"--repo={repository}", archive, "plain")
    return os.path.join(repository, "objects")


def rows(objects):
    """The rows of the four tables: files, links, long links and metadata objects."""
    files, links, long_links, metadata = [], [], [], []
    for first in sorted(os.listdir(objects)):
        for rest in sorted(os.listdir(os.path.join(objects, first))):
            path, (digits, kind) = os.path.join(objects, first, rest), rest.split(".")
            name = first + digits
            if os.path.islink(path):
                text = os.readlink(path)
                if len(text) in LONG_LINKS:
                    long_links.append(f'({len(text)}, "{name}")')
                else:
                    quoted = text.replace("\\", "\\\\").replace("\n", "\\n")
                    links.append(f'("{quoted}", "{name}")')
                continue
            with open(path, "rb") as file:
                content = file.read().hex()
            if kind == "file":
                files.append(f'(0o{os.stat(path).st_mode & 0o7777:o}, "{content}", "{name}")')
            else:
                metadata.append(f'("{content}", "{name}")')
    return files, links, long_links, metadata


def print_table(doc, name, of, table):
    print(f"\n/// {doc}\npub const {name}: [{of}; {len(table)}] = [")
    for row in table:
        print(f"    {row},")
    print("];")


with tempfile.TemporaryDirectory() as folder:
    files, links, long_links, metadata = rows(made(folder))
print("//! Objects of a repository that OSTree made, with their names. `scripts/ostree_contents.py` printed them.")
print_table("The permission bits of a file, its content in hexadecimal digits, and its name.", "FILES", "(u32, &str, &str)", files)
print_table("The text of a link, and its name.", "LINKS", "(&str, &str)", links)
print_table("How many letters n a link's text is, and its name.", "LONG_LINKS", "(usize, &str)", long_links)
print_table("The bytes of a metadata object in hexadecimal digits, and its name.", "METADATA", "(&str, &str)", metadata)
