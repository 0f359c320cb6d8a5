#!/usr/bin/python3
"""Shows that values of GVariant of few bytes take little memory.

usage: show_memory.py FPK

FPK is the program that was built; Debian's packages time, ostree and python3-gi are needed. `fpk show value` looks at 10,000 zero
bytes as an array of bytes, and as one of as many empty tuples, each alone, in 8 and in 62 more tuples: a type has 64 levels at most.
The values of the last would take some KiB for each byte, if they were made. Then `fpk show commit` looks at commits whose metadata
has such a value in a variant, and `fpk install` brings them, which reads the refs of a commit beside that value. A commit has levels
around that value, so there the last is in 52 more tuples.

It prints the peak of memory of each in KiB, and before them that of the same command over the least value: an empty tuple of one
byte, and a commit as `ostree commit` makes it. The status is 1 where one is 2 MiB or more above that, else 0.
"""

import hashlib
import os
import pathlib
import subprocess
import sys
import tempfile

import gi

gi.require_version("GLib", "2.0")
from gi.repository import GLib  # noqa: E402

COUNT = 10_000
# how far above that of the least value no peak may be, in KiB
LIMIT = 2048
REF = "runtime/org.x.Platform/x86_64/1"
COMMIT = GLib.VariantType("(a{sv}aya(say)sstayay)")


def tuples(depth):
    """The type of an empty tuple that is nested to this depth."""
    return "(" * depth + ")" * depth


def rows(*depths):
    """Names and types of the values: bytes, and empty tuples nested to these depths."""
    return [("bytes", "ay")] + [(f"empty tuples at level {depth + 1}", "a" + tuples(depth)) for depth in depths]


def peak(folder, words, given, begins, env=None):
    """The peak of memory in KiB of a command whose output has to begin so. GNU time is asked, which is small itself: what a child of
    Python is charged with is never below the peak of Python."""
    told = os.path.join(folder, "told")
    measured = ["time", "--format=%M", f"--output={told}", *words]
    done = subprocess.run(measured, input=given, capture_output=True, env=env, check=False)
    if done.returncode != 0 or not done.stdout.decode().startswith(begins):
        sys.exit(f"{words[1:]}: status {done.returncode}, {done.stdout + done.stderr!r}")
    with open(told, encoding="ascii") as it:
        return int(it.read())


def peak_of_value(program, folder, of, size):
    """That of a look at zero bytes of this number as a type."""
    return peak(folder, [program, "show", "value", of], bytes(size), f"normal {size}\n")


def ostree(repo, *words):
    return subprocess.run(["ostree", f"--repo={repo}", *words], check=True, capture_output=True, text=True).stdout.strip()


def made_remote(folder):
    """A remote whose commit of a runtime `ostree` made, and the commit's object."""
    tree, repo = folder / "tree", folder / "remote"
    tree.mkdir()
    (tree / "metadata").write_text("[Runtime]\nname=org.x.Platform\n")
    (tree / "metadata").chmod(0o644)
    tree.chmod(0o755)
    ostree(repo, "init", "--mode=bare-user-only")
    digest = ostree(repo, "commit", "--canonical-permissions", f"--branch={REF}", "--subject=s", "--timestamp=@7", str(tree))
    return repo, (repo / "objects" / digest[:2] / f"{digest[2:]}.commit").read_bytes()


def with_value(commit, of):
    """The same commit with 10,000 zero bytes of a type first in its metadata."""
    parts = GLib.Variant.new_from_bytes(COMMIT, GLib.Bytes.new(commit), False)
    value = GLib.Variant.new_from_bytes(GLib.VariantType(of), GLib.Bytes.new(bytes(COUNT)), True)
    entry = GLib.Variant.new_dict_entry(GLib.Variant("s", "a.value"), GLib.Variant.new_variant(value))
    old = parts.get_child_value(0)
    entries = [entry] + [old.get_child_value(at) for at in range(old.n_children())]
    metadata = GLib.Variant.new_array(GLib.VariantType("{sv}"), entries)
    made = GLib.Variant.new_tuple(metadata, *[parts.get_child_value(at) for at in range(1, parts.n_children())])
    return made.get_data_as_bytes().get_data()


def offer(repo, commit):
    """Puts a commit into the remote, which offers it under the ref from then on. Gives its digest."""
    digest = hashlib.sha256(commit).hexdigest()
    place = repo / "objects" / digest[:2]
    place.mkdir(exist_ok=True)
    (place / f"{digest[2:]}.commit").write_bytes(commit)
    (repo / "refs" / "heads" / REF).write_text(f"{digest}\n")
    return digest


def peak_of_install(program, folder, repo, digest):
    """That of an install of what the remote offers, into an installation of its own."""
    env = {**os.environ, "FPK_INSTALLATION": str(folder / f"installation-{digest}")}
    subprocess.run([program, "remote-add", "lab", f"file://{repo}"], check=True, capture_output=True, env=env)
    return peak(folder, [program, "install", "lab", REF], b"", f"installed {REF} {digest}\n", env)


def peaks_of_commit(program, folder, repo, commit):
    """Those of a look at a commit and of its install."""
    digest = offer(repo, commit)
    shown = peak(folder, [program, "show", "commit"], commit, f"{digest} commit\n")
    return shown, peak_of_install(program, folder, repo, digest)


def rise(least, found):
    """Prints how far the highest of the peaks is above the least one, and gives it."""
    above = max(found) - least
    print(f"at most {above} KiB above the least")
    return above


def rise_of_values(program, folder):
    least = peak_of_value(program, folder, "()", 1)
    print(f"1 byte as an empty tuple: {least} KiB")
    found = []
    for name, of in rows(1, 9, 63):
        found.append(peak_of_value(program, folder, of, COUNT))
        print(f"{COUNT} bytes as {name}: {found[-1]} KiB")
    return rise(least, found)


def rises_of_commits(program, folder):
    repo, plain = made_remote(folder)
    least = peaks_of_commit(program, folder, repo, plain)
    print(f"a commit as ostree makes it: {least[0]} KiB shown, {least[1]} KiB installed")
    found = []
    for name, of in rows(1, 9, 53):
        found.append(peaks_of_commit(program, folder, repo, with_value(plain, of)))
        print(f"a commit with {COUNT} bytes as {name}: {found[-1][0]} KiB shown, {found[-1][1]} KiB installed")
    return [rise(least[0], [shown for shown, _ in found]), rise(least[1], [installed for _, installed in found])]


def main():
    if len(sys.argv) != 2:
        sys.exit(__doc__)
    program = os.path.abspath(sys.argv[1])
    with tempfile.TemporaryDirectory() as name:
        folder = pathlib.Path(name)
        rises = [rise_of_values(program, folder), *rises_of_commits(program, folder)]
    return 1 if max(rises) >= LIMIT else 0


if __name__ == "__main__":
    sys.exit(main())
