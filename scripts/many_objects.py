#!/usr/bin/python3
"""Prints `crates/fpk_cases/data/fsck-many.case`: stores of many objects, which are good, and then one with another byte.

The objects are files and links that `ostree commit` stored. It needs Debian's package ostree."""
import os, subprocess, tempfile

COUNTS = 200, 5000


def ostree(*words):
    subprocess.run(["ostree", *words], check=True, stdout=subprocess.DEVNULL)


def stored(folder, count):
    """A repository with this number of files and links, and the path of each object of them below it, ascending."""
    tree, repo = folder + "/tree", folder + "/repo"
    os.mkdir(tree)
    for number in range(count):
        if number % 2:
            os.symlink(str(number), f"{tree}/{number}")
        else:
            with open(f"{tree}/{number}", "w") as file:
                file.write(str(number))
            os.chmod(f"{tree}/{number}", 0o644)
    ostree("--repo=" + repo, "init", "--mode=bare-user-only")
    ostree("--repo=" + repo, "commit", "-b", "app/org.x.App/x86_64/stable", "--tree=dir=" + tree, "--timestamp=@7")
    found = []
    for above, _folders, files in os.walk(repo + "/objects"):
        found += [os.path.relpath(os.path.join(above, name), repo) for name in files if name.endswith(".file")]
    return repo, sorted(found)


def lines(repo, path, turn):
    """The lines of a case that give the object, with the lowest bit of its first byte turned where that is asked for."""
    whole = f"{repo}/{path}"
    if os.path.islink(whole):
        return f"@ repo/{path} {os.readlink(whole)}"
    content = open(whole).read()
    first = chr(ord(content[0]) ^ turn)
    return f"+- repo/{path}\n  {first}{content[1:]}"


def print_case(repo, paths):
    count = len(paths)
    files = [path for path in paths if not os.path.islink(f"{repo}/{path}")]
    bad = files[len(files) // 2]
    print(f"\ncase {count} objects are good, and one with another byte is bad")
    for path in paths:
        print(lines(repo, path, 0))
    print(f"$ fsck\n  fsck {count} objects, 0 bad")
    print(lines(repo, bad, 1))
    digits = bad[len("objects/"):].replace("/", "")
    print(f"$ fsck\n  bad {digits}\n  fsck {count} objects, 1 bad")


print("# Stores of many objects, as `scripts/many_objects.py` makes them of what `ostree` stored.")
for count in COUNTS:
    with tempfile.TemporaryDirectory() as folder:
        repo, paths = stored(folder, count)
        assert len(paths) == count
        print_case(repo, paths)
