#!/usr/bin/python3
"""Prints `crates/fpk_cases/data/exercise-most.case`: the longest exercise, and what is deployed after it.

The trees are made here, file by file, and the digests of their commits and files are those that `ostree` gives to them. It
needs Debian's package ostree."""
import os
import subprocess
import tempfile

APPLICATIONS = 64
RUNTIMES = 4
SIZE = 4096
# So many files of a tree are others in the second version.
CHANGED = 8


def ostree(repo, *words):
    done = subprocess.run(["ostree", "--repo=" + repo, *words], check=True, capture_output=True, text=True)
    return done.stdout


def content(start):
    return bytes((start + place) % 251 for place in range(SIZE))


def version_part(version, number):
    return version if number < CHANGED else 0


def runtime_files(number, version):
    files = {"metadata": f"[Runtime]\nname=org.gen.Run{number}\n".encode()}
    for j in range(32):
        files[f"files/lib{j}"] = content(11 * number + 5 * j + version_part(version, j))
    return files


def application_files(number, version):
    runtime = f"org.gen.Run{number % RUNTIMES}/x86_64/1"
    files = {"metadata": f"[Application]\nname=org.gen.App{number}\nruntime={runtime}\n".encode()}
    for j in range(64):
        files[f"files/f{j}"] = content(7 * number + 3 * j + version_part(version, j))
    for j in range(16):
        files[f"files/shared{j}"] = content(j)
    return files


def write_tree(tree, files, links):
    for path, data in files.items():
        os.makedirs(os.path.dirname(f"{tree}/{path}"), exist_ok=True)
        with open(f"{tree}/{path}", "wb") as file:
            file.write(data)
        os.chmod(f"{tree}/{path}", 0o644)
    for path, text in links.items():
        os.symlink(text, f"{tree}/{path}")
    for above, _folders, _files in os.walk(tree):
        os.chmod(above, 0o755)


def committed(repo, ref, files, links, version):
    """The digest of the commit of this tree, to which the ref is bound."""
    with tempfile.TemporaryDirectory() as tree:
        write_tree(tree, files, links)
        words = ["--no-xattrs", "--owner-uid=0", "--owner-gid=0", "--subject=gen", f"--timestamp=@{version}"]
        return ostree(repo, "commit", "--branch=" + ref, *words, "--tree=dir=" + tree).strip()


def commit_of(repo, ref, version):
    kind, name = ref.split("/")[:2]
    number = int(name.removeprefix("org.gen.App" if kind == "app" else "org.gen.Run"))
    if kind == "app":
        return committed(repo, ref, application_files(number, version), {"files/link": "f0"}, version)
    return committed(repo, ref, runtime_files(number, version), {}, version)


def deployed_lines(repo, ref, commit):
    """The lines of a case that say of each file of a deployed commit which object it is a hard link of."""
    for line in ostree(repo, "ls", "-R", "-C", commit).splitlines():
        mode, _uid, _gid, _size, digest, path, *target = line.split()
        if mode.startswith("-"):
            yield f"=& {ref}/{commit}{path} repo/objects/{digest[:2]}/{digest[2:]}.file"
        elif mode.startswith("l"):
            yield f"=@ {ref}/{commit}{path} {target[-1]}"


def application(number):
    return f"app/org.gen.App{number}/x86_64/1"


def runtime(number):
    return f"runtime/org.gen.Run{number}/x86_64/1"


def installs():
    for number in range(APPLICATIONS):
        if number < RUNTIMES:
            yield runtime(number)
        yield application(number)


def made(folder, version):
    """The repository of this version, and the commit of each ref."""
    repo = f"{folder}/{version}"
    ostree(repo, "init", "--mode=bare-user-only")
    return repo, {ref: commit_of(repo, ref, version) for ref in installs()}


def print_case(folder):
    refs = list(installs())
    _, old = made(folder, 1)
    repo, new = made(folder, 2)
    runtimes = sorted(ref for ref in refs if ref.startswith("runtime/"))
    applications = sorted(ref for ref in refs if ref.startswith("app/"))
    print(f"$ exercise {APPLICATIONS}\n  remote added gen")
    for ref in refs:
        print(f"  installed {ref} {old[ref]}")
    print("  remote modified gen")
    for ref in runtimes + applications:
        print(f"  updated {ref} {new[ref]}")
    for number in range(1, APPLICATIONS, 2):
        print(f"  uninstalled {application(number)}")
    for number in range(1, RUNTIMES, 2):
        print(f"  uninstalled {runtime(number)}")
    print(f"  exercise {APPLICATIONS}: {APPLICATIONS // 2} applications, {RUNTIMES // 2} runtimes")
    for ref in [runtime(0), runtime(2), *map(application, range(0, APPLICATIONS, 4))]:
        for line in deployed_lines(repo, ref, new[ref]):
            print(line)


print("# The longest exercise, as `scripts/made_applications.py` makes it of what `ostree` committed.")
print("\ncase the most applications, and each file of every second one that stays is a link of the store")
with tempfile.TemporaryDirectory() as folder:
    print_case(folder)
