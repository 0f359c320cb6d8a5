#!/usr/bin/python3
"""What fpk does to a real folder, seen from outside.

`real_folder.py PROGRAM` runs PROGRAM, a built fpk, in a folder of its own, and needs `ostree` and `strace`. It builds a runtime
of 1,000 files with `ostree commit`, installs it under a umask of 077, and tries that

- each object of the store has the modification time 0, as OSTree's have, and other files have not,
- files have their permission bits and folders 0755, whatever the umask,
- what `show` prints of an object that comes from elsewhere drives no terminal: a control byte of its texts is `\\` and two digits
  everywhere, and a character that turns the direction of text is an escape on a terminal and untouched in a pipe,
- nothing is said on standard error,
- a batch of 50 pins looks at the folders of the store as often as a batch of one: the store is walked once a command.

It prints how many system calls a file such an install makes under a umask of 022, by `strace -c`, and which they are. The status
is 0 where nothing was amiss.
"""

import os
import pty
import re
import shutil
import struct
import subprocess
import sys
import tempfile

FILES = 1000
REF = "runtime/org.example.Many/x86_64/1"
METADATA = "[Runtime]\nname=org.example.Many\nruntime=org.example.Many/x86_64/1\n"


def make_repository(repo, tree):
    """A repository with a runtime of many small files."""
    os.makedirs(os.path.join(tree, "files"))
    with open(os.path.join(tree, "metadata"), "w") as file:
        file.write(METADATA)
    for i in range(FILES):
        with open(os.path.join(tree, "files", f"file{i}"), "w") as file:
            file.write(f"the bytes of file {i}\n")
    subprocess.run(["ostree", "init", f"--repo={repo}", "--mode=bare-user-only"], check=True)
    subprocess.run(
        [
            "ostree",
            "commit",
            f"--repo={repo}",
            f"--branch={REF}",
            f"--tree=dir={tree}",
            "--canonical-permissions",
            f"--add-metadata-string=xa.metadata={METADATA}",
            f"--add-metadata-string=xa.ref={REF}",
        ],
        check=True,
        stdout=subprocess.DEVNULL,
    )


def commit_with_subject(subject):
    """A commit of OSTree, as bytes: (a{sv}aya(say)sstayay)."""
    body = subject + b"\0" + b"\0"
    ends = [len(body), len(subject) + 1, 0, 0, 0]
    body += b"\0" * (-len(body) % 8) + struct.pack(">Q", 0)
    body += b"\1" * 32
    ends.insert(0, len(body))
    return body + b"\2" * 32 + bytes(ends)


def on_terminal(program, data):
    """What a run prints to a terminal."""
    ours, theirs = pty.openpty()
    run = subprocess.Popen([program, "show", "commit"], stdin=subprocess.PIPE, stdout=theirs)
    os.close(theirs)
    run.stdin.write(data)
    run.stdin.close()
    printed = b""
    while True:
        try:
            piece = os.read(ours, 65536)
        except OSError:
            break
        if not piece:
            break
        printed += piece
    run.wait()
    return printed.replace(b"\r\n", b"\n")


def wrong_files(installation):
    """The objects of the store that have another time than 0, the other files that have it, and wrong bits."""
    times, bits = [], []
    store = os.path.join(installation, "repo", "objects")
    for folder, _, names in os.walk(installation):
        if os.stat(folder).st_mode & 0o7777 != 0o755:
            bits.append(folder)
        for name in names:
            path = os.path.join(folder, name)
            found = os.lstat(path)
            if not os.path.isfile(path) or os.path.islink(path):
                continue
            is_object = folder.startswith(store) or found.st_nlink > 1
            if is_object != (found.st_mtime == 0):
                times.append(path)
            if found.st_mode & 0o444 != 0o444:
                bits.append(path)
    return times, bits


def looks_at_the_store(program, environment, trace, batch):
    """How often a batch asks something of a path in the store."""
    run = subprocess.run(
        ["strace", "-f", "-y", "-e", "trace=%file,%desc", "-o", trace, program, "batch"],
        env=environment,
        input=batch,
        capture_output=True,
        text=True,
    )
    if run.returncode != 0:
        raise SystemExit(f"a batch of pins ended with status {run.returncode}: {run.stdout}{run.stderr}")
    with open(trace) as file:
        return sum("repo/objects" in line for line in file)


def count_calls(program, top, trace):
    """Prints how many system calls a file an install makes under a common umask."""
    environment = {"FPK_INSTALLATION": os.path.join(top, "counted"), "PATH": os.environ["PATH"]}
    before = os.umask(0o022)
    for words in (["remote-add", "lab", f"file://{top}/repo"], ["install", "lab", REF]):
        subprocess.run(
            ["strace", "-f", "-c", "-o", trace, program, *words], env=environment, check=True, stdout=subprocess.DEVNULL
        )
    os.umask(before)
    with open(trace) as file:
        rows = re.findall(r"^ *[\d.]+ +[\d.]+ +\d+ +(\d+) +(?:\d+ +)?(\w+)$", file.read(), re.M)
    calls = {name: int(count) for count, name in rows}
    total = calls.pop("total", sum(calls.values()))
    print(f"system calls a file: {total / FILES:.1f}")
    for name, count in sorted(calls.items(), key=lambda row: -row[1])[:12]:
        print(f"  {name} {count / FILES:.2f}")


def main():
    program = os.path.abspath(sys.argv[1])
    top = tempfile.mkdtemp()
    wrong = []

    def see(what, value, good):
        print(f"{what}: {value}")
        if not good:
            wrong.append(what)

    try:
        installation = os.path.join(top, "installation")
        environment = {"FPK_INSTALLATION": installation, "PATH": os.environ["PATH"]}
        make_repository(os.path.join(top, "repo"), os.path.join(top, "tree"))
        os.umask(0o077)
        added = subprocess.run(
            [program, "remote-add", "lab", f"file://{top}/repo"], env=environment, capture_output=True, text=True
        )
        trace = os.path.join(top, "trace")
        installed = subprocess.run(
            [program, "install", "lab", REF], env=environment, capture_output=True, text=True
        )
        print(added.stdout + installed.stdout, end="")
        see("said on standard error", repr(added.stderr + installed.stderr), added.stderr + installed.stderr == "")
        see("status", installed.returncode, installed.returncode == 0)
        count_calls(program, top, trace)
        times, bits = wrong_files(installation)
        see("times that are wrong", times[:3], not times)
        see("permission bits that are wrong", bits[:3], not bits)
        one, many = (
            looks_at_the_store(program, environment, trace, "".join(f"pin app/org.x.{name}{i}/*/*\n" for i in range(count)))
            for name, count in (("One", 1), ("Many", 50))
        )
        see("looks at the store in a batch of 1 and of 50 pins", (one, many), 0 < one == many)
        data = commit_with_subject("a\x1b[31m\u202eb".encode())
        shown = on_terminal(program, data)
        see("on a terminal", shown.decode().splitlines()[3], b"subject a\\1b[31m\\u{202e}b\n" in shown)
        piped = subprocess.run([program, "show", "commit"], input=data, capture_output=True).stdout
        see("in a pipe", piped.decode().splitlines()[3].encode(), "subject a\\1b[31m\u202eb\n".encode() in piped)
    finally:
        shutil.rmtree(top)
    if wrong:
        print("amiss: " + "; ".join(wrong))
    return 1 if wrong else 0


if __name__ == "__main__":
    sys.exit(main())
