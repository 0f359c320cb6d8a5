#!/usr/bin/python3
"""Runs fpk with standard input, output and error closed, and looks for what was printed in its files.

`closed_streams.py PROGRAM` runs PROGRAM, a built fpk, on folders of its own, and needs `ostree`. Each of eight sets of the three is
closed, and several commands are run that change the installation and that look at it. A file that is opened gets the lowest number
that is free, so a program that doesn't mind that prints into its own files.

A twin runs with all three open, but with a full device as standard output where it is closed in the other run, and with a folder as
standard input, which can't be read. After each command the status and every file of the two have to be the same, and `.lock` without
a mark.

Then what only prints is run with a pipe as standard output that nobody reads any more, as `fpk --help | head -1` has it: the status is 3,
and nothing stands on standard error. A change says there that it could not print.

The status is 1 where something was amiss, and each such place is printed.
"""

import itertools
import os
import pathlib
import shutil
import subprocess
import sys
import tempfile

REF = "app/org.x.A/x86_64/1"
RUNTIME = "runtime/org.x.P/x86_64/1"

# What a lock file holds while all is synced: nothing yet, or a line of dashes.
UNMARKED = (None, b"", b"-" * 36 + b"\n")


def run(program, folder, words, closed=(), refusing=()):
    """The status of a run. Of the three, some are closed as it begins, and some refuse all that is asked of them."""

    def close():
        for number in closed:
            os.close(number)

    with open("/dev/full", "wb") as full:
        top = os.open("/", os.O_RDONLY)
        done = subprocess.run(
            [program, *words],
            env={"FPK_INSTALLATION": folder, "PATH": os.environ["PATH"]},
            stdin=top if 0 in refusing else subprocess.DEVNULL,
            stdout=full if 1 in refusing else subprocess.DEVNULL,
            stderr=full if 2 in refusing else subprocess.DEVNULL,
            preexec_fn=close,
            check=False,
        )
        os.close(top)
        return done.returncode


def files_of(folder):
    """The bytes of each file below a folder, by its path there."""
    files = {}
    for at, _, names in os.walk(folder):
        for name in names:
            path = os.path.join(at, name)
            if os.path.isfile(path) and not os.path.islink(path):
                files[os.path.relpath(path, folder)] = pathlib.Path(path).read_bytes()
    return files


def commit(remote, name, metadata):
    """Commits a ref of one file, with this metadata."""
    with tempfile.TemporaryDirectory() as tree:
        os.umask(0o022)
        pathlib.Path(tree, "metadata").write_text(metadata, encoding="ascii")
        os.mkdir(os.path.join(tree, "files"))
        pathlib.Path(tree, "files", "word").write_text(name, encoding="ascii")
        words = [f"--repo={remote}", "commit", f"--branch={name}", "--canonical-permissions"]
        text = f"--add-metadata-string=xa.metadata={metadata}"
        subprocess.run(["ostree", *words, text, tree], stdout=subprocess.DEVNULL, check=True)


def remote_in(top):
    """A remote with an application and its runtime."""
    remote = os.path.join(top, "remote")
    subprocess.run(["ostree", f"--repo={remote}", "init", "--mode=bare-user-only"], check=True)
    commit(remote, RUNTIME, "[Runtime]\nname=org.x.P\n")
    commit(remote, REF, "[Application]\nname=org.x.A\nruntime=org.x.P/x86_64/1\n")
    return remote


def commands(remote):
    """Commands in their order."""
    return [
        ["remote-add", "hub", f"file://{remote}"],
        ["install", "hub", REF],
        ["install", "hub", REF],
        ["pin", "app/org.x.A/*/*"],
        ["override", "--share=network", "org.x.A"],
        ["list"],
        ["list", "--pins"],
        ["launch", REF],
        ["filter", f"--from={REF}"],
        ["fsck"],
        ["nothing"],
        ["uninstall", REF],
        ["uninstall", REF],
        ["batch"],
    ]


def unread(program, folder, words):
    """The status of a run whose output nobody reads, and what it says."""
    reading, writing = os.pipe()
    os.close(reading)
    done = subprocess.run(
        [program, *words],
        env={"FPK_INSTALLATION": folder, "PATH": os.environ["PATH"]},
        stdin=subprocess.DEVNULL,
        stdout=writing,
        stderr=subprocess.PIPE,
        check=False,
    )
    os.close(writing)
    return done.returncode, done.stderr


def try_unread(program, top, remote):
    """What is amiss where nobody reads what is printed, and how many runs it took."""
    folder = os.path.join(top, "unread")
    for words in commands(remote)[:4]:
        run(program, folder, words)
    quiet = [["--help"], ["--version"], ["list"], ["list", "--pins"], ["list", "--remotes"], ["info", REF], ["launch", REF], ["fsck"]]
    told = [["pin", "app/org.x.B/*/*"]]
    wrong = []
    for words in quiet + told:
        status, said = unread(program, folder, words)
        if status != 3 or (said == b"") != (words in quiet):
            wrong.append(f"{words} into a pipe that nobody reads: status {status}, {said}")
    return wrong, len(quiet + told)


def main():
    program = os.path.abspath(sys.argv[1])
    top = tempfile.mkdtemp()
    wrong, count = [], 0
    try:
        remote = remote_in(top)
        tried, twin = os.path.join(top, "tried"), os.path.join(top, "twin")
        for size in range(4):
            for numbers in itertools.combinations(range(3), size):
                for words in commands(remote):
                    count += 1
                    status = run(program, tried, words, closed=numbers)
                    wanted = run(program, twin, words, refusing=numbers)
                    if status != wanted:
                        wrong.append(f"{words} without {numbers}: status {status}, not {wanted}")
                    files = files_of(tried)
                    if files != files_of(twin) or files.get(".lock") not in UNMARKED:
                        wrong.append(f"{words} without {numbers}: other files")
                for it in (tried, twin):
                    shutil.rmtree(it, ignore_errors=True)
        more, tries = try_unread(program, top, remote)
        wrong, count = wrong + more, count + tries
    finally:
        shutil.rmtree(top)
    print(f"runs: {count}, amiss: {len(wrong)}")
    for it in wrong:
        print(it)
    return 1 if wrong else 0


if __name__ == "__main__":
    sys.exit(main())
