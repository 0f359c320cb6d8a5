#!/usr/bin/python3
"""Shows that the line of a long command comes and goes on a terminal, and is written nowhere else.

`progress.py PROGRAM` runs PROGRAM, a built fpk, in a folder of its own, and needs `ostree` and `strace`. It builds a runtime of
1,000 files with `ostree commit`, and installs it while `strace` makes each sync last 20 milliseconds. It tries that

- where standard error is a terminal and standard output isn't, a line is written on standard error that names the runtime and
  says how many objects of the total there are, then how many files are synced and linked; no line is wider than 79 columns,
  nothing of it stands there in the end, and standard output has the command's own line alone,
- where both are one terminal, its screen shows the command's own line alone in the end,
- where standard error is no terminal, not one byte is written on it.

It prints what it saw; the status is 0 where nothing was amiss.
"""

import os
import pty
import re
import shutil
import subprocess
import sys
import tempfile

from real_folder import FILES, REF, make_repository

SLOW = ["strace", "-f", "-o", "/dev/null", "-e", "trace=fsync", "-e", "inject=fsync:delay_exit=20000"]
ID = REF.split("/")[1]
# A runtime has its files, the file `metadata`, and dirtrees and dirmetas besides.
FETCHED = re.compile(r" [0-9,]+ of [0-9,]{4,} objects, [0-9,]+ [KM]iB$")


def drain(terminal):
    """All that is written to a terminal, until the last process has closed it."""
    written = b""
    while True:
        try:
            piece = os.read(terminal, 65536)
        except OSError:
            return written
        if not piece:
            return written
        written += piece


def on_screen(written):
    """The lines that a terminal shows in the end, without spaces at their ends."""
    lines = []
    for row in written.replace(b"\r\n", b"\n").split(b"\n"):
        shown = b""
        for part in row.split(b"\r"):
            shown = part + shown[len(part) :]
        lines.append(shown.rstrip().decode())
    return [line for line in lines if line]


class Installs:
    """Installs of one runtime, each into a new installation."""

    def __init__(self, program, top):
        self.program, self.top, self.count = program, top, 0
        make_repository(os.path.join(top, "repo"), os.path.join(top, "tree"))

    def start(self, **streams):
        self.count += 1
        folder = os.path.join(self.top, f"installation{self.count}")
        environment = {"FPK_INSTALLATION": folder, "PATH": os.environ["PATH"]}
        words = [self.program, "remote-add", "lab", f"file://{self.top}/repo"]
        subprocess.run(words, env=environment, check=True, stdout=subprocess.DEVNULL)
        return subprocess.Popen([*SLOW, self.program, "install", "lab", REF], env=environment, **streams)

    def plain(self):
        """What an install prints and says where nothing is a terminal."""
        return self.start(stdout=subprocess.PIPE, stderr=subprocess.PIPE).communicate()

    def said(self):
        """The same where standard error is a terminal."""
        ours, theirs = pty.openpty()
        run = self.start(stdout=subprocess.PIPE, stderr=theirs)
        os.close(theirs)
        said = drain(ours)
        return run.communicate()[0], said

    def shown(self):
        """What is written where both are one terminal."""
        ours, theirs = pty.openpty()
        run = self.start(stdout=theirs, stderr=theirs)
        os.close(theirs)
        written = drain(ours)
        run.wait()
        return written


def main():
    program = os.path.abspath(sys.argv[1])
    top = tempfile.mkdtemp()
    wrong = []

    def see(what, value, good):
        print(f"{what}: {value}")
        if not good:
            wrong.append(what)

    try:
        installs = Installs(program, top)
        printed, said = installs.plain()
        see("printed", printed.decode().strip(), printed.startswith(b"installed ") and printed.count(b"\n") == 1)
        see("said where standard error is no terminal", said, said == b"")
        again, said = installs.said()
        see("printed beside a terminal", again.decode().strip(), again == printed)
        lines = [line.rstrip() for line in said.decode().split("\r") if line.strip()]
        see("lines said on it", len(lines), len(lines) > 1)
        see("the widest of them", max(map(len, lines)), max(map(len, lines)) < 80)
        named = [line for line in lines if line.startswith(f"installing {ID} ")]
        see("of which name the runtime", len(named), len(named) > 1)
        synced = [line for line in named if line.endswith(" synced")]
        see("the first that tells of a sync", synced[:1], bool(synced))
        linked = [line for line in named if line.endswith(f" of {FILES:,} files linked")]
        fetched = [line for line in named if FETCHED.search(line)]
        see("the last with objects or links of a total", (fetched + linked)[-1:], bool(fetched or linked))
        see("what stands there in the end", on_screen(said), on_screen(said) == [])
        written = installs.shown()
        see("lines said on one terminal", written.count(b"\rinstalling "), b"\rinstalling " in written)
        shown = on_screen(written)
        see("what it shows in the end", shown, shown == [printed.decode().rstrip("\n")])
    finally:
        shutil.rmtree(top)
    if wrong:
        print("amiss: " + "; ".join(wrong))
    return 1 if wrong else 0


if __name__ == "__main__":
    sys.exit(main())
