#!/usr/bin/python3
"""Installs the package on a clean Debian, and runs the tour of README there as a user without rights: `installed.py PACKAGE FOLDER`.

PACKAGE is what `scripts/package.sh` made. FOLDER gets a clean system by debootstrap, unless it has one already. It needs a
network, debootstrap, bwrap and the rights of root. `apt-get install` brings the package with what it depends on, and then
bubblewrap and python3 for `demo/sandbox.py`. The user has the folder `demo` of the package's examples. Each command of the tour
is given to a shell as it stands, after `start.sh`, and compared with what README shows. The status is 0 where all came as shown.
"""

import os
import shutil
import subprocess
import sys

import documents

USER = "1000"
START = "export FPK=fpk; ln -s /usr/share/doc/fpk/examples demo; sh demo/start.sh"
SECTION = "A short tour"


def in_system(folder, *words):
    """A program in the system, with the rights of root."""
    # A sandbox in it mounts /proc, which it may only where the whole of it stands here.
    binds = [word for it in ("/dev", "/proc") for word in ("--dev-bind", it, it)]
    return ["bwrap", "--bind", folder, "/", *binds, "--ro-bind", "/etc/resolv.conf", "/etc/resolv.conf", *words]


def install(folder, package):
    if not os.path.isdir(f"{folder}/usr"):
        subprocess.run(["debootstrap", "--variant=minbase", "stable", folder], check=True)
    shutil.copy(package, f"{folder}/fpk.deb")
    install = "apt-get update -q && apt-get install -qy --no-install-recommends"
    subprocess.run(in_system(folder, "sh", "-c", f"{install} /fpk.deb && fpk --version"), check=True)
    subprocess.run(in_system(folder, "sh", "-c", f"{install} bubblewrap python3"), check=True)
    shutil.rmtree(f"{folder}/home/guest", ignore_errors=True)
    os.makedirs(f"{folder}/home/guest")
    os.chown(f"{folder}/home/guest", int(USER), int(USER))


class GuestShell(documents.Shell):
    """A shell of the user in the system."""

    def __init__(self, folder):
        rights = ["setpriv", f"--reuid={USER}", f"--regid={USER}", "--clear-groups", "--no-new-privs"]
        words = in_system(folder, "--clearenv", "--setenv", "HOME", "/home/guest", "--setenv", "PATH", "/usr/bin:/bin")
        streams = {"stdin": subprocess.PIPE, "stdout": subprocess.PIPE, "stderr": subprocess.STDOUT}
        self.shell = subprocess.Popen([*words, "--chdir", "/home/guest", *rights, "bash"], text=True, umask=0o077, **streams)


def tour(folder):
    """How many commands ran, and how many came otherwise than shown."""
    with open(os.path.join(documents.TOP, "README.md"), encoding="utf-8") as file:
        blocks = [(number, lines) for section, number, lines in documents.blocks_of(file.read()) if section == SECTION]
    shell, ran, amiss = GuestShell(folder), 0, 0
    commands = [command for number, lines in blocks for command in documents.commands_of(lines, number)]
    for at, command, shown in [(0, START, ["..."]), *commands]:
        came, status = shell.run(command)
        ran += 1
        if status not in (0, 1) or not documents.agree(shown or ["..."], came):
            amiss += 1
            print(f"README.md:{at}: {command}", *[f"    came: {line}" for line in came], f"    (status {status})", sep="\n")
    shell.end()
    return ran, amiss


def main():
    if len(sys.argv) != 3:
        sys.exit(__doc__)
    package, folder = map(os.path.abspath, sys.argv[1:])
    install(folder, package)
    ran, amiss = tour(folder)
    print(f"{ran} commands ran in {folder}; {amiss} came otherwise than shown")
    return int(amiss > 0)


if __name__ == "__main__":
    sys.exit(main())
