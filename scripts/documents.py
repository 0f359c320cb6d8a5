#!/usr/bin/python3
"""Runs README.md and docs/GUIDE.md line by line, and compares what they show with what comes: `documents.py PROGRAM [SECTION..]`.

It clones the last commit with umask 077 and works in that clone, where `/srv`, `/tmp`, `/var/lib` and the home folder are its
own; it needs bwrap, git, ostree, python3 and xdg-dbus-proxy. Words after PROGRAM are sections that alone are run. A block of code that has `$` lines is a session: each command is
given to a shell as it stands, and the lines below it are compared with what the command writes, its standard error too. `...`
stands for any lines. A command that shows none has to end with status 0. A block that begins a function of the shell is read
by it, and a line of a crontab is run. Other blocks are only shown.

A section begins with a shell of its own, in the folder of the clone, after what PREPARED has for it. Words that stand for
something are what STANDS_FOR says. `rt` stands for the kit's here: `rt ci` puts PROGRAM, a built fpk, where the kit builds it,
and `rt try -- WORDS` runs it. With `--rt` it is the kit's, which takes an hour and more. The status is 0 where all came as shown.
"""

import os
import re
import shutil
import subprocess
import sys
import tempfile

TOP = os.path.realpath(os.path.join(os.path.dirname(os.path.abspath(__file__)), ".."))
DOCUMENTS = ["README.md", "docs/GUIDE.md"]
HELLO, PLATFORM = "app/org.example.Hello/x86_64/1", "runtime/org.example.Platform/x86_64/1"
STANDS_FOR = [
    (r"/path/to/INSTALLATION", "$FPK_INSTALLATION"),
    (r"file:///path/to", "file://$PWD"),
    (r"\bREF\b", HELLO),
    (r"\bURL\b", "file://$PWD/OLD"),
]
STORES = f"""
    fpk export hub {PLATFORM} <demo/platform.tree
    fpk export hub {HELLO} <demo/hello.tree
    fpk remote-add hub file://$FPK_INSTALLATION/made/hub
"""
TREE = """
    mkdir -p TREE/files/bin && printf 'hi\\n' >TREE/files/bin/hi
    printf '[Application]\\nname=org.x.App\\nruntime=org.x.Platform/x86_64/1\\n' >TREE/metadata
    printf 'timestamp 1\\nsubject t\\nfile metadata 644 5b52756e74696d655d0a6e616d653d6f72672e782e506c6174666f726d0a\\n' |
        fpk export lab runtime/org.x.Platform/x86_64/1
    chmod -R a+rX TREE
"""
# An installed Flatpak's repository has its refs below the name of their remote.
FLATPAK = f"""
    mkdir -p /var/lib/flatpak && ostree init --mode=archive-z2 --repo=OLD
    ostree init --mode=bare-user-only --repo=/var/lib/flatpak/repo
    for ref in {HELLO} {PLATFORM}; do
        ostree pull-local --repo=OLD $FPK_INSTALLATION/made/hub $ref
        ostree pull-local --repo=/var/lib/flatpak/repo --remote=flathub OLD $ref
    done
    fpk remote-add old file://$PWD/OLD
"""
CALL = (
    "6c01000100000000010000003000000001016f00020000002f6100000000000003017300010000004d000000000000000601730007000000"
    "6f72672e62617200"
)
FULL = """
    export FPK_INSTALLATION=/srv/old && fpk pin 'app/*/*/*' && mkdir -p /srv/old/repo/tmp
    head -c 1M /dev/zero >/srv/old/filled || true
"""
DAMAGED = f"""
    fpk install hub {HELLO} && touch $FPK_INSTALLATION/repo/objects/xx
    echo >>$FPK_INSTALLATION/repo/objects/e6/b2e6a670d1d53d3224f87e23b5a2f4dc5543d2c3ec5b4877533108e02bb2e6.file
"""
# What is done before a section.
PREPARED = {
    "A repository of another mode": STORES + FLATPAK,
    "Commands and exit statuses": FULL,
    "More commands, by example": f"""
    fpk export hub {HELLO} <demo/hello.tree
    printf 'c {CALL}\\n' >call
    """,
    "A remote without OSTree's tools": TREE,
    "Layout of an installation": STORES + DAMAGED + "FPK_INSTALLATION=/srv/apps fpk pin 'app/*/*/*'",
    "Starting an application": STORES,
}
# What of the run's folder stands where.
PLACES = {"srv": "/srv", "tmp": "/tmp", "lib": "/var/lib"}
SHIM = """#!/bin/sh
case $1 in
    ci) mkdir -p crates/fpk/out && cp /srv/bin/fpk crates/fpk/out/fpk ;;
    try) shift 2 && cd "$(mktemp -d)" && exec /srv/bin/fpk "$@" ;;
    *) echo "rt $*: not run here" >&2 && exit 1 ;;
esac
"""


class Shell:
    """A shell in a folder. What it is told is run in it, and what that writes comes back."""

    END = "=== the command has ended with"

    def __init__(self, folder, environment):
        streams = {"stdin": subprocess.PIPE, "stdout": subprocess.PIPE, "stderr": subprocess.STDOUT}
        self.shell = subprocess.Popen(["bash"], cwd=folder, env=environment, text=True, umask=0o077, **streams)

    def run(self, command):
        """The lines that a command writes, which has no input but what it says itself, and its status."""
        self.shell.stdin.write(f"{{ {command}\n}} </dev/null\nprintf '\\n%s %s\\n' '{self.END}' $?\n")
        self.shell.stdin.flush()
        lines = []
        for line in self.shell.stdout:
            if line.startswith(self.END):
                return lines[:-1] if lines[-1:] == [""] else lines, int(line.split()[-1])
            lines.append(line.rstrip("\n"))
        return lines, 1

    def end(self):
        self.shell.stdin.close()
        self.shell.wait()


def blocks_of(text):
    """The blocks of code of a document: of each its section, the number of its first line, and its lines."""
    blocks, section, before = [], "", ""
    for number, line in enumerate(text.splitlines(), 1):
        if line.startswith("## "):
            section = line[3:]
        goes_on = bool(blocks) and number == blocks[-1][1] + len(blocks[-1][2])
        if line.startswith("    ") and (goes_on or before == ""):
            if not goes_on:
                blocks.append((section, number, []))
            blocks[-1][2].append(line[4:])
        before = line
    return blocks


def commands_of(lines, number):
    """The commands of a block: of each the number of its line, its words, and the lines that are shown below it."""
    if re.match(r"\w+\(\) \($", lines[0]):
        return [(number, "\n".join(lines), [])]
    if re.match(r"(\S+ ){5}FPK_", lines[0]):
        return [(number, lines[0].split(" ", 5)[5] + "; true", [""])]
    commands = []
    for at, line in enumerate(lines, number):
        if line.startswith("$ "):
            commands.append((at, line[2:], []))
        elif commands:
            commands[-1][2].append(line)
    return commands


def agree(shown, came):
    """Whether these lines are those that are shown."""
    said = ("fpk: ", "usage: ")
    if not any(line.startswith(said) for line in shown):
        came = [line for line in came if not line.startswith(said)]
    pattern = "".join("(?:.*\n)*" if line == "..." else re.escape(line) + "\n" for line in shown)
    return re.fullmatch(pattern, "".join(line + "\n" for line in came)) is not None


def put(text):
    for pattern, words in STANDS_FOR:
        text = re.sub(pattern, lambda _, words=words: words, text)
    return text


class Run:
    """A run over the documents of a clone."""

    def __init__(self, clone, environment, only):
        self.clone, self.environment, self.only, self.ran, self.amiss = clone, environment, only, 0, 0

    def tell(self, place, command, shown, came):
        self.amiss += 1
        print(f"{place}: {command}", *[f"    shown: {it}" for it in shown], *[f"    came:  {it}" for it in came], sep="\n", flush=True)

    def command(self, shell, place, command, shown):
        came, status = shell.run(put(command))
        self.ran += 1
        if agree([put(line) for line in shown], came) if shown and shown != [""] else (status == 0 and not (shown and came)):
            return
        self.tell(place, command, shown, [*came, f"(status {status})"])

    def section(self, name, section, blocks):
        environment = dict(self.environment)
        if name != DOCUMENTS[0]:
            environment["FPK_INSTALLATION"] = f"/srv/{re.sub('[^a-z]', '', section.lower())[:12]}"
        shell = Shell(self.clone, environment)
        came, status = shell.run(f"set -e; {PREPARED.get(section, '')}\nset +e")
        if status:
            self.tell(f"{name}: {section}", "what is prepared", [], came)
        for number, lines in blocks:
            for at, command, shown in commands_of(lines, number):
                self.command(shell, f"{name}:{at}", command, shown)
        shell.end()

    def document(self, name):
        with open(os.path.join(self.clone, name), encoding="utf-8") as file:
            blocks = blocks_of(file.read())
        sections = dict.fromkeys(section for section, _, _ in blocks)
        for section in sections if not self.only else [it for it in sections if it in self.only]:
            self.section(name, section, [(number, lines) for it, number, lines in blocks if it == section])


def inside(arguments):
    """What is done where /srv is the run's own."""
    home = "/srv/home"
    os.makedirs(home)
    environment = {"HOME": home, "PATH": f"/srv/bin:{os.environ['PATH']}", "LANG": "C.UTF-8"}
    subprocess.run(["git", "clone", "-q", "/srv/fpk.git", "/srv/fpk"], check=True, umask=0o077)
    run = Run("/srv/fpk", environment, [it for it in arguments[2:] if it != "--rt"])
    for name in DOCUMENTS:
        run.document(name)
    rt = "the kit's rt" if "--rt" in arguments else "the program in place of rt"
    print(f"{run.ran} commands of {len(DOCUMENTS)} documents ran, with {rt}; {run.amiss} came otherwise than shown")
    return int(run.amiss > 0)


def main():
    if sys.argv[1] == "--inside":
        return inside(sys.argv)
    with tempfile.TemporaryDirectory() as folder:
        for name in ("srv/bin", "srv/old", "tmp", "lib"):
            os.makedirs(os.path.join(folder, name))
        subprocess.run(["git", "clone", "-q", "--bare", TOP, f"{folder}/srv/fpk.git"], check=True)
        shutil.copy(sys.argv[1], f"{folder}/srv/bin/fpk")
        if "--rt" not in sys.argv:
            with open(f"{folder}/srv/bin/rt", "w", encoding="ascii") as file:
                file.write(SHIM)
            os.chmod(f"{folder}/srv/bin/rt", 0o755)
        shutil.copy(os.path.abspath(__file__), f"{folder}/srv/documents.py")
        binds = [word for name in ("srv", "tmp", "lib") for word in ("--bind", f"{folder}/{name}", PLACES[name])]
        small = ["--size", "65536", "--tmpfs", "/srv/old"]
        words = ["bwrap", "--dev-bind", "/", "/", *binds, *small, "--chdir", "/srv", "--die-with-parent"]
        return subprocess.call([*words, sys.executable, "/srv/documents.py", "--inside", *sys.argv[2:]])


if __name__ == "__main__":
    sys.exit(main())
