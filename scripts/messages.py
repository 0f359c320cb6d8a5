#!/usr/bin/python3
"""Prints docs/MESSAGES.md: what fpk says of its refusals and of common slips, beside what flatpak or ostree says of the same.

usage: messages.py FPK >docs/MESSAGES.md

FPK is the program that was built. It needs bwrap, flatpak, ostree and xdg-dbus-proxy. `flatpak build-export` makes a repository
of the mode bare-user-only with an application and its runtime. Each row has a copy of it, and of an installation of both, which
stands at /srv while the row's words run. A row has what comes before, of which nothing is shown, fpk's words, and those of
another tool, where one has the like.
"""

import hashlib
import os
import shutil
import subprocess
import sys
import tempfile

APP, PLATFORM = "app/org.example.Hello/x86_64/1", "runtime/org.example.Platform/x86_64/1"
QUIET = "--user --noninteractive"
# Both tools have the remote `hub`.
MADE = f"""
    mkdir -p platform/files platform/usr/bin && printf '#!/bin/sh\\n' >platform/usr/bin/greet
    printf '[Runtime]\\nname=org.example.Platform\\nruntime=org.example.Platform/x86_64/1\\n' >platform/metadata
    ostree init --mode=bare-user-only --repo=hub
    EXPORT="flatpak build-export --disable-sandbox --no-update-summary --arch=x86_64 --timestamp=2026-01-02T00:00:00Z"
    $EXPORT --runtime hub platform 1 && ostree summary -u --repo=hub
    flatpak remote-add --user --no-gpg-verify hub file:///srv/hub && flatpak install {QUIET} hub {PLATFORM}
    flatpak build-init --arch=x86_64 hello org.example.Hello org.example.Platform org.example.Platform 1
    mkdir -p hello/files/bin && printf '#!/bin/sh\\necho Hello\\n' >hello/files/bin/hello && chmod 755 hello/files/bin/hello
    flatpak build-finish hello --command=hello --share=network
    $EXPORT hub hello 1 && ostree summary -u --repo=hub
    flatpak uninstall {QUIET} {PLATFORM} && fpk remote-add hub file:///srv/hub
"""
INSTALLED = f"fpk install hub {APP} && flatpak install {QUIET} hub {APP}"
COMMIT = f"ostree commit --repo=hub --owner-uid=0 --owner-gid=0 --no-xattrs -b {APP} --tree=dir=hello --timestamp=@1767571200"
# The object of the application's program.
OBJECT = f"$(ostree ls -C --repo=hub {APP} /files/bin/hello | awk '{{ print substr($5, 1, 2) \"/\" substr($5, 3) \".file\" }}')"
METADATA = '"--add-metadata-string=xa.metadata=$(cat hello/metadata)"'
PULL = f"ostree pull --repo=mine hub {APP}"
MINE = "ostree init --mode=bare-user-only --repo=mine; ostree remote add --no-gpg-verify --repo=mine hub file:///srv/hub"


def put_object(repo, kind, data):
    """Puts an object into a repository, and answers its digest."""
    name = hashlib.sha256(data).hexdigest()
    os.makedirs(f"{repo}/objects/{name[:2]}", exist_ok=True)
    with open(object_path(repo, name, kind), "wb") as file:
        file.write(data)
    return name


def object_path(repo, name, kind):
    return f"{repo}/objects/{name[:2]}/{name[2:]}.{kind}"


def put_malformed(folder):
    """Offers another commit of the application, whose root's dirmeta has the mode of a file."""
    repo, ref = f"{folder}/hub", f"{folder}/hub/refs/heads/{APP}"
    with open(ref, encoding="ascii") as file:
        commit = object_path(repo, file.read().strip(), "commit")
    with open(commit, "rb") as file:
        before = file.read()
    metas = [bytes.fromhex(above[-2:] + name[:-8]) for above, _, names in os.walk(f"{repo}/objects") for name in names if name.endswith(".dirmeta")]
    meta = next(it for it in metas if it in before)
    with open(object_path(repo, meta.hex(), "dirmeta"), "rb") as file:
        data = file.read()
    bad = put_object(repo, "dirmeta", data[:8] + (0o100644).to_bytes(4, "big") + data[12:])
    with open(ref, "w", encoding="ascii") as file:
        file.write(put_object(repo, "commit", before.replace(meta, bytes.fromhex(bad))) + "\n")
    subprocess.run(["ostree", "summary", "-u", "--repo", repo], check=True)


class Row:
    """A kind of words, what comes before them, fpk's, and another tool's."""

    def __init__(self, title, fpk, other=None, before="", why=""):
        self.title, self.fpk, self.other, self.before, self.why = title, fpk, other, before, why


REFUSALS = [
    Row("words N", "fpk isntall", "flatpak isntall"),
    Row("no remote NAME", f"fpk install nowhere {APP}", f"flatpak install {QUIET} nowhere {APP}"),
    Row("remote exists NAME", "fpk remote-add hub file:///srv/hub", f"flatpak remote-add --user hub file:///srv/hub"),
    Row("remote in use NAME REF", "fpk remote-delete hub", "flatpak remote-delete --user hub </dev/null", INSTALLED),
    Row(
        "remote mode NAME -",
        f"fpk install gone {APP}",
        f"flatpak install {QUIET} gone {APP}",
        f"fpk remote-add gone file:///srv/gone; flatpak remote-add --user --no-gpg-verify gone file:///srv/gone",
    ),
    Row(
        "remote mode NAME MODE",
        f"fpk install old {APP}",
        None,
        "ostree init --mode=archive-z2 --repo=old; fpk remote-add old file:///srv/old",
        "flatpak reads each mode.",
    ),
    Row("no ref NAME REF", "fpk install hub app/org.example.Hello/x86_64/2", f"flatpak install {QUIET} hub app/org.example.Hello/x86_64/2"),
    Row("installed REF", f"fpk install hub {APP}", f"flatpak install {QUIET} hub {APP}", INSTALLED),
    Row("not installed REF", f"fpk uninstall {APP}", f"flatpak uninstall {QUIET} {APP}"),
    Row(
        "runtime missing REF",
        f"fpk install hub {APP}",
        f"flatpak install {QUIET} hub {APP}",
        f"ostree refs --repo=hub --delete {PLATFORM}; ostree summary -u --repo=hub",
    ),
    Row("runtime in use REF APP", f"fpk uninstall {PLATFORM}", f"flatpak uninstall {QUIET} {PLATFORM}", INSTALLED),
    Row("missing object O", f"fpk install hub {APP}", f"flatpak install {QUIET} hub {APP}", f"rm hub/objects/{OBJECT}"),
    Row("corrupt object O DIGEST", f"fpk install hub {APP}", f"flatpak install {QUIET} hub {APP}", f"echo >>hub/objects/{OBJECT}"),
    Row("malformed object O RULE", f"fpk install hub {APP}", f"flatpak install {QUIET} hub {APP}", put_malformed),
    Row(
        "mode refused O BITS",
        f"fpk install hub {APP}",
        f"ostree pull-local --repo=mine old {APP}",
        f"chmod 4755 hub/objects/{OBJECT}; {MINE}; ostree init --mode=archive-z2 --repo=old; chmod 4755 hello/files/bin/hello; "
        f"ostree commit --repo=old -b {APP} --tree=dir=hello",
    ),
    Row(
        "reserved name COMMIT",
        f"fpk install hub {APP}",
        f"flatpak install {QUIET} hub {APP}",
        f"touch hello/deploy; {COMMIT} {METADATA}; ostree summary -u --repo=hub",
    ),
    Row(
        "metadata REF LINE RULE",
        f"fpk install hub {APP}",
        f"flatpak install {QUIET} hub {APP}",
        f"echo 'name' >hello/metadata; {COMMIT} --add-metadata-string=xa.metadata=name; "
        "ostree summary -u --repo=hub",
    ),
    Row(
        "ref binding REF",
        "fpk install hub app/org.example.Other/x86_64/1",
        f"flatpak install {QUIET} hub app/org.example.Other/x86_64/1",
        f"mkdir -p hub/refs/heads/app/org.example.Other/x86_64; cp hub/refs/heads/{APP} hub/refs/heads/app/org.example.Other/x86_64/1; "
        "ostree summary -u --repo=hub",
    ),
    Row(
        "older REF HAVE OFFERED",
        f"fpk update {APP}",
        f"ostree pull -T --repo=mine hub {APP}",
        f"{INSTALLED}; {MINE}; {PULL}; {COMMIT} --timestamp=@1; ostree summary -u --repo=hub",
    ),
    Row(
        "pin exists PATTERN",
        "fpk pin 'runtime/org.example.Platform/*/*'",
        f"flatpak pin --user 'runtime/org.example.Platform/*/*'",
        f"fpk pin 'runtime/org.example.Platform/*/*'; flatpak pin --user 'runtime/org.example.Platform/*/*'",
    ),
    Row("no pin PATTERN", "fpk unpin 'runtime/org.x.None/*/*'", f"flatpak pin --user --remove 'runtime/org.x.None/*/*'"),
    Row("limit WHAT N", "fpk batch <pins | tail -1", None, "for i in $(seq 1025); do echo \"pin runtime/org.x.P$i/*/*\"; done >pins"),
    Row("record N", "printf 'timestamp 0\\nblob x\\n' | fpk export lab app/org.x.App/x86_64/stable"),
    Row("message SIDE N RULE", "printf 'c 6c01\\nc 7801000100\\n' | fpk filter --talk=org.bar"),
    Row("damaged PATH", "fpk list", "ostree refs --repo=hub", "echo 'what is this' >>installation/config; echo 'what is this' >>hub/config"),
    Row("no previous REF", f"fpk rollback {APP}", None, INSTALLED, "flatpak goes to a commit that is named, and to none before."),
]
SLIPS = [
    Row("No words", "fpk", "flatpak </dev/null"),
    Row("A command of another tool", "fpk remove org.example.Hello", "flatpak erase org.example.Hello"),
    Row("A command that isn't there yet", "fpk run org.example.Hello", "flatpak run --user org.example.None"),
    Row("Nothing to install", "fpk install", f"flatpak install {QUIET}"),
    Row("No remote", f"fpk install {APP}", f"flatpak install {QUIET} org.example.None"),
    Row("An ID in the place of a ref", "fpk install hub org.example.Hello", f"flatpak install {QUIET} hub org.example.Hell"),
    Row("A part of a ref is missing", "fpk install hub app/org.example.Hello/x86_64", f"flatpak install {QUIET} hub app/org.example.Hello/x86_64"),
    Row("A slash too many", f"fpk install hub {APP}/", f"flatpak install {QUIET} hub {APP}/"),
    Row("Another architecture", "fpk install hub app/org.example.Hello/arm/1", f"flatpak install {QUIET} hub app/org.example.Hello/arm/1"),
    Row("An option of flatpak's", f"fpk install --user hub {APP}", f"flatpak install {QUIET} --usr hub {APP}"),
    Row("Two refs", f"fpk install hub {APP} {PLATFORM}", None, "", "flatpak installs both."),
    Row("An ID to be taken away", "fpk uninstall org.example.Hello", f"flatpak uninstall {QUIET} org.example.None", INSTALLED),
    Row("A folder in the place of a URL", "fpk remote-add lab /srv/hub", f"flatpak remote-add --user lab /srv/none"),
    Row("A URL of a server", "fpk remote-add lab https://localhost/repo", f"flatpak remote-add --user lab https://localhost:1/repo"),
    Row("A blank in a name", "fpk remote-add 'my lab' file:///srv/hub", f"flatpak remote-add --user 'my lab' file:///srv/hub"),
    Row("An option without its value", "fpk override --filesystem home org.example.Hello", "flatpak override --user --filesystem"),
    Row("A variable without a text", "fpk override --env=FOO org.example.Hello", "flatpak override --user --env=FOO org.example.Hello", INSTALLED),
    Row("A bus name without a dot", "fpk override --talk-name=foo org.example.Hello", "flatpak override --user --talk-name=foo org.example.Hello", INSTALLED),
    Row("A share that is none", "fpk override --share=netwrk org.example.Hello", "flatpak override --user --share=netwrk org.example.Hello", INSTALLED),
    Row("A socket in capitals", "fpk override --nosocket=X11 org.example.Hello", "flatpak override --user --nosocket=X11 org.example.Hello", INSTALLED),
    Row("An override that says nothing", "fpk override org.example.Hello", "flatpak override --user org.example.Hello", INSTALLED),
    Row("Options after the ID", "fpk override org.example.Hello --share=network", "flatpak override --user org.example.Hello --share=network", INSTALLED),
    Row("Help of a command", "fpk install --help", "flatpak install --help | head -4"),
    Row("An application that isn't there", "fpk override --share=network org.example.Helo", "flatpak override --user --share=network org.example.Helo"),
    Row("A place with another name", "fpk override --nofilesystem=home org.example.Hello", "flatpak override --user --nofilesystem=home org.example.Hello", INSTALLED),
    Row("An update of what isn't there", f"fpk update {APP}", f"flatpak update {QUIET} {APP}"),
    Row("A folder that isn't there", "FPK_INSTALLATION=/srv/none fpk list", "ostree refs --repo=none"),
    Row("A folder that may not be written", f"FPK_INSTALLATION=/proc/none fpk pin 'app/*/*/*'", "ostree init --repo=/proc/none"),
    Row("A description from a folder", "fpk export lab app/org.x.App/x86_64/1 </srv/hub"),
]
HEAD = """# What fpk says, beside flatpak and ostree

Printed by `scripts/messages.py`, which runs them: fpk as it is built here, flatpak {flatpak} and ostree {ostree}, over one
repository with an application and its runtime. Where neither has the like, fpk's words stand alone. `(status N)` is what the
command ended with.
"""


class Bench:
    """A folder that stands at /srv for each command, a copy of it for each row."""

    def __init__(self, folder, program):
        self.folder = folder
        os.makedirs(f"{folder}/base/bin")
        shutil.copy(program, f"{folder}/base/bin/fpk")
        came, status = self.run("base", f"set -e\n{MADE}")
        if status:
            sys.exit(f"messages.py: {came}")

    def run(self, name, words):
        """What words write, and their status."""
        place = f"{self.folder}/{name}"
        environment = {
            "PATH": f"/srv/bin:{os.environ['PATH']}",
            "HOME": "/srv/home",
            "LANG": "C.UTF-8",
            "FPK_INSTALLATION": "/srv/installation",
            "FLATPAK_USER_DIR": "/srv/user",
            "XDG_DATA_DIRS": "/srv/user/exports/share:/usr/share",
        }
        inside = ["bwrap", "--dev-bind", "/", "/", "--bind", place, "/srv", "--chdir", "/srv", "--die-with-parent", "bash", "-o", "pipefail", "-c", words]
        done = subprocess.run(inside, env=environment, stdout=subprocess.PIPE, stderr=subprocess.STDOUT, stdin=subprocess.DEVNULL)
        return done.stdout.decode(errors="replace").rstrip("\n"), done.returncode

    def row(self, row):
        shutil.rmtree(f"{self.folder}/row", ignore_errors=True)
        shutil.copytree(f"{self.folder}/base", f"{self.folder}/row", symlinks=True)
        if callable(row.before):
            row.before(f"{self.folder}/row")
        else:
            self.run("row", row.before)
        print(f"\n### {row.title}\n")
        self.show(row.fpk)
        if row.other:
            print()
            self.show(row.other)
        if row.why:
            print(f"\n{row.why}")

    def show(self, words):
        came, status = self.run("row", words)
        shown = words.removesuffix(" </dev/null")
        print("    $ " + (shown.replace(f" {QUIET}", "").replace(" --user", "") if shown.startswith("flatpak") else shown))
        for line in came.split("\n") if came else []:
            print("    " + line.rstrip() if line.strip() else "")
        print(f"    (status {status})")


def version(tool):
    return subprocess.run([tool, "--version"], capture_output=True, text=True, check=True).stdout.split("Version:")[-1].split()[-1 if tool == "flatpak" else 0].strip("'")


def main():
    if len(sys.argv) != 2:
        sys.exit(__doc__)
    with tempfile.TemporaryDirectory() as folder:
        bench = Bench(folder, os.path.abspath(sys.argv[1]))
        print(HEAD.format(flatpak=version("flatpak"), ostree=version("ostree")))
        print("## Refusals")
        for row in REFUSALS:
            bench.row(row)
        print("\n## Slips")
        for row in SLIPS:
            bench.row(row)


if __name__ == "__main__":
    main()
