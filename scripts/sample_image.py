#!/usr/bin/env python3
"""Prints the objects of a small installation as definitions.

    scripts/sample_image.py >crates/fl_samples/specs/Objects.antt

The real `ostree` commits an application at three times, its runtime and its extension, in a repository of the mode
bare-user-only. Of each object its digest, its name and its bytes are printed, and of each kept commit the record that
stands beside its tree. It needs Debian's package ostree. The same trees give the same objects, so a second run prints
the same.
"""
import os
import pathlib
import struct
import subprocess
import tempfile
import textwrap

APP = "app/o.x.A/x86_64/s"
LOCALE = "runtime/o.x.A.L/x86_64/s"
PLATFORM = "runtime/o.x.P/x86_64/1"
ORIGIN = b"hub"

APP_METADATA = b"[Application]\nname=o.x.A\nruntime=o.x.P/x86_64/1\ncommand=a\n[Extension o.x.A.L]\ndirectory=l\n"
DESKTOP = b"[Desktop Entry]\nName=A\nExec=a %U\nTryExec=a\n"


def app_tree(program):
    """The files and links of the application; only its program differs from time to time."""
    return {
        "metadata": APP_METADATA,
        "export/share/applications/o.x.A.desktop": DESKTOP,
        "export/share/icons/hicolor/1/apps/o.x.A.png": b"icon\n",
        "files/a": program,
        "files/l": "a",
    }


# The name of each commit here, its ref, its tree and its time.
COMMITS = [
    ("old", APP, app_tree(b"old\n"), 1),
    ("app", APP, app_tree(b"a\n"), 2),
    ("new", APP, app_tree(b"new\n"), 3),
    ("locale", LOCALE, {"metadata": b"[Runtime]\nname=o.x.A.L\n"}, 1),
    ("platform", PLATFORM, {"metadata": b"[Runtime]\nname=o.x.P\n"}, 1),
]

# What the paths of a tree are called.
PLACES = {
    "/": "root",
    "/metadata": "metadata",
    "/export": "export",
    "/export/share": "share",
    "/export/share/applications": "applications",
    "/export/share/applications/o.x.A.desktop": "desktop",
    "/export/share/icons": "icons",
    "/export/share/icons/hicolor": "hicolor",
    "/export/share/icons/hicolor/1": "size",
    "/export/share/icons/hicolor/1/apps": "apps",
    "/export/share/icons/hicolor/1/apps/o.x.A.png": "icon",
    "/files": "files",
    "/files/a": "program",
    "/files/l": "link",
}
# What the application's commits don't share.
OWN = ("root", "files", "program")
KINDS = {"commit": "Commit", "dirtree": "DirTree", "dirmeta": "DirMeta", "file": "File"}


def ran(*words):
    return subprocess.run(words, check=True, capture_output=True, text=True).stdout


def make_tree(folder, tree):
    for name, content in tree.items():
        path = folder / name
        path.parent.mkdir(parents=True, exist_ok=True)
        if isinstance(content, str):
            path.symlink_to(content)
        else:
            path.write_bytes(content)
            path.chmod(0o755 if name == "files/a" else 0o644)


def commit(repo, folder, ref, time):
    """The commit of the folder, bound to the ref, as the repository's objects."""
    options = ["--canonical-permissions", f"--branch={ref}", f"--timestamp=@{time}", "--subject="]
    return ran("ostree", f"--repo={repo}", "commit", *options, str(folder)).strip()


def listed(repo, digest):
    """The digest of each file or link, and those of each directory's dirtree and dirmeta, by their paths."""
    for line in ran("ostree", f"--repo={repo}", "ls", "-RC", digest).splitlines():
        front, _, path = line.partition(" /")
        words = front.split()
        path = "/" + path.split(" -> ")[0]
        yield path, words[4:]


def numbers(data, indent=6):
    """The bytes as a list of numbers, in short lines; all but the first are indented so."""
    lines = textwrap.wrap(" ".join(f"{byte}_∷" for byte in data) + " []", 92)
    return ("\n" + indent * " ").join(lines).replace("_∷", " ∷")


def text(data):
    """The bytes as a text where they are plain, else as numbers."""
    if not all(32 <= byte < 127 or byte == 10 for byte in data):
        return numbers(data)
    said = data.decode().replace("\\", "\\\\").replace('"', '\\"').replace("\n", "\\n")
    return f'codes "{said}"'


def define(name, of, value, comment):
    print(f"\n-- {comment}\nabbrev pub {name} : {of}\n{name} = {value}")


def record(commit, time, previous=None):
    """The record of a deployed commit: a value of the type (sstm(st)), with the bytes of numbers from the lowest on."""
    front = ORIGIN + b"\0" + commit.encode() + b"\0"
    said = front + bytes(-len(front) % 8) + struct.pack("<Q", time)
    if previous:
        inner = previous[0].encode() + b"\0"
        said += inner + bytes(-len(inner) % 8) + struct.pack("<Q", previous[1]) + bytes([len(inner)]) + b"\0"
    return said + bytes([len(front), len(ORIGIN) + 1])


class Objects:
    """The objects that were told, each once."""

    def __init__(self, repo):
        self.repo = repo
        self.told = set()

    def tell(self, name, digest, kind, comment):
        if (digest, kind) in self.told:
            return
        self.told.add((digest, kind))
        path = self.repo / "objects" / digest[:2] / f"{digest[2:]}.{kind}"
        if path.is_symlink():
            spot = f"points ({text(os.readlink(path).encode())})"
        else:
            spot = f"holds {len(self.told)} {path.stat().st_mode & 0o777} ({text(path.read_bytes())})"
        fields = [
            f"digest = {numbers(bytes.fromhex(digest))}",
            f"kind = kinds.{KINDS[kind]}",
            f'front = codes "{digest[:2]}"',
            f'name = codes "{digest[2:]}.{kind}"',
            f"spot = {spot}",
        ]
        define(name, "Stored", "record {\n" + "".join(f"  {field};\n" for field in fields) + "}", comment)


HEAD = """-- The objects of the sample installation and of its remote, as made by the `ostree` command
-- (`scripts/sample_image.py`), and the records of its deployed and previous commits.
use Rattle.std.specs.Prelude.{ℕ, List, [], ◌∷◌, codes}
use Rattle.fp_base.specs.declared.object.ObjKind.{ObjKind}
use Rattle.fp_base.specs.declared.object.ObjKind.TheVariants as kinds
use Rattle.fp_host.specs.Outcome.{Spot, holds, points}

-- An object of a store: its digest, its kind, and the node at its path
pub record Stored : Type 0 where
  pub digest : List ℕ
  pub kind : ObjKind
  -- The first two digits of the digest, which name the object's directory
  pub front : List ℕ
  -- The object's name in its directory
  pub name : List ℕ
  pub spot : Spot
"""


def main():
    print(HEAD, end="")
    with tempfile.TemporaryDirectory() as work:
        work = pathlib.Path(work)
        repo = work / "repo"
        ran("ostree", f"--repo={repo}", "init", "--mode=bare-user-only")
        objects = Objects(repo)
        digests = {}
        for name, ref, tree, time in COMMITS:
            make_tree(work / name, tree)
            digests[name] = commit(repo, work / name, ref, time)
        for name, ref, tree, time in COMMITS:
            print(f"\n-- ---- {ref} at time {time}")
            of = f"`{ref}` at time {time}"
            objects.tell(f"{name}_commit", digests[name], "commit", f"The commit of {of}")
            define(f"{name}_text", "List ℕ", f'codes "{digests[name]}"', f"The digest of the commit of {of}, in hexadecimal")
            for path, found in listed(repo, digests[name]):
                is_own = PLACES[path] in OWN or ref != APP
                place = f"{name}_{PLACES[path]}" if is_own else PLACES[path]
                owner = of if is_own else "the application's commits"
                if len(found) == 2:
                    objects.tell(place, found[0], "dirtree", f"The dirtree of the directory `{path}` of {owner}")
                    objects.tell("dir_mode", found[1], "dirmeta", "The dirmeta of all directories, with the mode 040755")
                else:
                    objects.tell(place, found[0], "file", f"The file `{path}` of {owner}")
        print("\n-- ---- the records of kept commits")
        back = (digests["old"], 1)
        define("app_record", "List ℕ", numbers(record(digests["app"], 2, back), 4), "The record of the application's deployed commit, with the previous commit")
        define("old_record", "List ℕ", numbers(record(digests["old"], 1), 4), "The record of the application's previous commit, as it was written at the install")
        define("locale_record", "List ℕ", numbers(record(digests["locale"], 1), 4), "The record of the extension's commit")
        define("platform_record", "List ℕ", numbers(record(digests["platform"], 1), 4), "The record of the runtime's commit")


if __name__ == "__main__":
    main()
