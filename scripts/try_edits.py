#!/usr/bin/env python3
"""Tries wrong bodies that the gate doesn't try, over a copy of the repository.

    scripts/try_edits.py [NAME..]

For each crate NAME (all that have a folder `edits` where none is named), each `crates/NAME/edits/*.edit` has to be refused by
the prover, as those in `must-fail/` are, and each `crates/NAME/edits/*.twin` has to be proved. A twin has the form of an edit
and the same place, but does no harm: so its edit is refused for what it does, and not since a proof names what stood there.

Use it when a contract changes, and before a crate is called finished. It ends with 0 where all is as it must be.
"""
import pathlib
import re
import shutil
import subprocess
import sys
import tempfile

TOP = pathlib.Path(__file__).resolve().parent.parent
SAID = re.compile(r"^rt: must-fail (\w+)/(\S+)\.edit: (.*)$")


def copy_of_the_repository(folder):
    """What the kit reads, without what it made."""
    shutil.copytree(TOP / "crates", folder / "crates", ignore=shutil.ignore_patterns("out"))
    for name in ("crates.txt", "HANDLES"):
        shutil.copy(TOP / name, folder / name)
    subprocess.run(["git", "init", "-q"], cwd=folder, check=True)


def put_in_place(crate):
    """The edits and twins of a crate in its copy's `must-fail/`, in the place of those that the gate tries."""
    target = crate / "must-fail"
    shutil.rmtree(target, ignore_errors=True)
    target.mkdir()
    wanted = {}
    for source in sorted((crate / "edits").iterdir()):
        if source.suffix not in (".edit", ".twin"):
            sys.exit(f"try_edits: {source.name} is neither an edit nor a twin")
        is_twin = source.suffix == ".twin"
        stem = ("twin_of_" if is_twin else "") + source.stem
        shutil.copy(source, target / f"{stem}.edit")
        wanted[stem] = "proved" if is_twin else "refused"
    return wanted


def outcome(said):
    if said.startswith("refused"):
        return "refused"
    return "proved" if said.startswith("NOT REFUSED") else said


def try_crate(folder, name):
    """The edits and twins that are not as they must be, and how many were tried."""
    crate = folder / "crates" / name
    wanted = put_in_place(crate)
    subprocess.run(["rt", "check"], cwd=crate, stdout=subprocess.DEVNULL, stderr=subprocess.DEVNULL)
    run = subprocess.run(["rt", "must-fail", name], cwd=folder, capture_output=True, text=True)
    found = {}
    for line in (run.stdout + run.stderr).splitlines():
        said = SAID.match(line)
        if said and said.group(1) == name:
            found[said.group(2)] = outcome(said.group(3))
    amiss = [(stem, want, found.get(stem, "not tried")) for stem, want in wanted.items() if found.get(stem) != want]
    return amiss, len(wanted)


def main():
    names = sys.argv[1:] or sorted(path.parent.name for path in TOP.glob("crates/*/edits"))
    failed = False
    with tempfile.TemporaryDirectory() as made:
        folder = pathlib.Path(made)
        copy_of_the_repository(folder)
        for name in names:
            if not (folder / "crates" / name / "edits").is_dir():
                sys.exit(f"try_edits: {name} has no edits")
            amiss, count = try_crate(folder, name)
            for stem, want, found in amiss:
                print(f"{name}/{stem}: has to be {want}, but: {found}")
            print(f"{name}: {count - len(amiss)} of {count} as they must be", flush=True)
            failed = failed or bool(amiss)
    sys.exit(1 if failed else 0)


if __name__ == "__main__":
    main()
