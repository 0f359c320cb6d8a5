#!/usr/bin/env python3
"""Compares what fpk grants an application with what the real flatpak grants it.

usage: real_permissions.py FPK

A runtime and an application are built with the real flatpak into a repository of mode `bare-user-only`, and installed from it with
flatpak, in a user folder of its own, and with fpk. Then the same overrides are set in both, one after another. Each time
`flatpak info --show-permissions` is compared with what `fpk launch` grants, and `flatpak override --show` with
`fpk override --show`, permission by permission. Then come options that one of the two refuses, overrides that flatpak
wrote with `;` and backslashes in names, which fpk reads as they stand, and updates to metadata with lists as long as
can be.

FPK is the program that was built. Debian's packages ostree and flatpak are needed. Each difference is printed with its kind, which
docs/GUIDE.md tells in a user's words. It ends with status 0 where every difference is of a known kind.
"""

import os
import re
import subprocess
import sys
import tempfile

from real_flatpak import APP, RUNTIME, Bench

ID = "org.example.Hello"

RUNTIME_METADATA = """
[Context]
shared=ipc;
sockets=cups;
filesystems=/srv/of-the-runtime;

[Environment]
OF_THE_RUNTIME=yes
SHARED_NAME=runtime
"""

APPLICATION_OPTIONS = [
    "--share=network", "--socket=wayland", "--socket=pulseaudio", "--device=dri", "--allow=bluetooth", "--filesystem=host",
    "--filesystem=home", "--filesystem=~/docs:ro", "--filesystem=xdg-download", "--filesystem=/opt/data:create", "--persist=.hello",
    "--env=SHARED_NAME=application", "--env=A=b c", "--talk-name=org.example.Talk.*", "--own-name=org.example.Own",
    "--system-talk-name=org.example.System",
]

# In order: whose override, and the options.
OVERRIDES = [
    (ID, ["--unshare=network"]),
    (ID, ["--share=network", "--share=ipc"]),
    (ID, ["--nosocket=wayland", "--socket=x11", "--socket=fallback-x11"]),
    (None, ["--nosocket=pulseaudio", "--nodevice=dri", "--device=all"]),
    (ID, ["--device=dri", "--nodevice=all"]),
    (ID, ["--disallow=bluetooth", "--allow=devel"]),
    (ID, ["--nofilesystem=host"]),
    (ID, ["--filesystem=home/docs", "--nofilesystem=home"]),
    (ID, ["--filesystem=~", "--filesystem=/opt/data:ro", "--filesystem=xdg-music/live:create"]),
    (None, ["--filesystem=host-etc:ro", "--nofilesystem=xdg-download"]),
    (ID, ["--nofilesystem=/opt//data/", "--filesystem=~/./docs/:create", "--filesystem=/srv/a//b/.:ro"]),
    (ID, ["--nofilesystem=/srv/./a/b", "--filesystem=xdg-music//live/:ro", "--filesystem=/srv/..a/..."]),
    (ID, ["--persist=.more"]),
    (ID, ["--env=A=", "--env=B=x=y;z"]),
    (None, ["--env=SHARED_NAME=global", "--env=GLOBAL=1"]),
    (ID, ["--no-talk-name=org.example.Talk.*", "--talk-name=org.example.Talk.One", "--talk-name=org.example.Own"]),
    (ID, ["--system-no-talk-name=org.example.System", "--system-own-name=org.example.Mine"]),
    (ID, ["--socket=session-bus", "--socket=system-bus"]),
    (ID, ["--nofilesystem=host:reset"]),
]

# Options that one of the two refuses: what each ends with, flatpak first, and why.
REFUSALS = [
    (["--socket=gizmo"], False, True, "unknown"),
    (["--device=gizmo"], False, True, "unknown"),
    (["--share=gizmo"], False, True, "unknown"),
    (["--allow=gizmo"], False, True, "unknown"),
    (["--filesystem=no-such-place"], False, True, "place"),
    (["--filesystem=../up"], False, True, "place"),
    (["--filesystem=:ro"], False, False, None),
    (["--env=A"], False, False, None),
    (["--talk-name=:1.2"], False, False, None),
    (["--talk-name=org"], False, False, None),
    (["--unset-env=A"], True, False, "option"),
    (["--add-policy=group.key=value"], True, False, "option"),
    (["--nofilesystem=/srv/a;/srv/b"], True, False, "escape"),
    (["--nofilesystem=/srv/a\\"], True, False, "escape"),
    (["--persist=.a\\"], True, False, "escape"),
    (["--nofilesystem=/srv/a\\\\"], True, True, None),
]

# Overrides that flatpak writes, and fpk is given as they are written.
ESCAPED = [
    ["--nofilesystem=/srv/a;/srv/b"],
    ["--filesystem=/srv/a\\;/srv/b:ro", "--filesystem=/srv/c\\"],
    ["--persist=.a;.b", "--nofilesystem=/srv/d\\;/srv/e;f", "--filesystem=/srv/g"],
]

# How many bytes a list of places has that is as long as the metadata may be.
LONG = 1_000_000

KINDS = {
    "runtime": "the runtime's metadata grants it; flatpak takes the environment of a runtime alone, and shows none of it",
    "home": "`home/NAME` and `~/NAME`, or `home` and `~`, are one name for flatpak and two here",
    "reset": "`host:reset` takes every place away for flatpak, and is a name like others here",
    "unknown": "a word that is none of the list's is carried here, in `[Unknown]` or `unknown-LIST`; flatpak leaves it out or refuses the option",
    "place": "flatpak refuses what is no place of its list; here any name is one",
    "option": "an option that fpk hasn't",
    "escape": "flatpak escapes `;` and backslashes of an option; fpk refuses `;`, and an odd number of backslashes at the end",
}

ENDINGS = (":ro", ":rw", ":create")


def permissions(text):
    """A text of either program as a map from a list and a name to a value."""
    found, group = {}, None
    for line in text.splitlines():
        key, is_pair, value = line.partition("=")
        if line.startswith("["):
            group = line[1:-1]
        elif is_pair and group in ("Context", "Unknown"):
            for entry in filter(None, entries(value)):
                name, value_of = entry_of(key, entry)
                found["unknown-" * (group == "Unknown") + key, name] = value_of
        elif is_pair:
            found[group, key] = value
    return found


def entries(value):
    """What stands between the `;` of a list that are no part of an entry."""
    found, escaped = [""], False
    for char in value:
        if char == ";" and not escaped:
            found.append("")
        else:
            found[-1] += char
        escaped = char == "\\" and not escaped
    return found


def entry_of(key, entry):
    """The name and the value of an entry of a list."""
    if entry.startswith("!"):
        return entry[1:], "off"
    if key != "filesystems":
        return entry, "on"
    return with_ending(entry)


def with_ending(place):
    for ending in ENDINGS:
        if place.endswith(ending):
            return place[:-len(ending)], ending[1:]
    return place, "rw"


def grants(launch):
    """The groups of permissions of a launch's text."""
    after = launch[launch.index("session-bus-proxy="):].partition("\n")[2]
    return permissions(after.partition("[Mounts]")[0])


def fpk_spelling(place):
    """The name that fpk keeps of a place: no part of it is empty or `.`."""
    return re.sub("/+$", "", re.sub("(/[.]?)+(?=/|$)", "", place))


def flatpak_spelling(place):
    """The name that flatpak keeps of a place."""
    place = fpk_spelling(place)
    if place == "~":
        return "home"
    return "~" + place[4:] if place.startswith("home/") else place


def last_mention(options, place, spelling):
    """What the last option that mentions a place says of it."""
    said = None
    for option in options:
        word, _, value = option.partition("=")
        if word in ("--filesystem", "--nofilesystem") and spelling(with_ending(value)[0]) == place:
            said = with_ending(value)[1] if word == "--filesystem" else "off"
    return said


OF_THE_RUNTIME = permissions(RUNTIME_METADATA)


class Comparison(Bench):
    """Both installations, and the differences so far by their kinds."""

    def __init__(self, fpk, folder):
        super().__init__(fpk, folder)
        self.kinds = {}
        self.told = set()
        self.set = {None: [], ID: []}

    def build(self):
        self.tool("ostree", "init", "--mode=bare-user-only", "--repo", self.repo)
        os.makedirs(os.path.join(self.folder, "platform/files"))
        with open(os.path.join(self.folder, "platform/metadata"), "w") as out:
            out.write("[Runtime]\nname=org.example.Platform\nruntime=org.example.Platform/x86_64/1\nsdk=org.example.Platform/x86_64/1\n" + RUNTIME_METADATA)
        self.script("platform", "usr/bin/greet", "platform")
        self.export("platform", "--runtime")
        self.flatpak("remote-add", "--no-gpg-verify", "local", "file://" + self.repo)
        self.flatpak("install", "-y", "--noninteractive", "local", RUNTIME)
        platform = ("org.example.Platform", "org.example.Platform", "1")
        self.tool("flatpak", "build-init", "--arch=x86_64", "hello", ID, *platform)
        self.script("hello/files", "bin/hello", "hello")
        self.tool("flatpak", "build-finish", "hello", "--command=hello", "--no-inherit-permissions", *APPLICATION_OPTIONS)
        metadata = os.path.join(self.folder, "hello/metadata")
        with open(metadata) as text:
            known = text.read()
        with open(metadata, "w") as out:
            out.write(known.replace("sockets=", "sockets=gizmo;"))
        self.export("hello")
        self.flatpak("install", "-y", "--noninteractive", "local", APP)
        self.fpk_tool("remote-add", "local", "file://" + self.repo)
        self.fpk_tool("install", "local", APP)

    def flatpak(self, *words):
        return self.tool("flatpak", "--user", *words)

    def fpk_tool(self, *words):
        return self.tool(self.fpk, *words)

    def override(self, whose, options):
        name = [whose] if whose else []
        self.flatpak("override", *options, *name)
        self.fpk_tool("override", *options, *name)
        self.set[whose] += options

    def ends_well(self, program, *words):
        return subprocess.run([program, *words], env=self.env, cwd=self.folder, capture_output=True).returncode == 0

    def refuse(self):
        """What each refuses; the overrides are put back."""
        for options, theirs, ours, kind in REFUSALS:
            found = self.ends_well("flatpak", "--user", "override", *options, "org.example.Other"), self.ends_well(self.fpk, "override", *options, "org.example.Other")
            self.count(kind if found == (theirs, ours) and theirs != ours else None, f"override {' '.join(options)}: fpk {'sets' if found[1] else 'refuses'} it, "
                       f"flatpak {'sets' if found[0] else 'refuses'} it", found[0] != found[1] or found != (theirs, ours))

    def reset(self):
        """Takes the overrides away in both."""
        for name in ([ID], []):
            self.flatpak("override", "--reset", *name)
            self.fpk_tool("override", "--reset", *name)
        self.set = {None: [], ID: []}

    def give(self, options):
        """flatpak's override with these options, given to fpk as flatpak wrote it."""
        self.flatpak("override", *options, ID)
        with open(os.path.join(self.folder, "user/overrides", ID)) as text:
            written = text.read()
        path = os.path.join(self.installation, "overrides", ID)
        os.makedirs(os.path.dirname(path), exist_ok=True)
        with open(path, "w") as out:
            out.write(written)

    def compare_escaped(self):
        """What flatpak shows of the names that were given, and what fpk grants of them."""
        shown = permissions(self.flatpak("override", "--show", ID))
        mine = permissions(self.fpk_tool("override", "--show", ID))
        self.count(None, f"shown: fpk {mine}, flatpak {shown}", mine != shown)
        on = {name: value for name, value in shown.items() if value != "off"}
        granted = grants(self.fpk_tool("launch", APP))
        for name, value in sorted(granted.items()):
            if name not in on and (name[1].startswith("/srv/") and name not in OF_THE_RUNTIME):
                self.count(None, f"granted though it isn't named: {name} {value}", True)
        for name, value in sorted(on.items()):
            self.count(None, f"granted: {name}: fpk {granted.get(name)}, flatpak {value}", granted.get(name) != value)

    def update_with(self, places):
        """A new commit of the application, whose metadata grants these places, in both."""
        metadata = os.path.join(self.folder, "hello/metadata")
        with open(metadata) as text:
            lines = text.read().splitlines()
        with open(metadata, "w") as out:
            out.writelines(("filesystems=" + places if line.startswith("filesystems=") else line) + "\n" for line in lines)
        self.export("hello")
        self.flatpak("update", "-y", "--noninteractive", APP)
        self.fpk_tool("update", APP)

    def compare(self):
        shown = lambda *name: (permissions(self.fpk_tool("override", "--show", *name)), permissions(self.flatpak("override", "--show", *name)))
        self.differ("granted", grants(self.fpk_tool("launch", APP)), permissions(self.flatpak("info", "--show-permissions", ID)),
                    APPLICATION_OPTIONS + self.set[None] + self.set[ID])
        self.differ("override", *shown(ID), self.set[ID])
        self.differ("global override", *shown(), self.set[None])

    def differ(self, where, ours, theirs, options):
        for permission in sorted(set(ours) | set(theirs)):
            mine, other = ours.get(permission), theirs.get(permission)
            if mine != other:
                kind = self.kind_of(where, permission, mine, other, options)
                self.count(kind, f"{where}: {permission[0]} {permission[1]}: fpk {mine}, flatpak {other}", True)

    def kind_of(self, where, permission, ours, theirs, options):
        """The known kind of a difference, or none."""
        key, name = permission
        if where == "granted" and theirs is None and OF_THE_RUNTIME.get(permission) == ours:
            return "runtime"
        if where == "granted" and permission == ("unknown-sockets", "gizmo") and theirs is None:
            return "unknown"
        if key != "filesystems":
            return None
        here, there = (last_mention(options, name, spelling) for spelling in (fpk_spelling, flatpak_spelling))
        if where == "granted":
            here, there = (None if value == "off" else value for value in (here, there))
        if ours != here:
            return None
        if theirs == there and (name in ("home", "~") or name.startswith(("home/", "~/"))):
            return "home"
        return "reset" if theirs is None and "--nofilesystem=host:reset" in options else None

    def count(self, kind, line, is_different):
        if is_different and line not in self.told:
            self.told.add(line)
            self.kinds[kind] = self.kinds.get(kind, 0) + 1
            print(f"{kind or 'NO KNOWN KIND'}: {line}", flush=True)


def main():
    if len(sys.argv) != 2:
        sys.exit(__doc__)
    with tempfile.TemporaryDirectory() as folder:
        bench = Comparison(sys.argv[1], folder)
        bench.build()
        bench.compare()
        for whose, options in OVERRIDES:
            print("-", whose or "global", *options)
            bench.override(whose, options)
            bench.compare()
        bench.refuse()
        for options in ESCAPED:
            print("- flatpak's own file for", *options)
            bench.reset()
            bench.give(options)
            bench.compare_escaped()
        bench.reset()
        print("- without overrides, as installed")
        bench.compare()
        for places in ("".join(f"/p/{number:06};" for number in reversed(range(LONG // 10))), "/" + "x" * LONG + ";"):
            print(f"- an update to metadata with {len(places)} bytes of places:", places[:20], "..")
            bench.update_with(places)
            bench.compare()
        for kind, meaning in KINDS.items():
            print(f"{bench.kinds.get(kind, 0)} of the kind `{kind}`: {meaning}")
        unknown = bench.kinds.get(None, 0)
        print(f"{unknown} differences of no known kind")
        sys.exit(1 if unknown else 0)


if __name__ == "__main__":
    main()
