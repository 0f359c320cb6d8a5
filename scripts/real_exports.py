#!/usr/bin/python3
"""Compares what fpk exports of an application with what the real flatpak does.

An application with desktop files and icons is built with `flatpak build-init`, `build-finish` and `build-export`, and installed by
both, each in a folder of its own. Of each exported file it is asked:

- Both have it, or the difference is one of KNOWN.
- It has the same keys with the same values, but for those of KNOWN, and `Exec` starts the same command.
- `desktop-file-validate` passes over it where it passes over the application's own.
- GLib's own launcher (Gio.DesktopAppInfo) starts `fpk launch REF`, with `--command=WORD` after it where the application's own command
  was a plain word, and no word more: also where `Exec` begins with `%i`, a quote, `$` or a backslash, and where the application's
  own file has `Path` and `DBusActivatable`. A program in the place of fpk writes its words down. A desktop file that hands `%i` on is
  launched too, and has to add words, so that the question can be lost.

usage: real_exports.py FPK

FPK is the program that was built. Debian's packages ostree, flatpak, desktop-file-utils and python3-gi are needed. The last line is
`all the same` or the number of differences that aren't known.
"""

import os
import shlex
import struct
import subprocess
import sys
import tempfile
import time
import zlib

import gi

gi.require_version("Gio", "2.0")
from gi.repository import Gio

ID = "org.example.Hello"
RUNTIME = "runtime/org.example.Platform/x86_64/1"
APP = f"app/{ID}/x86_64/1"
PLATFORM = "[Runtime]\nname=org.example.Platform\nruntime=org.example.Platform/x86_64/1\nsdk=org.example.Platform/x86_64/1\n"

# What flatpak exports and fpk doesn't, by the beginning of its path, and why.
KNOWN_FILES = {
    "bin/": "a script that starts the application; `fpk launch` starts none",
    "share/dbus-1/": "a service is started by D-Bus, which fpk doesn't set up",
    "share/mime/": "types of files aren't exported",
    "share/metainfo/": "what shops show isn't exported",
    "share/icons/hicolor/index.theme": "made by flatpak's trigger for the icon cache",
    "share/icons/hicolor/.icon-theme.cache": "the same",
    "share/icons/hicolor/icon-theme.cache": "the same",
    "share/icons/hicolor/48x48/mimetypes/": "icons of types of files aren't exported",
    "share/applications/mimeinfo.cache": "made by flatpak's trigger for desktop files",
}
# The keys that one of the two leaves out or adds, and why.
KNOWN_KEYS = {
    "X-Flatpak": "flatpak's mark on its own files",
    "Path": "the folder in which `fpk launch` would start",
    "DBusActivatable": "no service is exported",
}


def desktop(command, **more):
    """The text of a desktop file with this `Exec`."""
    rows = dict(Type="Application", Name="Hello", Icon=ID, Exec=command, **more)
    return "[Desktop Entry]\n" + "".join(f"{key}={value}\n" for key, value in rows.items())


# The desktop files: the name, the text, and the command that is handed on, where one is.
PLAIN = {
    f"{ID}.desktop": (
        desktop("hello --open %U", TryExec="hello", Categories="Utility;", MimeType="text/x-hello;", Actions="new;")
        + "Name[de]=Hallo\nX-GNOME-Bugzilla-Product=hello\n\n[Desktop Action new]\nName=New\nExec=hello-new %u\n",
        "hello",
    ),
    f"{ID}.Tool.desktop": (desktop("/app/bin/tool_2-x+.sh", NoDisplay="true"), "/app/bin/tool_2-x+.sh"),
    f"{ID}-more.desktop": (desktop("more"), "more"),
}
ODD = {
    f"{ID}.Field.desktop": (desktop("%i hello %c"), None),
    f"{ID}.Quote.desktop": (desktop('"hello" "two words"'), None),
    f"{ID}.Dollar.desktop": (desktop("$HOME/hello"), None),
    f"{ID}.Back.desktop": (desktop("\\\\$HOME"), None),
    f"{ID}.Inner.desktop": (desktop('he"llo %i" x'), None),
    f"{ID}.Keys.desktop": (desktop("keys", Path="/srv", DBusActivatable="true") + "Name[sr@latin]=Zdravo\n", "keys"),
}
# Desktop files that hand on what a desktop reads as more words.
NAIVE = {
    "field": f"fpk launch {APP} --command=x %i",
    "name": f"fpk launch {APP} --command=%i",
}


def picture(width):
    """A PNG of one colour."""

    def chunk(kind, data):
        return struct.pack(">I", len(data)) + kind + data + struct.pack(">I", zlib.crc32(kind + data))

    rows = b"".join(b"\0" + b"\x20\x40\x80" * width for _ in range(width))
    head = struct.pack(">IIBBBBB", width, width, 8, 2, 0, 0, 0)
    return b"\x89PNG\r\n\x1a\n" + chunk(b"IHDR", head) + chunk(b"IDAT", zlib.compress(rows)) + chunk(b"IEND", b"")


SHARED = {
    f"icons/hicolor/48x48/apps/{ID}.png": picture(48),
    f"icons/hicolor/64x64/apps/{ID}-symbolic.png": picture(64),
    f"icons/hicolor/48x48/mimetypes/{ID}.hello.png": picture(48),
    f"dbus-1/services/{ID}.service": f"[D-BUS Service]\nName={ID}\nExec=/app/bin/hello\n".encode(),
}


class Bench:
    """A repository, an installation of the real flatpak, and one of fpk."""

    def __init__(self, fpk, folder):
        self.fpk, self.folder, self.wrong = os.path.abspath(fpk), folder, 0
        self.repo, self.installation = folder + "/repo", folder + "/installation"
        self.user = folder + "/user"
        self.env = dict(os.environ, FLATPAK_USER_DIR=self.user, FPK_INSTALLATION=self.installation, HOME=folder)

    def tool(self, *words):
        done = subprocess.run(words, env=self.env, cwd=self.folder, capture_output=True, text=True)
        if done.returncode != 0:
            sys.exit(f"{' '.join(words)}: {done.stdout}{done.stderr}")
        return done.stdout

    def fault(self, text):
        print("differs:", text)
        self.wrong += 1

    def write(self, path, data):
        path = os.path.join(self.folder, path)
        os.makedirs(os.path.dirname(path), exist_ok=True)
        with open(path, "wb") as file:
            file.write(data)

    def export(self, folder, *options):
        words = ("--no-update-summary", "--disable-sandbox", "--arch=x86_64")
        self.tool("flatpak", "build-export", *words, *options, self.repo, folder, "1")
        self.tool("ostree", "summary", "-u", "--repo", self.repo)

    def build(self):
        """The runtime, and the application with all its files. The odd desktop files are put into what flatpak has built."""
        self.tool("ostree", "init", "--mode=bare-user-only", "--repo", self.repo)
        self.write("platform/metadata", PLATFORM.encode())
        self.write("platform/usr/bin/greet", b"#!/bin/sh\n")
        os.makedirs(self.folder + "/platform/files", exist_ok=True)
        self.export("platform", "--runtime")
        self.tool("flatpak", "--user", "remote-add", "--no-gpg-verify", "local", "file://" + self.repo)
        self.tool("flatpak", "--user", "install", "-y", "--noninteractive", "local", RUNTIME)
        platform = ("org.example.Platform", "org.example.Platform", "1")
        self.tool("flatpak", "build-init", "--arch=x86_64", "hello", ID, *platform)
        for name, data in SHARED.items():
            self.write("hello/files/share/" + name, data)
        for name, (text, _word) in PLAIN.items():
            self.write("hello/files/share/applications/" + name, text.encode())
        self.write("hello/files/bin/hello", b"#!/bin/sh\n")
        os.chmod(self.folder + "/hello/files/bin/hello", 0o755)
        self.tool("flatpak", "build-finish", "hello", "--command=hello")
        for name, (text, _word) in ODD.items():
            self.write("hello/export/share/applications/" + name, text.encode())
        self.export("hello")

    def install(self):
        self.tool("flatpak", "--user", "install", "-y", "--noninteractive", "local", APP)
        self.tool(self.fpk, "remote-add", "local", "file://" + self.repo)
        self.tool(self.fpk, "install", "local", APP)

    # ---- what is compared

    def compare_names(self):
        """The names of all files and links below `exports`."""
        real, own = names(self.user + "/exports"), names(self.installation + "/exports")
        for name in sorted(real - own):
            if not any(name.startswith(known) for known in KNOWN_FILES):
                self.fault(f"flatpak alone exports {name}")
        for name in sorted(own - real):
            self.fault(f"fpk alone exports {name}")
        listed = self.tool(self.fpk, "list", "--exports").splitlines()
        if listed != [f"{name} {APP}" for name in sorted(own)]:
            self.fault(f"listed are {listed}, and there are {sorted(own)}")
        print(f"{len(own & real)} names of both, {len(real - own)} of flatpak alone")

    def compare_icons(self):
        """A link of fpk leads to the same bytes as flatpak's."""
        for name in sorted(names(self.installation + "/exports")):
            if name.startswith("share/icons/"):
                own, real = (f"{root}/exports/{name}" for root in (self.installation, self.user))
                if not os.path.islink(own) or not os.path.exists(own) or read(own) != read(real):
                    self.fault(f"{name} leads elsewhere")

    def compare_keys(self, name, word):
        """The keys of a desktop file, in each group."""
        path = "/exports/share/applications/" + name
        real, own = keys(self.user + path), keys(self.installation + path)
        for group, key in sorted(real.keys() | own.keys()):
            first, second = real.get((group, key)), own.get((group, key))
            if key == "Exec":
                self.compare_commands(f"{name} [{group}]", first, second, word)
            elif first != second and key not in KNOWN_KEYS:
                self.fault(f"{name} [{group}] {key}: flatpak has {first}, fpk {second}")

    def compare_commands(self, where, real, own, word):
        """flatpak hands on the first word of `Exec`, in quotes where it isn't plain; fpk hands on a plain one alone."""
        first = [part for part in shlex.split(real) if part.startswith("--command=")]
        second = [part for part in own.split(" ") if part.startswith("--command=")]
        if word is None:
            if own != f"fpk launch {APP}":
                self.fault(f"{where}: Exec={own}")
        elif first != second or own != f"fpk launch {APP} {second[0]}":
            self.fault(f"{where}: flatpak has {real}, fpk {own}")

    def validate(self, name):
        """What is exported passes where the application's own did."""
        own = f"{self.installation}/{APP}/active/export/share/applications/{name}"
        first, second = is_valid(own), is_valid(f"{self.installation}/exports/share/applications/{name}")
        if first and not second:
            self.fault(f"{name} passes no more")
        return first

    # ---- what is launched

    def launched(self, path):
        """The words that GLib's launcher starts fpk with, by the desktop file at this path."""
        words = self.folder + "/words"
        if os.path.exists(words):
            os.remove(words)
        try:
            info = Gio.DesktopAppInfo.new_from_filename(path)
        except TypeError:  # GLib doesn't take it
            return None
        info.launch([], None)
        for _ in range(200):
            if os.path.exists(words):
                with open(words, "rb") as file:
                    return file.read().decode().split("\0")[:-1]
            time.sleep(0.05)
        return None

    def launch(self, name, word):
        wanted = ["launch", APP] + ([f"--command={word}"] if word else [])
        found = self.launched(f"{self.installation}/exports/share/applications/{name}")
        if found != wanted:
            self.fault(f"{name} starts fpk with {found}, not {wanted}")

    def launch_naive(self):
        """What hands `%i` on has to add words."""
        for what, command in NAIVE.items():
            path = f"{self.folder}/{what}.desktop"
            self.write(path, desktop(command).encode())
            found = self.launched(path)
            if not found or ID not in found:
                self.fault(f"a desktop file with {command} starts fpk with {found}: nothing is shown by the others")


def names(root):
    return {os.path.relpath(os.path.join(above, name), root) for above, _folders, files in os.walk(root) for name in files}


def read(path):
    with open(path, "rb") as file:
        return file.read()


def keys(path):
    """The pairs of a key file, by group and key."""
    found, group = {}, None
    for line in read(path).decode().splitlines():
        if line.startswith("["):
            group = line.strip("[]")
        elif "=" in line and not line.startswith("#"):
            key, value = line.split("=", 1)
            found[group, key] = value
    return found


def is_valid(path):
    return subprocess.run(["desktop-file-validate", path], capture_output=True).returncode == 0


def stand_in(folder):
    """A program named fpk, before all others in PATH, that writes its words down."""
    os.makedirs(folder + "/bin")
    path = folder + "/bin/fpk"
    with open(path, "w") as file:
        file.write(f"#!/bin/sh\nprintf '%s\\0' \"$@\" >{folder}/words.new\nmv {folder}/words.new {folder}/words\n")
    os.chmod(path, 0o755)
    os.environ["PATH"] = f"{folder}/bin:{os.environ['PATH']}"


def main():
    if len(sys.argv) != 2:
        sys.exit(__doc__)
    with tempfile.TemporaryDirectory() as folder:
        bench = Bench(sys.argv[1], folder)
        bench.build()
        bench.install()
        bench.compare_names()
        bench.compare_icons()
        stand_in(folder)
        passed = 0
        for name, (_text, word) in (PLAIN | ODD).items():
            passed += bench.validate(name)
            bench.launch(name, word)
            if name in PLAIN or os.path.lexists(f"{bench.user}/exports/share/applications/{name}"):
                bench.compare_keys(name, word)
        if passed < len(PLAIN):
            bench.fault(f"desktop-file-validate passes over {passed} of the application's own files alone")
        bench.launch_naive()
        print(f"{passed} desktop files pass as their own did; {len(PLAIN | ODD)} were launched")
        print(f"{bench.wrong} differ" if bench.wrong else "all the same")
        sys.exit(1 if bench.wrong else 0)


if __name__ == "__main__":
    main()
