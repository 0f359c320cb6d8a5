#!/usr/bin/python3
"""An example of a starter: `sandbox.py APP OPTION.. [-- WORD..]` runs in bwrap what `fpk launch APP` grants.

It binds what it knows. The rest is named on standard error and isn't granted. Left out for shortness are the
system bus, devices, features, persistent folders, sound, `xdg-data` and the like, and places with a link in
their path, which an application may have put there. `:create` makes no folder, and the network comes without
`resolv.conf`. No system calls are filtered. FPK names the program. A session bus needs xdg-dbus-proxy.
"""

import os
import re
import subprocess
import sys
import tempfile
from os.path import isdir, realpath

ENV, HOME = os.environ, realpath(os.path.expanduser("~"))
RUN = realpath(ENV.get("XDG_RUNTIME_DIR") or f"/run/user/{os.getuid()}")
ROOT, DATA = realpath(ENV.get("FPK_INSTALLATION") or "installation"), f"{HOME}/.var/app"
# Folders of the sandbox or the system: no place is there, but below HOME and RUN.
OWN = ["", *"app bin boot dev etc lib lib32 lib64 proc root run sbin sys tmp usr var".split()]
PLACES = {"host": ["/home", "/media", "/mnt", "/opt", "/srv", HOME], "home": [HOME]}
# What other places begin with.
FIRST = {"": "", "~": HOME, "xdg-run": RUN, "xdg-config": f"{HOME}/.config"}
X11 = "/tmp/.X11-unix/X" + re.sub(r".*:|\..*", "", ENV.get("DISPLAY", ""))
WAYLAND = f"{RUN}/{ENV.get('WAYLAND_DISPLAY', 'wayland-0')}"
SOCKETS = {"wayland": [WAYLAND], "x11": [X11, ENV.get("XAUTHORITY", f"{HOME}/.Xauthority")]}
BUS = "DBUS_SESSION_BUS_ADDRESS"


def known(what, text, of):
    """What is known of the names of a list. A name of which nothing is known is told."""
    names = [it for it in text.split(";") if it]
    for name in names:
        if not of(name):
            print(f"sandbox.py: not granted: {what}={name}", file=sys.stderr)
    return [it for name in names for it in of(name) or []]


def below(path, folder):
    return f"{path}/".startswith(f"{folder}/")


def binds_of(entry):
    """How a place's folders are bound: none is where its name isn't known, or one of them may not be."""
    place = re.sub(":(ro|create)$", "", entry)
    first, *rest = place.split("/")
    folders = PLACES.get(place) or ["/".join([FIRST[it], *rest]) for it in [first] if it in FIRST]
    for it in folders:
        is_users = below(it, HOME) and HOME != "/" or below(it, RUN) and it not in (RUN, f"{RUN}/bus")
        is_kept = below(it, ROOT) or below(it, DATA) or not is_users and it.split("/")[1] in OWN
        if is_kept or it != realpath(it):
            return []
    return [("--ro-bind-try" if entry.endswith(":ro") else "--bind-try", it) for it in folders]


cut = sys.argv.index("--") if "--" in sys.argv else len(sys.argv)
launch = subprocess.run([ENV.get("FPK", "fpk"), "launch", *sys.argv[1:cut]], stdout=subprocess.PIPE)
if launch.returncode:
    os.write(1, launch.stdout)
    sys.exit(launch.returncode)
_, *parts = re.split(r"(?m)^\[([A-Za-z ]+)\]\n", os.fsdecode(launch.stdout))
groups = {name: dict(re.findall("(.*?)=(.*)\n", part)) for name, part in zip(parts[::2], parts[1::2])}
application, instance, context = (groups.get(it, {}) for it in ("Application", "Instance", "Context"))
refused = {it: context.get(it, "") for it in ("devices", "features", "persistent")}
refused |= {**groups.get("Unknown", {}), "system bus": ";".join(groups.get("System Bus Policy", {}))}
for what, text in refused.items():
    known(what, text, {}.get)

name, shared = application["name"], context.get("shared", "").split(";")
app = f"{ROOT}/app/{name}/{instance['arch']}/{instance['branch']}/{instance['app-commit']}/files"
usr, own = f"{ROOT}/{application['runtime']}/{instance['runtime-commit']}/files", f"{DATA}/{name}"
trees = [app, usr, own]
words = "bwrap --die-with-parent --new-session --unshare-user-try --unshare-pid --unshare-uts".split()
words += ["--unshare-net"] * ("network" not in shared) + ["--unshare-ipc"] * ("ipc" not in shared)
words += ["--proc", "/proc", "--dev", "/dev", "--tmpfs", "/tmp", "--dir", RUN]
words += ["--ro-bind", usr, "/usr", "--ro-bind", app, "/app"]
for it in ("bin", "etc", "lib", "lib32", "lib64", "sbin"):
    words += ["--symlink", f"usr/{it}", f"/{it}"]
for path, ref in groups.get("Mounts", {}).items():
    side, folder = ("app", app) if below(path, "/app") else ("runtime", usr)
    commits = dict(it.split("=") for it in instance[f"{side}-extensions"].split(";") if it)
    trees += [folder + path[4:], f"{ROOT}/{ref}/{commits[ref.split('/')[1]]}/files"]
    words += known("Mounts", path, lambda it: ["--ro-bind", trees[-1], it] * isdir(trees[-2]))
# A folder is read-only where one of its places says so, and the installation is in each.
places = known("filesystems", context.get("filesystems", ""), binds_of)
for folder, how in sorted({folder: how for how, folder in sorted(places)}.items()):
    words += [how, folder, folder] + ["--ro-bind", ROOT, ROOT] * below(ROOT, folder)
for it in known("sockets", context.get("sockets", ""), SOCKETS.get):
    words += ["--ro-bind-try", it, it]

values = {"HOME": HOME, "PATH": "/app/bin:/usr/bin", "XDG_RUNTIME_DIR": RUN}
values["XDG_DATA_DIRS"] = "/app/share:/usr/share"
values |= {it: ENV[it] for it in "DISPLAY LANG TERM WAYLAND_DISPLAY XAUTHORITY".split() if it in ENV}
for it in ("cache", "config", "data"):
    os.makedirs(f"{own}/{it}", exist_ok=True)
    values[f"XDG_{it.upper()}_HOME"] = f"{own}/{it}"
words += ["--tmpfs", DATA, "--bind", own, own, "--chdir", own, "--clearenv"]
for it in trees:
    if it != realpath(it):
        sys.exit(f"sandbox.py: a link, of which bwrap would bind what it leads to outside: {it}")
room = tempfile.TemporaryDirectory()
if BUS in ENV and instance["session-bus-proxy"] == "true":
    ready, held = os.pipe()
    rules = [f"--{level}={it}" for it, level in groups.get("Session Bus Policy", {}).items()]
    proxy = ["xdg-dbus-proxy", f"--fd={held}", ENV[BUS], f"{room.name}/bus", "--filter", *rules]
    subprocess.Popen([*proxy, f"--own={name}.*", "--talk=org.freedesktop.portal.*"], pass_fds=[held])
    os.close(held)
    os.read(ready, 1)
    words += ["--bind", f"{room.name}/bus", f"{RUN}/bus"]
    values[BUS] = f"unix:path={RUN}/bus"
for it, value in (values | groups.get("Environment", {})).items():
    words += ["--setenv", it, value]
sys.exit(subprocess.call([*words, "--", application["command"], *sys.argv[cut + 1 :]]))
