#!/usr/bin/python3
"""Compares what `fpk filter` forwards with what the real xdg-dbus-proxy does.

usage: real_proxy.py PROGRAM..        as: real_proxy.py crates/fpk/out/fpk

A private dbus-daemon, services on it, and a client that goes through `xdg-dbus-proxy --filter`. What both sides of the proxy send is recorded, and
given to `PROGRAM filter RULES` as a recording. A message counts as the same where its type, serials, names, members and body are. It needs
Debian's packages dbus, xdg-dbus-proxy and python3-gi.

Each difference is printed with its kind. The kinds that are known are those of KINDS, which docs/GUIDE.md lists. The last line counts the
differences of no known kind, and the status is 0 where there are none."""
import os, socket, struct, subprocess, sys, tempfile, threading, time
import gi
gi.require_version("Gio", "2.0")
from gi.repository import Gio, GLib

RULES = ["--see=org.t.See", "--talk=org.t.Talk", "--own=org.t.Own", "--own=org.t.mine.*", "--talk=org.t.sub.*",
         "--call=org.t.Call=org.t.I.M@/a/*", "--broadcast=org.t.Cast=org.t.I.*@/a"]
SERVICES = ["org.t.See", "org.t.Talk", "org.t.Own", "org.t.Call", "org.t.Cast", "org.t.Hidden", "org.t.sub.A"]
INTERFACES = """<node><interface name='org.t.I'><method name='M'><arg type='s' direction='in'/><arg type='s' direction='out'/></method>
<method name='N'/><method name='Fail'/><signal name='S'><arg type='s'/></signal></interface>
<interface name='org.t.J'><method name='M'><arg type='s' direction='in'/><arg type='s' direction='out'/></method></interface></node>"""
DRIVER = ("org.freedesktop.DBus", "/org/freedesktop/DBus", "org.freedesktop.DBus")
START, NO_START = Gio.DBusCallFlags.NONE, Gio.DBusCallFlags.NO_AUTO_START
KINDS = {
    "no owner": "a hidden name, by a call that may start no service: ServiceUnknown here, NameHasNoOwner there",
    "GetNameOwner": "GetNameOwner of a hidden name: ServiceUnknown here, NameHasNoOwner there",
    "NameHasOwner": "NameHasOwner of a hidden name: ServiceUnknown here, the value false there",
    "peer": "Ping or GetMachineId of the bus itself: it passes here, AccessDenied there",
    "no interface": "a call to the bus that names no interface: by its member here, AccessDenied there",
    "no destination": "a call without a destination: judged as one to the bus here, passed on there",
    "eavesdrop": "an AddMatch with the word in a value: AccessDenied here, passed on there",
    "audit": "GetAdtAuditSessionData or the SELinux context of a name: AccessDenied here, by the name's level there",
    "no reply": "GetNameOwner or NameHasOwner of a hidden name that wants no reply: dropped here, answered there",
    "unasked": "the bus's answer to a call that wants none: dropped here, passed on there",
    "call rule": "a signal of the client to a name that only a rule for calls opens: dropped here, passed on there where the rule fits it",
    "to the bus": "a signal of the client to the bus itself: it passes here, it is dropped there",
    "start": "StartServiceByName of a name that rules for calls or broadcasts alone open: AccessDenied here, passed on there",
    "serial": "a call with a serial that the client used before: it passes here, the connection is closed there",
    "no text": "an AddMatch, or a call about a name, whose argument is no text: AccessDenied here, another answer there",
}
lock = threading.Lock()
record = []  # (tap, direction, bytes), in the order in which they came


def serve(path, to, tap):
    """Takes one connection at a path, joins it to another path and keeps what goes either way."""
    listener = socket.socket(socket.AF_UNIX)
    listener.bind(path)
    listener.listen(1)

    def run():
        near, _ = listener.accept()
        far = socket.socket(socket.AF_UNIX)
        far.connect(to)

        def copy(a, b, direction):
            while True:
                data = a.recv(65536)
                if not data:
                    b.shutdown(socket.SHUT_WR)
                    return
                with lock:
                    record.append((tap, direction, data))
                b.sendall(data)
        threading.Thread(target=copy, args=(near, far, "up"), daemon=True).start()
        threading.Thread(target=copy, args=(far, near, "down"), daemon=True).start()
    threading.Thread(target=run, daemon=True).start()


def connect(address):
    flags = Gio.DBusConnectionFlags.AUTHENTICATION_CLIENT | Gio.DBusConnectionFlags.MESSAGE_BUS_CONNECTION
    return Gio.DBusConnection.new_for_address_sync(address, flags, None, None)


def answer(connection, sender, path, interface, method, arguments, invocation):
    if method == "Fail":
        invocation.return_dbus_error("org.t.Error.Asked", "as asked")
    elif method == "M":
        invocation.return_value(GLib.Variant("(s)", (arguments.unpack()[0] + "!",)))
    else:
        invocation.return_value(None)


def export(connection):
    for interface in Gio.DBusNodeInfo.new_for_xml(INTERFACES).interfaces:
        for path in ("/a", "/a/b", "/z"):
            connection.register_object(path, interface, answer, None, None)


def text(word):
    return GLib.Variant("(s)", (word,))


def call(connection, name, path, interface, method, arguments=None, flags=NO_START):
    """A call that may be refused; its answer comes back through the connection either way."""
    try:
        return connection.call_sync(name, path, interface, method, arguments, None, flags, 1500, None)
    except GLib.Error:
        return None


def bare(connection, name, member, flags):
    """A call to the bus that names no interface."""
    it = Gio.DBusMessage()
    it.set_message_type(Gio.DBusMessageType.METHOD_CALL)
    it.set_path(DRIVER[1])
    it.set_member(member)
    if name:
        it.set_destination(name)
    if flags == NO_START:
        it.set_flags(Gio.DBusMessageFlags.NO_AUTO_START)
    try:
        connection.send_message_with_reply_sync(it, Gio.DBusSendMessageFlags.NONE, 1500, None)
    except GLib.Error:
        pass


def unasked(connection, member, arguments):
    """A call to the bus that wants no reply. What comes all the same is only recorded."""
    it = Gio.DBusMessage.new_method_call(*DRIVER, member)
    it.set_flags(Gio.DBusMessageFlags.NO_REPLY_EXPECTED)
    if arguments:
        it.set_body(arguments)
    connection.send_message(it, Gio.DBusSendMessageFlags.NONE)
    connection.flush_sync(None)


def driver_calls(client, services, flags):
    """Calls to the bus itself."""
    def ask(method, arguments=None):
        call(client, *DRIVER, method, arguments, flags)
    hidden = services["org.t.Hidden"].get_unique_name()
    for name in SERVICES + ["org.t.Absent", "org.freedesktop.DBus", hidden, services["org.t.See"].get_unique_name()]:
        for method in ("NameHasOwner", "GetNameOwner", "GetConnectionUnixProcessID", "GetConnectionUnixUser", "GetConnectionCredentials"):
            ask(method, text(name))
    for method in ("ListNames", "ListActivatableNames", "GetId", "ReloadConfig"):
        ask(method)
    for name in ("org.t.mine.X", "org.t.mine", "org.t.other"):
        ask("RequestName", GLib.Variant("(su)", (name, 0)))
        ask("ListQueuedOwners", text(name))
        ask("ReleaseName", text(name))
    for name in ("org.t.Talk", "org.t.See", "org.t.Hidden", "org.t.Call", "org.t.Cast"):
        ask("StartServiceByName", GLib.Variant("(su)", (name, 0)))
    ask("AddMatch", text("type='signal'"))
    ask("AddMatch", text("type='signal',eavesdrop='true'"))
    for rule in ("arg0='eavesdrop'", "eavesdrop='false'", "type='signal',arg0namespace='org.t',path_namespace='/a'", "sender='org.t.Hidden'", "nonsense"):
        ask("AddMatch", text(rule))
    ask("AddMatch", GLib.Variant("(u)", (1,)))
    ask("NameHasOwner", GLib.Variant("(u)", (1,)))
    for name in ("org.t.See", "org.t.Hidden"):
        ask("GetAdtAuditSessionData", text(name))
        ask("GetConnectionSELinuxSecurityContext", text(name))
    for name, member in ((DRIVER[0], "GetId"), (DRIVER[0], "ListNames"), (None, "GetId")):
        bare(client, name, member, flags)
    for member, arguments in (("ListNames", None), ("GetNameOwner", text("org.t.Hidden")), ("NameHasOwner", text("org.t.Hidden"))):
        unasked(client, member, arguments)
    ask("UpdateActivationEnvironment", GLib.Variant("(a{ss})", ({},)))
    for interface, method in (("Peer", "Ping"), ("Peer", "GetMachineId"), ("Introspectable", "Introspect")):
        call(client, DRIVER[0], DRIVER[1], "org.freedesktop.DBus." + interface, method, None, flags)
    call(client, DRIVER[0], DRIVER[1], "org.freedesktop.DBus.Properties", "GetAll", text(DRIVER[0]), flags)


def calls(client, services, flags):
    """Calls to services."""
    for name in SERVICES + ["org.t.Absent", "org.t.sub.Absent"]:
        call(client, name, "/a/b", "org.t.I", "M", text(name), flags)
    for path, interface, method in (("/z", "org.t.I", "M"), ("/a", "org.t.J", "M"), ("/a", "org.t.I", "M")):
        call(client, "org.t.Call", path, interface, method, text("x"), flags)
    call(client, "org.t.Talk", "/a", "org.t.I", "Fail", None, flags)
    call(client, "org.t.sub.A", "/a", "org.t.I", "N", None, flags)
    for name in ("org.t.Talk", "org.t.Hidden"):
        call(client, services[name].get_unique_name(), "/a", "org.t.I", "M", text("by its unique name"), flags)
    call(client, ":1.999", "/a", "org.t.I", "M", text("to nobody"), flags)


def traffic(client, services, control):
    for flags in (NO_START, START):
        driver_calls(client, services, flags)
        calls(client, services, flags)
    for name in SERVICES:
        for path, interface in (("/a", "org.t.I"), ("/z", "org.t.I"), ("/a", "org.t.J")):
            services[name].emit_signal(None, path, interface, "S", text(name))
        services[name].flush_sync(None)
        time.sleep(0.05)
    for name in ("org.t.Hidden", "org.t.Talk"):
        services[name].emit_signal(client.get_unique_name(), "/a", "org.t.I", "S", text("to you"))
        services[name].flush_sync(None)
        call(services[name], client.get_unique_name(), "/a", "org.t.I", "M", text("from a service"))
        call(services[name], client.get_unique_name(), "/a", "org.t.I", "Fail")
    call(client, services["org.t.Hidden"].get_unique_name(), "/a", "org.t.I", "M", text("after it wrote"))
    client.emit_signal(None, "/a", "org.t.I", "S", text("to everybody"))
    for name in ("org.t.Talk", "org.t.Hidden", "org.t.Call", "org.t.See", DRIVER[0]):
        for path, member in (("/a", "S"), ("/a/b", "M")):
            client.emit_signal(name, path, "org.t.I", member, text("to " + name))
    client.flush_sync(None)
    for name in ("org.t.Talk", "org.t.Hidden"):
        call(control, *DRIVER, "GetId")
        call(services[name], *DRIVER, "ReleaseName", text(name))
        time.sleep(0.1)
    services["org.t.Talk"].emit_signal(None, "/a", "org.t.I", "S", text("without its name"))
    services["org.t.Talk"].flush_sync(None)
    time.sleep(0.3)
    serial_again(client)


def serial_again(client):
    """A call to the bus with the serial of the call before it, which was answered. It comes last: the real proxy closes the connection."""
    call(client, *DRIVER, "GetId")
    again = Gio.DBusMessage.new_method_call(*DRIVER, "GetId")
    again.set_serial(client.get_last_serial())
    client.set_exit_on_close(False)
    client.send_message(again, Gio.DBusSendMessageFlags.PRESERVE_SERIAL)
    client.flush_sync(None)
    time.sleep(0.3)


def binary(pieces, lines_up):
    """Pieces of a stream without the lines of the handshake before it."""
    kept, rest, lines = [], b"", lines_up
    for data in pieces:
        if lines:
            rest += data
            while lines and b"\r\n" in rest:
                rest, lines = rest[rest.index(b"\r\n") + 2:], lines - 1
            data, rest = (b"", rest) if lines else (rest, b"")
        kept.append(data)
    return kept


def messages(data):
    at, found = 0, []
    while at + 16 <= len(data):
        order = "<" if data[at:at + 1] == b"l" else ">"
        body, _, fields = struct.unpack(order + "III", data[at + 4:at + 16])
        end = at + 16 + (fields + 7) // 8 * 8 + body
        found.append(data[at:end])
        at = end
    return found


def number(data, at):
    return struct.unpack_from("<I" if data[:1] == b"l" else ">I", data, at)[0]


def with_number(data, at, value):
    return data[:at] + struct.pack("<I" if data[:1] == b"l" else ">I", value) + data[at + 4:]


def reply_at(data):
    """Where the reply serial of a message stands; the field is a byte 5 and the signature `u`, at a multiple of 8."""
    end = 16 + number(data, 12)
    return next((at + 4 for at in range(16, end, 8) if data[at:at + 4] == b"\x05\x01u\x00"), None)


def serials_back(sent, passed):
    """The proxy gives the client's calls serials of its own: those that it passed on are told by all their other bytes."""
    waiting, back, found = list(sent), {}, []
    for m in passed:
        was = next((w for w in waiting if with_number(w, 8, 0) == with_number(m, 8, 0)), None)
        if was is not None:
            waiting.remove(was)
            back[number(m, 8)] = number(was, 8)
            found.append(was)
    return back, found


def with_replies(data, back):
    """A message of the bus with the client's serials; none where it answers a call of the proxy's own."""
    at = reply_at(data)
    if at is None:
        return data
    return with_number(data, at, back[number(data, at)]) if number(data, at) in back else b""


def read(data):
    return Gio.DBusMessage.new_from_blob(data, Gio.DBusCapabilityFlags.NONE)


def seen(data):
    """What a message says, in the order of nothing."""
    m = read(data)
    body = m.get_body()
    return (m.get_message_type().value_nick, m.get_reply_serial(), m.get_error_name(), m.get_path(), m.get_interface(), m.get_member(),
            None if m.get_error_name() and "freedesktop" in m.get_error_name() else body.print_(False) if body else None)


def apart(ours, theirs):
    """The messages of each that the other lacks."""
    left = [(seen(m), m) for m in theirs]
    only = []
    for m in ours:
        says = seen(m)
        at = next((at for at, (other, _) in enumerate(left) if other == says), None)
        if at is None:
            only.append(m)
        else:
            del left[at]
    return only, [m for _, m in left]


def answer_of(data):
    """The error's name, or the body."""
    m = read(data)
    body = m.get_body()
    return m.get_error_name() or (body.print_(False) if body else "()")


def opened(rules, name):
    """The kinds of the rules whose pattern matches a name. A unique name may have had any name, so each rule counts."""
    pairs = [rule[2:].split("=")[:2] for rule in rules]
    return {kind for kind, it in pairs if name.startswith(":") or name == it.removesuffix(".*") or it.endswith(".*") and name.startswith(it[:-1])}


def signal_kind(asked, ours, theirs, rules):
    """The same of a signal of the client."""
    sides = (len(ours["bus"]), len(theirs["bus"]))
    if ours["client"] or theirs["client"] or not asked.get_destination():
        return None
    if asked.get_destination() == DRIVER[0]:
        return "to the bus" if sides == (1, 0) else None
    return "call rule" if sides == (0, 1) and "call" in opened(rules, asked.get_destination()) else None


def kind_of(asked, ours, theirs, rules):
    """The known kind of what differs about one message of the client, or none. Each of ours and theirs has the messages to the bus and to the client."""
    if asked is None:
        return None
    if asked.get_message_type() == Gio.DBusMessageType.SIGNAL:
        return signal_kind(asked, ours, theirs, rules)
    if asked.get_message_type() != Gio.DBusMessageType.METHOD_CALL:
        return None
    denied, unknown, no_owner = ("org.freedesktop.DBus.Error." + it for it in ("AccessDenied", "ServiceUnknown", "NameHasNoOwner"))
    answers = [[answer_of(m) for m in side["client"]] for side in (ours, theirs)]
    wants_none = bool(asked.get_flags() & Gio.DBusMessageFlags.NO_REPLY_EXPECTED)
    refusal = [] if wants_none else [denied]
    to_driver = asked.get_destination() in (None, DRIVER[0])
    if to_driver and asked.get_interface() == "org.freedesktop.DBus.Peer" and asked.get_member() in ("Ping", "GetMachineId"):
        return "peer" if len(ours["bus"]) == 1 and not theirs["bus"] and answers == [[], refusal] else None
    if to_driver and not asked.get_interface():
        return "no interface" if asked.get_destination() else "no destination"
    denied_here = not ours["bus"] and answers[0] == refusal
    if to_driver and denied_here and asked.get_member() == "AddMatch" and asked.get_signature() == "s":
        return "eavesdrop" if "eavesdrop" in asked.get_body().unpack()[0] else None
    if to_driver and denied_here and asked.get_member() == "StartServiceByName":
        return "start" if opened(rules, asked.get_body().unpack()[0]) & {"call", "broadcast"} else None
    if to_driver and denied_here and asked.get_member() in ("GetAdtAuditSessionData", "GetConnectionSELinuxSecurityContext"):
        return "audit"
    if to_driver and denied_here and asked.get_signature() == "u":
        return "no text"
    if ours["bus"] or theirs["bus"]:
        return None
    if wants_none and not answers[0]:
        if all(read(m).get_sender() == DRIVER[0] for m in theirs["client"]):
            return "unasked"
        return "no reply" if to_driver and asked.get_member() in ("GetNameOwner", "NameHasOwner") else None
    if to_driver and asked.get_member() == "NameHasOwner" and answers == [[unknown], ["(false,)"]]:
        return "NameHasOwner"
    if answers != [[unknown], [no_owner]]:
        return None
    if to_driver and asked.get_member() == "GetNameOwner":
        return "GetNameOwner"
    starts_nothing = asked.get_flags() & Gio.DBusMessageFlags.NO_AUTO_START or (asked.get_destination() or "").startswith(":")
    return "no owner" if starts_nothing else None


def is_again(serial, sent, ours, theirs):
    """Whether what differs is that a second call with a serial passes here."""
    return [number(m, 8) for m in sent].count(serial) > 1 and len(ours["bus"]) == 1 and not (ours["client"] or theirs["bus"] or theirs["client"])


def compare(ours, theirs, sent):
    """Prints what differs, with its kind, and answers how many differences are of no known kind."""
    about = {}
    for side in ("bus", "client"):
        print(f"{side}: {len(theirs[side])} by the proxy, {len(ours[side])} by fpk; same bytes: {theirs[side] == ours[side]}")
        for which, found in zip((0, 1), apart(ours[side], theirs[side])):
            for m in found:
                serial = number(m, 8) if side == "bus" else read(m).get_reply_serial()
                about.setdefault(serial, ({"bus": [], "client": []}, {"bus": [], "client": []}))[which][side].append(m)
    asked = {number(m, 8): read(m) for m in sent}
    kinds = {}
    for serial, (mine, other) in sorted(about.items()):
        kind = "serial" if is_again(serial, sent, mine, other) else kind_of(asked.get(serial), mine, other, RULES)
        kinds[kind] = kinds.get(kind, 0) + 1
        print(f"{kind or 'NO KNOWN KIND'}: the client's message {serial}")
        for who, found in (("fpk", mine), ("the proxy", other)):
            for side in ("bus", "client"):
                for m in found[side]:
                    print(f"  to the {side}, only by {who}:", *seen(m))
    for kind, meaning in KINDS.items():
        print(f"{kinds.get(kind, 0)} of the kind `{kind}`: {meaning}")
    return kinds.get(None, 0)


def main():
    folder = tempfile.mkdtemp()
    paths = {name: f"{folder}/{name}" for name in ("bus", "near", "far", "proxy")}
    with open(f"{folder}/conf", "w") as it:
        it.write(f"<busconfig><type>session</type><listen>unix:path={paths['bus']}</listen><policy context='default'><allow send_destination='*' "
                 "eavesdrop='true'/><allow eavesdrop='true'/><allow own='*'/></policy></busconfig>")
    daemon = subprocess.Popen(["dbus-daemon", f"--config-file={folder}/conf", "--nofork", "--print-address=1"], stdout=subprocess.PIPE)
    daemon.stdout.readline()
    threading.Thread(target=GLib.MainLoop().run, daemon=True).start()
    proxy = None
    try:
        control = connect(f"unix:path={paths['bus']}")
        services = {}
        for name in SERVICES:
            services[name] = connect(f"unix:path={paths['bus']}")
            export(services[name])
            call(services[name], *DRIVER, "RequestName", GLib.Variant("(su)", (name, 0)))
        serve(paths["far"], paths["bus"], "far")
        proxy = subprocess.Popen(["xdg-dbus-proxy", f"unix:path={paths['far']}", paths["proxy"], "--filter"] + RULES)
        while not os.path.exists(paths["proxy"]):
            time.sleep(0.02)
        serve(paths["near"], paths["proxy"], "near")
        client = connect(f"unix:path={paths['near']}")
        export(client)
        traffic(client, services, control)
        name = client.get_unique_name()
        owners = [(n, services[n].get_unique_name()) for n in SERVICES]
    finally:
        if proxy:
            proxy.kill()
        daemon.kill()
    with lock:
        taken = list(record)
    hello = b"".join(d for tap, way, d in taken if (tap, way) == ("near", "up"))
    lines = hello[:hello.index(b"BEGIN\r\n") + 7].count(b"\r\n")
    streams = {}
    for tap, way, count in (("near", "up", lines), ("near", "down", lines - 1), ("far", "up", lines), ("far", "down", lines - 1)):
        streams[tap, way] = iter(binary([d for t, w, d in taken if (t, w) == (tap, way)], count))
    lists = {key: [] for key in streams}
    for tap, way, _ in taken:
        lists[tap, way].append(next(streams[tap, way]))
    whole = {key: messages(b"".join(data)) for key, data in lists.items()}
    back, to_bus = serials_back(whole["near", "up"], whole["far", "up"])
    real = {"bus": to_bus, "client": whole["near", "down"]}
    recording = [f"client {name}"] + [f"owner {n} {u}" for n, u in owners]
    at, rest = {key: 0 for key in lists}, b""
    for tap, way, _ in taken:
        data = lists[tap, way][at[tap, way]]
        at[tap, way] += 1
        if (tap, way) == ("near", "up") and data:
            recording.append("c " + data.hex())
        elif (tap, way) == ("far", "down"):
            rest += data
            ready = messages(rest)
            rest = rest[sum(map(len, ready)):]
            recording += ["b " + d.hex() for d in (with_replies(m, back) for m in ready) if d]
    with open(f"{folder}/recording", "w") as it:
        it.write("\n".join(recording) + "\n")
    print(f"recorded {len(recording)} lines in {folder}/recording: {len(real['bus'])} messages to the bus, {len(real['client'])} to the client")
    done = subprocess.run(sys.argv[1:] + ["filter"] + RULES, stdin=open(f"{folder}/recording"), capture_output=True, text=True)
    ours = {"bus": [], "client": []}
    for line in done.stdout.splitlines():
        side, _, digits = line.partition(" ")
        if side in ours:
            ours[side].append(bytes.fromhex(digits))
        else:
            print("fpk:", line)
    unknown = compare(ours, real, whole["near", "up"])
    print(f"{unknown} differences of no known kind")
    return 1 if unknown or done.returncode else 0


if __name__ == "__main__":
    sys.exit(main())
