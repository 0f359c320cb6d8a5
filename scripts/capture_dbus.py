#!/usr/bin/env python3
"""Captures D-Bus messages from a private dbus-daemon, and asks it which broken messages it disconnects for.

    python3 scripts/capture_dbus.py > crates/bus_tests/src/captured.rt && (cd crates/bus_tests && rt fmt)

It needs Debian's packages dbus and libglib2.0-bin. The expected headers are those that GDBus reads, and libdbus
where the message names no file descriptors, which libdbus wants to see. Nothing of ours is used.
"""

import array
import ctypes
import os
import select
import socket
import struct
import subprocess
import sys
import tempfile
import threading
import time

FOLDER = tempfile.mkdtemp()
ADDRESS = os.path.join(FOLDER, "bus")
CONFIG = f"""<!DOCTYPE busconfig PUBLIC "-//freedesktop//DTD D-Bus Bus Configuration 1.0//EN"
 "http://www.freedesktop.org/standards/dbus/1.0/busconfig.dtd">
<busconfig><type>session</type><listen>unix:path={ADDRESS}</listen><auth>EXTERNAL</auth>
<policy context="default"><allow send_destination="*" eavesdrop="true"/><allow eavesdrop="true"/><allow own="*"/>
</policy></busconfig>"""


# ---- messages by hand

def number(order, n):
    return struct.pack("<I" if order == "l" else ">I", n)


def padded(data, to):
    return data + bytes(-len(data) % to)


def text(order, s):
    s = s if isinstance(s, bytes) else s.encode()
    return number(order, len(s)) + s + b"\0"


def field(order, code, types, value, at):
    """The value is bytes, or a function of the place at which it stands."""
    head = bytes([code, len(types)]) + types.encode() + b"\0"
    if callable(value):
        return head + value(at + len(head))
    return head + value


def at4(order, value):
    return lambda at: bytes(-at % 4) + value


def s(order, code, value, types="s"):
    return (code, types, at4(order, text(order, value)))


def u(order, code, n, types="u"):
    return (code, types, at4(order, number(order, n)))


def g(order, code, value, types="g"):
    v = value if isinstance(value, bytes) else value.encode()
    return (code, types, bytes([len(v)]) + v + b"\0")


def message(order, kind, fields, body=b"", flags=0, serial=1, version=1, array_len=None, body_len=None, tail=b"", gap=None):
    out = b""
    for code, types, value in fields:
        out = padded(out, 8)
        out += field(order, code, types, value, 16 + len(out))
    out += tail
    n = len(out) if array_len is None else array_len
    m = len(body) if body_len is None else body_len
    head = bytes([ord(order), kind, flags, version]) + number(order, m) + number(order, serial) + number(order, n)
    filler = bytes(-len(out) % 8) if gap is None else gap
    return head + out + filler + body


def call(order="l", path="/a", member="M", destination="org.bar", **kw):
    return message(order, 1, [s(order, 1, path, "o"), s(order, 3, member), s(order, 6, destination)], **kw)


def signal(order="l", more=(), path="/a", interface="a.b", member="M", **kw):
    return message(order, 4, [s(order, 1, path, "o"), s(order, 2, interface), s(order, 3, member), *more], **kw)


# ---- a connection to the daemon

class Client:
    def __init__(self, path=ADDRESS, fds=True):
        self.socket = socket.socket(socket.AF_UNIX)
        self.socket.connect(path)
        self.buffer = b""
        self.socket.sendall(b"\0AUTH EXTERNAL " + str(os.getuid()).encode().hex().encode() + b"\r\n")
        self.line()
        if fds:
            self.socket.sendall(b"NEGOTIATE_UNIX_FD\r\n")
            self.line()
        self.socket.sendall(b"BEGIN\r\n")

    def line(self):
        while b"\r\n" not in self.buffer:
            self.buffer += self.socket.recv(4096)
        line, self.buffer = self.buffer.split(b"\r\n", 1)
        return line

    def read(self, seconds):
        """The next message, None where the daemon closed, and b"" where nothing came."""
        while True:
            n = whole_len(self.buffer)
            if n and len(self.buffer) >= n:
                m, self.buffer = self.buffer[:n], self.buffer[n:]
                return m
            ready, _, _ = select.select([self.socket], [], [], seconds)
            if not ready:
                return b""
            try:
                data = self.socket.recvmsg(65536, 4096)[0]
            except ConnectionResetError:
                data = b""
            if not data:
                return None
            self.buffer += data


LIBDBUS = ctypes.CDLL("libdbus-1.so.3")
GIO = ctypes.CDLL("libgio-2.0.so.0")


def whole_len(data):
    """How long the message at the front is, as libdbus says."""
    if len(data) < 16:
        return 0
    n = LIBDBUS.dbus_message_demarshal_bytes_needed(data, len(data))
    return n if n > 0 else 0


def bus_call(member, *args, types="", serial=1, flags=0):
    o = "l"
    body = b""
    for a in args:
        body = padded(body, 4)
        body += text(o, a) if isinstance(a, str) else number(o, a)
    fields = [s(o, 1, "/org/freedesktop/DBus", "o"), s(o, 2, "org.freedesktop.DBus"), s(o, 3, member), s(o, 6, "org.freedesktop.DBus")]
    if types:
        fields.append(g(o, 8, types))
    return message(o, 1, fields, body, serial=serial, flags=flags)


HELLO = bus_call("Hello")
PING = message("l", 1, [s("l", 1, "/", "o"), s("l", 2, "org.freedesktop.DBus.Peer"), s("l", 3, "Ping"), s("l", 6, "org.freedesktop.DBus")], serial=99)


# ---- what the libraries read

def named(library, f, result=ctypes.c_char_p):
    f = getattr(library, f)
    f.restype = result
    f.argtypes = [ctypes.c_void_p]
    return f


def word(b):
    return b.decode() if b else "-"


def described(kind, flags, serial, texts, reply, data):
    order = "<I" if data[:1] == b"l" else ">I"
    path, interface, member, error, destination, sender, signature = [word(t) for t in texts]
    replied = str(reply) if reply else "-"
    body = struct.unpack(order, data[4:8])[0]
    return f"{kind} {flags} {serial} {path} {interface} {member} {error} {replied} {destination} {sender} {signature} {body}"


def by_gdbus(data):
    GIO.g_dbus_message_new_from_blob.restype = ctypes.c_void_p
    GIO.g_dbus_message_new_from_blob.argtypes = [ctypes.c_char_p, ctypes.c_size_t, ctypes.c_int, ctypes.c_void_p]
    m = GIO.g_dbus_message_new_from_blob(data, len(data), 3, None)
    if not m:
        return None
    get = lambda f, r=ctypes.c_char_p: named(GIO, "g_dbus_message_get_" + f, r)(m)
    i = ctypes.c_uint32
    texts = [get(f) for f in ("path", "interface", "member", "error_name", "destination", "sender", "signature")]
    return described(get("message_type", i), get("flags", i), get("serial", i), texts, get("reply_serial", i), data)


def by_libdbus(data):
    LIBDBUS.dbus_message_demarshal.restype = ctypes.c_void_p
    LIBDBUS.dbus_message_demarshal.argtypes = [ctypes.c_char_p, ctypes.c_int, ctypes.c_void_p]
    error = (ctypes.c_char * 64)()
    LIBDBUS.dbus_error_init(ctypes.byref(error))
    m = LIBDBUS.dbus_message_demarshal(data, len(data), ctypes.byref(error))
    if not m:
        return None
    get = lambda f, r=ctypes.c_char_p: named(LIBDBUS, "dbus_message_" + f, r)(m)
    i = ctypes.c_uint32
    texts = [get("get_" + f) for f in ("path", "interface", "member", "error_name", "destination", "sender", "signature")]
    flags = data[2]
    return described(get("get_type", i), flags, get("get_serial", i), texts, get("get_reply_serial", i), data)


# ---- what is captured

class Relay:
    """Stands between a program and the daemon, and keeps what both say."""

    def __init__(self):
        self.path = os.path.join(FOLDER, "relay")
        self.sent = {0: b"", 1: b""}
        self.listener = socket.socket(socket.AF_UNIX)
        self.listener.bind(self.path)
        self.listener.listen(1)
        threading.Thread(target=self.run, daemon=True).start()

    def run(self):
        program, _ = self.listener.accept()
        daemon = socket.socket(socket.AF_UNIX)
        daemon.connect(ADDRESS)
        while True:
            for source in select.select([program, daemon], [], [])[0]:
                try:
                    data = source.recv(65536)
                except ConnectionResetError:
                    data = b""
                if not data:
                    program.close()
                    daemon.close()
                    return
                self.sent[0 if source is program else 1] += data
                (daemon if source is program else program).sendall(data)

    def messages(self):
        """Both sides' messages after the lines of authentication."""
        for data in (self.sent[0].split(b"BEGIN\r\n", 1)[1], self.sent[1][self.sent[1].rfind(b"\r\n") + 2:] if b"AGREE" not in self.sent[1] else self.sent[1].split(b"AGREE_UNIX_FD\r\n", 1)[1]):
            while whole_len(data):
                n = whole_len(data)
                yield data[:n]
                data = data[n:]


def of_program(*words):
    relay = Relay()
    subprocess.run(words, env={**os.environ, "DBUS_SESSION_BUS_ADDRESS": "unix:path=" + relay.path}, stdout=subprocess.DEVNULL, stderr=subprocess.DEVNULL, timeout=20)
    time.sleep(0.2)
    os.unlink(relay.path)
    return list(relay.messages())


def sent_and_received():
    """Two raw clients: what one sends, and what the daemon hands to the other."""
    a, b = Client(), Client()
    for c in (a, b):
        c.socket.sendall(HELLO)
    names = []
    for c in (a, b):
        m = c.read(2)
        names.append(m[-(len(m) - m.rfind(b":")):-1].decode())
        c.read(2)
    b.socket.sendall(bus_call("AddMatch", "type='signal'", types="s", serial=2, flags=1))
    b.socket.sendall(bus_call("RequestName", "org.example.Taken", 0, types="su", serial=3))
    out = [b.read(2), b.read(2), b.read(2)]
    to = names[1]
    for order in ("l", "B"):
        pick = lambda code, v, t="s": s(order, code, v, t)
        out.append(message(order, 1, [pick(1, "/org/example/Object_1", "o"), pick(2, "org.example.Face"), pick(3, "Do_It"), pick(6, to), g(order, 8, "sa{sv}")],
                           text(order, "x") + bytes(2) + number(order, 0) + bytes(4), flags=4, serial=7))
        out.append(message(order, 2, [u(order, 5, 7), pick(6, to), g(order, 8, "u")], number(order, 5), flags=1, serial=8))
        out.append(message(order, 3, [pick(4, "org.example.Error.No"), u(order, 5, 7), pick(6, to), g(order, 8, "s")], text(order, "é"), flags=1, serial=9))
        out.append(message(order, 4, [pick(1, "/", "o"), pick(2, "org.example.Face"), pick(3, "Changed"), g(order, 8, "aay")],
                           number(order, 900) + number(order, 896) + bytes(i % 251 for i in range(896)), serial=10))
        # all nine fields, and two that mean nothing
        out.append(message(order, 4, [pick(1, "/a/b", "o"), pick(2, "a.b"), pick(3, "M"), pick(4, "e.E"), u(order, 5, 4294967295), pick(6, to), pick(7, names[0]),
                                      g(order, 8, "y"), u(order, 9, 0), pick(200, "?"), (201, "(yv)", lambda at: bytes(-at % 8) + b"\5\2ai\0" + bytes(-(at + (-at % 8) + 5) % 4) + number(order, 4) + number(order, 3))], b"\7", serial=4294967295))
    for m in out[3:]:
        a.socket.sendall(m)
        out.append(b.read(2))
    # a file descriptor goes along
    m = message("l", 1, [s("l", 1, "/fd", "o"), s("l", 3, "Take"), s("l", 6, to), g("l", 8, "h"), u("l", 9, 1)], number("l", 0), flags=1, serial=11)
    a.socket.sendmsg([m], [(socket.SOL_SOCKET, socket.SCM_RIGHTS, array.array("i", [0]))])
    out += [m, b.read(2)]
    return [m for m in out if m]


# ---- what the daemon disconnects for

def keeps(data):
    """What the daemon does with a client that says hello, these bytes, and a ping: it closes (`x`), answers the ping (`.`),
    or waits for more (`?`)."""
    c = Client()
    try:
        c.socket.sendall(HELLO + data + PING)
    except (BrokenPipeError, ConnectionResetError):
        return "x"
    while True:
        m = c.read(0.4)
        if m is None:
            return "x"
        if m == b"":
            return "?"
        if m[1] == 2 and number("l", 99) in m[16:40]:
            return "."


CHANGES = (0, 1, 127, 255, None)


def changed(data):
    """One byte changed to 0, 1, 127, 255, or with its top bit flipped, in order of place."""
    for i in range(len(data)):
        for c in CHANGES:
            yield data[:i] + bytes([data[i] ^ 128 if c is None else c]) + data[i + 1:]


def nested(order, letter, deep):
    """A field of code 100 whose value is so many arrays or structs of one byte."""
    if letter == "a":
        def value(at):
            lens = bytes(-at % 4)
            for k in range(deep):
                lens += number(order, 4 * (deep - 1 - k) + 1)
            return lens + b"\1"
        return (100, "a" * deep + "y", value)
    return (100, "(" * deep + "y" + ")" * deep, lambda at: bytes(-at % 8) + b"\1")


def variants(deep, last="y"):
    """A field of code 100: variants in variants, so many with the field's own, around one byte."""
    return (100, "v" if deep > 1 else "y", (b"\1v\0" * (deep - 2) + b"\1y\0" if deep > 1 else b"") + b"\1")


def cases():
    o = "l"
    good = [s(o, 1, "/a", "o"), s(o, 3, "M"), s(o, 6, "org.bar")]
    yield "order", b"x" + call()[1:]
    yield "type 0", message(o, 0, good)
    yield "type 5", message(o, 5, good)
    yield "type 255", message(o, 255, [])
    yield "version 0", call(version=0)
    yield "version 2", call(version=2)
    yield "serial 0", call(serial=0)
    yield "flags 255", call(flags=255)
    yield "field array of 2^26 + 1", message(o, 4, [], array_len=2 ** 26 + 1)
    yield "16 MiB in all", message(o, 4, [], body_len=2 ** 24 - 16)
    yield "more than 16 MiB in all", message(o, 4, [], body_len=2 ** 24 - 15)
    yield "128 MiB in all", message(o, 4, [], body_len=2 ** 27 - 16)
    yield "more than 128 MiB in all", message(o, 4, [], body_len=2 ** 27 - 15)
    yield "no fields", message(o, 1, [])
    yield "no path", message(o, 1, good[1:])
    yield "no member", message(o, 1, good[:1])
    yield "no destination", message(o, 1, good[:2])
    yield "return without reply serial", message(o, 2, [s(o, 6, "org.bar")])
    yield "return", message(o, 2, [u(o, 5, 1), s(o, 6, "org.bar")])
    yield "error without name", message(o, 3, [u(o, 5, 1), s(o, 6, "org.bar")])
    yield "error without reply serial", message(o, 3, [s(o, 4, "a.b"), s(o, 6, "org.bar")])
    yield "signal without path", message(o, 4, [s(o, 2, "a.b"), s(o, 3, "M")])
    yield "signal without interface", message(o, 4, [s(o, 1, "/a", "o"), s(o, 3, "M")])
    yield "signal without member", message(o, 4, [s(o, 1, "/a", "o"), s(o, 2, "a.b")])
    yield "code 0", message(o, 1, [*good, s(o, 0, "x")])
    yield "code 10", message(o, 1, [*good, s(o, 10, "x")])
    yield "code 255", message(o, 1, [*good, s(o, 255, "x")])
    for code, again in ((1, s(o, 1, "/b", "o")), (3, s(o, 3, "N")), (6, s(o, 6, "org.bar"))):
        yield f"code {code} again", message(o, 1, [*good, again])
    yield "code 8 again", message(o, 1, [*good, g(o, 8, ""), g(o, 8, "")])
    yield "code 9 again", message(o, 1, [*good, u(o, 9, 0), u(o, 9, 0)])
    yield "code 10 again", message(o, 1, [*good, s(o, 10, "x"), s(o, 10, "x")])
    for code, value in ((1, "/a"), (2, "a.b"), (3, "M"), (4, "a.b"), (6, "org.bar"), (7, "org.bar")):
        yield f"code {code} of another type", message(o, 4, [f for f in (s(o, 1, "/a", "o"), s(o, 2, "a.b"), s(o, 3, "M")) if f[0] != code] + [s(o, code, value, "s" if code == 1 else "o")])
    yield "code 5 of another type", signal(more=[u(o, 5, 1, "i")])
    yield "code 8 of another type", signal(more=[s(o, 8, "y")])
    yield "code 9 of another type", signal(more=[u(o, 9, 0, "i")])
    for path in ("", "a", "/", "//", "/a/", "/a//b", "/a-b", "/0", "/_", "/é", "/" + "a" * 300):
        yield f"path {path[:8]}", call(path=path)
    for name in ("a", "a.b", ".a.b", "a.b.", "a..b", "0.a", "a.0", "a.b0", "a-b.c", "a.b-", "_._", "a." + "b" * 253, "a." + "b" * 254):
        yield f"interface {name[:6]} {len(name)}", signal(interface=name)
        yield f"error name {name[:6]} {len(name)}", signal(more=[s(o, 4, name)])
    for name in ("", "a", "0a", "a0", "_", "a.b", "a-b", "a" * 255, "a" * 256):
        yield f"member {name[:6]} {len(name)}", call(member=name)
    for name in ("", "a", "a.b", "a.0", "0.a", "a-.b", "-a.b", ".a", "a.", ":1.2", ":1", ":", ":a", ":.a", ":1.", ":1..2", ":a.-", ":1.é", "a." + "b" * 253, "a." + "b" * 254, ":1." + "b" * 252, ":1." + "b" * 253):
        yield f"bus name {name[:6]} {len(name)}", signal(more=[s(o, 7, name)])
    yield "reply serial 0", message(o, 2, [u(o, 5, 0), s(o, 6, "org.bar")])
    for types in ("", "y", "yy", "(y)", "a{sv}", "a" * 32 + "y", "(" * 32 + "y" + ")" * 32):
        yield f"good signature, unread {types[:6]} {len(types)}", signal(more=[g(o, 100, types)])
    for types in ("a", "z", "(", "()", "(y", "{sv}", "a{vs}", "a{s}", "a{sss}", "r", "e", "a" * 33 + "y", "(" * 33 + "y" + ")" * 33):
        yield f"bad signature, unread {types[:6]} {len(types)}", signal(more=[g(o, 100, types)])
        yield f"bad signature {types[:6]} {len(types)}", signal(more=[g(o, 8, types)])
    for types in ("", "yy"):
        yield f"{'type' if types == 'yy' else 'signature'} without body {types}", signal(more=[g(o, 8, types)])
    yield "signature of 255", signal(more=[g(o, 8, "y" * 255)], body=bytes(255))
    yield "no signature and a body", signal(body=b"\0")
    yield "empty signature and a body", signal(more=[g(o, 8, "")], body=b"\0")
    yield "type without body", signal(more=[g(o, 8, "y")])
    yield "body longer than its signature", signal(more=[g(o, 8, "y")], body=b"\0\0")
    yield "body of another form", signal(more=[g(o, 8, "s")], body=text(o, b"\xff"))
    yield "padding before the body", signal(more=[g(o, 8, "y")], gap=None, body=b"\0")[:-9] + b"\1" * 1 + signal(more=[g(o, 8, "y")], body=b"\0")[-8:]
    yield "padding between fields", call().replace(b"/a\0\0\0\0\0\0", b"/a\0\0\0\0\1\0")
    yield "zeros at the array's end", message(o, 1, good, tail=b"\0")
    yield "a field's beginning at the array's end", message(o, 1, good, tail=b"\0" * ((-len(message(o, 1, good)) % 8)) + b"\x64\1y")
    yield "text without its zero byte", signal(more=[(100, "s", at4(o, number(o, 1) + b"aa"))])
    yield "text that isn't UTF-8", signal(more=[s(o, 100, b"\xff")])
    yield "text with a surrogate", signal(more=[s(o, 100, b"\xed\xa0\x80")])
    yield "text with a zero byte", signal(more=[s(o, 100, b"a\0b")])
    yield "text with a noncharacter", signal(more=[s(o, 100, "\ufffe".encode())])
    yield "text longer than the array", signal(more=[(100, "s", at4(o, number(o, 5) + b"a\0"))])
    yield "unread path that is none", signal(more=[s(o, 100, "a", "o")])
    yield "truth value 1", signal(more=[u(o, 100, 1, "b")])
    yield "truth value 2", signal(more=[u(o, 100, 2, "b")])
    yield "two types in a variant", signal(more=[(100, "yy", b"\0\0")])
    yield "no type in a variant", signal(more=[(100, "", b"")])
    yield "empty array of structs", signal(more=[(100, "a(yy)", lambda at: bytes(-at % 4) + number(o, 0) + bytes(-(at + (-at % 4) + 4) % 8))])
    yield "empty array of structs without padding", signal(more=[(100, "a(yy)", lambda at: bytes(-at % 4) + number(o, 0)), (101, "y", b"\0")])
    yield "array of 2^26 + 1", signal(more=[(100, "ay", at4(o, number(o, 2 ** 26 + 1) + b"a"))])
    yield "array that ends within an element", signal(more=[(100, "aq", at4(o, number(o, 3) + b"\0\0\0"))])
    yield "dictionary", signal(more=[(100, "a{yy}", lambda at: bytes(-at % 4) + number(o, 2) + bytes(-(at + (-at % 4) + 4) % 8) + b"\1\2")])
    for letter in ("a", "("):
        for deep in (1, 32, 33):
            yield f"{letter} nested {deep}", signal(more=[nested(o, letter, deep)])
    for deep in (1, 2, 32, 33, 63, 64, 65, 66):
        yield f"variants nested {deep}", signal(more=[variants(deep)])
    yield "file descriptors that aren't there", signal(more=[u(o, 9, 1)])
    yield "path of the local bus", signal(path="/org/freedesktop/DBus/Local")
    yield "interface of the local bus", signal(interface="org.freedesktop.DBus.Local")
    yield "big endian", call("B")
    yield "big endian, broken", call("B", member="a.b")


# Cases where the daemon and this project differ, by the beginnings of their labels, with the reason.
DIFFERENT = {
    "more than 16 MiB in all": "the daemon's limit is 32 MiB",
    "code 10": "libdbus knows a field of code 10, an object path",
    "bus name : ": "libdbus wants no dot in a unique name",
    "bus name :1 ": "the same",
    "bus name :a ": "the same",
    "bus name :.a ": "the same",
    "bad signature, unread ": "signatures in fields that mean nothing are only texts",
    "unread path ": "so are paths",
    "type without body": "bodies aren't looked at",
    "body ": "the same",
    "variants nested 63": "the daemon counts the field array and its struct as containers",
    "variants nested 64": "the same",
    "file descriptors that aren't there": "descriptors don't come through",
    "path of the local bus": "a name is as good as another",
    "interface of the local bus": "the same",
}


def is_different(label):
    return any(label.startswith(start) for start in DIFFERENT)


def bases():
    """Messages of which each byte is changed. They have no body, since the daemon looks into bodies."""
    o = "l"
    yield "a call", call()
    yield "a signal", signal("B", more=[g("B", 8, "")])
    yield "a return", message(o, 2, [u(o, 5, 3), s(o, 6, ":1.1"), s(o, 7, "a.b"), (77, "a{sv}", lambda at: bytes(-at % 4) + number(o, 10) + bytes(-(at + (-at % 4) + 4) % 8) + text(o, "k") + b"\1y\0\6")])


def main():
    with open(os.path.join(FOLDER, "config"), "w") as f:
        f.write(CONFIG)
    daemon = subprocess.Popen(["dbus-daemon", "--config-file=" + f.name, "--nofork", "--nopidfile"], stderr=subprocess.DEVNULL)
    try:
        while not os.path.exists(ADDRESS):
            time.sleep(0.05)
        report()
    finally:
        daemon.terminate()


def table(name, doc, rows):
    """A constant of lines, of which the last has no newline."""
    print()
    for line in doc:
        print("/// " + line)
    print(f'pub const {name}: &str = "\\')
    for line in rows:
        assert '"' not in line and "\\" not in line and "\n" not in line
    print("\n".join(rows) + '";')


def captured():
    """Captured messages, each once and none too long, with the header that the libraries read."""
    messages = sent_and_received()
    messages += of_program("dbus-send", "--session", "--print-reply", "--dest=org.freedesktop.DBus", "/org/freedesktop/DBus", "org.freedesktop.DBus.ListNames")
    messages += of_program("dbus-send", "--session", "--type=signal", "/a/b", "org.example.Face.Went", "string:é", "int32:-1", "array:byte:1,2", "dict:string:uint32:k,7", "variant:double:0.5")
    messages += of_program("gdbus", "call", "--session", "--dest", "org.freedesktop.DBus", "--object-path", "/org/freedesktop/DBus", "--method", "org.freedesktop.DBus.GetNameOwner", "org.nobody")
    messages += of_program("gdbus", "emit", "--session", "--object-path", "/x", "--signal", "a.b.C", "(1, 'x', [<true>], {'k': <@as []>})")
    rows = {}
    for m in messages:
        line, other = by_gdbus(m), by_libdbus(m)
        if line is None or (other is not None and other != line):
            print("the libraries differ:", m.hex(), line, other, file=sys.stderr)
        if len(m) < 1300:
            rows[m.hex()] = line
    return [f"{m} {line}" for m, line in rows.items()]


def report():
    print("//! Messages captured from a private dbus-daemon, the headers that GDBus and libdbus read, and which broken messages")
    print("//! the daemon disconnects for. Made by scripts/capture_dbus.py.")
    table("CAPTURED", ["Messages in hexadecimal, and their headers: type, flags, serial, path, interface, member, error name, reply serial,",
                       "destination, sender, signature, and the length of the body."], captured())
    rows = [(label, f"{m.hex()} {keeps(m)} {label}") for label, m in cases()]
    table("CASES", ["Messages in hexadecimal, what the daemon does with who sends one and then a ping, and what they show. It closes (`x`),",
                    "answers the ping (`.`), or waits for more (`?`)."], [row for label, row in rows if not is_different(label)])
    table("DIFFERENT", ["The same, where this project does otherwise."], [row for label, row in rows if is_different(label)])
    table("CHANGED", ["Messages in hexadecimal, and for each of their bytes changed to 0, 1, 127, 255 and in its top bit, in this order, what the",
                      "daemon does with who sends that and then a ping."], [m.hex() + " " + "".join(map(keeps, changed(m))) for _, m in bases()])
    table("PING", ["What the daemon is sent after each."], [PING.hex()])


if __name__ == "__main__":
    main()
