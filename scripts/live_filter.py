#!/usr/bin/python3
"""Sends random messages through a live dbus-daemon and the real xdg-dbus-proxy, and compares what `fpk filter` makes of the same bytes.

usage: live_filter.py PROGRAM [ROUNDS [SEED]]        as: live_filter.py crates/fpk/out/fpk 100

A round has a dbus-daemon of its own, services, random rules, and a client that goes through `xdg-dbus-proxy --filter`. The client and the services
write messages by hand, one side at a time: calls to the bus and to services, replies in any order, signals with and without a destination, names that are
taken and given back, services that come and go. All that the client sent and that the bus sent to the proxy is given to `PROGRAM filter RULES` as a
recording, cut into pieces at random. Then are compared: what goes on to the bus, and what comes to the client.

A round fails where a difference is of no kind that real_proxy.py knows (so a reply, a signal or a call that the real proxy passes and fpk does not), and
where a name comes to the client that no rule opens and that the client never says (a hidden name). Each round prints its seed; the round of a seed is
begun again by `live_filter.py PROGRAM 1 SEED`. It needs Debian's packages dbus, xdg-dbus-proxy and python3-gi.
"""
import os
import random
import select
import socket
import struct
import subprocess
import sys
import tempfile
import threading
import time

from real_proxy import DRIVER, KINDS, apart, kind_of, messages, number, read, reply_at, seen, with_number

PATHS, INTERFACES, MEMBERS = ("/a", "/a/b", "/z"), ("org.t.I", "org.t.J"), ("M", "N", "S")
OPEN, CLOSED, SECRET = [f"org.t.O{i}" for i in range(6)], [f"org.t.C{i}" for i in range(3)], [f"org.secret.N{i}" for i in range(3)]
NO_REPLY, NO_START = 1, 2


# ---- messages by hand

def text(order, value):
    return struct.pack(order + "I", len(value)) + value.encode() + b"\0"


def packed(order, signature, values):
    """A body of texts (`s`) and numbers (`u`)."""
    out = b""
    for kind, value in zip(signature, values):
        out += b"\0" * (-len(out) % 4)
        out += text(order, value) if kind == "s" else struct.pack(order + "I", value)
    return out


def message(kind, serial, fields, signature="", values=(), flags=0, order="<"):
    """The fields are pairs of a code and a value: a number, or a text whose type its code says."""
    body = packed(order, signature, values)
    array = b""
    for code, value in [*fields, *([(8, signature)] if signature else [])]:
        types = {1: "o", 5: "u", 8: "g", 9: "u"}.get(code, "s")
        array += b"\0" * (-len(array) % 8) + bytes([code, 1]) + types.encode() + b"\0"
        if types == "g":
            array += bytes([len(value)]) + value.encode() + b"\0"
        else:
            array += b"\0" * (-len(array) % 4) + (struct.pack(order + "I", value) if types == "u" else text(order, value))
    head = (b"l" if order == "<" else b"B") + bytes([kind, flags, 1]) + struct.pack(order + "III", len(body), serial, len(array)) + array
    return head + b"\0" * (-len(head) % 8) + body


class Peer:
    """A connection to a bus at a path. It reads what came only where it waits for an answer of the bus."""

    def __init__(self, path):
        self.socket = socket.socket(socket.AF_UNIX)
        self.socket.connect(path)
        self.socket.sendall(b"\0AUTH EXTERNAL " + str(os.getuid()).encode().hex().encode() + b"\r\n")
        line = b""
        while not line.endswith(b"\r\n"):
            line += self.socket.recv(1)
        self.socket.sendall(b"BEGIN\r\n")
        self.serial, self.rest, self.got, self.calls = 0, b"", [], []
        self.name = read(self.ask("Hello")).get_body().unpack()[0]

    def next(self):
        self.serial += 1
        return self.serial

    def send(self, data):
        self.socket.sendall(data)

    def wait_for(self, serial):
        """The reply to a call. What came before it is kept: all messages, and the calls among them."""
        found = None
        while found is None:
            if not select.select([self.socket], [], [], 20)[0]:
                raise TimeoutError(f"no reply to {serial}")
            data = self.socket.recv(65536)
            if not data:
                raise ConnectionError("the connection was closed")
            self.rest += data
            fresh = whole(self.rest)
            self.rest = self.rest[sum(map(len, fresh)):]
            self.got += fresh
            self.calls += [m for m in fresh if m[1] == 1]
            found = next((m for m in fresh if m[1] in (2, 3) and reply_at(m) and number(m, reply_at(m)) == serial), None)
        return found

    def ask(self, member, signature="", *values):
        """A call to the bus, and its reply: all that this peer sent before has come to the bus then, and all that the bus sent it has come here."""
        serial = self.next()
        self.send(message(1, serial, [(1, DRIVER[1]), (2, DRIVER[2]), (3, member), (6, DRIVER[0])], signature, values))
        return self.wait_for(serial)


def whole(data):
    """The messages at the front that are whole."""
    found = messages(data)
    return [m for m in found if len(m) == 16 + (number(m, 12) + 7) // 8 * 8 + number(m, 4)]


# ---- what is recorded

class Tap:
    """Joins the proxy to the bus, and keeps what goes either way after the handshake."""

    def __init__(self, path, to):
        self.record, self.lock = [], threading.Lock()
        listener = socket.socket(socket.AF_UNIX)
        listener.bind(path)
        listener.listen(1)
        threading.Thread(target=self.run, args=(listener, to), daemon=True).start()

    def run(self, listener, to):
        near, _ = listener.accept()
        far = socket.socket(socket.AF_UNIX)
        far.connect(to)
        for a, b, way, lines in ((near, far, "up", 2), (far, near, "down", 1)):
            threading.Thread(target=self.copy, args=(a, b, way, lines), daemon=True).start()

    def copy(self, a, b, way, lines):
        rest = b""
        while True:
            try:
                data = a.recv(65536)
            except OSError:
                data = b""
            if not data:
                try:
                    b.shutdown(socket.SHUT_WR)
                except OSError:
                    pass
                return
            rest += data
            while lines and b"\r\n" in rest:
                rest, lines = rest[rest.index(b"\r\n") + 2:], lines - 1
            if not lines:
                ready = whole(rest)
                rest = rest[sum(map(len, ready)):]
                self.keep(way, *ready)
            try:
                b.sendall(data)
            except OSError:
                return

    def keep(self, way, *found):
        with self.lock:
            self.record += [(way, m) for m in found]


# ---- a round

class Round:
    def __init__(self, seed, folder):
        self.seed, self.dice, self.folder = seed, random.Random(seed), folder
        self.paths = {name: f"{folder}/{name}" for name in ("bus", "far", "proxy")}
        self.waiting = []  # (service, call) of the client that has no reply yet
        self.steps = 0

    def rules(self):
        """Rules that open some of the names of OPEN, and once in a while all below a name."""
        dice, found = self.dice, []
        for name in OPEN:
            kind = dice.choice(("see", "talk", "own", "call", "broadcast", "talk", None))
            pattern = name + dice.choice(("", "", ".*"))
            if kind in ("call", "broadcast"):
                members = dice.choice(("*", "org.t.I.*", "org.t.I.M", "org.t.J.N", "org.t.I.S"))
                found.append(f"--{kind}={pattern}={members}" + dice.choice(("", "@/a", "@/a/*", "@/*")))
            elif kind:
                found.append(f"--{kind}={pattern}")
        return found + dice.choice(([], [], ["--own=org.t.mine.*"], ["--see=org.t.*"]))

    def run(self, program):
        os.makedirs(f"{self.folder}/services")
        for name in ("org.t.O0", SECRET[0]):
            with open(f"{self.folder}/services/{name}.service", "w") as it:
                it.write(f"[D-BUS Service]\nName={name}\nExec=/bin/false\n")
        with open(f"{self.folder}/conf", "w") as it:
            it.write(f"<busconfig><type>session</type><listen>unix:path={self.paths['bus']}</listen><servicedir>{self.folder}/services</servicedir>"
                     "<policy context='default'><allow send_destination='*' eavesdrop='true'/><allow eavesdrop='true'/><allow own='*'/></policy></busconfig>")
        rules = self.rules()
        running = []
        try:
            daemon = subprocess.Popen(["dbus-daemon", f"--config-file={self.folder}/conf", "--nofork", "--print-address=1"], stdout=subprocess.PIPE,
                                      stderr=subprocess.DEVNULL)
            running.append(daemon)
            daemon.stdout.readline()
            self.services = {name: Peer(self.paths["bus"]) for name in OPEN + CLOSED + SECRET}
            owners = []
            for name, peer in self.services.items():
                if name in SECRET or self.dice.random() < 0.8:
                    peer.ask("RequestName", "su", name, 0)
                    owners.append((name, peer.name))
            self.tap = Tap(self.paths["far"], self.paths["bus"])
            running.append(subprocess.Popen(["xdg-dbus-proxy", f"unix:path={self.paths['far']}", self.paths["proxy"], "--filter"] + rules))
            self.client = self.connected()
            self.client.ask("GetId")  # the proxy knows the owners of names then, for whom it asks at its start
            for _ in range(self.dice.randint(20, 60)):
                self.step()
            self.settle()
        finally:
            for it in reversed(running):
                it.kill()
                it.wait()
        return self.compare(program, rules, owners)

    def connected(self):
        """The client, once the proxy takes it."""
        for _ in range(1000):
            try:
                return Tapped(self.paths["proxy"], self.tap)
            except (FileNotFoundError, ConnectionRefusedError):
                time.sleep(0.01)
        raise TimeoutError("no proxy")

    def settle(self):
        """What either side sent has come to the other."""
        for peer in self.services.values():
            peer.ask("GetId")
        self.client.ask("GetId")
        for peer in self.services.values():
            self.waiting += [(peer, m) for m in peer.calls if read(m).get_sender() == self.client.name]
            peer.calls = []

    def step(self):
        self.steps += 1
        dice = self.dice
        act = dice.choices((self.ask_bus, self.call_service, self.client_signal, self.client_reply, self.service_signal, self.service_call, self.service_reply,
                            self.change_names, self.come_and_go), (30, 25, 8, 8, 12, 8, 25, 10, 2))[0]
        for _ in range(dice.choice((1, 1, 1, 3))):
            act()
        self.settle()

    def token(self):
        return f"t{self.steps}.{self.dice.randrange(10**9)}"

    # -- the client

    def some_name(self):
        """A name that the client may say: no secret one."""
        dice = self.dice
        known = [self.services[n].name for n in OPEN + CLOSED] + [self.client.name]
        return dice.choice(OPEN + OPEN + CLOSED + ["org.t.Absent", "org.t.O1.Below", DRIVER[0], ":1.999"] + known)

    def from_client(self, kind, fields, signature="", values=(), flags=0):
        order = self.dice.choice("<<<>")
        self.client.send(message(kind, self.client.next(), fields, signature, values, flags, order))

    def ask_bus(self):
        dice = self.dice
        about = ("NameHasOwner", "GetNameOwner", "GetConnectionUnixProcessID", "GetConnectionUnixUser", "GetConnectionCredentials", "ListQueuedOwners",
                 "GetAdtAuditSessionData", "GetConnectionSELinuxSecurityContext")
        member = dice.choice(about + ("ListNames", "ListNames", "ListActivatableNames", "GetId", "AddMatch", "AddMatch", "RequestName", "RequestName",
                                      "ReleaseName", "StartServiceByName", "Introspect", "Ping", "Get", "NoSuch"))
        fields = [(1, DRIVER[1]), (2, DRIVER[2]), (3, member), (6, DRIVER[0])]
        flags = dice.choice((0, 0, 0, NO_START, NO_REPLY))
        if member in about or member == "ReleaseName":
            self.from_client(1, fields, "s", (self.some_name(),), flags)
        elif member in ("RequestName", "StartServiceByName"):
            self.from_client(1, fields, "su", (dice.choice(OPEN + CLOSED + ["org.t.mine.X", "org.t.mine"]), 0), flags)
        elif member == "AddMatch":
            self.from_client(1, fields, "s", (dice.choice(("type='signal'", "type='signal',interface='org.t.I'", "path_namespace='/a'", "eavesdrop='true'",
                                                           "arg0='eavesdrop'", f"sender='{dice.choice(OPEN + CLOSED)}'", "nonsense",
                                                           "type='signal',member='NameOwnerChanged'")),), flags)
        elif member in ("Introspect", "Ping"):
            interface = "org.freedesktop.DBus." + {"Introspect": "Introspectable", "Ping": "Peer"}[member]
            self.from_client(1, [fields[0], (2, interface), *fields[2:]], "", (), flags)
        elif member == "Get":
            self.from_client(1, [fields[0], (2, "org.freedesktop.DBus.Properties"), *fields[2:]], "ss", (DRIVER[0], "Features"), flags)
        else:
            self.from_client(1, fields if dice.random() < 0.9 else [fields[0], *fields[2:]], "", (), flags)

    def call_service(self):
        dice = self.dice
        self.from_client(1, [(1, dice.choice(PATHS)), (2, dice.choice(INTERFACES)), (3, dice.choice(MEMBERS)), (6, self.some_name())], "s", (self.token(),),
                         dice.choice((0, 0, 0, NO_START, NO_REPLY)))

    def client_signal(self):
        dice = self.dice
        fields = [(1, dice.choice(PATHS)), (2, dice.choice(INTERFACES)), (3, "S")]
        if dice.random() < 0.7:
            fields.append((6, self.some_name()))
        self.from_client(4, fields, "s", (self.token(),))

    def client_reply(self):
        """To a call of a service, to one that was replied to before, or to none."""
        dice, calls = self.dice, self.client.calls
        if calls and dice.random() < 0.8:
            call = read(dice.choice(calls))
            to, serial = call.get_sender(), call.get_serial()
        else:
            to, serial = self.services[dice.choice(OPEN + CLOSED)].name, dice.randrange(1, 50)
        self.answer(self.from_client, to, serial)

    def answer(self, send, to, serial):
        if self.dice.random() < 0.7:
            send(2, [(5, serial), (6, to)], "s", (self.token(),))
        else:
            send(3, [(4, "org.t.Error.Asked"), (5, serial), (6, to)], "s", (self.token(),))

    # -- services

    def from_service(self, peer):
        return lambda kind, fields, signature="", values=(), flags=0: peer.send(message(kind, peer.next(), fields, signature, values, flags,
                                                                                        self.dice.choice("<<<>")))

    def service_signal(self):
        """To everybody, or to the client; a secret service writes to nobody alone."""
        dice = self.dice
        name = dice.choice(OPEN + OPEN + CLOSED + SECRET)
        fields = [(1, dice.choice(PATHS)), (2, dice.choice(INTERFACES)), (3, dice.choice(MEMBERS))]
        if name not in SECRET and dice.random() < 0.4:
            fields.append((6, self.client.name))
        self.from_service(self.services[name])(4, fields, "s", (self.token(),))

    def service_call(self):
        dice = self.dice
        self.from_service(self.services[dice.choice(OPEN + CLOSED)])(
            1, [(1, dice.choice(PATHS)), (2, "org.t.I"), (3, "M"), (6, self.client.name)], "s", (self.token(),), dice.choice((0, 0, NO_REPLY)))

    def service_reply(self):
        if self.waiting:
            peer, call = self.waiting.pop(self.dice.randrange(len(self.waiting)))
            if peer in self.services.values():
                self.answer(self.from_service(peer), self.client.name, number(call, 8))

    def change_names(self):
        dice = self.dice
        peer = self.services[dice.choice(OPEN + CLOSED)]
        if dice.random() < 0.5:
            peer.ask("RequestName", "su", dice.choice(OPEN + CLOSED + ["org.t.O1.Below"]), dice.choice((0, 1, 2, 3)))
        else:
            peer.ask("ReleaseName", "s", dice.choice(OPEN + CLOSED))
        secret = dice.choice(SECRET)
        if dice.random() < 0.3:
            self.services[secret].ask(dice.choice(("RequestName", "ReleaseName")), *(("su", secret, 0) if dice.random() < 0.5 else ("s", secret)))

    def come_and_go(self):
        name = self.dice.choice(OPEN + CLOSED + SECRET)
        self.services[name].socket.close()
        self.services[name] = Peer(self.paths["bus"])
        self.services[name].ask("RequestName", "su", name, 0)

    # -- what came of it

    def compare(self, program, rules, owners):
        with self.tap.lock:
            taken = list(self.tap.record)
        sent = {number(m, 8): m for way, m in taken if way == "sent"}
        up = [m for way, m in taken if way == "up"]
        # the proxy adds the number of its own first calls to each serial of the client after `Hello`
        ids = [m for m in up if read(m).get_member() == "GetId"]
        asked = [s for s, m in sent.items() if read(m).get_member() == "GetId"]
        offset = number(ids[-1], 8) - asked[-1]
        passed = []
        for m in up:
            serial = number(m, 8) - offset if m is not up[0] else number(m, 8)
            if serial in sent and with_number(m, 8, 0) == with_number(sent[serial], 8, 0):
                passed.append(sent[serial])
        hello = number(up[0], 8)
        lines = [f"client {self.client.name}"] + [f"owner {n} {u}" for n, u in owners]
        for side, data in self.pieces(taken, {number(m, 8) for m in passed}, hello, offset):
            lines.append(f"{side} {data.hex()}")
        with open(f"{self.folder}/recording", "w") as it:
            it.write("\n".join(lines) + "\n")
        with open(f"{self.folder}/recording") as it:
            done = subprocess.run([program, "filter"] + rules, stdin=it, capture_output=True, text=True)
        ours = {"bus": [], "client": []}
        for line in done.stdout.splitlines():
            side, _, digits = line.partition(" ")
            if side not in ours:
                return [f"fpk: {line}"], {}, 0, 0
            ours[side].append(bytes.fromhex(digits))
        theirs = {"bus": passed, "client": self.client.got}
        kinds, bad = self.kinds(ours, theirs, sent, rules)
        if bad:
            bad[:0] = [f"rules: {' '.join(rules)}", f"owners: {owners}"]
        for m in ours["client"]:
            bad += [f"hidden name {name.decode()} in {shown(m)}" for name in self.hidden_names() if name + b"\0" in m or name + b"'" in m or name + b'"' in m]
        return bad, kinds, len(theirs["bus"]), len(theirs["client"])

    def pieces(self, taken, passed, hello, offset):
        """The recording, cut at random: what the client sent, and what came of the bus, with the client's serials. What answers a call of the proxy's own
        is left out: those at its start, and one in the place of each call that it refuses."""
        runs = []
        for way, m in taken:
            if way == "up":
                continue
            if way == "down":
                at = reply_at(m) if m[1] in (2, 3) else None
                if at is not None:
                    serial = number(m, at) if number(m, at) == hello else number(m, at) - offset
                    if serial not in passed or number(m, at) != hello == serial:
                        continue
                    m = with_number(m, at, serial)
            runs.append(("c" if way == "sent" else "b", m))
        found, at = [], 0
        while at < len(runs):
            side, end = runs[at][0], at
            while end < len(runs) and runs[end][0] == side and end - at < 5:
                end += 1
            data = b"".join(m for _, m in runs[at:end])
            while data:
                cut = self.dice.choice((1, 3, 16, 17, 200, len(data), len(data)))
                found.append((side, data[:cut]))
                data = data[cut:]
            at = end
        return found

    def hidden_names(self):
        """The names of the secret services, which no rule opens: the rules of a round are about names below org.t."""
        return [name.encode() for name in SECRET + [self.services[n].name for n in SECRET]]

    def kinds(self, ours, theirs, sent, rules):
        """How many differences there are of each known kind, and what is said of the others."""
        about = {}
        for side in ("bus", "client"):
            for which, found in zip((0, 1), apart(ours[side], theirs[side])):
                for m in found:
                    serial = number(m, 8) if side == "bus" else read(m).get_reply_serial()
                    about.setdefault(serial, ({"bus": [], "client": []}, {"bus": [], "client": []}))[which][side].append(m)
        kinds, bad = {}, []
        for serial, (mine, other) in sorted(about.items()):
            kind = kind_of(read(sent[serial]) if serial in sent else None, mine, other, rules)
            kinds[kind] = kinds.get(kind, 0) + 1
            if kind is None:
                bad.append(f"the client's message {serial}: {shown(sent[serial]) if serial in sent else 'none'}")
                for who, found in (("fpk", mine), ("the proxy", other)):
                    bad += [f"  to the {side}, only by {who}: {shown(m)}" for side in ("bus", "client") for m in found[side]]
        return kinds, bad


def shown(data):
    m = read(data)
    return f"{m.get_sender()} to {m.get_destination()}: {seen(data)}"


class Tapped(Peer):
    """The client, whose messages are kept as it sends them."""

    def __init__(self, path, tap):
        self.tap = tap
        super().__init__(path)

    def send(self, data):
        self.tap.keep("sent", data)
        super().send(data)


def main():
    if len(sys.argv) not in (2, 3, 4):
        sys.exit(__doc__)
    program = sys.argv[1]
    rounds = int(sys.argv[2]) if len(sys.argv) > 2 else 100
    first = int(sys.argv[3]) if len(sys.argv) > 3 else random.randrange(10**9)
    amiss, total, to_bus, to_client = 0, {}, 0, 0
    for i in range(rounds):
        seed = first + i
        with tempfile.TemporaryDirectory() as folder:
            bad, kinds, up, down = Round(seed, folder).run(program)
        print(f"seed {seed}: {up} messages to the bus, {down} to the client, {sum(kinds.values())} differences of known kinds" if not bad else
              f"seed {seed}: AMISS", flush=True)
        for line in bad:
            print("  " + line)
        amiss += bool(bad)
        to_bus, to_client = to_bus + up, to_client + down
        for kind, count in kinds.items():
            total[kind] = total.get(kind, 0) + count
    for kind, meaning in KINDS.items():
        print(f"{total.get(kind, 0)} of the kind `{kind}`: {meaning}")
    print(f"{rounds} rounds, {amiss} amiss; {to_bus} messages to the bus, {to_client} to the client")
    return 1 if amiss else 0


if __name__ == "__main__":
    sys.exit(main())
