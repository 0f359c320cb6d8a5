#!/usr/bin/env python3
"""Filters long recordings with fpk, and looks at each line, at the time and at the memory.

usage: filter_load.py FPK [CALLS]

1. The client calls `org.bar`, which `:1.9` owns, CALLS times (100,000 where nothing is said) with the serials from 1 on; then `:1.9` returns to each call
   in turn. With `--talk=org.bar` every message passes, so what is printed has to be each message's own bytes, the calls to the bus and then the returns to
   the client. The recording is given whole, a line a side, and in pieces of 7 bytes: both have to print the same. A tenth of it is filtered too: the time
   has to grow with the number of messages, not with its square.
2. 60 MiB of such a recording: at most 1.2 seconds. The shortest signals that pass, each of them printed, beside it: their speed is told alone.
3. As many hidden senders, and as many names that come and go, as a recording has room for, of each name two events. Nothing of it passes, and the filter
   learns nothing: its peak of memory is at most 2 MiB above that of a recording as long, in which one sender and one name come again and again. Of the
   hidden senders' messages 1,000,000 a second are wanted.
4. 131,072 calls that wait, with serials that a table under a fixed hash keeps in one chain, beside as many whose serials rise: of the client, and of a
   peer. They are looked for by a program in C, so `cc` is needed; without it this is left out.

Seconds are those of processor time. A speed counts where the machine has nothing else to do: the last line says so. The status is 0 where the lines of 1
and the memory of 3 are as wanted, and on a quiet machine the speeds of 2 and 3 too.
"""

import ctypes
import os
import shutil
import struct
import subprocess
import sys
import tempfile

from speed import started

MIB = 1 << 20
RECORDING = 60 * MIB  # fpk reads at most 64 MiB
DRIVER = b"org.freedesktop.DBus"


def message(kind, serial, fields, body=b"", flags=0):
    """A message of little byte order with these header fields, as the D-Bus specification has it."""
    array = b""
    for code, signature, value in fields:
        array += b"\0" * (-len(array) % 8) + bytes([code, 1]) + signature + b"\0"
        if signature == b"g":
            array += bytes([len(value)]) + value + b"\0"
            continue
        array += b"\0" * (-len(array) % 4)
        array += struct.pack("<I", value) if signature == b"u" else struct.pack("<I", len(value)) + value + b"\0"
    head = b"l" + bytes([kind, flags, 1]) + struct.pack("<III", len(body), serial, len(array)) + array
    return head + b"\0" * (-len(head) % 8) + body


def texts(*values):
    body = b""
    for value in values:
        body += b"\0" * (-len(body) % 4) + struct.pack("<I", len(value)) + value + b"\0"
    return body


def traffic(count):
    calls = [message(1, i, [(1, b"o", b"/a"), (3, b"s", b"M"), (6, b"s", b"org.bar")]) for i in range(1, count + 1)]
    returns = [message(2, i, [(5, b"u", i), (6, b"s", b":1.1"), (7, b"s", b":1.9")]) for i in range(1, count + 1)]
    return calls, returns


def recording(calls, returns, size):
    """Lines of pieces of this size, or of each side whole."""
    lines = ["client :1.1", "owner org.bar :1.9"]
    for side, messages in (("c", calls), ("b", returns)):
        data = b"".join(messages)
        step = size or len(data) or 1
        lines += [f"{side} {data[i:i + step].hex()}" for i in range(0, len(data), step)]
    return "\n".join(lines) + "\n"


class Run:
    """What a program prints of a recording, the seconds of processor time, and the peak of its memory in bytes."""

    def __init__(self, fpk, text, folder):
        path, printed = os.path.join(folder, "recording"), os.path.join(folder, "printed")
        with open(path, "w") as file:
            file.write(text)
        status, _, self.seconds, peak, _ = started([fpk, "filter", "--talk=org.bar"], path, printed)
        with open(printed) as file:
            self.printed = file.read()
        if status:
            sys.exit(f"status {status}: {self.printed[:80]}")
        self.peak = peak * 1024


def printed_of(calls, returns):
    return "".join([f"bus {it.hex()}\n" for it in calls] + [f"client {it.hex()}\n" for it in returns])


def check_lines(fpk, count, folder):
    """How many of the first part's wishes are not met."""
    calls, returns = traffic(count)
    wanted, amiss = printed_of(calls, returns), 0
    whole, pieces = Run(fpk, recording(calls, returns, 0), folder), Run(fpk, recording(calls, returns, 7), folder)
    tenth = Run(fpk, recording(*traffic(count // 10), 7), folder)
    for name, run in (("whole", whole), ("in pieces", pieces)):
        amiss += run.printed != wanted
        print(f"{name}: {run.printed.count(chr(10))} messages, {'as wanted' if run.printed == wanted else 'not as wanted'}")
    slow = pieces.seconds > 30 * max(tenth.seconds, 0.01)
    print(f"seconds for {2 * count:,} messages in pieces: {pieces.seconds:.2f}; for a tenth: {tenth.seconds:.2f}{', which grows too fast' if slow else ''}")
    return amiss + slow


def check_speed(fpk, folder):
    """Whether the speed is what is wanted."""
    one = sum(len(it[0]) for it in traffic(1))
    count = RECORDING // (2 * one)
    calls, returns = traffic(count)
    text = recording(calls, returns, 0)
    run = Run(fpk, text, folder)
    print(f"{len(text) / MIB:.0f} MiB of recording, {2 * count:,} calls and returns: {run.seconds:.2f} seconds (1.2 are wanted), "
          f"{2 * count / run.seconds:,.0f} messages a second")
    signals = [message(4, i, [(1, b"o", b"/"), (2, b"s", b"a.b"), (3, b"s", b"M")]) for i in range(1, RECORDING // (2 * 64) + 1)]
    short = Run(fpk, recording(signals, [], 0), folder)
    print(f"{len(signals):,} signals of the client, {len(signals[0])} bytes each: {short.seconds:.2f} seconds, {len(signals) / short.seconds:,.0f} messages a "
          "second")
    return run.seconds <= 1.2


def hidden_senders(count, distinct):
    """Two messages of each sender, of whom nobody knows anything: answers to no call, the shortest messages that a bus sends."""
    names = [b":1.%d" % (1_000_000 + (i if distinct else 0)) for i in range(count // 2)]
    return [message(2, i, [(5, b"u", 77), (7, b"s", name)]) for i in (1, 2) for name in names]


def owner_changes(count, distinct):
    """Each unique name comes and goes."""
    head = [(1, b"o", b"/org/freedesktop/DBus"), (2, b"s", DRIVER), (3, b"s", b"NameOwnerChanged"), (7, b"s", DRIVER), (8, b"g", b"sss")]
    names = [b":1.%d" % (1_000_000 + (i if distinct else 0)) for i in range(count // 2)]
    return [message(4, 1, head, texts(name, *pair)) for name in names for pair in ((b"", name), (name, b""))]


def check_memory(fpk, folder):
    """How many of the third part's wishes of memory are not met, and whether the speed is what is wanted."""
    amiss, fast = 0, False
    empty = Run(fpk, recording([], [], 0), folder)
    print(f"peak of the empty filter: {empty.peak / MIB:.1f} MiB")
    for name, made in (("hidden senders", hidden_senders), ("names that come and go", owner_changes)):
        count = RECORDING // (2 * len(made(2, True)[0])) // 2 * 2
        many, few = (Run(fpk, recording([], made(count, distinct), 0), folder) for distinct in (True, False))
        more = (many.peak - few.peak) / MIB
        print(f"{count:,} events of {count // 2:,} {name}: peak {many.peak / MIB:.1f} MiB, with one name {few.peak / MIB:.1f} MiB, so {more:.1f} MiB more"
              f"{'' if more <= 2 else ', which is too much'}; {many.seconds:.2f} and {few.seconds:.2f} seconds; {many.printed.count(chr(10))} lines printed")
        amiss += more > 2 or bool(many.printed)
        if made is hidden_senders:
            print(f"so {count / many.seconds:,.0f} messages a second (1,000,000 are wanted)")
            fast = count / many.seconds >= 1_000_000
    return amiss, fast


# The hash of the standard library's FoldHasher over a number of 32 bits, as indexmap folds it to 32 bits; its lowest bits are the group in which a key is
# looked for first.
SEARCH = r"""
#include <stdint.h>
uint32_t find(uint32_t *found, uint32_t count, uint32_t mask) {
    uint32_t n = 0;
    for (uint32_t key = 1; key != 0 && n < count; key++) {
        uint64_t word = ((uint64_t)key | (uint64_t)key << 32) ^ 0x243f6a8885a308d3ull;
        unsigned __int128 product = (unsigned __int128)word * (0x9e3779b97f4a7c15ull ^ 8);
        uint64_t hash = (uint64_t)product ^ (uint64_t)(product >> 64);
        if ((((uint32_t)(hash >> 32) ^ (uint32_t)hash) & mask) == 0) found[n++] = key;
    }
    return n;
}
"""


def serials_in_one_chain(count, mask, folder):
    source, library = os.path.join(folder, "search.c"), os.path.join(folder, "search.so")
    with open(source, "w") as file:
        file.write(SEARCH)
    subprocess.run(["cc", "-O2", "-shared", "-fPIC", "-o", library, source], check=True)
    found = (ctypes.c_uint32 * count)()
    have = ctypes.CDLL(library).find(found, count, mask)
    return list(found)[:have]


def measure_chains(fpk, folder):
    if not shutil.which("cc"):
        print("no `cc`: the serials of one chain were not looked for")
        return
    count = 1 << 17  # the most that 16,384 groups take is 9 each; of 2^32 serials 2^18 are in one of them
    chosen = serials_in_one_chain(count, (1 << 14) - 1, folder)
    for who in ("the client", "a peer"):
        seconds = []
        for serials in (range(1, len(chosen) + 1), chosen):
            if who == "the client":
                calls = [message(1, i, [(1, b"o", b"/"), (3, b"s", b"M"), (6, b"s", b"org.bar")]) for i in serials]
                run = Run(fpk, recording(calls, [], 0), folder)
            else:
                calls = [message(1, i, [(1, b"o", b"/"), (3, b"s", b"M"), (7, b"s", b":1.9")]) for i in serials]
                run = Run(fpk, recording([], calls, 0), folder)
            if run.printed.count("\n") != len(chosen):
                sys.exit(f"{run.printed.count(chr(10))} calls passed of {len(chosen)}")
            seconds.append(run.seconds)
        print(f"{len(chosen):,} calls of {who} that wait: {seconds[0]:.2f} seconds with serials that rise, {seconds[1]:.2f} with chosen ones, "
              f"so {(seconds[1] - seconds[0]) / len(chosen) * 1e6:.1f} microseconds a call more")


def main():
    if len(sys.argv) not in (2, 3):
        sys.exit(__doc__)
    fpk, count = os.path.abspath(sys.argv[1]), int(sys.argv[2]) if len(sys.argv) == 3 else 100_000
    busy = os.getloadavg()[0] > 1
    with tempfile.TemporaryDirectory() as folder:
        amiss = check_lines(fpk, count, folder)
        fast = check_speed(fpk, folder)
        grown, hidden_fast = check_memory(fpk, folder)
        measure_chains(fpk, folder)
    amiss, fast = amiss + grown, fast and hidden_fast
    print("the machine was busy, so the speeds count for little" if busy else f"the machine was quiet: the speeds are {'' if fast else 'not '}what is wanted")
    sys.exit(bool(amiss or not (busy or fast)))


main()
