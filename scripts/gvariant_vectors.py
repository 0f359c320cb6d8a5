#!/usr/bin/python3
"""Prints vectors of GVariant, made by GLib: one a line, `yes` or `no`, a type string, and bytes in hexadecimal digits.

`yes` says that the bytes are a value of the type in normal form, `no` that they are none, as GLib says itself.
It needs Debian's package python3-gi. `gvariant_vectors.py COUNT SEED` prints that many vectors; the same seed gives the
same vectors. `gvariant_vectors.py COUNT SEED PROGRAM` gives each to `PROGRAM show value TYPE` instead, where PROGRAM is a
built fpk, and prints those on which the two differ. Two such differences are known: GLib takes no bytes for a tuple whose
members all have none, where it writes an offset itself, and a dictionary entry outside an array in a signature, which is no
signature of D-Bus.
"""

import hashlib
import random
import subprocess
import sys

import gi

gi.require_version("GLib", "2.0")
from gi.repository import GLib  # noqa: E402

BASIC = "bynqiuxthdsog"
LIMITS = {"y": (0, 255), "n": (-(2**15), 2**15 - 1), "q": (0, 2**16 - 1), "i": (-(2**31), 2**31 - 1),
          "u": (0, 2**32 - 1), "x": (-(2**63), 2**63 - 1), "t": (0, 2**64 - 1), "h": (-(2**31), 2**31 - 1)}
TEXTS = ["", "a", "foo", "can", "strings?", "über", "\u65e5\u672c", "x" * 30]
PATHS = ["/", "/a", "/org/freedesktop/DBus", "/a_1/B"]
SIGNATURES = ["", "s", "a{sv}", "(iay)", "ssas", "a(nq)"]


def a_type(rng, room):
    """A type string that nests at most `room` deep."""
    if room == 0 or rng.random() < 0.35:
        return rng.choice(BASIC)
    kind = rng.choice("vammt({")
    if kind == "v":
        return "v"
    if kind in "am":
        return kind + a_type(rng, room - 1)
    if kind == "{":
        return "{" + rng.choice(BASIC) + a_type(rng, room - 1) + "}"
    return "(" + "".join(a_type(rng, room - 1) for _ in range(rng.choice([0, 1, 2, 2, 3, 4]))) + ")"


def members(text):
    """The types that stand one after the other in a text."""
    found = []
    while text:
        end = 0
        while text[end] in "am":
            end += 1
        if text[end] in "({":
            depth = 0
            while True:
                depth += {"(": 1, "{": 1, ")": -1, "}": -1}.get(text[end], 0)
                end += 1
                if depth == 0:
                    break
        else:
            end += 1
        found.append(text[:end])
        text = text[end:]
    return found


def a_basic(rng, of):
    if of == "b":
        return GLib.Variant.new_boolean(rng.random() < 0.5)
    if of == "d":
        return GLib.Variant.new_double(rng.choice([0.0, 1.5, -2.0, 1e300]))
    if of == "s":
        return GLib.Variant.new_string(rng.choice(TEXTS))
    if of == "o":
        return GLib.Variant.new_object_path(rng.choice(PATHS))
    if of == "g":
        return GLib.Variant.new_signature(rng.choice(SIGNATURES))
    low, high = LIMITS[of]
    make = {"y": GLib.Variant.new_byte, "n": GLib.Variant.new_int16, "q": GLib.Variant.new_uint16,
            "i": GLib.Variant.new_int32, "u": GLib.Variant.new_uint32, "x": GLib.Variant.new_int64,
            "t": GLib.Variant.new_uint64, "h": GLib.Variant.new_handle}[of]
    return make(rng.choice([low, high, 0, 1, rng.randint(low, high)]))


def a_value(rng, of, room):
    """A value of a type, with variants that nest at most `room` deep."""
    head = of[0]
    if head in BASIC:
        return a_basic(rng, of)
    if head == "v":
        inside = a_type(rng, room)
        return GLib.Variant.new_variant(a_value(rng, inside, max(room - 1, 0)))
    if head == "a":
        count = rng.choice([0, 1, 2, 3, 5])
        items = [a_value(rng, of[1:], room) for _ in range(count)]
        return GLib.Variant.new_array(GLib.VariantType.new(of[1:]), items)
    if head == "m":
        child = a_value(rng, of[1:], room) if rng.random() < 0.6 else None
        return GLib.Variant.new_maybe(GLib.VariantType.new(of[1:]), child)
    items = [a_value(rng, member, room) for member in members(of[1:-1])]
    if head == "{":
        return GLib.Variant.new_dict_entry(items[0], items[1])
    return GLib.Variant.new_tuple(*items)


def is_normal(of, data):
    return GLib.Variant.new_from_bytes(GLib.VariantType.new(of), GLib.Bytes.new(data), False).is_normal_form()


def changed(rng, data):
    """The bytes with one change."""
    data = bytearray(data)
    kind = rng.randrange(5)
    if kind == 0 or not data:
        data.insert(rng.randint(0, len(data)), rng.choice([0, 1, 97, 255]))
    elif kind == 1:
        del data[rng.randrange(len(data))]
    elif kind == 2:
        data.pop()
    else:
        at = rng.randrange(len(data))
        data[at] = rng.choice([0, 1, data[at] ^ 1, (data[at] + 1) % 256, len(data) % 256, 255])
    return bytes(data)


def vectors(count, seed):
    """So many vectors: whether the bytes are normal, the type and the bytes."""
    rng, seen = random.Random(seed), set()
    while len(seen) < count:
        of = a_type(rng, 3)
        if len(of) == 1 and rng.random() < 0.8:
            continue
        data = a_value(rng, of, 2).get_data_as_bytes().get_data() or b""
        if rng.random() < 0.5:
            data = changed(rng, data)
        if len(data) <= 80 and (of, data) not in seen:
            seen.add((of, data))
            yield is_normal(of, data), of, data


def is_shown(program, normal, of, data):
    """Whether `show value` says of the bytes what GLib says."""
    done = subprocess.run([program, "show", "value", of], input=data, stdout=subprocess.PIPE, check=False)
    refused = f"error: malformed object {hashlib.sha256(data).hexdigest()}.value value\n"
    wanted = (0, f"normal {len(data)}\n") if normal else (1, refused)
    return (done.returncode, done.stdout.decode()) == wanted


def main():
    for normal, of, data in vectors(int(sys.argv[1]), int(sys.argv[2])):
        if len(sys.argv) < 4 or not is_shown(sys.argv[3], normal, of, data):
            print("yes" if normal else "no", of, data.hex())


if __name__ == "__main__":
    main()
