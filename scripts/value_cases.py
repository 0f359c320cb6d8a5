#!/usr/bin/python3
"""Turns vectors of GVariant, as `gvariant_vectors.py` prints them, into the commands of cases.

    scripts/gvariant_vectors.py 200 1 | scripts/value_cases.py yes

prints a `show value` for each vector that GLib finds in normal form, and with `no` for each other one.
"""

import hashlib
import sys

for line in sys.stdin:
    word, of, digits = line.rstrip("\n").split(" ")
    if word != sys.argv[1]:
        continue
    data = bytes.fromhex(digits)
    print(f"$ show value {of}")
    if data:
        print(f"<x {digits}")
    if word == "yes":
        print(f"  normal {len(data)}")
    else:
        print(f"  error: malformed object {hashlib.sha256(data).hexdigest()}.value value")
        print("? 1")
