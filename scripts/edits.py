#!/usr/bin/env python3
"""Says which wrong bodies no longer stand: each `old:` text of each crates/*/must-fail/*.edit, crates/*/edits/*.edit and
*.twin has to stand exactly once in its file, and the file has to be one of src/ or of the proofs. It prints nothing where
all stand; the status is 1 where one doesn't.

usage: edits.py    (at the top of the repository)
"""
import os
import pathlib
import sys


def amiss(text, crate):
    """Why the edit doesn't stand, or None."""
    path, old, texts = "", None, {}
    changes_a_body = False
    for line in text.split("\n"):
        if line.startswith("file: "):
            path = line[6:].strip()
            if os.path.normpath(path) != path or not path.startswith(("src/", "proofs/")):
                return f"it is about {path}, which shows nothing of a body"
            changes_a_body = changes_a_body or path.startswith("src/")
        elif line.startswith("old: "):
            old = line[5:]
        elif line.startswith("new:"):
            new = line[4:].removeprefix(" ")
            if not path or old is None:
                return "it has a new: before its old:"
            if path not in texts:
                try:
                    texts[path] = (crate / path).read_text(encoding="utf-8")
                except OSError:
                    return f"it is about {path}, which isn't there"
            count = texts[path].count(old)
            if count != 1:
                return f"{path} has its text {count} times: {old.strip()[:60]}"
            if old == new:
                return f"it changes nothing of {path}"
            texts[path] = texts[path].replace(old, new)
            old = None
        elif line.strip():
            return f"it has a line of its own: {line[:60]}"
    return None if changes_a_body else "it changes no body"


def main():
    top = pathlib.Path("crates")
    status = 0
    for file in sorted([*top.glob("*/must-fail/*"), *top.glob("*/edits/*")]):
        why = amiss(file.read_text(encoding="utf-8"), file.parent.parent)
        if why:
            print(f"{file.relative_to(top)}: {why}", file=sys.stderr)
            status = 1
    return status


sys.exit(main())
