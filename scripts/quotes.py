#!/usr/bin/env python3
"""Says which quotations of docs/THEOREM.md and docs/PROOFS.md don't stand in the tree. A quotation is a block of code below
a line that is a path in backticks and a colon: its lines have to stand in that file, one after another, those of a record
up to its end. It prints nothing where all stand.

usage: quotes.py    (at the top of the repository)
"""
import re
import sys

PAGES = ("docs/THEOREM.md", "docs/PROOFS.md")


def amiss(page):
    """What is wrong with a page's quotations and paths, a line each."""
    with open(page, encoding="utf-8") as file:
        text = file.read()
    quotes = re.findall(r"^`(\S+)`:\n\n```\n(.*?)\n```$", text, re.M | re.S)
    if len(quotes) * 2 != len(re.findall(r"^```$", text, re.M)):
        yield "a block of code has no path above it"
    for path, quote in quotes:
        with open(path, encoding="utf-8") as file:
            _, stands, rest = file.read().partition(quote + "\n")
        if not stands:
            yield f"this doesn't stand in {path}:\n{quote}"
        elif "pub record " in quote and rest.startswith(" "):
            yield f"this is cut off within its item in {path}:\n{quote}"
    for path in sorted(set(re.findall(r"`(crates/[\w/.]+)`", text))):
        try:
            open(path, encoding="utf-8").close()
        except OSError:
            yield f"there is no {path}"


def main():
    status = 0
    for page in PAGES:
        for line in amiss(page):
            print(f"{page}: {line}", file=sys.stderr)
            status = 1
    return status


sys.exit(main())
