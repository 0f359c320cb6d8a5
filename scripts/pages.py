#!/usr/bin/env python3
"""Says where the pages don't hold: a crate without a README.md, one of more than 40 lines or with another name at its top; a
path in backticks, or a link, that leads to nothing; a file of code that no crate has; and a name in backticks that stands
in no crate. After the name of a crate, as in `fp_small::replace`, it has to stand in that one, and in the page of a crate so
has each name after `laws` or another module. It prints nothing where all holds.

usage: pages.py    (at the top of the repository)
"""
import functools
import pathlib
import re
import sys

MOST_LINES = 40
# Pages whose names in backticks are those of the code.
OF_CODE = ("docs/ARCHITECTURE.md", "docs/DECISIONS.md", "docs/PROMISES.md")
TOP = ("crates", "docs", "scripts", "demo")
OF_A_CRATE = ("src", "specs", "proofs", "must-fail", "edits", "data")


@functools.cache
def names_in(crate):
    """All names that stand in a crate, those of its files too."""
    names = set()
    for path in pathlib.Path("crates", crate).rglob("*"):
        if path.suffix in (".rt", ".antt", ".edit", ".twin"):
            names.add(path.stem)
            names.update(re.findall(r"\w+", path.read_text(encoding="utf-8")))
    return frozenset(names)


@functools.cache
def crates():
    return frozenset(path.name for path in pathlib.Path("crates").iterdir())


def stands_in(crate, name):
    """Whether a name stands in the crate, or in some crate where none is said."""
    return name in names_in(crate) if crate else any(name in names_in(other) for other in crates())


def lost_names(text, crate):
    """Names of code that stand nowhere. Of a crate's page `laws::x` is of that crate, and so is `crate::x` of the crate."""
    for word in sorted(set(re.findall(r"`([A-Za-z_]\w*(?:::\w+)*)`", text))):
        first, *others = word.split("::")
        owner = first if first in crates() else crate if others else ""
        for name in others if first in crates() else [first, *others]:
            if not stands_in(owner, name):
                yield f"`{word}` stands nowhere" + (f" in {owner}" if owner else "")


def lost_paths(page, text):
    """Paths in backticks and links that lead to nothing. A path with a word in capitals stands for several."""
    for path in sorted(set(re.findall(r"`([\w.-]+(?:/[\w.-]+)+)`", text))):
        first = path.split("/")[0]
        from_here = page.parent / path if first in OF_A_CRATE and page.parent.parent.name == "crates" else None
        if (from_here or first in TOP) and "/out/" not in path and not re.search(r"\b[A-Z]+\b", re.sub(r"\w+\.md\b", "", path)):
            if not (from_here or pathlib.Path(path)).exists():
                yield f"there is no {path}"
    for path in sorted(set(re.findall(r"\]\(([^)#:]+)\)", text))):
        if not (page.parent / path).exists():
            yield f"there is no {path}"


@functools.cache
def files():
    """The paths of all files of the crates, what was built left out."""
    return [path.as_posix() for path in pathlib.Path("crates").rglob("*.*t") if "out" not in path.parts]


def lost_files(text):
    """Files of code, named without their crate, that no crate has."""
    for name in sorted(set(re.findall(r"`((?:[a-z]+/)?\w+\.(?:rt|antt))`", text))):
        if not any(path.endswith("/" + name) for path in files()):
            yield f"no crate has {name}"


def amiss(page, crate):
    text = page.read_text(encoding="utf-8")
    if crate and text.count("\n") > MOST_LINES:
        yield f"it has more than {MOST_LINES} lines"
    if crate and not text.startswith(f"# {crate}\n"):
        yield "its first line isn't the crate's name"
    text = re.sub(r"^```.*?^```$", "", text, flags=re.M | re.S)
    text = re.sub(r"\n(?=\S)", " ", text)
    yield from lost_paths(page, text)
    if crate or page.as_posix() in OF_CODE:
        yield from lost_names(text, crate)
    if page.as_posix() in OF_CODE:
        yield from lost_files(text)


def main():
    pages = [(page, "") for page in sorted([*pathlib.Path(".").glob("*.md"), *pathlib.Path("docs").glob("*.md")])]
    pages += [(pathlib.Path("crates", crate, "README.md"), crate) for crate in sorted(crates())]
    status = 0
    for page, crate in pages:
        lines = amiss(page, crate) if page.exists() else ["it isn't there"]
        for line in lines:
            print(f"{page}: {line}", file=sys.stderr)
            status = 1
    return status


sys.exit(main())
