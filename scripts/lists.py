#!/usr/bin/env python3
"""Counts the lists in definitions and proofs that go over all operations, changes, forms or commands: each definition or
lemma whose text names at least three quarters of the variants of the enum. An entry more in the enum is a row more in each.

usage: lists.py           a line an enum: how many lists, and how many rows they have
       lists.py --each    and each list: its file, its name, and how many variants it names
"""
import pathlib
import re
import sys

# an enum, where its declaration stands, and its name among definitions
ENUMS = [("operations", "crates/fp_small/src/op.rt", "op.Op"), ("changes", "crates/fl_words/src/command.rt", "command.Change"),
         ("forms", "crates/fl_words/src/forms.rt", "forms.Form"), ("commands", "crates/fl_words/src/command.rt", "command.Command")]
HEAD = re.compile(r"^\s*(?:(?:pub|abbrev|opaque)\s+)*([A-Za-z_][\w'-]*)\s+(?:[^=]*\s)?[:=](?:\s|$)")
USE = re.compile(r"^use\s+[\w.]*declared\.([\w.]+)\.TheVariants(?:\.\{([^}]*)\}|\s+as\s+(\w+))", re.M)


def variants(path, enum):
    """The names of an enum's variants."""
    text = pathlib.Path(path).read_text(encoding="utf-8")
    body = re.search(rf"pub enum {enum}\b[^{{]*\{{(.*?)\n\}}", text, re.S).group(1)
    return re.findall(r"^    ([A-Z]\w*)", body, re.M)


def names_in(text, module, every):
    """The words of a file that stand for variants of this enum: each with its variant."""
    words = {}
    for path, listed, whole in USE.findall(text):
        if path != module:
            continue
        if whole:
            words.update({f"{whole}.{name}": name for name in every})
        for entry in filter(None, map(str.strip, listed.split(","))):
            name, _, other = entry.partition(" as ")
            if name in every:
                words[other or name] = name
    return words


def definitions(text):
    """The definitions of a file: each name with all its lines."""
    found, current = {}, None
    for line in text.split("\n"):
        bare = line.split("--", 1)[0]
        if bare.startswith("use ") or not bare.strip():
            continue
        head = HEAD.match(bare)
        if head and head.group(1) not in ("let", "in", "where", "record", "module"):
            current = head.group(1)
        found.setdefault(current, []).append(bare)
    return {name: "\n".join(lines) for name, lines in found.items()}


def lists(module, every):
    """Each list: its file, its name, and how many variants it names."""
    for path in sorted(pathlib.Path("crates").glob("*/*/**/*.antt")):
        if path.parts[2] not in ("specs", "proofs"):
            continue
        text = path.read_text(encoding="utf-8")
        words = names_in(text, module, every)
        if not words:
            continue
        pattern = re.compile(r"(?<![\w.])(" + "|".join(map(re.escape, sorted(words, key=len, reverse=True))) + r")(?![\w'-])")
        for name, body in definitions(text).items():
            named = {words[word] for word in pattern.findall(body)}
            if 4 * len(named) >= 3 * len(every):
                yield path, name, len(named)


def main():
    each = sys.argv[1:] == ["--each"]
    if sys.argv[1:] and not each:
        sys.exit(__doc__)
    for what, path, module in ENUMS:
        every = variants(path, module.split(".")[1])
        found = list(lists(module, every))
        print(f"{what}: {len(found)} lists with {sum(count for _, _, count in found)} rows over {len(every)} variants")
        if each:
            for file, name, count in found:
                print(f"    {file}: {name} ({count})")


main()
