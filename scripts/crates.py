#!/usr/bin/env python3
"""Prints docs/crates.md of crates.txt: each crate by its section, with what it is and what it stands on.

usage: crates.py > docs/crates.md          (at the top of the repository)
       crates.py --svg > docs/crates.svg   draws the same as a picture: a room for each section
       crates.py --check                   says which of the two isn't what this prints; the status is 1 then

The last line of the page counts the crates, the longest chain of them, and the ways from a crate down to another one. The
picture has a line from a crate to each one that it stands on and that no other of these stands on. It leaves out lines to the
first section, on which all others stand, and lines from the last one, which has the tests.
"""
import functools
import html
import sys

# The rooms of the picture by the places of their sections, the upper ones first.
ROWS = ((8,), (7,), (6, 5), (3, 4), (2, 1), (0,))
COLOURS = ("#666666", "#7a5c00", "#00695c", "#1f4e9e", "#8e2a6b", "#a03c1a", "#3f6b1d", "#5b3a9e", "#666666")
BOX, HEIGHT, GAP, STEP, HEAD, ROOM_GAP, WIDTH = 116, 24, 14, 42, 30, 24, 820


def read(path):
    """The sections of crates.txt: a title, and rows of a name, a text and the libraries below."""
    sections, text = [], ""
    with open(path, encoding="utf-8") as file:
        for line in map(str.strip, file):
            if line.startswith("## "):
                sections.append((line[3:], []))
            elif line.startswith("# "):
                text = line[2:]
            elif line:
                name, _, libraries = line.partition(":")
                sections[-1][1].append((name, text, libraries.split()))
    return sections


def libraries_of(sections):
    """Each crate with all that crates.txt says that it stands on."""
    return {name: libraries for _, rows in sections for name, _, libraries in rows}


def page(sections):
    below = libraries_of(sections)

    @functools.cache
    def ways(name):
        return 1 + sum(ways(other) for other in below[name] if other in below)

    @functools.cache
    def chain(name):
        return 1 + max((chain(other) for other in below[name] if other in below), default=0)

    lines = ["# Crates", "",
             "Printed by `scripts/crates.py` of `crates.txt`. A crate stands on those of its last column, of which",
             "the ones in italics are the toolchain's. What is proved of each function is its contract."]
    for title, rows in sections:
        lines += ["", f"## {title}", "", "| Crate | What it is, or what is proved of it | Stands on |", "|---|---|---|"]
        for name, text, libraries in rows:
            stands = " ".join(other if other in below else f"*{other}*" for other in libraries)
            lines.append(f"| {name} | {text} | {stands} |")
    longest = max(map(chain, below))
    lines += ["", f"{len(below)} crates; the longest chain has {longest}; {sum(map(ways, below)):,} ways lead from a crate down to "
              "another one or to itself."]
    return "\n".join(lines) + "\n"


def lines_of(sections):
    """From each crate to those that it stands on by no other of them."""
    below = libraries_of(sections)

    @functools.cache
    def reached(name):
        own = [other for other in below[name] if other in below]
        return frozenset(own).union(*map(reached, own))

    for name, libraries in below.items():
        own = [other for other in libraries if other in below]
        for other in own:
            if not any(other in reached(third) for third in own):
                yield name, other


def layers_of(rows):
    """The crates of a section in layers, the highest first: each stands on lower ones alone."""
    below = {name: libraries for name, _, libraries in rows}

    @functools.cache
    def height(name):
        return 1 + max((height(other) for other in below[name] if other in below), default=0)

    return [[name for name in below if height(name) == layer] for layer in range(max(map(height, below)), 0, -1)]


def grid_of(rows):
    """The crates of a section in their order, as many in a line as there is room for."""
    names, most = [name for name, _, _ in rows], WIDTH // (BOX + GAP)
    return [names[at:at + most] for at in range(0, len(names), most)]


def places_of(sections):
    """Where each room is, and where each crate is in it, from the left and from the top; and how high all is."""
    rooms, crates, top = {}, {}, GAP
    for row in ROWS:
        layers = {at: (grid_of if at == len(sections) - 1 else layers_of)(sections[at][1]) for at in row}
        widths = {at: max(map(len, layers[at])) for at in row}
        most = max(map(len, layers.values()))
        left, share = GAP, (WIDTH - ROOM_GAP * (len(row) - 1)) / sum(widths.values())
        for at in row:
            width = share * widths[at]
            rooms[at] = (left, top, width, HEAD + STEP * most)
            first = top + HEAD + STEP * (most - len(layers[at]))
            for number, layer in enumerate(layers[at]):
                for place, name in enumerate(layer):
                    crates[name] = (left + width * (place + 0.5) / len(layer), first + STEP * number)
            left += width + ROOM_GAP
        top += HEAD + STEP * most + ROOM_GAP
    return rooms, crates, top


def line_between(above, below, colour):
    (x, y), (u, v) = above, below
    y, bend = y + HEIGHT, max(18, abs(v - y) / 2.5)
    dashes = ' stroke-dasharray="4 3"' if v < y else ""
    return (f'<path d="M{x:.0f} {y:.0f} C{x:.0f} {y + bend:.0f} {u:.0f} {v - bend:.0f} {u:.0f} {v:.0f}" fill="none" '
            f'stroke="{colour}" stroke-opacity="0.6"{dashes}/>')


def picture(sections):
    rooms, crates, height = places_of(sections)
    room_of = {name: at for at, (_, rows) in enumerate(sections) for name, _, _ in rows}
    out = [f'<svg xmlns="http://www.w3.org/2000/svg" viewBox="0 0 {WIDTH + 2 * GAP} {height}" '
           'font-family="DejaVu Sans, Verdana, sans-serif" font-size="12">',
           "<title>The crates of fpk: what stands on what. Printed by scripts/crates.py of crates.txt.</title>",
           '<rect width="100%" height="100%" fill="white"/>']
    for at, (left, top, width, tall) in rooms.items():
        title = html.escape(sections[at][0].partition(":")[0])
        out += [f'<rect x="{left:.0f}" y="{top}" width="{width:.0f}" height="{tall}" rx="8" fill="{COLOURS[at]}" '
                f'fill-opacity="0.07" stroke="{COLOURS[at]}"/>',
                f'<text x="{left + 10:.0f}" y="{top + 19}" font-weight="bold" font-size="14" fill="{COLOURS[at]}">{title}</text>']
    out += [line_between(crates[name], crates[other], COLOURS[room_of[name]]) for name, other in lines_of(sections)
            if room_of[name] < len(sections) - 1 and room_of[other] in range(0 if room_of[name] == 0 else 1, len(sections))]
    for name, text in ((name, text) for _, rows in sections for name, text, _ in rows):
        x, y = crates[name]
        out.append(f'<g><title>{html.escape(text)}</title><rect x="{x - BOX / 2:.0f}" y="{y}" width="{BOX}" height="{HEIGHT}" '
                   f'rx="4" fill="white" stroke="{COLOURS[room_of[name]]}"/><text x="{x:.0f}" y="{y + 16}" '
                   f'text-anchor="middle">{name}</text></g>')
    return "\n".join([*out, "</svg>"]) + "\n"


def check(sections):
    """Says which of the two files isn't what this prints."""
    status = 0
    for path, text in (("docs/crates.md", page(sections)), ("docs/crates.svg", picture(sections))):
        with open(path, encoding="utf-8") as file:
            if file.read() != text:
                print(f"{path} isn't what scripts/crates.py prints", file=sys.stderr)
                status = 1
    return status


def main():
    sections = read("crates.txt")
    if sys.argv[1:] == ["--check"]:
        return check(sections)
    sys.stdout.write(picture(sections) if sys.argv[1:] == ["--svg"] else page(sections))
    return 0


sys.exit(main())
