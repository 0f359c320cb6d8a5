#!/usr/bin/env python3
"""Measures how fpk's commands grow, with the files of an application and with the number of applications.

usage: growth.py FPK [FILES [REFS [SVG]]]

FILES and REFS are numbers with commas between them (1000,10000,100000 and 10,100,1000 where nothing is said). Debian's package
ostree is needed. For each number of FILES an application of that many files of 4 KiB, which `ostree commit` made, is installed,
updated where one file in a hundred is another, updated with nothing to do, pinned, listed, launched and uninstalled. For each
number of REFS that many applications of one file each are installed by one `batch`, and the same is asked; one of them is
updated and uninstalled. Each has a runtime of one file. It prints a table of seconds by the clock and of the peak of memory,
and writes a picture of it where a file SVG is named. It works as scripts/speed.py does, on an ext4 of its own where one may be
mounted.
"""

import contextlib
import math
import os
import sys
import tempfile

from speed import SIZE, Cost, own_disk

RUNTIME = "runtime/org.x.Platform/x86_64/1"
STEPS = ["install", "update 1 %", "idle update", "pin", "list", "launch", "uninstall one"]
# where a row of the picture stands, and how large it is
WIDTH, HEIGHT, LEFT = 640, 360, 60


def app(number):
    return f"app/org.x.App{number}/x86_64/1"


def write(path, data):
    os.makedirs(os.path.dirname(path), exist_ok=True)
    with open(path, "wb") as out:
        out.write(data)


class Bench:
    """A repository and an installation."""

    def __init__(self, fpk, place, remotes):
        self.fpk, self.tree, self.repo = os.path.abspath(fpk), os.path.join(remotes, "tree"), os.path.join(remotes, "repo")
        self.env = dict(os.environ, FPK_INSTALLATION=os.path.join(place, "installation"))
        Cost().run(["ostree", "init", "--mode=bare-user-only", "--repo", self.repo])
        self.offer(RUNTIME, "[Runtime]\nname=org.x.Platform\n", {0: b"a runtime"})
        self.ask("remote-add", "hub", "file://" + self.repo)
        self.peak = 0

    def offer(self, ref, metadata, files):
        """Commits the files, by their numbers, beside those of the tree."""
        for number, data in files.items():
            write(os.path.join(self.tree, ref, "files", str(number % 256), str(number)), data)
        write(os.path.join(self.tree, ref, "metadata"), metadata.encode())
        words = ["ostree", "commit", "--repo", self.repo, "-b", ref, "--subject=", os.path.join(self.tree, ref)]
        Cost().run(words)

    def offer_app(self, number, files):
        metadata = f"[Application]\nname=org.x.App{number}\nruntime=org.x.Platform/x86_64/1\ncommand=run\n"
        self.offer(app(number), metadata, files)

    def ask(self, *words, given=""):
        """Runs fpk, and answers its seconds by the clock."""
        cost = Cost()
        cost.run([self.fpk, *words], self.env, self.input_of(given))
        self.peak = max(getattr(self, "peak", 0), cost.memory)
        return cost.clock

    def input_of(self, text):
        path = self.tree + ".input"
        write(path, text.encode())
        return path

    def rest(self):
        """What is asked once all is there, but for the update."""
        return [
            self.ask("update"),
            self.ask("pin", "app/*/*/*"),
            self.ask("list"),
            self.ask("launch", app(0)),
            self.ask("uninstall", app(0)),
        ]


def by_files(bench, count):
    bench.offer_app(0, {number: os.urandom(SIZE) for number in range(count)})
    os.sync()
    install = bench.ask("install", "hub", app(0))
    bench.offer_app(0, {number: os.urandom(SIZE) for number in range(0, count, 100)})
    os.sync()
    return [install, bench.ask("update"), *bench.rest()]


def by_refs(bench, count):
    for number in range(count):
        bench.offer_app(number, {0: str(number).encode()})
    os.sync()
    install = bench.ask("batch", given="".join(f"install hub {app(number)}\n" for number in range(count)))
    for number in range(0, count, 100):
        bench.offer_app(number, {0: b"another"})
    os.sync()
    return [install, bench.ask("update"), *bench.rest()]


def measured(fpk, play, count):
    """The seconds of each step, and the peak of memory in MiB."""
    with contextlib.ExitStack() as places:
        remotes = places.enter_context(tempfile.TemporaryDirectory(prefix="growth"))
        bench = Bench(fpk, places.enter_context(own_disk(remotes)), remotes)
        return [*play(bench, count), bench.peak / 1024]


def table(title, counts, columns):
    """Lines of a table, a step a row."""
    lines = [f"| {title} | " + " | ".join(f"{count:,}" for count in counts) + " |", "|---|" + "---|" * len(counts)]
    for row, step in enumerate(STEPS):
        lines.append(f"| {step} | " + " | ".join(f"{column[row]:.2f} s" for column in columns) + " |")
    return [*lines, "| most memory | " + " | ".join(f"{column[-1]:.0f} MiB" for column in columns) + " |"]


def curve(counts, columns, row, top):
    """The points of a step: both axes by powers of ten."""
    span = math.log10(counts[-1] / counts[0]) or 1
    points = []
    for count, column in zip(counts, columns):
        along = math.log10(count / counts[0]) / span
        up = math.log10(max(column[row], 0.001) / 0.001) / 5
        points.append(f"{LEFT + along * (WIDTH - LEFT - 150):.0f},{top + (1 - up) * (HEIGHT - 80):.0f}")
    return points


def picture(parts):
    """The tables as curves."""
    colours = ["#1b6ca8", "#c0392b", "#27813d", "#8e5ea2", "#b8860b", "#444444", "#e67e22"]
    out = [f'<svg xmlns="http://www.w3.org/2000/svg" width="{WIDTH}" height="{HEIGHT * len(parts)}" font-family="sans-serif" font-size="12">']
    out.append('<rect width="100%" height="100%" fill="white"/>')
    for place, (title, counts, columns) in enumerate(parts):
        top = place * HEIGHT + 40
        out.append(f'<text x="{LEFT}" y="{top - 16}" font-size="14">seconds, by {title}</text>')
        for power in range(6):
            y = top + (1 - power / 5) * (HEIGHT - 80)
            out.append(f'<line x1="{LEFT}" x2="{WIDTH - 150}" y1="{y:.0f}" y2="{y:.0f}" stroke="#dddddd"/>')
            out.append(f'<text x="{LEFT - 8}" y="{y + 4:.0f}" text-anchor="end">{10 ** (power - 3):g}</text>')
        for count, point in zip(counts, curve(counts, columns, 0, top)):
            out.append(f'<text x="{point.split(",")[0]}" y="{top + HEIGHT - 62}" text-anchor="middle">{count:,}</text>')
        ends = sorted(range(len(STEPS)), key=lambda row: columns[-1][row])
        for row, step in enumerate(STEPS):
            points = curve(counts, columns, row, top)
            label = top + HEIGHT - 86 - ends.index(row) * 36
            end = points[-1].split(",")
            out.append(f'<polyline points="{" ".join(points)}" fill="none" stroke="{colours[row]}" stroke-width="2"/>')
            out.append(f'<line x1="{end[0]}" y1="{end[1]}" x2="{WIDTH - 126}" y2="{label - 4}" stroke="{colours[row]}" stroke-dasharray="2"/>')
            out.append(f'<text x="{WIDTH - 122}" y="{label}" fill="{colours[row]}">{step}</text>')
    return "\n".join([*out, "</svg>", ""])


def main():
    if not 2 <= len(sys.argv) <= 5:
        sys.exit(__doc__)
    os.umask(0o022)
    words = sys.argv[2:4] + ["1000,10000,100000", "10,100,1000"][len(sys.argv[2:4]) :]
    files, refs = [[int(number) for number in word.split(",")] for word in words]
    parts = []
    for title, play, counts in (("files", by_files, files), ("applications", by_refs, refs)):
        columns = [measured(sys.argv[1], play, count) for count in counts]
        parts.append((title, counts, columns))
        print("\n".join(table(title, counts, columns)), flush=True)
    if len(sys.argv) == 5:
        with open(sys.argv[4], "w", encoding="ascii") as out:
            out.write(picture(parts))


if __name__ == "__main__":
    main()
