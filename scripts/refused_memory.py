#!/usr/bin/env python3
"""Refuses fpk its memory, one request at a time, and looks at what each run leaves.

usage: refused_memory.py PROGRAM [EVERY]

PROGRAM is a built fpk; Debian's packages ostree and gcc are needed. Over the repository of kill_loop.py it takes a script: a remote is
added, an application installed with its runtime, both updated twice, rolled back, and both uninstalled. Each command of it is run once
more for each number of a request for memory (or for each EVERY-th, where that is said), over the installation as it stood before it,
and that one request is refused, by a library that stands before the system's own. The status is then 6 or, where the system itself had
no memory, 3, or that of the run that had all its memory; the lines that were printed are the first of that run; and what is shown then
is the installation after the operations of these lines, or after more. Each shown commit is whole, as kill_loop.py asks it. At the end
it prints what it counted; the status is 0 where nothing was amiss.
"""

import collections
import os
import shutil
import subprocess
import sys
import tempfile

import kill_loop

LIBRARY = r"""
#define _GNU_SOURCE
#include <dlfcn.h>
#include <errno.h>
#include <fcntl.h>
#include <stdatomic.h>
#include <stdlib.h>
#include <sys/mman.h>
#include <unistd.h>

static atomic_long *count;
static long refused;
static void *(*own_malloc)(size_t);
static void *(*own_realloc)(void *, size_t);

/* The count stands in a file, which is there however the program ends. */
__attribute__((constructor)) static void begin(void) {
    own_malloc = dlsym(RTLD_NEXT, "malloc");
    own_realloc = dlsym(RTLD_NEXT, "realloc");
    const char *number = getenv("REFUSED"), *place = getenv("COUNTED");
    refused = number ? atol(number) : 0;
    int file = place ? open(place, O_RDWR) : -1;
    if (file >= 0) {
        void *at = mmap(NULL, sizeof *count, PROT_READ | PROT_WRITE, MAP_SHARED, file, 0);
        close(file);
        count = at == MAP_FAILED ? NULL : at;
    }
}

static int is_refused(void) {
    if (!count || atomic_fetch_add(count, 1) + 1 != refused)
        return 0;
    errno = ENOMEM;
    return 1;
}

void *malloc(size_t size) {
    if (!own_malloc)
        own_malloc = dlsym(RTLD_NEXT, "malloc");
    return is_refused() ? NULL : own_malloc(size);
}

void *realloc(void *place, size_t size) {
    if (!own_realloc)
        own_realloc = dlsym(RTLD_NEXT, "realloc");
    return is_refused() ? NULL : own_realloc(place, size);
}
"""


class Refusing:
    """A program of which one request for memory may be refused."""

    def __init__(self, program, folder):
        self.program, self.counted = program, os.path.join(folder, "counted")
        self.library = os.path.join(folder, "refusing.so")
        source = os.path.join(folder, "refusing.c")
        kill_loop.write(source, LIBRARY)
        kill_loop.tool("gcc", "-shared", "-fPIC", "-O1", "-o", self.library, source, "-ldl")

    def run(self, words, number=0):
        """The status, what is printed, and how many requests there were."""
        with open(self.counted, "wb") as out:
            out.write(bytes(8))
        env = dict(os.environ, LD_PRELOAD=self.library, COUNTED=self.counted, REFUSED=str(number))
        done = subprocess.run([self.program, *words], env=env, capture_output=True, check=False)
        return done.returncode, done.stdout.decode("ascii"), int.from_bytes(kill_loop.read(self.counted), sys.byteorder)


def script(remote):
    """The commands: which commit each ref is offered at, the words, and the models after each operation."""
    app, runtime = kill_loop.APPS[0], kill_loop.RUNTIME
    model = kill_loop.Model()
    rows = []

    def command(number, words, done):
        nonlocal model
        rows.append((number, words, [model] + [after for _, after in done], "".join(line + "\n" for line, _ in done)))
        if done:
            model = done[-1][1]

    def offer(number):
        for ref, commits in remote.commits.items():
            remote.offered[ref] = commits[number]

    offer(0)
    words, done = model.add("hub", "file://" + remote.repo)
    command(0, words.split(), done)
    words, done = model.install(app, remote)
    command(0, words.split(), done)
    for number in (1, 2):
        offer(number)
        done, after = [], model
        for ref in (runtime, app):
            commit = after.refs[ref][0]
            after = after.set(ref, remote.offered[ref], commit)
            done.append((f"updated {ref} {remote.offered[ref]}", after))
        command(number, ["update"], done)
    words, done = model.rollback(app)
    command(2, words.split(), done)
    after = model.copy()
    del after.refs[app]
    command(2, ["uninstall", app], [(f"uninstalled {app}", after)])
    after = model.copy()
    del after.refs[runtime]
    command(2, ["uninstall", "--unused"], [(f"uninstalled {runtime}", after)])
    return rows


def copied(source, place):
    """The folder as it was, with its hard links."""
    shutil.rmtree(place, ignore_errors=True)
    if os.path.exists(source):
        kill_loop.tool("cp", "-a", source, place)


def amiss(program, installation, row, status, printed, remote):
    """What isn't as it should be after a run in which a request was refused; None where all is."""
    _, words, models, lines = row
    if status not in (0, 3, 6):
        return f"status {status}"
    if not lines.startswith(printed) or (printed and not printed.endswith("\n")):
        return f"printed {printed!r}"
    if status == 0 and printed != lines:
        return f"status 0, printed {printed!r}"
    shown = kill_loop.listed(program)
    said = printed.count("\n")
    could = [model for model in models[said:] if model.shown() == shown]
    if not could:
        return f"after {said} lines it shows {shown!r}"
    return kill_loop.amiss(installation, could[0], remote)


def main():
    if len(sys.argv) not in (2, 3):
        sys.exit(__doc__)
    program = os.path.abspath(sys.argv[1])
    every = int(sys.argv[2]) if len(sys.argv) == 3 else 1
    wrong, statuses = 0, collections.Counter()
    with tempfile.TemporaryDirectory() as folder:
        remote = kill_loop.Remote(folder)
        refusing = Refusing(program, folder)
        before, installation = os.path.join(folder, "before"), os.path.join(folder, "installation")
        os.environ["FPK_INSTALLATION"] = installation
        for row in script(remote):
            number, words, _, lines = row
            for ref, commits in remote.commits.items():
                kill_loop.write(os.path.join(remote.repo, "refs/heads", ref), commits[number] + "\n")
            copied(before, installation)
            status, printed, most = refusing.run(words)
            if (status, printed) != (0, lines):
                sys.exit(f"{words}: status {status}, {printed!r}")
            after = installation + ".after"
            copied(installation, after)
            for request in range(1, most + 1, every):
                copied(before, installation)
                status, printed, _ = refusing.run(words, request)
                statuses[status] += 1
                text = amiss(program, installation, row, status, printed, remote)
                if text:
                    wrong += 1
                    print(f"{' '.join(words)}, request {request}: {text}")
            print(f"{words[0]}: {most} requests")
            copied(after, before)
    print(f"runs with a refused request by status: {dict(sorted(statuses.items()))}; amiss: {wrong}")
    return 1 if wrong else 0


if __name__ == "__main__":
    sys.exit(main())
