#!/usr/bin/env python3
"""Watches the provers of a running `rt ci` and writes, for each crate that ends, which of its modules took long.

python3 bench/modules.py FOLDER writes FOLDER/NAME.txt: for each module the seconds by the clock since the one before it,
the seconds since the first, its bytes and its file, in the order in which they were checked. The prover writes them one
after another into a folder of its own below /tmp, which goes when it ends, so that looking there every few seconds costs
next to nothing. Times are by the clock: beside other work a module may show several times what it takes. It runs until
it is stopped. A measurement, not a test.
"""
import os
import pathlib
import re
import sys
import time

into = pathlib.Path(sys.argv[1])
into.mkdir(parents=True, exist_ok=True)
ROOM = re.compile(r"rattle-logic-built-locked-(\d+)-\d+$")


def crate_of(process):
    """The name of the crate that a process of the prover checks."""
    words = pathlib.Path("/proc", process, "cmdline").read_bytes().decode(errors="replace").split("\0")
    return words[words.index("--crate-name") + 1]


def modules(folder):
    """The time and the size of each file below a folder, by its name."""
    found = {}
    for at, _, names in os.walk(folder):
        for name in names:
            try:
                stat = os.stat(os.path.join(at, name))
            except OSError:
                continue
            found[name] = stat.st_mtime, stat.st_size
    return found


def write(crate, found):
    """Writes what each module took."""
    files = sorted((at, size, name) for name, (at, size) in found.items())
    with open(into / f"{crate}.txt", "w") as out:
        before = first = files[0][0]
        for at, size, name in files:
            out.write(f"{at - before:.3f} {at - first:.3f} {size} {name}\n")
            before = at


seen, crates = {}, {}
while True:
    running = set()
    for room in pathlib.Path("/tmp").iterdir():
        process = ROOM.match(room.name)
        if not process:
            continue
        process = process.group(1)
        try:
            crates[process] = crate_of(process)
        except (OSError, ValueError):
            continue
        running.add(process)
        seen.setdefault(process, {}).update(modules(room))
    for process in [it for it in seen if it not in running]:
        if seen[process]:
            write(crates[process], seen[process])
        del seen[process]
    time.sleep(6)
