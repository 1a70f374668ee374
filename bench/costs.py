#!/usr/bin/env python3
"""Sums what a running `rt ci` takes of the processor, crate by crate: for its proof, its tests, its wrong bodies, and compiling it.

python3 bench/costs.py FILE FOLDER looks once a second at the provers of a run in that checkout, and writes FILE every 20 seconds:
for each crate the seconds, how many processes they were, and what for. The checks that wrong bodies begin and end with count
among these; they run in folders of their own, so those of other runs on the machine are counted too. It runs until it is
stopped. A process of less than a second may be missed. A measurement, not a test.
"""
import os
import pathlib
import sys
import time

into, checkout = pathlib.Path(sys.argv[1]), os.path.abspath(sys.argv[2])
TICKS = os.sysconf("SC_CLK_TCK")


def task_of(arguments, folder):
    """What a prover's process is for, or nothing if it is another run's."""
    if os.path.basename(folder).startswith("rt-edit-"):
        return "wrong bodies"
    if not folder.startswith(f"{checkout}/"):
        return None
    if arguments[1] == "build" and "src/main.rt" in arguments:
        return "compiling"
    return "tests" if "--test" in arguments else "proof"


def look(process):
    """A prover's crate, what it is for, when it began, and its seconds so far; or nothing if it is none of the run."""
    at = pathlib.Path("/proc", process)
    arguments = (at / "cmdline").read_bytes().decode(errors="replace").split("\0")
    if not arguments[0].endswith("/rattle") or "--crate-name" not in arguments:
        return None
    times = (at / "stat").read_text().rpartition(")")[2].split()
    crate = arguments[arguments.index("--crate-name") + 1]
    task = task_of(arguments, os.readlink(at / "cwd"))
    return task and (crate, task, times[19], (int(times[11]) + int(times[12])) / TICKS)


def write(seen):
    """Writes the sums."""
    sums = {}
    for (_, _, crate, task), seconds in seen.items():
        so_far, count = sums.get((crate, task), (0, 0))
        sums[crate, task] = so_far + seconds, count + 1
    lines = [f"{seconds:8.1f} {count:4d} {crate} {task}" for (crate, task), (seconds, count) in sorted(sums.items())]
    new = into.with_suffix(".new")
    new.write_text("\n".join([*lines, f"{sum(seen.values()):8.1f} in all"]) + "\n")
    new.replace(into)


seen, written = {}, 0
while True:
    for process in filter(str.isdigit, os.listdir("/proc")):
        try:
            found = look(process)
        except (OSError, ValueError, IndexError):
            continue
        if found:
            crate, task, begun, seconds = found
            seen[process, begun, crate, task] = seconds
    if time.monotonic() - written > 20:
        write(seen)
        written = time.monotonic()
    time.sleep(1)
