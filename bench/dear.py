#!/usr/bin/env python3
"""Lists the functions whose code is largest, of the crates that are named or of all that `rt ci` or `rt lib` has built here.

What the code of a function costs in a proof grows somewhat faster than its size as the prover reads it: some 0.165 seconds
times its kilobytes to the power of 1.33, on the slow machine of docs/gate.md. With each function stand that estimate, the
kilobytes, and how many calls and branches it has. Most of the size of a large one is the letting-go of what it owns, at
each `?` and at the end of each arm. A measurement, not a test.
"""
import json
import pathlib
import sys

crates = pathlib.Path(__file__).resolve().parent.parent / "crates"


def functions(crate):
    """The name, the estimate, the kilobytes, the calls and the branches of each function of a crate's own."""
    built = crates / crate / "out" / "rlib" / f"{crate}.rlib" / "toolchain" / "mir.json"
    if not built.is_file():
        return
    for name, function in json.loads(built.read_text()):
        body = function.get("body")
        if body is None or not name.startswith(f"{crate}::"):
            continue
        size = len(json.dumps(body)) / 1000
        steps = [next(iter(step)) for step in body if isinstance(step, dict)]
        yield name, 0.165 * size**1.33, size, steps.count("Call"), steps.count("Switch")


named = sys.argv[1:] or sorted(it.name for it in crates.iterdir())
found = [it for crate in named for it in functions(crate)]
print(f"{len(found)} functions, {sum(it[1] for it in found):.0f} s in all")
for name, cost, size, calls, branches in sorted(found, key=lambda it: -it[1])[:40]:
    print(f"{cost:6.1f} s {size:6.1f} kB {calls:4d} calls {branches:3d} branches  {name}")
