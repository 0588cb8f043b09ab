"""bandsum.py PROGRAM ORACLE SEED COUNT: every small grid and COUNT random ones as lines to the program `bandsum`; each of the six lines that it prints is held to the Rust, a
refusal to document 01. Its sides are 2 exactly where the Rust's `orientation` finds signs; where that parts from the Rust's parity is counted, and that it never does in
fewer than three dimensions or where the parity is even."""
import random
import subprocess
import sys

import inputs
import model as m
from judge import Rust


def wanted(rust, d, axes):
    """what must be printed, and whether sides and parity part"""
    early = m.check_grid(d, axes)
    if early:
        return "refused %d\n" % early[0], False
    f = rust.fields("gridbrief " + m.grid_text(d, axes))
    if f["pseudo"] == "no":
        return "refused 7\n", False
    sides = 2 if f["orient"] == "yes" else 1
    even = f["preserving"] == "yes"
    if (even or d < 3) and sides != (2 if even else 1):
        print("DIFFERENCE: sides and parity part at", m.grid_text(d, axes))
    lines = [("cells", f["ncells"]), ("vertices", f["nvertices"]), ("edges", f["edges"]), ("border", f["border"]), ("sides", sides)]
    ordered = "yes" if f["ordering"] == "yes" else "no"
    return "".join("%s %s\n" % line for line in lines + [("ordered", ordered)]), even != (sides == 2)


def main():
    program, oracle, seed, count = sys.argv[1], sys.argv[2], int(sys.argv[3]), int(sys.argv[4])
    rnd, rust = random.Random(seed), Rust(oracle)
    grids = [g for g in inputs.small_grids()]
    while count:
        d, axes = inputs.random_grid(rnd)
        if 1 <= d <= 3 and len(axes) >= 2 * d and all(n <= 9999 for n in axes[0:2 * d:2]):
            grids.append((d, axes[:2 * d]))
            count -= 1
    differences = parted = 0
    for d, axes in grids:
        want, parts = wanted(rust, d, axes)
        line = m.grid_text(d, axes) + "\n"
        got = subprocess.run([program], input=line, capture_output=True, text=True).stdout
        parted += parts
        if got != want:
            differences += 1
            print("DIFFERENCE", repr(line), "printed", repr(got), "must be", repr(want))
    print("sides and parity part at %d grids" % parted)
    print("compared %d lines, %d differences" % (len(grids), differences))
    sys.exit(1 if differences else 0)


if __name__ == "__main__":
    main()
