#!/usr/bin/env python3
"""Makes what `ring_replay` is run on: crates/ring_replay/stdin, every ring of up to 4 entries over the numbers 0 to 5, and stdout, the
position of the first entry that is no point's number or repeats an earlier one, or `none`.

    python3 scripts/make_ring_replay.py
"""
import itertools
import os

FOLDER = os.path.join(os.path.dirname(os.path.dirname(os.path.abspath(__file__))), "crates", "ring_replay")


def fault(ring):
    for i, entry in enumerate(ring):
        if entry >= len(ring) or entry in ring[:i]:
            return str(i)
    return "none"


def main():
    rings = [ring for n in range(5) for ring in itertools.product(range(6), repeat=n)]
    with open(os.path.join(FOLDER, "stdin"), "wb") as i, open(os.path.join(FOLDER, "stdout"), "w") as o:
        for ring in rings:
            i.write(bytes([len(ring), *ring]).ljust(5, b"\0"))
            o.write(fault(ring) + "\n")
    print(len(rings), "rings")


main()
