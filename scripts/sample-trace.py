#!/usr/bin/env python3
"""Writes the sample that `workbench` is run on: a pile, its key, a start, and the trace of a motor that turns an axis.

    scripts/sample-trace.py

writes them to crates/workbench/data. The trace is 101 samples of 16 bits, most significant byte first: what the motor's
current was, in milliamperes, as it sped up, ran, slowed down and held. The same bytes at every run. Shares no code with the
workbench.
"""
import pathlib
import random

import piles_reading

DATA = pathlib.Path(__file__).parents[1] / "crates" / "workbench" / "data"
PILE = b"wxor ede3 idea"
# How many samples of each stretch, and the current that it ends with.
STRETCHES = [(6, 120), (20, 1850), (4, 940), (36, 905), (4, -310), (20, -780), (5, 60), (6, 85)]
RIPPLE = [0, 14, 22, 17, 3, -12, -21, -18, -5]


def samples(draw):
    current, found = 115, []
    for count, last in STRETCHES:
        for step in range(1, count + 1):
            level = current + (last - current) * step // count
            found.append(level + RIPPLE[len(found) % len(RIPPLE)] + draw.getrandbits(4) - 8)
        current = last
    return found


def main():
    draw = random.Random("motor")
    key = draw.randbytes(sum(stage.key_bytes for stage in piles_reading.stages(PILE)))
    start = draw.randbytes(8)
    plain = b"".join(sample.to_bytes(2, "big", signed=True) for sample in samples(draw))
    DATA.mkdir(parents=True, exist_ok=True)
    for name, run in {"pile.txt": PILE, "key.bin": key, "start.bin": start, "plain.bin": plain}.items():
        (DATA / name).write_bytes(run)


main()
