#!/usr/bin/env python3
"""An independent reading of descriptions: prints what the program `descriptions` must print for the lines on standard input.

It shares no code with the workbench.
"""
import sys

import piles_reading


def main():
    lines = sys.stdin.buffer.read().split(b"\n")
    if not lines[-1]:
        lines.pop()
    last = None
    for number, line in enumerate(lines, 1):
        try:
            pile = piles_reading.stages(line)
        except piles_reading.Refused as refused:
            print(number, refused)
            continue
        plan = " ".join(stage.text for stage in pile)
        again = ", as before" if plan == last else ""
        print("%d %s takes %d bytes%s" % (number, plan, sum(stage.key_bytes for stage in pile), again))
        last = plan


main()
