#!/usr/bin/env python3
"""An independent reading of known answers: prints what the program `vectors` must print for the lines on standard input.

It shares no code with the workbench.
"""
import piles_reading
import verdicts


def fit(description, key):
    try:
        return piles_reading.fitted(description, key)
    except piles_reading.Refused as refused:
        return "refused %d" % refused.number


verdicts.main(fit)
