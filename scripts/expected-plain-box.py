#!/usr/bin/env python3
"""An independent reading of the plain box: prints what the program `plain_box` must print for standard input.

It shares no code with the workbench.
"""
import re

import plain_box_reading
import verdicts


def fit(description, key):
    said = re.fullmatch(rb"plain:([1-8])", description)
    if not said or len(key) != 16:
        return "unreadable"
    return lambda text: plain_box_reading.seal(key, text, int(said.group(1)))


verdicts.main(fit)
