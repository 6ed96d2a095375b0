#!/usr/bin/env python3
"""An independent reading of traces: prints what the program `trace_calls` must print for the lines on standard input.

It shares no code with the workbench.
"""
import hashlib
import multiprocessing
import sys

import piles_reading
import trace_calls
import traces_reading
from trace_calls import Close, Open, Trip

UNTOUCHED = 0xAA
AXES = ["right ascension", "declination"]
KEPT = "output kept"


def shown(run):
    if not run:
        return "-"
    digits = run.hex().upper()
    if len(run) <= 48:
        return digits
    return "%s..%s sha256 %s" % (digits[:48], digits[-32:], hashlib.sha256(run).hexdigest())


def untouched(room):
    return bytearray([UNTOUCHED]) * room


def left(output, length):
    """What stands at the output's start. The rest must be as it was."""
    assert output[length:] == untouched(len(output) - length)
    return bytes(output[:length])


def opened_words(opened):
    return "opened %s %d %d %d" % (AXES[opened.axis], opened.serial, opened.number, opened.length)


def close(pile, call, output):
    length = traces_reading.close(pile, *call[2:7], output)
    return left(output, length)


def trip(pile, call, output):
    file = close(pile, call, output)
    back = untouched(traces_reading.MOST_FILE)
    opened = traces_reading.open_(pile, file, back)
    plain = left(back, opened.length)
    again = untouched(len(file))
    traces_reading.close(pile, opened.axis, opened.serial, opened.number, file[8:16], plain, again)
    assert opened[:3] == call[2:5] and plain == call.plain and again == file
    return "closed %d %s, %s, same plain, same file" % (len(file), shown(file), opened_words(opened))


def taken(pile, call, output):
    if isinstance(call, Trip):
        return trip(pile, call, output)
    if isinstance(call, Close):
        file = close(pile, call, output)
        return "closed %d %s, rest kept" % (len(file), shown(file))
    opened = traces_reading.open_(pile, call.file, output)
    return "%s %s, rest kept" % (opened_words(opened), shown(left(output, opened.length)))


def said(line):
    try:
        call = trace_calls.read(line)
    except trace_calls.Unreadable:
        return "unreadable"
    try:
        pile = piles_reading.both_fitted(call.description, call.key)
    except piles_reading.Refused as refused:
        return "no pile: %d at %d" % (refused.number, refused.place)
    output = untouched(traces_reading.MOST_FILE if isinstance(call, Trip) else call.room)
    try:
        return taken(pile, call, output)
    except piles_reading.Refused as refused:
        left(output, 0)
        return "%s, %s" % (refused, KEPT)


def main():
    with multiprocessing.Pool() as pool:
        answers = pool.imap(said, trace_calls.lines(sys.stdin.buffer.read()))
        for number, answer in enumerate(answers, 1):
            print(number, answer, flush=True)


main()
