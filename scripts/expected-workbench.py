#!/usr/bin/env python3
"""An independent reading of the workbench: prints what the program `workbench` must print on its sample.

    scripts/expected-workbench.py [--files FOLDER]

The sample is crates/workbench/data, with the arguments in crates/workbench/args. With --files, the trace.bin that the
program must write is also written to FOLDER. Shares no code with the workbench, and does not run it.
"""
import argparse
import pathlib

import piles_reading
import traces_reading

CRATE = pathlib.Path(__file__).parents[1] / "crates" / "workbench"
AXES = ["right ascension", "declination"]


def data(name):
    return (CRATE / "data" / name).read_bytes()


def shown(run):
    digits = run.hex().upper()
    return digits if len(run) <= 24 else "%s..%s" % (digits[:32], digits[-16:])


def closed(pile, label, plain):
    output = bytearray(traces_reading.MOST_FILE)
    length = traces_reading.close(pile, *label, data("start.bin"), plain, output)
    return bytes(output[:length])


def opened(pile, file):
    output = bytearray(traces_reading.MOST_FILE)
    found = traces_reading.open_(pile, file, output)
    return found, bytes(output[: found.length])


def main():
    asked = argparse.ArgumentParser()
    asked.add_argument("--files", metavar="FOLDER", type=pathlib.Path)
    folder = asked.parse_args().files
    description, plain = data("pile.txt"), data("plain.bin")
    label = tuple(map(int, (CRATE / "args").read_text().split()))
    pile = piles_reading.both_fitted(description, data("key.bin"))
    file = closed(pile, label, plain)
    found, back = opened(pile, file)
    assert found[:3] == label and back == plain
    print("plan:", *(stage.text for stage in piles_reading.stages(description)))
    print("header: %s, serial number %d, trace number %d" % (AXES[found.axis], found.serial, found.number))
    print("plain: %d bytes" % len(plain))
    print("file: %d bytes, %s" % (len(file), shown(file)))
    print("opened again: the same %d bytes and the same label" % found.length)
    print("written: trace.bin, opened.bin")
    if folder:
        folder.mkdir(parents=True, exist_ok=True)
        (folder / "trace.bin").write_bytes(file)


main()
