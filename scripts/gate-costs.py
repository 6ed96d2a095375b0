#!/usr/bin/env python3
"""Runs the gate's proofs from nothing, and prints what each crate costs: processor seconds for the crate and its tests, and
for its must-fail edits.

It looks at the running processes several times a second, so that a number may be a little short. The first argument names a
file for the gate's own output; crates may be named after it, and then these and what they rest on are proved alone.
"""
import collections
import os
import pathlib
import re
import subprocess
import sys
import time

TICKS = os.sysconf("SC_CLK_TCK")
PAUSE = 0.2


def status(process):
    """The fields of a process's status line that come after its name in brackets."""
    return (process / "stat").read_text().rpartition(")")[2].split()


def seconds(process):
    """The processor seconds of a process so far."""
    fields = status(process)
    return (int(fields[11]) + int(fields[12])) / TICKS


def is_below(process, gate):
    """Whether the gate started a process, or what started it."""
    while process.name not in ("0", "1"):
        if process.name == gate:
            return True
        process = process.parent / status(process)[1]
    return False


def work(process):
    """The crate that a process works for, and whether it tries an edit; or None."""
    words = (process / "cmdline").read_bytes().split(b"\0")
    if not words[0].endswith(b"/rattle") or b"--crate-name" not in words:
        return None
    crate = words[words.index(b"--crate-name") + 1].decode()
    return crate, os.readlink(process / "cwd").startswith("/tmp/rt-edit")


def look(seen, gate):
    """Notes what each process of the gate's prover has taken so far; one that has ended keeps what was noted last."""
    for process in pathlib.Path("/proc").iterdir():
        if not process.name.isdigit():
            continue
        try:
            kind = work(process)
            if kind and is_below(process, gate):
                seen[process.name, kind] = seconds(process)
        except (OSError, IndexError, ValueError):
            pass


def run(log, crates):
    seen, start = {}, time.time()
    with open(log, "w", encoding="utf-8") as out:
        gate = subprocess.Popen(["rt", "ci", "--anew", *crates], stdout=out, stderr=subprocess.STDOUT)
        while gate.poll() is None:
            look(seen, str(gate.pid))
            time.sleep(PAUSE)
    return seen, time.time() - start


def main():
    seen, took = run(sys.argv[1], sys.argv[2:])
    costs = collections.Counter()
    for (_, kind), spent in seen.items():
        costs[kind] += spent
    order = re.findall(r"^(\w+)(?: staticlib)?:", pathlib.Path("crates.txt").read_text(), re.M)
    print("| crate | proofs and tests | edits | their time | together |\n|---|---|---|---|---|")
    for crate in order:
        proofs, edits = costs[crate, False], costs[crate, True]
        count = len(list(pathlib.Path(f"crates/{crate}/must-fail").glob("*.edit")))
        print(f"| `{crate}` | {proofs:.0f} s | {count} | {edits:.0f} s | {proofs + edits:.0f} s |")
    print(f"\n{sum(costs.values()) / 60:.1f} processor minutes, in {took / 60:.1f} minutes")


main()
