#!/usr/bin/env python3
"""Holds the expected output of `trace_calls` against foreign implementations, and tells how many lines agree with which.

    scripts/foreign-traces.py PROGRAM

The program is made of scripts/foreign-traces.cpp, with Crypto++. OpenSSL is called from the command line, for piles of one
stage that is DES or triple DES. What is compared is each body of a file that the separate
reading closed, and of each file with a right header whether the padding is right, and if so the plain. It stops where
something differs.
"""
import collections
import hashlib
import pathlib
import subprocess
import sys

import trace_calls
import traces_reading
from trace_calls import Open

CALLS = pathlib.Path(__file__).parents[1] / "crates" / "trace_calls"
OPENSSL = {b"des": "des-cbc", b"ede2": "des-ede-cbc", b"ede3": "des-ede3-cbc"}
WRONG = "wrong"


def shown(run):
    digits = run.hex().upper()
    return "%s..%s sha256 %s" % (digits[:48], digits[-32:], hashlib.sha256(run).hexdigest()) if len(run) > 48 else digits or "-"


def asked():
    """Of each line that was closed, opened or refused for its padding: the call and the answer."""
    answers = (CALLS / "stdout").read_text().splitlines()
    lines = trace_calls.lines((CALLS / "stdin").read_bytes())
    assert len(answers) == len(lines)
    for line, answer in zip(lines, answers):
        said = answer.split(" ", 1)[1]
        if said.startswith(("closed", "opened", "refused 14")):
            yield trace_calls.read(line), said


def agrees(call, said, foreign):
    """Whether the line is what it must be if the foreign implementation gives this body or plain, or finds it wrong."""
    if isinstance(call, Open):
        if foreign == WRONG:
            return said == "refused 14 at 0, output kept"
        return said.startswith("opened ") and said.endswith(" %d %s, rest kept" % (len(foreign), shown(foreign)))
    file = traces_reading.header(call.axis, call.serial, call.number) + call.start + foreign
    return said.startswith("closed %d %s, " % (len(file), shown(file)))


def by_openssl(call):
    opening = isinstance(call, Open)
    start, run = (call.file[8:16], call.file[16:]) if opening else (call.start, call.plain)
    command = ["openssl", "enc", "-provider", "legacy", "-provider", "default", "-" + OPENSSL[call.description]]
    command += ["-d"] * opening + ["-K", call.key.hex(), "-iv", start.hex()]
    done = subprocess.run(command, input=run, capture_output=True)
    if done.returncode and opening and b"bad decrypt" in done.stderr:
        return WRONG
    assert done.returncode == 0, done.stderr
    return done.stdout


def line_for_program(call):
    opening = isinstance(call, Open)
    start, run = (call.file[8:16], call.file[16:]) if opening else (call.start, call.plain)
    fields = [call.key.hex(), start.hex(), run.hex()]
    return ";".join(["open" if opening else "seal", call.description.decode()] + fields)


def by_program(program, calls):
    given = "".join(line_for_program(call) + "\n" for call in calls)
    done = subprocess.run([program], input=given, capture_output=True, text=True, check=True)
    answers = done.stdout.splitlines()
    assert len(answers) == len(calls)
    return [answer if answer == WRONG else bytes.fromhex(answer) for answer in answers]


def hold(name, lines, answers):
    agreed = collections.Counter()
    for (call, said), answer in zip(lines, answers):
        assert agrees(call, said, answer), (name, call, said)
        agreed["padding wrong" if answer == WRONG else said.split()[0] + " by " + type(call).__name__.lower()] += 1
    print("%s agrees with %d lines:" % (name, agreed.total()), ", ".join("%d %s" % (n, what) for what, n in sorted(agreed.items())))


def main():
    lines = list(asked())
    hold("Crypto++", lines, by_program(sys.argv[1], [call for call, _ in lines]))
    lines = [(call, said) for call, said in lines if call.description in OPENSSL]
    hold("OpenSSL", lines, map(by_openssl, (call for call, _ in lines)))


main()
