"""The verdicts on lines of known answers, and their totals. Shares no code with the workbench."""
import re
import sys

BLOCK = rb"([0-9A-Fa-f]{16})"
LINE = rb"([^;]*);((?:[0-9A-Fa-f]{2}){0,96});" + BLOCK + rb";" + BLOCK


def verdict(fit, line):
    fields = re.fullmatch(LINE, line)
    if not fields:
        return "unreadable"
    description, key, text, sealed = fields.groups()
    seal = fit(description, bytes.fromhex(key.decode()))
    if isinstance(seal, str):
        return seal
    got = seal(int(text, 16))
    return "ok" if got == int(sealed, 16) else "differs %016X" % got


def main(fit):
    """Prints them for standard input. `fit(description, key)` gives the function that seals a text or, where they do not
    fit, the verdict as a string."""
    lines = sys.stdin.buffer.read().split(b"\n")
    if not lines[-1]:
        lines.pop()
    totals = {"ok": 0, "differs": 0, "refused": 0, "unreadable": 0}
    for number, line in enumerate(lines, 1):
        said = verdict(fit, line)
        totals[said.split()[0]] += 1
        print(number, said)
    print(" ".join("%s %d" % pair for pair in totals.items()))
