#!/usr/bin/env python3
"""An independent reading of sessions: prints what the program `sessions` must print for the text on standard input.

It shares no code with the workbench. It also holds its own XTEA in CBC against the answers in cbc-answers.txt, which
another implementation gave, and stops where they differ.
"""
import pathlib
import re
import sys

from xtea_reading import open_, seal


class Bench:
    def __init__(self, key, opening=False):
        self.key, self.opening, self.chain = key, opening, None

    def restart(self, start):
        if len(start) != 8:
            return start, "refused 7 at 0"
        self.chain = int.from_bytes(start, "big")
        return start, "ok"

    def turn(self, nothing):
        self.opening = not self.opening
        return nothing, "ok"

    def pass_(self, run):
        if len(run) > 32768:
            return run, "refused 8 at 0"
        if len(run) % 8:
            return run, "refused 9 at 0"
        if self.chain is None:
            return run, "refused 10 at 0"
        left = b""
        for i in range(0, len(run), 8):
            block = int.from_bytes(run[i : i + 8], "big")
            if self.opening:
                out, self.chain = open_(self.key, block) ^ self.chain, block
            else:
                out = self.chain = seal(self.key, block ^ self.chain)
            left += out.to_bytes(8, "big")
        return left, "ok"

    def call(self, name, bytes_):
        return {"restart": self.restart, "turn": self.turn, "pass": self.pass_}[name](bytes_)

    def shown(self):
        chain = "no chain" if self.chain is None else "chain %016X" % self.chain
        return ("opening " if self.opening else "sealing ") + chain


def shown(bytes_):
    if not bytes_:
        return "-"
    digits = bytes_.hex().upper()
    return digits if len(bytes_) <= 128 else "%s..%s(%d)" % (digits[:16], digits[-16:], len(bytes_))


def read(line):
    said = re.fullmatch(r"(key|pass|restart) ((?:[0-9A-Fa-f]{2})*)|(turn)", line)
    return said and (said.group(3) or said.group(1), bytes.fromhex(said.group(2) or ""))


def session(key, lines):
    calls = []
    while lines:
        line = lines.pop(0)
        if not line:
            break
        said = read(line)
        if said and said[0] != "key":
            calls.append(said)
        else:
            print("unreadable")
    if len(key) != 16:
        return print("no session: a key has 16 bytes")
    first, second = Bench(key), Bench(key, opening=True)
    for number, (name, brought) in enumerate(calls, 1):
        left, answer = first.call(name, brought)
        back, again = second.call(name, left)
        verdict = "given back" if back == brought else "not given back"
        print(number, name, shown(brought), "left", shown(left), answer, "back", shown(back), again, verdict)
    print("first", first.shown())
    print("second", second.shown())


def check_answers():
    path = pathlib.Path(__file__).with_name("cbc-answers.txt")
    for line in path.read_text().splitlines():
        key, start, plain, sealed = (bytes.fromhex(field) for field in line.split(";"))
        bench = Bench(key)
        bench.restart(start)
        assert bench.pass_(plain) == (sealed, "ok"), line
        bench = Bench(key, opening=True)
        bench.restart(start)
        assert bench.pass_(sealed) == (plain, "ok"), line


def main():
    check_answers()
    lines = sys.stdin.read().split("\n")
    if not lines[-1]:
        lines.pop()
    number = 0
    while lines:
        said = read(lines.pop(0))
        if said and said[0] == "key":
            number += 1
            print("session", number)
            session(said[1], lines)
        else:
            print("unreadable")


main()
