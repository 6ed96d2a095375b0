"""Lines that call for traces to be closed and opened. Shares no code with the workbench."""
import re
from collections import namedtuple

MOST = 40000


class Unreadable(Exception):
    pass


TRACE = "axis serial number start plain"
Close = namedtuple("Close", f"description key {TRACE} room")
Open = namedtuple("Open", "description key file room")
Trip = namedtuple("Trip", f"description key {TRACE}")


def generated(count):
    return bytes((7 * i + i // 256 + 3) % 256 for i in range(count))


def digits(field):
    if not re.fullmatch(rb"([0-9A-Fa-f]{2})*", field):
        raise Unreadable
    return bytes.fromhex(field.decode())


def decimal(field, largest):
    if not re.fullmatch(rb"[0-9]+", field) or int(field) > largest:
        raise Unreadable
    return int(field)


def word(field):
    return decimal(field, 0xFFFFFFFF)


def room(field):
    return decimal(field, MOST)


def run(field):
    return generated(decimal(field[1:], MOST)) if field.startswith(b"*") else digits(field)


READERS = {"description": bytes, "key": digits, "start": digits, "plain": run, "file": run, "room": room}
CALLS = {b"close": Close, b"open": Open, b"trip": Trip}


def read(line):
    name, *fields = line.split(b";")
    call = CALLS.get(name)
    if call is None or len(fields) != len(call._fields):
        raise Unreadable
    return call(*(READERS.get(wanted, word)(field) for wanted, field in zip(call._fields, fields)))


def lines(text):
    """Its lines. Behind the last line feed there is none, unless bytes stand there."""
    found = text.split(b"\n")
    return found if found[-1] else found[:-1]
