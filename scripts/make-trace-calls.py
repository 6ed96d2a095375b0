#!/usr/bin/env python3
"""Prints the lines of calls that are tried on traces, and tells on standard error which lines are of what kind.

The same lines at every run: keys, starts and plains are drawn from one seed. The files in them are made with the separate
reading of traces, by its parts, so that they can be made wrong.
"""
import random
import sys

import piles_reading
import traces_reading
from trace_calls import generated

DRAW = random.Random("traces")
FOUR = "wxor idea ede3 xtea:7"
PILES = ["des", "ede2", "ede3", "idea", "idea:1", "xtea", "xtea:1", "wxor", "wadd", FOUR]
TURNS = [0]
LAST_WORD = 0xFFFFFFFF
LAST_SERIAL = (1 << 24) - 1
# For what is refused before any of it is looked at.
ALL_WRONG = dict(axis=2, serial=LAST_WORD, start=b"", plain="*40000", room=0)


def some(count):
    return DRAW.randbytes(count)


def key_for(description):
    return some(sum(stage.key_bytes for stage in piles_reading.stages(description.encode())))


def pile(description, key):
    return piles_reading.both_fitted(description.encode(), key)


def hexed(run):
    """Upper and lower case by turns. What is a string already stays."""
    if isinstance(run, str):
        return run
    TURNS[0] += 1
    return run.hex().upper() if TURNS[0] % 3 else run.hex()


def call(*fields):
    print(";".join(hexed(field) if isinstance(field, (bytes, str)) else str(field) for field in fields))
    call.lines += 1


call.lines = 0


def close(description, key=None, axis=0, serial=1, number=1, start=None, plain=b"", room=64):
    key = key_for(description) if key is None else key
    call("close", description, key, axis, serial, number, some(8) if start is None else start, plain, room)


def open_(description, key, file, room=64):
    call("open", description, key, file, room)


def trip(description, key=None, axis=0, serial=1, number=1, start=None, plain=b""):
    key = key_for(description) if key is None else key
    call("trip", description, key, axis, serial, number, some(8) if start is None else start, plain)


def file(description, key, text, label=(0, 1, 1), start=None):
    """Of a text that is padded already, well or badly."""
    start = some(8) if start is None else start
    return traces_reading.header(*label) + start + traces_reading.chained(pile(description, key), start, text)


def good_file(description, key, plain, label=(0, 1, 1)):
    return file(description, key, traces_reading.padded(plain), label)


def kind(title, *parts):
    """Whatever the parts print is of the kind."""
    first = call.lines + 1
    for part in parts:
        part()
    print("%d to %d: %s" % (first, call.lines, title), file=sys.stderr)


def no_piles():
    for description, key in [
        ("x" * 65, b""),
        ("", b""),
        ("des aes", some(8)),
        ("idea xtea:33", some(32)),
        ("wxor wadd wxor wadd wxor", some(40)),
        ("idea", some(15)),
        ("idea", some(17)),
        ("des ede3", b""),
    ]:
        close(description, key)
        open_(description, key, good_file("wxor", some(8), b"pulses"))
        trip(description, key, plain=b"pulses")
        close(description, key, **ALL_WRONG)
        open_(description, key, some(25), 0)


def starts():
    for count in (0, 7, 8, 9, 16):
        close("xtea", start=some(count), plain=b"arc")
    for count in (7, 9):
        trip("idea", start=some(count), plain=b"arc")


def long_plains():
    for count in (32766, 32767, 32768, 40000):
        close("xtea:1", plain="*%d" % count, room=40000)
    close("wadd", plain="*32767", room=32784)
    close("wadd", plain="*32767", room=32783)
    trip("wxor", plain="*32768")
    trip("wxor", plain="*40000")


def labels():
    for axis in (0, 1, 2, 3, LAST_WORD):
        close("idea", axis=axis, serial=7, number=8, plain=some(5))
    for serial in (0, 1, 255, 256, 65536, LAST_SERIAL, LAST_SERIAL + 1, LAST_WORD):
        close("des", axis=1, serial=serial, number=2, plain=some(9))
    for number in (0, 1, 256, LAST_SERIAL + 1, LAST_WORD):
        close("ede2", axis=1, serial=3, number=number, plain=some(10))
    close(FOUR, axis=1, serial=LAST_SERIAL, number=LAST_WORD, start=b"\xFF" * 8, plain=b"\xFF" * 8)
    close(FOUR, axis=0, serial=0, number=0, start=bytes(8), plain=bytes(8))
    trip("xtea:1", axis=2, plain=some(3))
    trip("xtea:1", serial=LAST_SERIAL + 1, plain=some(3))


def rooms_to_close():
    for plain in (b"", some(1), some(7)):
        for room in (0, 7, 8, 15, 16, 23, 24, 25, 40000):
            close("ede3", plain=plain, room=room)
    for plain in (some(8), some(15)):
        for room in (0, 24, 31, 32, 33, 1000):
            close("ede3", plain=plain, room=room)
    for count in (30, 31, 32, 39, 200):
        close(FOUR, plain=some(count), room=16 + 8 * (count // 8 + 1))
        close(FOUR, plain=some(count), room=15 + 8 * (count // 8 + 1))


def file_lengths():
    key = key_for("des")
    for length in (0, 1, 8, 16, 23, 24, 25, 31, 32, 33, 40):
        good = good_file("des", key, some(40))
        whole = traces_reading.header(0, 1, 1) + good[8:]
        if length in (24, 32, 40):
            whole = good_file("des", key, some(length - 17))
        open_("des", key, whole[:length])
    for length in (16, 24, 32776, 32783, 32784, 32785, 32791, 32792, 40000):
        open_("xtea", some(16), "*%d" % length, 40000)


def long_files():
    key = key_for("xtea:7 wadd")
    whole = good_file("xtea:7 wadd", key, generated(32767), (1, 77, 78))
    open_("xtea:7 wadd", key, whole, 32767)
    open_("xtea:7 wadd", key, whole, 32766)
    key = key_for(FOUR)
    open_(FOUR, key, good_file(FOUR, key, generated(32760), (0, 79, 80)), 40000)


def headers():
    for description in ("ede2", "idea:1"):
        key = key_for(description)
        good = good_file(description, key, b"stars", (1, 0x010203, 0x04050607))
        for first in [form << 4 | 8 for form in range(16)] + [0x18 | spare for spare in range(8)]:
            open_(description, key, bytes([first]) + good[1:])
    key = key_for("wadd")
    for first in (0x10, 0x18, 0x11, 0x1F, 0x08, 0x01, 0x81, 0xE7, 0xFF):
        open_("wadd", key, bytes([first]) + good_file("wadd", key, b"stars")[1:])
    key = key_for("xtea")
    for label in [(0, 0, 0), (1, 0, 0), (0, LAST_SERIAL, LAST_WORD), (1, LAST_SERIAL, LAST_WORD), (0, 65536, 16777216)]:
        open_("xtea", key, good_file("xtea", key, some(11), label))


def filled(byte, count, blocks):
    """Some bytes, then so many of the one."""
    return some(8 * blocks - count) + bytes([byte]) * count


def with_wrong(text, behind):
    """With another byte at so many places before its last one."""
    place = len(text) - 1 - behind
    return text[:place] + bytes([text[place] ^ DRAW.randrange(1, 256)]) + text[place + 1 :]


def paddings(description):
    key = key_for(description)

    def tried(text):
        open_(description, key, file(description, key, text))

    for blocks in (1, 2, 3):
        for count in range(1, 9):
            tried(filled(count, count, blocks))
    for last in (0, 9, 10, 16, 128, 255):
        tried(filled(last, 1, 1))
        tried(filled(last, 8, 1))
        tried(filled(last, min(last, 32), 4))
    for count in range(2, 9):
        for behind in range(1, count):
            tried(with_wrong(filled(count, count, 2), behind))
    for count in range(1, 8):
        # The byte before the padding may be any.
        tried(with_wrong(filled(count, count, 1), count))
        tried(filled(count, count + 1, 1))
    # A padding of eight that begins in one block and ends in the next is none.
    tried(some(4) + bytes([8]) * 8 + some(4))


def rooms_to_open():
    for description, counts in (("ede3", (0, 1, 7, 8, 9)), (FOUR, (15, 16, 17, 32, 33))):
        key = key_for(description)
        for count in counts:
            for room in sorted({0, max(count - 1, 0), count, count + 1, 1000}):
                open_(description, key, good_file(description, key, some(count), (1, 5, count)), room)


def orders_to_close():
    right = dict(axis=1, serial=2, start=some(8), plain=b"slew", room=40)
    wrong = dict(axis=2, serial=LAST_SERIAL + 1, start=some(9), plain="*32768", room=0)
    for chosen in range(1 << 5):
        taken = {name: (wrong if chosen >> i & 1 else right)[name] for i, name in enumerate(right)}
        close("xtea:1", **taken)
    for chosen in range(1 << 4):
        taken = {name: (wrong if chosen >> i & 1 else right)[name] for i, name in enumerate(right) if name != "room"}
        trip("xtea:1", **taken)


def orders_to_open():
    key = key_for("idea")
    for chosen in range(1 << 5):
        long, form, spare, padding, room = (chosen >> i & 1 for i in range(5))
        text = filled(9 if padding else 2, 2, 2)
        tried = file("idea", key, text)
        tried = bytes([tried[0] ^ form << 5 ^ spare << 1]) + tried[1:] + bytes(1 if long else 0)
        open_("idea", key, tried, 13 if room else 14)
    open_("idea", key, file("idea", key, filled(9, 8, 1))[:23], 0)
    open_("idea", key, "*32792", 0)


def edges():
    for description in PILES:
        for count in (0, 7, 8, 15, 16):
            close(description, axis=count & 1, serial=count, number=count, plain="*%d" % count, room=count + 32)
            key = key_for(description)
            open_(description, key, good_file(description, key, some(count), (count & 1, 9, 10)), count + 2)


def trips():
    for description in PILES:
        for count in (0, 1, 7, 8, 9, 15, 16, 17, 32766, 32767):
            trip(
                description,
                axis=DRAW.randrange(2),
                serial=DRAW.choice([0, LAST_SERIAL, DRAW.randrange(1 << 24)]),
                number=DRAW.choice([0, LAST_WORD, DRAW.randrange(1 << 32)]),
                plain="*%d" % count if count > 17 or DRAW.randrange(2) else some(count),
            )
    for description in ("wxor des", "wadd xtea:31 wxor", "ede2 idea:7", "idea:2 idea:3 idea:4 idea:5", "des des des"):
        for count in (23, 24, 255, 256, 1000):
            trip(description, axis=count & 1, serial=DRAW.randrange(1 << 24), number=count, plain="*%d" % count)
    same, start = key_for(FOUR), some(8)
    for plain in (bytes(8), bytes(16), bytes(64), b"\x08" * 8, b"\x08" * 16, b"\x01" * 7, b"\x01" * 8, b"\xFF" * 31):
        trip(FOUR, same, 0, 1, 2, start, plain)
    for weak in (bytes(8), b"\xFF" * 8, b"\x01" * 8, b"\xFE" * 8, b"\x1F\xE0\x1F\xE0\x0E\xF1\x0E\xF1"):
        trip("des", weak, start=bytes(8), plain=bytes(24))
    for description in PILES:
        trip(description, bytes(len(key_for(description))), start=bytes(8), plain=bytes(17))
        trip(description, b"\xFF" * len(key_for(description)), start=b"\xFF" * 8, plain=b"\xFF" * 17)


def wrong_piles():
    """Files opened with another key or pile than they were closed with."""
    for made, key, opened, other in other_piles():
        for count in (3, 8, 30):
            open_(opened, other, good_file(made, key, some(count), (1, 500, count)))
    for description in ("des", "xtea", "wxor"):
        key = key_for(description)
        tried = good_file(description, key, some(20), (0, 600, 601))
        open_(description, chance_key(description, tried), tried)


def other_piles():
    for description in PILES:
        key = key_for(description)
        yield description, key, description, key_for(description)
        yield description, key, description, key[:-1] + bytes([key[-1] ^ 0x40])
    one, two, both = some(8), some(16), some(24)
    yield "des", one, "wxor", one
    yield "wxor", one, "wadd", one
    yield "idea", two, "xtea", two
    yield "idea", two, "idea:7", two
    yield "xtea", two, "xtea:31", two
    yield "wxor des", two, "des wxor", two
    yield "wxor des", two, "wxor des", two[8:] + two[:8]
    yield "wxor idea", both, "wxor xtea", both
    # The same map in other words.
    yield "idea", two, "idea:8", two
    yield "xtea", two, "xtea:32", two
    yield "ede2", two, "ede3", two + two[:8]
    yield "ede3", one * 3, "des", one
    yield "ede2", one * 2, "des", one
    yield "des", one, "des", bytes(byte ^ 1 for byte in one)
    yield "wxor wxor", one + two[:8], "wxor", bytes(a ^ b for a, b in zip(one, two))


def chance_key(description, tried):
    """A wrong key under which the padding happens to be right."""
    while True:
        key = key_for(description)
        if traces_reading.unpadded(traces_reading.unchained(pile(description, key), tried[8:16], tried[16:])) is not None:
            return key


def changed_files():
    for description in PILES:
        key = key_for(description)
        good = good_file(description, key, some(28), (0, 700, 701))
        for place in (0, 3, 7, 8, 15, 16, 24, 39, 40, 47):
            mask = 8 if place == 0 else DRAW.randrange(1, 256)
            open_(description, key, good[:place] + bytes([good[place] ^ mask]) + good[place + 1 :])
        open_(description, key, good[:-8])
        open_(description, key, good[:24] + good[32:40] + good[24:32] + good[40:])
        open_(description, key, good[:8] + good[16:])


def unreadables():
    key, start, short = "00112233445566AA", "0011223344556677", "0102"
    for line in [
        "shut;wxor;%s;0;1;1;%s;%s;40" % (key, start, short),
        "Close;wxor;%s;0;1;1;%s;%s;40" % (key, start, short),
        ";wxor;%s;0;1;1;%s;%s;40" % (key, start, short),
        "close",
        "close;wxor;%s;0;1;1;%s;%s" % (key, start, short),
        "close;wxor;%s;0;1;1;%s;%s;40;" % (key, start, short),
        "close;wxor;%s;0;1;1;%s;%s;" % (key, start, short),
        "close;wxor;%s;0;1;1;%s;%s;40001" % (key, start, short),
        "close;wxor;%s;0;1;1;%s;%s;-1" % (key, start, short),
        "close;wxor;%s;0;1;1;%s;%s;40x" % (key, start, short),
        "close;wxor;%s;4294967296;1;1;%s;%s;40" % (key, start, short),
        "close;wxor;%s;0;4294967296;1;%s;%s;40" % (key, start, short),
        "close;wxor;%s;0;1;4294967296;%s;%s;40" % (key, start, short),
        "close;wxor;%s;0;1;99999999999999999999;%s;%s;40" % (key, start, short),
        "close;wxor;%s;0;1;18446744073709551617;%s;%s;40" % (key, start, short),
        "close;wxor;%s;;1;1;%s;%s;40" % (key, start, short),
        "close;wxor;%s;0;;1;%s;%s;40" % (key, start, short),
        "close;wxor;%s;0;1;;%s;%s;40" % (key, start, short),
        "close;wxor;%s;a;1;1;%s;%s;40" % (key, start, short),
        "close;wxor;%s;0;+1;1;%s;%s;40" % (key, start, short),
        "close;wxor;%s;0;1;1;%s;%s;40" % (key[1:], start, short),
        "close;wxor;%s;0;1;1;%s;%s;40" % (key, start[1:], short),
        "close;wxor;%s;0;1;1;%s;%s;40" % (key, start, short[1:]),
        "close;wxor;%s;0;1;1;%s;%s;40" % (key[1:] + "g", start, short),
        "close;wxor;%s;0;1;1;%s;%s;40" % (key, start, "0x01"),
        "close;wxor;%s;0;1;1;%s;%s;40" % ("*8", start, short),
        "close;wxor;%s;0;1;1;%s;%s;40" % (key, "*8", short),
        "close;wxor;%s;0;1;1;%s;%s;40" % (key, start, "*"),
        "close;wxor;%s;0;1;1;%s;%s;40" % (key, start, "*40001"),
        "close;wxor;%s;0;1;1;%s;%s;40" % (key, start, "**2"),
        "close;wxor;%s;0;1;1;%s;%s;40" % (key, start, "01*2"),
        "close; wxor;%s; 0;1;1;%s;%s;40" % (key, start, short),
        "open",
        "open;wxor;%s;%s" % (key, "*24"),
        "open;wxor;%s;%s;40;" % (key, "*24"),
        "open;wxor;%s;%s;40001" % (key, "*24"),
        "open;wxor;%s;%s;40" % (key, "*40001"),
        "open;wxor;%s;%s;40" % (key, "102"),
        "open;wxor;%s;%s;40" % (key + "1", "*24"),
        "open;wxor;%s;%s;" % (key, "*24"),
        "trip",
        "trip;wxor;%s;0;1;1;%s" % (key, start),
        "trip;wxor;%s;0;1;1;%s;%s;40" % (key, start, short),
        "trip;wxor;%s;0;1;4294967296;%s;%s" % (key, start, short),
        "trip;wxor;%s;0;1;1;%s;%s" % (key, start, "*40001"),
        "trip;wxor;%s;0;1;1;%s;%s" % (key, start, "1"),
        # These are of the form.
        "close; wxor ;%s;0;1;1;%s;%s;40" % (key, start, short),
        "trip;wxor;%s;0;1;1;%s;*0" % (key, start),
        "trip;wxor;%s;0;1;1;%s;" % (key, start),
        "open;wxor;%s;*0;0" % key,
        "open;wxor;%s;;0" % key,
        # Not of the form, and no pile either.
        "close;;;0;1;1;%s;%s;40001" % (start, short),
        "open;aes;0;;0",
    ]:
        print(line)
        call.lines += 1


def main():
    kind("no pile", no_piles)
    kind("starts, 7", starts)
    kind("long plains, 8", long_plains)
    kind("labels, 11", labels)
    kind("lengths of files, 12", file_lengths)
    kind("the longest files", long_files)
    kind("headers, 13", headers)
    kind("paddings, 14", lambda: paddings("des"), lambda: paddings(FOUR))
    kind("rooms to close into, 15", rooms_to_close)
    kind("rooms to open into, 15", rooms_to_open)
    kind("which refusal of several: close, trip", orders_to_close)
    kind("which refusal of several: open", orders_to_open)
    kind("one or two blocks by every family", edges)
    kind("trips", trips)
    kind("another key or pile", wrong_piles)
    kind("changed files", changed_files)
    kind("unreadable, and nearly so", unreadables)


main()
