"""Files of traces: a header, a start and a sealed body, made and opened again. Shares no code with the workbench.

A pile is `piles_reading.Ways`. An output is a bytearray: what is written stands at its start, and the rest stays.
"""
from typing import NamedTuple

from piles_reading import Refused

FORM = 1
BLOCK = 8
MOST_PLAIN = 32767
LEAST_FILE, MOST_FILE = 24, 32784
ALL_SERIALS = 1 << 24

START_LENGTH, PLAIN_LENGTH = 7, 8
BAD_LABEL, FILE_LENGTH, BAD_HEADER, BAD_PADDING, NO_ROOM = range(11, 16)


class Opened(NamedTuple):
    axis: int
    serial: int
    number: int
    length: int


def blocks(run):
    return [int.from_bytes(run[i : i + BLOCK], "big") for i in range(0, len(run), BLOCK)]


def run(blocks_):
    return b"".join(block.to_bytes(BLOCK, "big") for block in blocks_)


def header(axis, serial, number):
    return (FORM << 60 | axis << 59 | serial << 32 | number).to_bytes(BLOCK, "big")


def padded(plain):
    count = BLOCK - len(plain) % BLOCK
    return plain + bytes([count]) * count


def unpadded(body):
    """The plain, or None where the padding is wrong."""
    count = body[-1]
    if not 1 <= count <= BLOCK or body[-count:] != bytes([count]) * count:
        return None
    return body[:-count]


def chained(pile, start, padded_plain):
    chain, sealed = int.from_bytes(start, "big"), []
    for text in blocks(padded_plain):
        chain = pile.seal(text ^ chain)
        sealed.append(chain)
    return run(sealed)


def unchained(pile, start, body):
    chain, texts = int.from_bytes(start, "big"), []
    for sealed in blocks(body):
        texts.append(pile.open_(sealed) ^ chain)
        chain = sealed
    return run(texts)


def refuse(number):
    raise Refused(number, 0)


def close(pile, axis, serial, number, start, plain, output):
    """Answers the length of the file."""
    if len(start) != BLOCK:
        refuse(START_LENGTH)
    if len(plain) > MOST_PLAIN:
        refuse(PLAIN_LENGTH)
    if axis > 1 or serial >= ALL_SERIALS:
        refuse(BAD_LABEL)
    text = padded(plain)
    length = BLOCK + BLOCK + len(text)
    if len(output) < length:
        refuse(NO_ROOM)
    output[:length] = header(axis, serial, number) + start + chained(pile, start, text)
    return length


def open_(pile, file, output):
    """Answers what the header says, and the length of the plain."""
    if not LEAST_FILE <= len(file) <= MOST_FILE or len(file) % BLOCK:
        refuse(FILE_LENGTH)
    form, axis, spare = file[0] >> 4, file[0] >> 3 & 1, file[0] & 7
    if form != FORM or spare:
        refuse(BAD_HEADER)
    plain = unpadded(unchained(pile, file[8:16], file[16:]))
    if plain is None:
        refuse(BAD_PADDING)
    if len(output) < len(plain):
        refuse(NO_ROOM)
    output[: len(plain)] = plain
    return Opened(axis, int.from_bytes(file[1:4], "big"), int.from_bytes(file[4:8], "big"), len(plain))
