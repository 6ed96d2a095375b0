"""Descriptions of piles of ciphers, and sealing and opening by a pile. Shares no code with the workbench."""
import re
from typing import Callable, NamedTuple

import des_reading
import idea_reading
import xtea_reading

HALF = 0xFFFFFFFF
LONGEST = 64
MOST_STAGES = 4

TOO_LONG, NO_WORD, UNKNOWN_NAME, BAD_COUNT, FIFTH_WORD, KEY_LENGTH = range(1, 7)


class Refused(Exception):
    def __init__(self, number, place):
        super().__init__("refused %d at %d" % (number, place))
        self.number, self.place = number, place


class Stage(NamedTuple):
    text: str
    key_bytes: int
    seal: Callable
    open_: Callable


class Counted(NamedTuple):
    """A family whose name may bear a count. Without one, the largest is meant."""

    name: str
    key_bytes: int
    largest: int
    seal: Callable
    open_: Callable

    def stage(self, count):
        return Stage(
            "%s:%d" % (self.name, count),
            self.key_bytes,
            lambda key, text: self.seal(key, text, count),
            lambda key, sealed: self.open_(key, sealed, count),
        )


class Ways(NamedTuple):
    """A pile under its key: what seals a text by it, and what opens what that sealed."""

    seal: Callable
    open_: Callable


def halved(word):
    return word >> 32, word & HALF


def wxor(key, text):
    (k, l), (t, u) = halved(int.from_bytes(key, "big")), halved(text)
    return (t ^ k) << 32 | u ^ l


def wadd(key, text):
    (k, l), (t, u) = halved(int.from_bytes(key, "big")), halved(text)
    return ((t + k) & HALF) << 32 | (u + l) & HALF


def wadd_back(key, sealed):
    (k, l), (t, u) = halved(int.from_bytes(key, "big")), halved(sealed)
    return ((t - k) & HALF) << 32 | (u - l) & HALF


PLAIN = {
    b"des": Stage("des", 8, des_reading.seal, des_reading.open_),
    b"ede2": Stage("ede2", 16, des_reading.seal_ede, des_reading.open_ede),
    b"ede3": Stage("ede3", 24, des_reading.seal_ede, des_reading.open_ede),
    b"wxor": Stage("wxor", 8, wxor, wxor),
    b"wadd": Stage("wadd", 8, wadd, wadd_back),
}
COUNTED = {
    b"idea": Counted("idea", 16, 8, idea_reading.seal, idea_reading.open_),
    b"xtea": Counted("xtea", 16, 32, xtea_reading.seal, xtea_reading.open_),
}


def words(description):
    """Each with its place. Only the byte 20 (hexadecimal) separates words."""
    return [(found.group(), found.start()) for found in re.finditer(rb"[^\x20]+", description)]


def count(digits, largest):
    """The number, or None where it is not a count."""
    if re.fullmatch(rb"[1-9][0-9]?", digits) and int(digits) <= largest:
        return int(digits)


def stage(word, place):
    name, colon, digits = word.partition(b":")
    if name not in PLAIN and name not in COUNTED:
        raise Refused(UNKNOWN_NAME, place)
    if not colon:
        return PLAIN[name] if name in PLAIN else COUNTED[name].stage(COUNTED[name].largest)
    number = count(digits, COUNTED[name].largest) if name in COUNTED else None
    if number is None:
        raise Refused(BAD_COUNT, place + len(name))
    return COUNTED[name].stage(number)


def stages(description):
    if len(description) > LONGEST:
        raise Refused(TOO_LONG, LONGEST)
    found = words(description)
    if not found:
        raise Refused(NO_WORD, len(description))
    pile = []
    for word, place in found:
        if len(pile) == MOST_STAGES:
            raise Refused(FIFTH_WORD, place)
        pile.append(stage(word, place))
    return pile


def cut(pile, key):
    """Each stage with its bytes of the key."""
    keyed = []
    for cipher in pile:
        keyed.append((cipher, key[: cipher.key_bytes]))
        key = key[cipher.key_bytes :]
    return keyed


def seal(pile, key, text):
    """Each stage takes its bytes of the key, and seals what the stage to its left has sealed."""
    for cipher, part in cut(pile, key):
        text = cipher.seal(part, text)
    return text


def open_(pile, key, sealed):
    for cipher, part in reversed(cut(pile, key)):
        sealed = cipher.open_(part, sealed)
    return sealed


def both_fitted(description, key):
    """What seals by the pile under the key, and what opens."""
    pile = stages(description)
    if len(key) != sum(cipher.key_bytes for cipher in pile):
        raise Refused(KEY_LENGTH, 0)
    return Ways(lambda text: seal(pile, key, text), lambda sealed: open_(pile, key, sealed))


def fitted(description, key):
    """What seals a text by the pile under the key."""
    return both_fitted(description, key).seal
