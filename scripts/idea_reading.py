"""IDEA as chapter 7 of the Handbook of Applied Cryptography has it, with any number of rounds. Shares no code with the
workbench."""

WORD = 0xFFFF
LONG = (1 << 128) - 1


def times(a, b):
    """The product modulo 65537, in which 0 stands for 65536."""
    return (a or 65536) * (b or 65536) % 65537 & WORD


def over(c, b):
    """The a for which times(a, b) is c."""
    return times(c, pow(b or 65536, -1, 65537) & WORD)


def plus(a, b):
    return (a + b) & WORD


def minus(c, b):
    return (c - b) & WORD


def key_words(key, count):
    """The key's eight words, then those of the key rotated left by 25 bits, and so on: the first `count`."""
    long, words = int.from_bytes(key, "big"), []
    while len(words) < count:
        words += [long >> shift & WORD for shift in range(112, -1, -16)]
        long = (long << 25 | long >> 103) & LONG
    return words[:count]


def seal(key, text, rounds=8):
    words = key_words(key, 6 * rounds + 4)
    x1, x2, x3, x4 = (text >> shift & WORD for shift in (48, 32, 16, 0))
    for r in range(rounds):
        k1, k2, k3, k4, k5, k6 = words[6 * r : 6 * r + 6]
        x1, x2, x3, x4 = times(x1, k1), plus(x2, k2), plus(x3, k3), times(x4, k4)
        t0 = times(k5, x1 ^ x3)
        t1 = times(k6, plus(t0, x2 ^ x4))
        t2 = plus(t0, t1)
        x1, x4 = x1 ^ t1, x4 ^ t2
        a = x2 ^ t2
        x2 = x3 ^ t1
        x3 = a
    k1, k2, k3, k4 = words[6 * rounds :]
    # The exchange of the last round is not made: the second word is worked out from x3, the third from x2.
    return times(x1, k1) << 48 | plus(x3, k2) << 32 | plus(x2, k3) << 16 | times(x4, k4)


def open_(key, sealed, rounds=8):
    """Undoes `seal`, step by step and last step first."""
    words = key_words(key, 6 * rounds + 4)
    x1, x3, x2, x4 = (sealed >> shift & WORD for shift in (48, 32, 16, 0))
    k1, k2, k3, k4 = words[6 * rounds :]
    x1, x3, x2, x4 = over(x1, k1), minus(x3, k2), minus(x2, k3), over(x4, k4)
    for r in reversed(range(rounds)):
        k1, k2, k3, k4, k5, k6 = words[6 * r : 6 * r + 6]
        # The box was given x1 ^ x3 and x2 ^ x4 of before. They stand in x1 ^ x2 and x3 ^ x4.
        t0 = times(k5, x1 ^ x2)
        t1 = times(k6, plus(t0, x3 ^ x4))
        t2 = plus(t0, t1)
        x1, x2, x3, x4 = x1 ^ t1, x3 ^ t2, x2 ^ t1, x4 ^ t2
        x1, x2, x3, x4 = over(x1, k1), minus(x2, k2), minus(x3, k3), over(x4, k4)
    return x1 << 48 | x2 << 32 | x3 << 16 | x4
