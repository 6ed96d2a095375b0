"""XTEA as its authors' C has it, with the running sum of the C. Shares no code with the workbench."""

WORD = 0xFFFFFFFF
DELTA = 0x9E3779B9


def key_words(key):
    return [int.from_bytes(key[4 * i : 4 * i + 4], "big") for i in range(4)]


def mixed(half, word):
    return (((half << 4) ^ (half >> 5)) + half) ^ word


def seal(key, text, cycles=32):
    words, y, z, total = key_words(key), text >> 32, text & WORD, 0
    for _ in range(cycles):
        y = (y + mixed(z, total + words[total & 3])) & WORD
        total = (total + DELTA) & WORD
        z = (z + mixed(y, total + words[(total >> 11) & 3])) & WORD
    return y << 32 | z


def open_(key, text, cycles=32):
    words, y, z, total = key_words(key), text >> 32, text & WORD, cycles * DELTA & WORD
    for _ in range(cycles):
        z = (z - mixed(y, total + words[(total >> 11) & 3])) & WORD
        total = (total - DELTA) & WORD
        y = (y - mixed(z, total + words[total & 3])) & WORD
    return y << 32 | z
