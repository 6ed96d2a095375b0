"""A network of IDEA's form over sums alone, with a box that passes its words on. Shares no code with the workbench.

The words of the key follow one another in a ring: six to each round, then four.
"""

WORD = 0xFFFF


def seal(key, text, rounds):
    ring = [int.from_bytes(key[2 * i : 2 * i + 2], "big") for i in range(8)]
    words = [ring[i % 8] for i in range(6 * rounds + 4)]
    w = [text >> shift & WORD for shift in (48, 32, 16, 0)]
    for r in range(rounds):
        z = words[6 * r : 6 * r + 6]
        w = [(word + z[i]) & WORD for i, word in enumerate(w)]
        # The box leaves out z[4] and z[5].
        t, s = w[0] ^ w[2], w[1] ^ w[3]
        w = [w[0] ^ t, w[1] ^ s, w[2] ^ t, w[3] ^ s]
        if r < rounds - 1:
            w[1], w[2] = w[2], w[1]
    w = [(word + z) & WORD for word, z in zip(w, words[6 * rounds :])]
    return w[0] << 48 | w[1] << 32 | w[2] << 16 | w[3]
