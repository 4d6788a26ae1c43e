"""What ARIA makes on the way from a key and a block to the ciphertext, by the rules of RFC 5794.

A model for tests, for the values that libcrypto does not give. It is written apart from the proved
code, and from the cipher by which tests/docs tries docs/FORMAT.md, and shares nothing with them: a
block is one whole number of 128 bits, byte 0 highest, and the boxes are computed from the field, not
tabled.
"""

C1 = 0x517CC1B727220A94FE13ABE8FA9A6EE0
C2 = 0x6DB14ACC9E21C820FF28B1D5EF5DE2B0
C3 = 0xDB92371D2126E9700324977504E8C90E

# by the key's length: the rounds, and CK1 to CK3
ROUNDS = {16: 12, 24: 14, 32: 16}
CONSTANTS = {16: (C1, C2, C3), 24: (C2, C3, C1), 32: (C3, C1, C2)}

# places to the right that a word is rotated by in a round key; the last three are 61, 31, 19 to the left
ROTATIONS = (19, 31, 128 - 61, 128 - 31, 128 - 19)

# A, the diffusion layer: output byte i is the exclusive-or of the input bytes that row i names
ROWS = """34689de 25789cf 146abcf 057abde 0258bef 1349aef 0279acd 1368bcd
    0147adf 0156bce 23568df 23479ce 12679bc 03678ad 03459be 12458af""".split()


def inverses():
    """The inverse of each element of the field of FIPS 197, 0 for 0. The powers of 03 are all but 0."""
    powers = [1]
    while len(powers) < 255:
        triple = powers[-1] ^ powers[-1] << 1
        powers.append(triple ^ (0x11B if triple > 255 else 0))
    inverse = dict(zip(powers, powers[:1] + powers[:0:-1]))
    return [inverse.get(x, 0) for x in range(256)]


def box(columns, constant):
    """The inverse through an affine map: the constant, and a column for each bit set, lowest first."""
    values = [constant] * 256
    for x, inverse in enumerate(inverses()):
        for bit, column in enumerate(bytes.fromhex(columns)):
            values[x] ^= column * (inverse >> bit & 1)
    return values


S1 = box("1f3e7cf8f1e3c78f", 0x63)
S2 = box("acfdc68326a7fb5f", 0xE2)
S3 = [S1.index(x) for x in range(256)]
S4 = [S2.index(x) for x in range(256)]


def substituted(block, *boxes):
    return int.from_bytes((boxes[i % 4][x] for i, x in enumerate(block.to_bytes(16, "big"))), "big")


def layer_one(block):
    return substituted(block, S1, S2, S3, S4)


def layer_two(block):
    return substituted(block, S3, S4, S1, S2)


def diffused(block):
    x, y = block.to_bytes(16, "big"), bytearray(16)
    for i, row in enumerate(ROWS):
        for digit in row:
            y[i] ^= x[int(digit, 16)]
    return int.from_bytes(y, "big")


def odd_round(block, key):
    return diffused(layer_one(block ^ key))


def even_round(block, key):
    return diffused(layer_two(block ^ key))


def rotated(block, places):
    return (block >> places) | (block << (128 - places)) % 2**128


def words(key):
    """W0 to W3."""
    left, right = (int.from_bytes(half, "big") for half in (key[:16], key[16:].ljust(16, b"\0")))
    ck1, ck2, ck3 = CONSTANTS[len(key)]
    w1 = odd_round(left, ck1) ^ right
    w2 = even_round(w1, ck2) ^ left
    return [left, w1, w2, odd_round(w2, ck3) ^ w1]


def round_keys(key):
    """One for each round, and one more."""
    w = words(key)
    keys = [w[i] ^ rotated(w[(i + 1) % 4], places) for places in ROTATIONS for i in range(4)]
    return keys[: ROUNDS[len(key)] + 1]


def decryption_keys(key):
    """The round keys from the last to the first; all but these two through A."""
    first, *inner, last = round_keys(key)
    return [last, *map(diffused, reversed(inner)), first]


def round_values(key, block):
    """The block after each round; the last is the ciphertext."""
    *keys, last_but_one, last = round_keys(key)
    values = [block]
    for i, round_key in enumerate(keys):
        values.append((even_round if i % 2 else odd_round)(values[-1], round_key))
    return values[1:] + [layer_two(values[-1] ^ last_but_one) ^ last]
