"""CMAC, from the steps of NIST SP 800-38B, over a cipher of 16-byte blocks that is handed in; with ARIA, libcrypto's.

    tag(key, message)             the sixteen bytes
    verdict(key, message, tag)    document 02's number: 0 for yes, 25 for no, or 1 or 23

The self-test holds it to the examples that the standard publishes, which are with AES, and with ARIA to libcrypto's own CMAC.
"""

import functools

import libcrypto

BLOCK = 16
R128 = 0x87


def doubled(block):
    """6.1: shifted left by a bit, and R added where a 1 falls out."""
    number = int.from_bytes(block, "big") << 1
    if number >> 128:
        number = number % (1 << 128) ^ R128
    return number.to_bytes(BLOCK, "big")


def xored(one, other):
    return bytes(a ^ b for a, b in zip(one, other))


def mac(forward, message):
    """6.2, with `forward` the cipher under the key."""
    k1 = doubled(forward(bytes(BLOCK)))
    k2 = doubled(k1)
    n = max(1, -(-len(message) // BLOCK))
    blocks = [message[BLOCK * i : BLOCK * (i + 1)] for i in range(n)]
    if len(blocks[-1]) == BLOCK:
        blocks[-1] = xored(k1, blocks[-1])
    else:
        blocks[-1] = xored(k2, (blocks[-1] + b"\x80").ljust(BLOCK, b"\0"))
    chain = bytes(BLOCK)
    for block in blocks:
        chain = forward(xored(chain, block))
    return chain


@functools.lru_cache(maxsize=4096)  # one archive is looked at by many calls
def tag(key, message):
    return mac(lambda block: libcrypto.forward(key, block), message)


def verdict(key, message, lent):
    if len(key) not in (16, 24, 32):
        return 1
    if len(lent) != BLOCK:
        return 23
    return 0 if lent == tag(key, message) else 25
