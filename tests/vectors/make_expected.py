"""Writes what the program `vectors` is to print, from libcrypto, published data and the rules of RFC 5794.

    python3 tests/vectors/make_expected.py > crates/vectors/stdout

One line a case, `NAME HEX`, where NAME is words separated by single spaces:

    aria-N ENGINE forward HEX       RFC 5794, A: the appendix's block encrypted under its N-bit key
    aria-N ENGINE back HEX          the appendix's ciphertext decrypted
    aria-N word I HEX               word WI of that key, I from 0
    aria-N round-key I HEX          round key I of that key, I from 1
    aria-N decryption-key I HEX     decryption key I of that key, I from 1
    aria-N round I HEX              the appendix's block after round I, I from 1
    aria-2004-N ENGINE forward HEX  ARIA Test Vectors (2004), ECB: ten blocks encrypted
    aria-2004-N ENGINE back HEX     the ten blocks' ciphertext decrypted

N is 128, 192, 256; ENGINE is plain, tables. HEX is lower case, without spaces. The lines come key by
key: all `aria-N` lines of one N in the order above (plain forward, plain back, tables forward,
tables back, words, round keys, decryption keys, rounds), then those of the next; then the
`aria-2004-N` lines.

Blocks are libcrypto's, held to the published ones. Words, keys and round values, which libcrypto
does not export, are those of tests/data/aria-intermediate.txt; its head says where they come from.
They are held to tests/vectors/aria.py, and the last round value to libcrypto's block.
"""

import os
import sys

HERE = os.path.dirname(os.path.abspath(__file__))
sys.path.insert(0, os.path.join(HERE, "..", "model"))

import aria  # noqa: E402
import libcrypto  # noqa: E402
from records import records  # noqa: E402

DATA = os.path.join(HERE, "..", "data")

# the fields of aria-intermediate.txt that are numbered, and what a line calls them
VALUES = {"w": "word", "ek": "round-key", "dk": "decryption-key", "p": "round"}


def block_lines(name, record):
    key, plain, sealed = (bytes.fromhex(record[field]) for field in ("key", "in", "out"))
    forward, back = libcrypto.forward(key, plain), libcrypto.back(key, sealed)
    if (forward, back) != (sealed, plain):
        sys.exit("libcrypto differs from %s" % record["origin"])
    for engine in ("plain", "tables"):
        yield "%s %s forward %s" % (name, engine, forward.hex())
        yield "%s %s back %s" % (name, engine, back.hex())


def made(key, plain):
    """The numbered fields of a record, by the rules."""
    lists = (
        ("w", 0, aria.words(key)),
        ("ek", 1, aria.round_keys(key)),
        ("dk", 1, aria.decryption_keys(key)),
        ("p", 1, aria.round_values(key, int.from_bytes(plain, "big"))),
    )
    return {
        (letters, i): "%032x" % block
        for letters, first, blocks in lists
        for i, block in enumerate(blocks, first)
    }


def numbered(record):
    """The numbered fields of a record, in its order."""
    for field, value in record.items():
        letters = field.rstrip("0123456789")
        if letters in VALUES:
            yield (letters, int(field[len(letters) :])), value


def value_lines(name, record):
    key, plain = bytes.fromhex(record["key"]), bytes.fromhex(record["in"])
    values = dict(numbered(record))
    if values != made(key, plain):
        sys.exit("%s: aria-intermediate.txt is not what aria.py makes" % name)
    if values["p", int(record["rounds"])] != libcrypto.forward(key, plain).hex():
        sys.exit("%s: the last round value is not libcrypto's block" % name)
    for (letters, i), value in values.items():
        yield "%s %s %d %s" % (name, VALUES[letters], i, value)


def lines():
    blocks = list(records(os.path.join(DATA, "aria-ecb.txt")))
    rfc = [record for record in blocks if record["origin"].startswith("RFC 5794")]
    of_2004 = [record for record in blocks if "(2004)" in record["origin"]]
    on_the_way = {record["key"]: record for record in records(os.path.join(DATA, "aria-intermediate.txt"))}
    for record in rfc:
        name = "aria-%d" % (4 * len(record["key"]))
        yield from block_lines(name, record)
        yield from value_lines(name, on_the_way[record["key"]])
    for record in of_2004:
        yield from block_lines("aria-2004-%d" % (4 * len(record["key"])), record)


if __name__ == "__main__":
    for line in lines():
        print(line)
