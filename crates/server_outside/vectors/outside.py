#!/usr/bin/env python3
"""Prints what outside_probe is asked (`outside.py stdin`) and what it has to answer (`outside.py stdout`).

The draws from seeds are ChaCha20's of D. J. Bernstein's paper "ChaCha, a variant of Salsa20" (64-bit block counter, 64-bit
nonce), in chacha_draws.py: each of the first words of a session's stream, modulo 64, is a place in the alphabet. The other
answers stand in the table, written by hand.
"""

import sys

sys.dont_write_bytecode = True
from chacha_draws import draws  # noqa: E402

SEEDS = [(bytes(32), 1), (bytes(range(32)), 4294967295), (bytes([255] * 32), 0)]

TABLE = [
    ("clock 7,5 4", ["reading 7", "reading 5", "reading 5", "reading 5"]),
    ("clock - 2", ["reading 0", "reading 0"]),
    ("clock 18446744073709551615 1", ["reading 18446744073709551615"]),
    ("system 77", ["reading 77"]),
    ("system -", ["reading 0"]),
    ("counted 11", [f"draw {number:020}" for number in range(1, 12)]),
    ("seed 7", ["seed " + "07" * 32]),
    ("judge 2 1234 1234 123 + 1234 1234", ["right", "failed 1", "wrong", "failed 2", "right"]),
    ("judge - 1234 12345 Pin", ["right", "wrong", "wrong"]),
    ("door 1,3 5", ["failed", "link a", "failed 2", "link b", "closed", "closed", "back 2"]),
    ("door - 1", ["open", "link a", "back 1"]),
    ("maker 1 9", ["failed 1", "seeded", "draw 00000000000000000001", "right", "reading 9"]),
    ("maker - -", ["seeded", "draw 00000000000000000001"] * 2 + ["right", "reading 0"]),
    ("gate", ["passed"]),
    ("gates", ["bad"]),
]


def cases():
    yield from TABLE
    for seed, stream in SEEDS:
        yield f"chacha {seed.hex()} {stream} 7", ["draw " + draw for draw in draws(seed, stream, 7)]


def main():
    for question, answers in cases():
        if sys.argv[1:] == ["stdin"]:
            print(question)
        else:
            print("\n".join(answers))


if __name__ == "__main__":
    main()
