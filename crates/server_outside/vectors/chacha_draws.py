"""The draws of ChaChaDraws, by ChaCha20 of D. J. Bernstein's paper "ChaCha, a variant of Salsa20"
(64-bit block counter, 64-bit nonce): each of the first 20 words of the stream, modulo 64, as a place in the alphabet."""

ALPHABET = "./0123456789ABCDEFGHIJKLMNOPQRSTUVWXYZabcdefghijklmnopqrstuvwxyz"
MASK = 0xFFFFFFFF
QUARTERS = [(0, 4, 8, 12), (1, 5, 9, 13), (2, 6, 10, 14), (3, 7, 11, 15),
            (0, 5, 10, 15), (1, 6, 11, 12), (2, 7, 8, 13), (3, 4, 9, 14)]


def rotated(word, bits):
    return (word << bits | word >> (32 - bits)) & MASK


def quarter(x, a, b, c, d):
    for p, q, r, bits in [(a, b, d, 16), (c, d, b, 12), (a, b, d, 8), (c, d, b, 7)]:
        x[p] = (x[p] + x[q]) & MASK
        x[r] = rotated(x[r] ^ x[p], bits)


def block(key, nonce, counter):
    start = [int.from_bytes(b"expand 32-byte k"[i:i + 4], "little") for i in range(0, 16, 4)]
    start += [int.from_bytes(key[i:i + 4], "little") for i in range(0, 32, 4)]
    start += [counter & MASK, counter >> 32, nonce & MASK, nonce >> 32]
    x = list(start)
    for _ in range(10):
        for at in QUARTERS:
            quarter(x, *at)
    return [(a + b) & MASK for a, b in zip(x, start)]


def draws(key, stream, count):
    words = [word for number in range(count * 20 // 16 + 1) for word in block(key, stream, number)]
    for first in range(0, count * 20, 20):
        yield "".join(ALPHABET[word % 64] for word in words[first:first + 20])


# the first block of an all-zero key is a published vector
assert block(bytes(32), 0, 0)[0] == 0xADE0B876
