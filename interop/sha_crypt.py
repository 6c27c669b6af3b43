"""SHA-256 crypt by hashlib and, where the machine has it, by the system's crypt(3).

The formula follows Ulrich Drepper's text "Unix crypt using SHA-256 and SHA-512" on whole byte
strings, with a salt that isn't cut. It shares nothing with the code that it is compared with.
"""

import ctypes
import ctypes.util
import hashlib

ALPHABET = b"./0123456789ABCDEFGHIJKLMNOPQRSTUVWXYZabcdefghijklmnopqrstuvwxyz"

TRIPLES = [
    (0, 10, 20), (21, 1, 11), (12, 22, 2), (3, 13, 23), (24, 4, 14),
    (15, 25, 5), (6, 16, 26), (27, 7, 17), (18, 28, 8), (9, 19, 29),
]


def sha256(message):
    return hashlib.sha256(message).digest()


def stretched(digest, length):
    return (digest * (length // len(digest) + 1))[:length]


def characters(number, count):
    return bytes(ALPHABET[(number >> (6 * place)) & 63] for place in range(count))


def formula(password, salt, rounds):
    """The 43 characters of the sum."""
    mixed = sha256(password + salt + password)
    message = password + salt + stretched(mixed, len(password))
    for digit in reversed(bin(len(password))[2:]) if password else "":
        message += mixed if digit == "1" else password
    digest = sha256(message)
    p = stretched(sha256(password * len(password)), len(password))
    s = stretched(sha256(salt * (16 + digest[0])), len(salt))
    for number in range(rounds):
        odd = number & 1
        digest = sha256(
            (p if odd else digest)
            + (s if number % 3 else b"")
            + (p if number % 7 else b"")
            + (digest if odd else p)
        )
    text = b"".join(
        characters(digest[x] << 16 | digest[y] << 8 | digest[z], 4) for x, y, z in TRIPLES
    )
    return text + characters(digest[31] << 8 | digest[30], 3)


def system_crypt():
    """The system's crypt as a function like `formula`, or None where it has no SHA-256 crypt.

    It takes no 00 in a password, at most 16 salt bytes of the alphabet, at least one of them, and at
    least 1000 rounds.
    """
    name = ctypes.util.find_library("crypt")
    if name is None:
        return None
    try:
        crypt = ctypes.CDLL(name).crypt
    except (OSError, AttributeError):
        return None
    crypt.restype = ctypes.c_char_p
    crypt.argtypes = [ctypes.c_char_p, ctypes.c_char_p]

    def system(password, salt, rounds):
        answer = crypt(password, b"$5$rounds=%d$%s$" % (rounds, salt))
        return None if answer is None else answer.rsplit(b"$", 1)[1]

    known = b"5B8vYYiY.CVt1RlTTf8KbXBH3hsxY/GNooZaBBGWEc5"
    return system if system(b"Hello world!", b"saltstring", 5000) == known else None


def system_takes(password, salt, rounds):
    return b"\0" not in password and 1 <= len(salt) <= 16 and rounds >= 1000
