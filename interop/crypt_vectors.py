#!/usr/bin/env python3
"""Prints what crypt_probe is asked (`crypt_vectors.py stdin`) and what it has to answer (`crypt_vectors.py stdout`).

Most cases take the beginnings of one password and one salt. Each sum comes from the formula in sha_crypt.py, and the
system's crypt(3) has to agree where it is there and takes the case: on standard error a line says so for each.
"""

import sys

sys.dont_write_bytecode = True
import sha_crypt  # noqa: E402

CHARACTERS = b"ABCDEFGHIJKLMNOPQRSTUVWXYZabcdefghijklmnopqrstuvwxyz0123456789+-"
PASSWORD = b"".join(CHARACTERS[turn:] + CHARACTERS[:turn] for turn in (0, 1, 5, 18))
SALT = b"saltSALT0123./abcXYZ"

PASSWORD_LENGTHS = [0, 1, 2, 15, 16, 31, 32, 33, 55, 56, 63, 64, 65, 127, 128, 129, 255, 256]
ROUNDS = [1, 2, 3, 4, 7, 8, 21, 22, 42, 43, 999, 1000, 1001, 4999, 5000]

SPECIAL = [
    (b"Hello world!", b"saltstring", 5000),
    (b"\x00\x80\xff\n", SALT, 5000),
    (b"\x00\xff", b"abcdefghij./89ABCXYZ", 43),
]

CASES = (
    [(13, salt, 1000) for salt in range(21)]
    + [(password, 16, 1000) for password in PASSWORD_LENGTHS]
    + [(password, 20, 44) for password in PASSWORD_LENGTHS]
    + [(13, 20, rounds) for rounds in ROUNDS]
    + [(13, 16, rounds) for rounds in (1001, 1234, 2000, 4999, 5000, 12345)]
    + [(0, 0, 1), (0, 0, 1000), (256, 20, 5000)]
)


# Lines that are answered by `bad`: no round, too many, two words, no hexadecimal digits, a password of 257 bytes, a salt
# of 21.
BAD = ["00 00 0", "00 00", "xx 00 1", f"{bytes(257).hex()} 00 1", f"00 {bytes(21).hex()} 1", "00 00 4095001"]


def word(text):
    return text.hex() or "-"


def checked_sum(system, password, salt, rounds):
    """The formula's sum, with which crypt(3) agrees where it takes the case."""
    total = sha_crypt.formula(password, salt, rounds)
    if system is not None and sha_crypt.system_takes(password, salt, rounds):
        if system(password, salt, rounds) != total:
            sys.exit(f"crypt(3) differs at {password}, {salt}, {rounds}")
        print("agreed", file=sys.stderr)
    return total.decode()


def main():
    system = sha_crypt.system_crypt()
    if system is None:
        print("no crypt(3) with SHA-256 here: the formula stands alone", file=sys.stderr)
    cases = SPECIAL + [(PASSWORD[:length], SALT[:salt], rounds) for length, salt, rounds in CASES]
    for password, salt, rounds in cases:
        if sys.argv[1] == "stdin":
            print(word(password), word(salt), rounds)
        else:
            print(checked_sum(system, password, salt, rounds))
    for line in BAD:
        print(line if sys.argv[1] == "stdin" else "bad")


if __name__ == "__main__":
    main()
