#!/usr/bin/env python3
"""Prints what method_probe is asked (`methods.py stdin`) and what it has to answer (`methods.py stdout`).

Digests, responses and sums come from hashlib and from the formula of interop/sha_crypt.py; whether a text is stored by a
method, and which past passwords a password fits, is restated here and shares nothing with the crates.
"""

import hashlib
import os
import re
import sys

sys.dont_write_bytecode = True
sys.path.insert(0, os.path.join(os.path.dirname(os.path.abspath(__file__)), "..", "..", "..", "interop"))
import sha_crypt  # noqa: E402

DAY = 86400
LAST = 2 ** 64 - 1
NONCE = b"00000000000000000000"
SALT = b"saltSALT0123./abcXYZ"


def sha1(text):
    return hashlib.sha1(text).digest()


def sha256(text):
    return hashlib.sha256(text).digest()


def mixed(left, right):
    return bytes(x ^ y for x, y in zip(left, right))


def word(text):
    return text.hex() or "-"


# mysql_native_password

def native_text(password):
    return "*" + sha1(sha1(password)).hex().upper()


def native_answer(password, nonce):
    once = sha1(password)
    return mixed(once, sha1(nonce + sha1(once)))


def changed(text):
    return text[:-1] + bytes([text[-1] ^ 1])


def native():
    passwords = [(b"password", NONCE), ("p\u00e4ssw\u00f6rd".encode(), b"./0123456789ABCDEFGH"), (b"", b"a" * 20)]
    for password, nonce in passwords:
        answer = native_answer(password, nonce)
        yield f"native {word(password)} {nonce.hex()}", f"{native_text(password)} {answer.hex()}"
        yield f"native-right {native_text(password)} {nonce.hex()} {answer.hex()}", "yes"
    right = native_answer(b"password", NONCE)
    for password, nonce, answer in [(b"password", changed(NONCE), right), (b"Password", NONCE, right),
                                    (b"password", NONCE, changed(right))]:
        yield f"native-right {native_text(password)} {nonce.hex()} {answer.hex()}", "no"


# The text that MySQL stores of `password`.
NATIVE_TEXT = "*2470C0C06DEE42FD1618BB99005ADCA2EC9D1E19"


def native_stored():
    for text in [NATIVE_TEXT, "", "*", NATIVE_TEXT[1:], NATIVE_TEXT[:-1], NATIVE_TEXT + "1", NATIVE_TEXT.replace("C", "c", 1),
                 NATIVE_TEXT.replace("C", "G", 1), "+" + NATIVE_TEXT[1:]]:
        is_stored = re.fullmatch(r"\*[0-9A-F]{40}", text)
        yield f"native-stored {word(text.encode())}", text if is_stored else "none"


# caching_sha2_password

def caching_digest(password):
    return sha256(sha256(password))


def caching_answer(password, nonce):
    return mixed(sha256(password), sha256(caching_digest(password) + nonce))


CACHING_NONCE = b"abcdefghij0123456789"


def caching():
    for password in (b"password", b""):
        digest, answer = caching_digest(password), caching_answer(password, CACHING_NONCE)
        yield f"caching {word(password)} {CACHING_NONCE.hex()}", f"{digest.hex()} {answer.hex()}"
        yield f"caching-right {digest.hex()} {CACHING_NONCE.hex()} {answer.hex()}", "yes"
    digest, other = caching_digest(b"password"), caching_digest(b"")
    right = caching_answer(b"password", CACHING_NONCE)
    for stored, nonce, answer in [(digest, CACHING_NONCE, caching_answer(b"", CACHING_NONCE)), (other, CACHING_NONCE, right),
                                  (digest, b"abcdefghij012345678.", right), (digest, CACHING_NONCE, changed(right))]:
        yield f"caching-right {stored.hex()} {nonce.hex()} {answer.hex()}", "no"


CACHING_SALT = b"abcdefghij./89ABCXYZ"
CACHING_TEXT = b"$A$005$" + CACHING_SALT + sha_crypt.formula(b"password", CACHING_SALT, 5000)


def caching_value(text):
    found = re.fullmatch(rb"\$A\$([0-9A-F]{3})\$([./0-9A-Za-z]{20})([./0-9A-Za-z]{43})", text)
    if not found or int(found[1], 16) == 0:
        return "none"
    return f"{int(found[1], 16)} {found[2].decode()} {found[3].decode()} same"


def caching_stored():
    texts = [CACHING_TEXT, CACHING_TEXT[:69], b"", CACHING_TEXT + b"."]
    for digits in [b"001", b"00A", b"1F3", b"FFF", b"000", b"00a", b"fff", b"0G1", b"+01"]:
        texts.append(CACHING_TEXT[:3] + digits + CACHING_TEXT[6:])
    for place, byte in [(7, b"."), (69, b"/"), (0, b"*"), (1, b"a"), (2, b"A"), (6, b"0"), (7, b"-"), (26, b"$"), (27, b"\x00"),
                        (69, b"\xff")]:
        texts.append(CACHING_TEXT[:place] + byte + CACHING_TEXT[place + 1:])
    for text in texts:
        yield f"caching-stored {word(text)}", caching_value(text)


def salts():
    for number in range(256):
        written = f"{sha_crypt.ALPHABET[number]} " if number < 64 else ""
        yield f"salt {number}", written + ("yes" if number in sha_crypt.ALPHABET else "no")


# Past passwords. A record is a moment, and a method and a password.

def spelled(record):
    moment, method, password = record
    if method == "native":
        return f"{moment},native,{sha1(sha1(password)).hex()}"
    if method == "sha2":
        return f"{moment},sha2,1,{SALT.decode()},{sha_crypt.formula(password, SALT, 1000).decode()}"
    return f"{moment},empty"


def fits(record, password):
    """An empty password fits what stores none, and no other password fits that."""
    return record[1] == "empty" if password == b"" else record[1] != "empty" and record[2] == password


def is_forbidden(past, password, history, reuse, now):
    if password == b"":
        return False
    return any(fits(record, password) and (place < history or now < record[0] + DAY * reuse)
               for place, record in enumerate(past))


def asks_forbidden(past, password, history, reuse, now):
    line = ["forbids", word(password), str(history), str(reuse), str(now)] + [spelled(record) for record in past]
    return " ".join(line), "yes" if is_forbidden(past, password, history, reuse, now) else "no"


def uses():
    past = [(0, "native", b"one"), (0, "sha2", b"one"), (0, "native", b"two"), (0, "sha2", b"two"), (0, "native", b""),
            (0, "empty", b"")]
    for records in (past, []):
        for password in (b"one", b"two", b"three", b""):
            said = ["fits" if fits(record, password) else "no" for record in records] + [str(len(records))]
            yield " ".join(["used", word(password)] + [spelled(record) for record in records]), " ".join(said)


def empty_passwords():
    """The empty password is never recorded, so none of the records stores none."""
    past = [(LAST, "native", b""), (1000, "sha2", b"one"), (0, "native", b"one")]
    for history, reuse, now in [(0, 0, 0), (3, 0, 1000), (0, 1, 1000), (65535, 65535, 1000), (65535, 65535, LAST)]:
        yield asks_forbidden(past, b"", history, reuse, now)


def histories():
    past = [(20, "sha2", b"three"), (10, "native", b"two"), (0, "sha2", b"one")]
    for history in (0, 1, 2, 3, 4, 65535):
        for password in (b"three", b"two", b"one", b"four"):
            yield asks_forbidden(past, password, history, 0, 20)


def intervals():
    for moment, reuse, now in [(0, 0, 0), (1000, 0, 1000), (LAST, 0, LAST), (0, 1, 86399), (0, 1, 86400), (1000, 1, 87399),
                               (1000, 1, 87400), (1000, 1, 5), (0, 2, 172799), (0, 2, 172800), (0, 65535, 5662223999),
                               (0, 65535, 5662224000), (0, 65535, LAST), (LAST - DAY, 1, LAST - 1), (LAST - DAY, 1, LAST),
                               (LAST - DAY + 1, 1, LAST), (LAST, 1, LAST), (LAST, 65535, LAST)]:
        for method in ("native", "sha2"):
            yield asks_forbidden([(LAST, "native", b"two"), (moment, method, b"one")], b"one", 1, reuse, now)


def two_passwords_and_one_day():
    """A history of two passwords and an interval of one day: what isn't forbidden is set."""
    past = []
    for password, now in [(b"one", 0), (b"two", 10), (b"three", 20), (b"one", 86399), (b"one", 86400), (b"three", 86400),
                          (b"two", 86409), (b"two", 86410)]:
        line, said = asks_forbidden(past, password, 2, 1, now)
        yield line, said
        if said == "no":
            past.insert(0, (now, "sha2", password))
    assert len(past) == 5


def full_lists():
    for count, reuse, now, moment in [(0, 1, 0, 0), (1, 1, 0, 0), (255, 1, 86399, 0), (256, 1, 86399, 0), (256, 1, 86400, 0),
                                      (256, 0, 255, 0), (256, 65535, 5662223999, 0), (256, 65535, 5662224000, 0),
                                      (256, 65535, LAST, 0), (256, 1, LAST, LAST - DAY), (256, 1, LAST, LAST - DAY + 1),
                                      (256, 65535, 0, LAST), (256, 65535, LAST, LAST), (256, 0, LAST, LAST),
                                      (257, 1, LAST, LAST - DAY + 1), (257, 65535, 0, LAST), (257, 65535, LAST, LAST)]:
        is_full = count == 256 and now < moment + DAY * reuse
        yield f"full {reuse} {now} {count} {moment}", "yes" if is_full else "no"


def kept_passwords():
    for count, reuse, now in [(0, 1, 0), (1, 1, 0), (2, 1, 5), (255, 1, 86399), (255, 65535, 255), (256, 1, 255), (256, 1, 86399),
                              (256, 1, 86400), (257, 1, 86400), (257, 1, 86401), (300, 1, 300)]:
        kept = list(range(count))[::-1][:256]
        is_full = len(kept) == 256 and now < kept[-1] + DAY * reuse
        said = [str(len(kept))] + [str(moment) for moment in kept] + ["yes" if is_full else "no"]
        yield f"remember {count} {reuse} {now}", " ".join(said)


def main():
    for group in [native, native_stored, caching, caching_stored, salts, uses, empty_passwords, histories, intervals,
                  two_passwords_and_one_day, full_lists, kept_passwords]:
        for line, said in group():
            print(line if sys.argv[1] == "stdin" else said)


main()
