"""The two methods on the wire: what a client answers to a nonce."""

from hashlib import sha1, sha256

NATIVE, CACHING = b"mysql_native_password", b"caching_sha2_password"


def mixed(left, right):
    return bytes(a ^ b for a, b in zip(left, right))


def native_answer(password, nonce):
    once = sha1(password).digest()
    return mixed(once, sha1(nonce + sha1(once).digest()).digest())


def fast_answer(password, nonce):
    once = sha256(password).digest()
    return mixed(once, sha256(sha256(once).digest() + nonce).digest())
