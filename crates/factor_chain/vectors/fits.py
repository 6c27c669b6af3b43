#!/usr/bin/env python3
"""Prints what fit_probe is asked (`fits.py stdin`) and what it has to answer (`fits.py stdout`): each kind of evidence
against each kind of stored value, the primary before the secondary, further factors by the labels of their places,
passwords of no byte to 257 bytes, and fast answers against the digests of a look.

What fits stands in the tables, written by hand. Answers and digests come from hashlib, stored values from the formula in
interop/sha_crypt.py.
"""

import hashlib
import os
import sys

sys.path.insert(0, os.path.join(os.path.dirname(os.path.abspath(__file__)), '..', '..', '..', 'interop'))
from sha_crypt import formula  # noqa: E402

NONCE = b'00000000000000000001'
OTHER_NONCE = b'00000000000000000002'
SALT = b'saltSALT0123./abcXYZ'


def xor(one, other):
    return bytes(a ^ b for a, b in zip(one, other))


def native_answer(password):
    once = hashlib.sha1(password).digest()
    return xor(once, hashlib.sha1(NONCE + hashlib.sha1(once).digest()).digest())


def digest(password):
    return hashlib.sha256(hashlib.sha256(password).digest()).digest()


def fast_answer(password):
    return xor(hashlib.sha256(password).digest(), hashlib.sha256(digest(password) + NONCE).digest())


def native(password):
    return 'native,' + hashlib.sha1(hashlib.sha1(password).digest()).hexdigest()


def salted(password, thousands=1, rounds=None):
    rounds = 1000 * thousands if rounds is None else rounds
    return f'sha2,{thousands},{SALT.decode()},{formula(password, SALT, rounds).decode()}'


ONE, TWO = b'one', b'two'
ANSWER, FAST = native_answer(ONE), fast_answer(ONE)


def credential(stored, known=None):
    return f'{stored}|{digest(known).hex() if known else "-"}'


def check(primary, secondary, labels, *evidences):
    return ' '.join(('check', primary, secondary, labels) + evidences)


def told(*fits):
    """What each piece fits, and whether all do."""
    return ' '.join(fits + ('no' if 'nothing' in fits else 'fits',))


# ## Each kind of evidence against each kind of stored value

KINDS = (f'native,{ANSWER.hex()}', f'fast,{FAST.hex()}', f'full,{ONE.hex()}', 'empty', 'external,pin,yes')

STORED = [
    (credential('empty'), (False, False, False, True, False)),
    (credential(native(ONE)), (True, False, False, False, False)),
    (credential(salted(ONE)), (False, False, True, False, False)),
    (credential(salted(ONE), ONE), (False, True, True, False, False)),
    (credential(salted(ONE), TWO), (False, False, True, False, False)),
]


def kinds():
    other = credential(native(TWO))
    for own, fitting in STORED:
        for given, fits in zip(KINDS, fitting):
            yield check(own, 'none', 'pin', given), told('primary' if fits else 'nothing')
            yield check(other, own, 'pin', given), told('secondary' if fits else 'nothing')
    # Behind the first place only a verdict on the label of the place fits.
    for given in KINDS:
        fit = 'factor' if given.startswith('external') else 'nothing'
        yield check(credential('empty'), 'none', 'pin', 'empty', given), told('primary', fit)
        yield check(credential('empty'), 'none', 'pin', 'empty', 'external,pin,yes', given), told('primary', 'factor', 'nothing')


# ## The primary before the secondary

def order():
    one, two = credential(native(ONE)), credential(native(TWO))
    for secondary, response, fit in [
        (two, ANSWER, 'primary'),
        (two, native_answer(TWO), 'secondary'),
        (one, ANSWER, 'primary'),
        (two, ANSWER[:19], 'nothing'),
        (two, ANSWER + b'\x00', 'nothing'),
        (two, b'', 'nothing'),
        (two, NONCE, 'nothing'),
    ]:
        yield check(one, secondary, '-', f'native,{response.hex()}'), told(fit)


# ## Further factors

def factors():
    own = credential('empty')
    no, yes = 'nothing', 'factor'
    for second, accepted, third, fits in [
        ('pin', 'yes', 'key', (yes, yes)),
        ('pin', 'yes', 'pin', (yes, no)),
        ('key', 'yes', 'pin', (no, no)),
        ('pin', 'no', 'key', (no, yes)),
        ('nip', 'yes', 'key', (no, yes)),
        ('pi', 'yes', 'key', (no, yes)),
        ('', 'yes', 'keys', (no, no)),
    ]:
        line = check(own, 'none', 'pin,key', 'empty', f'external,{second},{accepted}', f'external,{third},yes')
        yield line, told('primary', *fits)
    # A first factor that fails fails all.
    yield check(own, 'none', 'pin', 'empty', 'external,pin,yes'), told('primary', 'factor')
    yield check(credential(native(ONE)), 'none', 'pin', 'empty', 'external,pin,yes'), told('nothing', 'factor')
    # Nothing fits where no account is in force.
    yield check('nobody', 'none', '-', 'empty'), told('nothing')


# ## Passwords of 1 to 256 bytes fit, under 1,000 to 4,095,000 rounds

def passwords():
    for stored, password, fits in [
        ('empty', b'', True),
        ('empty', ONE, False),
        (native(ONE), ONE, True),
        (native(ONE), TWO, False),
        (native(b''), b'', False),
        (native(b'a' * 256), b'a' * 256, True),
        (native(b'a' * 257), b'a' * 257, False),
        (salted(ONE), ONE, True),
        (salted(ONE), TWO, False),
        (salted(ONE, 2), ONE, True),
        (salted(ONE, 2, rounds=1000), ONE, False),
        (salted(b''), b'', False),
        (salted(b'a' * 256), b'a' * 256, True),
        (salted(b'a' * 257), b'a' * 257, False),
        (salted(ONE, 0), ONE, False),
        (salted(ONE, 4096), ONE, False),
    ]:
        yield f'password {stored} {password.hex()}', 'fits' if fits else 'no'


# ## Fast answers that a digest of the look fits

def known():
    for first, second, response, fits in [
        (ONE, TWO, FAST, True),
        (ONE, TWO, fast_answer(TWO), True),
        (None, ONE, FAST, True),
        (None, None, FAST, False),
        (TWO, None, FAST, False),
        (ONE, TWO, FAST[:31], False),
        (ONE, TWO, FAST + b'\x00', False),
        (ONE, TWO, b'', False),
    ]:
        look = f'{credential(salted(ONE), first)} {credential(salted(ONE), second)}'
        yield f'known {look} {NONCE.decode()} {response.hex()}', 'fits' if fits else 'no'
        yield f'known {look} {OTHER_NONCE.decode()} {response.hex()}', 'no'
    alone = f'{credential(salted(ONE), ONE)} none'
    yield f'known {alone} {NONCE.decode()} {FAST.hex()}', 'fits'
    yield f'known {alone} {NONCE.decode()} {fast_answer(TWO).hex()}', 'no'
    yield f'known nobody none {NONCE.decode()} {FAST.hex()}', 'no'


def rows():
    for group in (kinds, order, factors, passwords, known):
        yield from group()


if __name__ == '__main__':
    place = 1 if sys.argv[1:] == ['stdout'] else 0
    for row in rows():
        print(row[place])
