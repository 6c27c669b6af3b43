#!/usr/bin/env python3
"""Prints what login_probe is asked (`logins.py stdin`) and what it has to answer (`logins.py stdout`).

The ends are written here by hand. The answers to nonces are computed by hashlib, and packets are laid out by a
restatement of their layout that shares nothing with the crates.
"""

import hashlib
import sys


def sha1(text):
    return hashlib.sha1(text).digest()


def sha256(text):
    return hashlib.sha256(text).digest()


def mixed(left, right):
    return bytes(x ^ y for x, y in zip(left, right))


def native(password, nonce):
    once = sha1(password)
    return mixed(once, sha1(nonce + sha1(once)))


def caching(password, nonce):
    once = sha256(password)
    return mixed(once, sha256(sha256(once) + nonce))


NONCE_1 = b'0' * 19 + b'1'
NONCE_2 = b'0' * 19 + b'2'
PASSWORD = b'password'


def greeting(plugin):
    """A greeting that names this method, with the nonce that ends in 1."""
    return (b'\x0a8.0.0-login\x00\x01\x00\x00\x00' + NONCE_1[:8] + b'\x00\x08\xa2\xff\x02\x00\x78\x10\x15' + bytes(10)
            + NONCE_1[8:] + b'\x00' + plugin + b'\x00')


def response(plugin, answer):
    """The response of the user `nat`."""
    return (b'\x00\x82\x08\x00\x00\x00\x00\x01\xff' + bytes(23) + b'nat\x00' + bytes([len(answer)]) + answer + plugin
            + b'\x00')


def packets(*sent):
    return b''.join(len(payload).to_bytes(3, 'little') + bytes([first]) + payload for first, payload in sent)


NATIVE_NAME = b'mysql_native_password'
CACHING_NAME = b'caching_sha2_password'
NATIVE = greeting(NATIVE_NAME)
CACHING = greeting(CACHING_NAME)
ANSWER = (1, response(NATIVE_NAME, native(PASSWORD, NONCE_1)))
CACHING_ANSWER = (1, response(CACHING_NAME, caching(PASSWORD, NONCE_1)))
NATIVE_2 = (3, native(PASSWORD, NONCE_2))
CACHING_2 = (3, caching(PASSWORD, NONCE_2))
CLEAR_2 = (3, PASSWORD + b'\x00')
OK = b'\x00\x00\x00\x02\x00\x00\x00'
ERR = b'\xff\x15\x04#28000Access denied'
FULL = b'\x01\x04'
FAST = b'\x01\x03'
FACTOR = b'\x02mysql_clear_password\x00'
SWITCH_NATIVE = b'\xfe' + NATIVE_NAME + b'\x00' + NONCE_2 + b'\x00'
SWITCH_CACHING = b'\xfe' + CACHING_NAME + b'\x00' + NONCE_2
SWITCH_CLEAR = b'\xfemysql_clear_password\x00'

HERE = 'local permitted 3'
AWAY = 'away permitted 3'
STRICT = 'local refused 3'
ONE = 'local permitted 1'


def after_native(place, sent, end, said=()):
    """Packets of the server behind a greeting with mysql_native_password, and of the client behind its answer."""
    return place, 0, packets((0, NATIVE), *sent), end, packets(ANSWER, *said)


def after_caching(place, sent, end, said=()):
    return place, 0, packets((0, CACHING), *sent), end, packets(CACHING_ANSWER, *said)


def alone(sent, end):
    """Bytes of the server at which the client ends and has written nothing."""
    return HERE, 0, sent, end, b''


def endings():
    yield after_native(HERE, [(2, OK)], 'opened')
    yield after_native(HERE, [(2, ERR)], 'refused 1045')
    yield alone(packets((0, ERR)), 'refused 1045')


def switches():
    yield after_native(HERE, [(2, SWITCH_NATIVE), (4, OK)], 'opened', [NATIVE_2])
    yield after_native(HERE, [(2, SWITCH_NATIVE), (4, SWITCH_NATIVE)], 'malformed at 0', [NATIVE_2])
    yield after_native(HERE, [(2, SWITCH_CACHING), (4, FAST), (5, OK)], 'opened', [CACHING_2])
    # A switch without a nonce is malformed where its data begins.
    for data, at in [(b'', 22), (b'\x00', 23), (b'\x00' + NONCE_2[:19], 23), (b'\x00' + NONCE_2 + b'1', 23)]:
        yield after_native(HERE, [(2, b'\xfe' + NATIVE_NAME + data)], 'malformed at %d' % at)


def secrets_in_the_clear():
    for place, end in [(AWAY, 'not local'), (STRICT, 'clear not permitted')]:
        yield after_native(place, [(2, SWITCH_CLEAR)], end)
        yield after_native(place, [(2, FACTOR)], end)
    yield after_caching(AWAY, [(2, FULL)], 'not local')
    yield after_caching(HERE, [(2, FULL), (4, OK)], 'opened', [CLEAR_2])
    yield after_caching(STRICT, [(2, FULL), (4, OK)], 'opened', [CLEAR_2])
    yield after_native(HERE, [(2, SWITCH_CLEAR), (4, OK)], 'opened', [CLEAR_2])


def further_factors():
    both = [(3, b'two\x00'), (5, b'three\x00')]
    yield after_native(HERE, [(2, FACTOR), (4, FACTOR), (6, OK)], 'opened', both)
    yield after_native(HERE, [(2, FACTOR), (4, FACTOR), (6, FACTOR)], 'malformed at 0', both)
    yield after_native(ONE, [(2, FACTOR)], 'no secret')
    yield after_native(ONE, [(2, b'\x02dialog\x00')], 'unknown method')
    yield after_native(HERE, [(2, b'\xfedialog\x00')], 'unknown method')


def misplaced():
    """Payloads that fit nowhere, behind the client's answer and in the place of the greeting."""
    for payload, at in [(b'', 0), (FAST, 0), (FULL, 0), (b'\x01', 0), (NATIVE, 0), (b'\x0a8', 0),
                        (b'\x03SELECT 1', 0), (b'\x00\x00\x00\x02', 4), (b'\x00\xff', 1), (b'\xff\x15', 2)]:
        yield after_native(HERE, [(2, payload)], 'malformed at %d' % at)
    yield after_caching(HERE, [(2, FAST), (3, FULL)], 'malformed at 0')
    for payload, at in [(OK, 0), (SWITCH_NATIVE, 0), (FACTOR, 0), (FULL, 0), (b'\x0a8.0.0', 6), (b'\xff', 1)]:
        yield alone(packets((0, payload)), 'malformed at %d' % at)


def no_packets():
    """Bytes that end, and bytes that are no packets."""
    yield after_native(HERE, [], 'peer closed')
    yield alone(packets((0, NATIVE))[:16], 'peer closed')
    yield after_native(HERE, [(1, OK)], '1 for 2 at 83')
    yield alone(b'\x01\x00\x10\x00', 'too large at 0')


def failing():
    """Each call of the link fails in turn."""
    sent = packets((0, NATIVE), (2, SWITCH_NATIVE), (4, OK))
    for call in range(1, 9):
        said = [ANSWER] * (call > 3) + [NATIVE_2] * (call > 6)
        yield HERE, call, sent, 'link fault', packets(*said)
    yield HERE, 9, sent, 'opened', packets(ANSWER, NATIVE_2)


# The words that loginctl prints of an end.
WORDS = {'peer closed': 'closed', 'link fault': 'linkfault', 'no secret': 'wontsend nosecret',
         'unknown method': 'wontsend unknownmethod', 'not local': 'wontsend notlocal',
         'clear not permitted': 'wontsend notpermitted'}


def words_of(end):
    if end in WORDS:
        return WORDS[end]
    said = end.split(' ')
    if said[0] == 'malformed':
        return 'malformed ' + said[-1]
    if 'for' in said or said[0] == 'too':
        return 'framing ' + said[-1]
    return end


ANSWERED = packets(ANSWER)

# What a client is given that may be cut anywhere, what it comes to, and what it writes. Bytes behind the end are left, also
# where they are out of order; the header of a payload that is too long is enough.
CUTS = [
    (packets((0, NATIVE)), 'waits', ANSWERED),
    (packets((0, NATIVE), (2, OK)), 'opened', ANSWERED),
    (packets((0, NATIVE), (2, ERR)), 'refused 1045', ANSWERED),
    (packets((0, ERR)), 'refused 1045', b''),
    (packets((1, NATIVE)), 'framing 0', b''),
    (packets((0, NATIVE), (1, OK)), 'framing 83', ANSWERED),
    (packets((0, NATIVE), (2, OK), (3, ERR), (9, ERR)), 'opened', ANSWERED),
    (packets((0, NATIVE), (2, OK), (9, ERR)), 'opened', ANSWERED),
    (b'\x01\x00\x10\x00', 'framing 0', b''),
    (b'\x00\x00\x10\x00', 'waits', b''),
]


def main():
    wanted = sys.argv[1]
    for group in [endings, switches, secrets_in_the_clear, further_factors, misplaced, no_packets, failing]:
        for place, call, sent, end, written in group():
            if wanted == 'stdin':
                print(place, call, sent.hex())
            else:
                print('%s words %s faults %d written %s' % (end, words_of(end), end == 'link fault', written.hex()))
    for sent, end, written in CUTS:
        print('cut ' + sent.hex() if wanted == 'stdin' else '%s written %s' % (end, written.hex()))


main()
