#!/usr/bin/env python3
"""Prints what session_probe is asked (`sessions.py stdin`) and what it has to answer (`sessions.py stdout`): logins of
accounts that no script of a replay has, account statements and sandboxes, stale answers, replies of locks, which inputs
answer each ask, want of memory, and the most commands.

What a session sends is spelled by hand from the layouts of the MySQL client/server protocol documentation. Answers to
nonces and digests are computed here; the stored value of `one` comes from the formula in interop/sha_crypt.py.
"""

import hashlib
import sys

NONCE = b'00000000000000000001'
FRESH = b'00000000000000000002'
FLAGS = 0x00088200
# The same and CAN_HANDLE_EXPIRED_PASSWORDS.
EXPIRED_FLAGS = 0x00488200
NATIVE, CACHING = b'mysql_native_password', b'caching_sha2_password'
ALPHABET = b'./0123456789ABCDEFGHIJKLMNOPQRSTUVWXYZabcdefghijklmnopqrstuvwxyz'


def xor(one, other):
    return bytes(a ^ b for a, b in zip(one, other))


def native_answer(password, nonce):
    once = hashlib.sha1(password).digest()
    return xor(once, hashlib.sha1(nonce + hashlib.sha1(once).digest()).digest())


def fast_answer(password, nonce):
    once = hashlib.sha256(password).digest()
    return xor(once, hashlib.sha256(hashlib.sha256(once).digest() + nonce).digest())


ANSWER = native_answer(b'password', NONCE)
FAST = fast_answer(b'one', NONCE)
FRESH_FAST = fast_answer(b'one', FRESH)


# ## What a server sends

def error(number, state, text):
    return b'\xff' + number.to_bytes(2, 'little') + b'#' + state + text


OK = b'\x00\x00\x00\x02\x00\x00\x00'
FAST_DONE = b'\x01\x03'
FULL = b'\x01\x04'
TO_CACHING = b'\xfe' + CACHING + b'\x00' + FRESH + b'\x00'
REFUSED = b"Access denied for user 'nat'@'localhost'"
DENIED = error(1045, b'28000', REFUSED + b' (using password: YES)')
DENIED_BLANK = error(1045, b'28000', REFUSED + b' (using password: NO)')
LOCKED = error(3118, b'HY000', REFUSED + b'. Account is locked.')
BLOCKED = error(3955, b'HY000', REFUSED + b'. Account is blocked for 2 day(s) (1 day(s) remaining) due to 3 consecutive failed logins.')
BLOCKED_FOREVER = error(
    3955, b'HY000', REFUSED + b'. Account is blocked for unlimited day(s) (unlimited day(s) remaining) due to 3 consecutive failed logins.')

# Protocol::HandshakeV10: version, connection, first 8 bytes of the nonce, flags, character set, status, flags, length
# of the nonce, 10 zero bytes, the rest of the nonce, the name of the method.
GREETING = (b'\x0a8.0.0-login\x00' + b'\x01\x00\x00\x00' + NONCE[:8] + b'\x00' + b'\x08\xa2' + b'\xff' + b'\x02\x00'
            + b'\x78\x10' + b'\x15' + bytes(10) + NONCE[8:] + b'\x00' + CACHING + b'\x00')


def response(flags, answer, plugin):
    """Protocol::HandshakeResponse41 of the user `nat`."""
    return (flags.to_bytes(4, 'little') + b'\x00\x00\x00\x01\xff' + bytes(23) + b'nat\x00'
            + bytes([len(answer)]) + answer + plugin + b'\x00')


# ## What a session asks

def evidence(kind, nonce=b'', given=b''):
    return ' '.join(word for word in (kind, nonce.hex(), given.hex()) if word)


EMPTY = 'empty'
RIGHT = evidence('native', NONCE, ANSWER)
PASSWORD = evidence('full', b'', b'one')


def check(stamp, proof):
    return f'check {stamp} {proof}'


def settle(stamp, proof, fits, flags=FLAGS):
    return f'settle {stamp} {flags} {"true" if fits else "false"} {proof}'


def packet(number, payload):
    return f'packet {number} {payload.hex()}'


# ## Steps: what is given, the sequence id of what is sent next, what is sent, what is asked

BEGUN = ('new', 0, GREETING, 'read 1')


def responded(answer, plugin, flags=FLAGS):
    return [BEGUN, (packet(1, response(flags, answer, plugin)), 2, b'', 'observe 6e6174')]



A_FAST_ANSWER = [
    ('looked known 7', 2, FAST_DONE, check(7, evidence('fast', NONCE, FAST))),
    ('checked', 3, b'', settle(7, evidence('fast', NONCE, FAST), True)),
    ('opened', 3, OK, 'read 0'),
]

NO_PASSWORD = [
    ('looked known 7', 2, b'', check(7, EMPTY)),
    ('checked', 2, b'', settle(7, EMPTY, False)),
    ('blank', 2, DENIED_BLANK, 'refused 1045'),
]

SWITCH = [
    ('looked known 7', 2, b'', 'draw'),
    (f'drawn {FRESH.decode()}', 2, TO_CACHING, 'read 3'),
]

A_SWITCH = SWITCH + [
    (packet(3, FRESH_FAST), 4, FAST_DONE, check(7, evidence('fast', FRESH, FRESH_FAST))),
    ('checked', 5, b'', settle(7, evidence('fast', FRESH, FRESH_FAST), True)),
    ('opened', 5, OK, 'read 0'),
]

# The fast answer to the first nonce fits no digest with the fresh one.
A_SWITCH_AND_THE_PASSWORD = SWITCH + [
    (packet(3, FAST), 4, FULL, 'read 5'),
    (packet(5, b'one\x00'), 6, b'', check(7, PASSWORD)),
    ('checked', 6, b'', settle(7, PASSWORD, True)),
    ('opened', 6, OK, 'read 0'),
]

# The names of methods are compared byte by byte.
BY_A_DIGEST = [
    responded(FAST, CACHING) + A_FAST_ANSWER,
    responded(b'', CACHING) + NO_PASSWORD,
    responded(b'\x00', CACHING) + NO_PASSWORD,
    responded(FAST, NATIVE) + A_SWITCH,
    responded(FAST, b'Caching_sha2_password') + A_SWITCH,
    responded(FAST, b'') + A_SWITCH,
    responded(ANSWER, NATIVE) + A_SWITCH_AND_THE_PASSWORD,
]

RIGHT_ANSWER = [
    ('looked native 7', 2, b'', check(7, RIGHT)),
    ('checked', 2, b'', settle(7, RIGHT, True)),
]

# The account is looked at again, and nothing is asked of the client.
ONE_STALE_ANSWER = RIGHT_ANSWER + [
    ('stale', 2, b'', 'renew 6e6174'),
    ('looked native 8', 2, b'', check(8, RIGHT)),
    ('checked', 2, b'', settle(8, RIGHT, True)),
    ('opened', 2, OK, 'read 0'),
]

TWO_STALE_ANSWERS = [
    ('looked native 7', 2, b'', check(7, RIGHT)),
    ('checked', 2, b'', settle(7, RIGHT, True, EXPIRED_FLAGS)),
    ('stale', 2, b'', 'renew 6e6174'),
    ('looked native 8', 2, b'', check(8, RIGHT)),
    ('checked', 2, b'', settle(8, RIGHT, True, EXPIRED_FLAGS)),
    ('stale', 2, b'', f'settle locked {EXPIRED_FLAGS} 6e6174 {RIGHT}'),
    ('opened', 2, OK, 'read 0'),
]

STALE = [
    responded(ANSWER, NATIVE) + ONE_STALE_ANSWER,
    responded(ANSWER, NATIVE, EXPIRED_FLAGS) + TWO_STALE_ANSWERS,
]


def in_the_clear(shown, answer, text, proof, fits):
    """The password is asked for, and comes."""
    return responded(answer, CACHING) + [
        (f'looked {shown} 7', 2, FULL, 'read 3'),
        (packet(3, text), 4, b'', check(7, proof)),
        ('checked', 4, b'', settle(7, proof, fits)),
        ('opened', 4, OK, 'read 0') if fits else ('denied', 4, DENIED, 'refused 1045'),
    ]


# The fast path takes answers of 32 bytes that fit a digest of the look.
IN_THE_CLEAR = [
    in_the_clear('salted', FAST, b'one\x00', PASSWORD, True),
    in_the_clear('salted', FAST, b'one', PASSWORD, True),
    in_the_clear('salted', FAST, b'one\x00\x00', evidence('full', b'', b'one\x00'), False),
    in_the_clear('salted', FAST, b'two\x00', evidence('full', b'', b'two'), False),
    in_the_clear('salted', FAST, b'', EMPTY, False),
    in_the_clear('salted', FAST, b'\x00', EMPTY, False),
    in_the_clear('salted', FAST, b'\x00\x00', evidence('full', b'', b'\x00'), False),
    in_the_clear('known', FRESH_FAST, b'one\x00', PASSWORD, True),
    in_the_clear('known', FAST[:31], b'one\x00', PASSWORD, True),
    in_the_clear('known', FAST[1:], b'one\x00', PASSWORD, True),
    in_the_clear('known', b'\x01', b'one\x00', PASSWORD, True),
]


# The account becomes another behind the first look: the password was given before, and is checked on what the account
# has become.
def changed(later):
    return responded(FAST, CACHING) + [
        ('looked salted 7', 2, FULL, 'read 3'),
        (packet(3, b'one\x00'), 4, b'', check(7, PASSWORD)),
        ('checked', 4, b'', settle(7, PASSWORD, True)),
        ('stale', 4, b'', 'renew 6e6174'),
        (f'looked {later} 8', 4, b'', check(8, PASSWORD)),
        ('checked', 4, b'', settle(8, PASSWORD, False)),
        ('denied', 4, DENIED, 'refused 1045'),
    ]


CHANGED = [changed(later) for later in ('native', 'empty', 'nobody')]

REFUSALS = [
    responded(ANSWER, NATIVE) + RIGHT_ANSWER + [(reply, 2, sent, f'refused {number}')]
    for reply, sent, number in (
        ('locked', LOCKED, 3118), ('blocked 2 1', BLOCKED, 3955), ('blocked never 0', BLOCKED_FOREVER, 3955))
]


# ## Account statements, in a session of the user `nat` that opened on the account 3 at `localhost`

SYNTAX = b'You have an error in your SQL syntax at place '
UNKNOWN = error(1047, b'08S01', b'Unknown command')
SANDBOXED = error(1820, b'HY000', b'You must reset your password using ALTER USER before executing this statement')
REUSED = error(3638, b'HY000', b'The password contradicts the password history policy')
KEEPER_FAULT = error(50008, b'HY000', b'The account store failed')
NO_SALT = b'.' * 20


def no_statement(place):
    return error(1064, b'42000', SYNTAX + str(place).encode())


def opened_as(reply):
    return responded(b'', CACHING) + [
        ('looked empty 7', 2, b'', check(7, EMPTY)),
        ('checked', 2, b'', settle(7, EMPTY, True)),
        (reply, 2, OK, 'read 0'),
    ]


def query(text):
    return packet(0, b'\x03' + text)


def told(text, sent):
    """The session itself answers."""
    return [(query(text), 1, sent, 'read 0')]


def ended(reply, sent):
    return [(f'ran {reply}', 1, sent, 'read 0')]


def executed(kind, password=b'', salt=NO_SALT):
    """What is asked about a statement of the account 3: with the salt and the new password, if it has one."""
    return ' '.join(word for word in (salt.hex(), '3', kind, password.hex()) if word)


def prepared(who, statement, text, salt=None):
    """A statement up to its execution: the account is looked at, a salt is drawn where BY stands, and it is prepared."""
    steps = [(query(text), 1, b'', f'observe {who}')]
    if salt is None:
        return steps + [('looked empty 9', 1, b'', f'prepare 9 {statement}'), ('prepared', 1, b'', f'commit 9 {statement}')]
    return steps + [
        ('looked empty 9', 1, b'', 'draw'),
        (f'drawn {salt.decode()}', 1, b'', f'prepare 9 {statement}'),
        ('prepared', 1, b'', f'commit 9 {statement}'),
    ]


OWN, NAT, ANN = 'own 3', 'at localhost 6e6174', 'at any 616e6e'
NEW = executed('alter', b'new', FRESH)
TO_NEW = b"ALTER USER USER() IDENTIFIED BY 'new'"


def once_stale(who, statement):
    """The account is looked at again, and the salt stays."""
    return [
        ('stale', 1, b'', f'renew {who}'),
        ('looked empty 10', 1, b'', f'prepare 10 {statement}'),
        ('prepared', 1, b'', f'commit 10 {statement}'),
    ]


def twice_stale(who, statement):
    return once_stale(who, statement) + [('stale', 1, b'', f'commit locked {statement}')]


STATEMENTS = [
    # No statement at all, and commands that aren't known.
    opened_as('opened') + told(b'', no_statement(0)) + told(b'ALTER USER', no_statement(10))
    + told(b"CREATE USER 'a'@'h'", no_statement(16))
    + told(b"ALTER USER USER() IDENTIFIED WITH caching_sha2_password BY 'new'", no_statement(29)) + [(packet(0, b'\x02'), 1, UNKNOWN, 'read 0')],
    # What has nothing to prepare is executed at once.
    opened_as('opened')
    + [(query(b'FLUSH PRIVILEGES'), 1, b'', 'commit plain 3 flush')] + ended('done', OK)
    + [(query(b"DROP USER 'ann'"), 1, b'', 'commit plain 3 drop')] + ended('fault', KEEPER_FAULT)
    + [(query(b"GRANT CREATE USER ON *.* TO 'ann'"), 1, b'', 'commit plain 3 grant')] + ended('done', OK)
    + [(query(b"REVOKE CREATE USER ON *.* FROM 'ann'"), 1, b'', 'commit plain 3 revoke')] + ended('done', OK)
    + [(packet(0, b'\x0e'), 1, OK, 'read 0')],
    # A salt is drawn where BY stands, before an empty password too, and nowhere else.
    opened_as('opened')
    + prepared(OWN, NEW, TO_NEW, FRESH) + ended('done', OK)
    + prepared(ANN, executed('create', b'', FRESH), b"CREATE USER 'ann' IDENTIFIED BY ''", FRESH) + ended('reused', REUSED)
    + prepared(ANN, executed('create'), b"CREATE USER 'ann'") + ended('done', OK)
    + prepared(NAT, executed('alter'), b"ALTER USER 'nat'@'localhost' DISCARD OLD PASSWORD") + ended('done', OK)
    + prepared(NAT, executed('alter'), b"ALTER USER 'nat'@'localhost' IDENTIFIED WITH mysql_native_password") + ended('done', OK),
    # After a stale answer nothing is asked of the client, and no salt is drawn again.
    opened_as('opened') + prepared(OWN, NEW, TO_NEW, FRESH) + once_stale(OWN, NEW) + ended('done', OK)
    + prepared(OWN, NEW, TO_NEW, FRESH) + twice_stale(OWN, NEW) + ended('fault', KEEPER_FAULT)
    + prepared(ANN, executed('create'), b"CREATE USER 'ann'") + twice_stale(ANN, executed('create')) + ended('done', OK),
    # A sandbox lets a new password of its own account through, and ends with it.
    opened_as('sandbox')
    + [(packet(0, b'\x0e'), 1, OK, 'read 0'), (packet(0, b'\x1f'), 1, OK, 'read 0')]
    + told(b'FLUSH PRIVILEGES', SANDBOXED) + told(b'nonsense', no_statement(0))
    + told(b'ALTER USER USER() DISCARD OLD PASSWORD', SANDBOXED)
    + told(b"ALTER USER 'nat'@'localhost' IDENTIFIED WITH caching_sha2_password", SANDBOXED)
    + told(b"ALTER USER 'nat'@'%' IDENTIFIED BY 'new'", SANDBOXED)
    + told(b"ALTER USER 'ann'@'localhost' IDENTIFIED BY 'new'", SANDBOXED)
    + told(b"CREATE USER 'nat'@'localhost' IDENTIFIED BY 'new'", SANDBOXED)
    + prepared(NAT, NEW, b"ALTER USER 'nat'@'localhost' IDENTIFIED BY 'new'", FRESH) + ended('reused', REUSED)
    + told(b'FLUSH PRIVILEGES', SANDBOXED)
    + prepared(OWN, NEW, TO_NEW, FRESH) + ended('fault', KEEPER_FAULT)
    + told(b'FLUSH PRIVILEGES', SANDBOXED)
    + prepared(NAT, NEW, b"ALTER USER 'nat'@'localhost' IDENTIFIED WITH caching_sha2_password BY 'new'", FRESH) + ended('done', OK)
    + [(query(b'FLUSH PRIVILEGES'), 1, b'', 'commit plain 3 flush')] + ended('done', OK),
    # Of the own password that expires it anew too.
    opened_as('sandbox')
    + prepared(NAT, NEW, b"ALTER USER 'nat'@'localhost' IDENTIFIED BY 'new' PASSWORD EXPIRE", FRESH) + ended('done', OK)
    + [(query(b'FLUSH PRIVILEGES'), 1, b'', 'commit plain 3 flush')] + ended('done', OK),
    opened_as('sandbox') + [(packet(0, b'\x01'), 1, b'', 'quit')],
]


def commands():
    """Of a session's commands 1,048,575 are done, and the next one ends it, whatever it is."""
    yield from responded(b'', CACHING) + [
        ('looked empty 7', 2, b'', check(7, EMPTY)),
        ('checked', 2, b'', settle(7, EMPTY, True)),
        ('opened', 2, OK, 'read 0'),
    ]
    yield ('commands 1048575', 'ok 524288 errors 524287')
    yield (packet(0, b'\x0e'), 1, b'', 'session long')


# ## Which inputs answer: a first nonce, a packet, a fault of framing, the peer's end, a fault of the link, a nonce of the
# alphabet and another, looks at nobody, at an account with two labels and with three, what was checked, what was stale,
# a reply; a statement that was stale, a reply to a statement

START = 'y--------------'
READ = '-yyyy----------'
DRAW = '-----y---------'
LOOK = '-------yy------'
CHECK = '----------y----'
SETTLE = '-----------yy--'
REPLY = '------------y--'
PREPARE = '---------------'
COMMIT = '-------------yy'
RUN = '--------------y'
ENDED = '---------------'
ANYTHING = 'yyyyyyyyyyyyyyy'


def answering():
    """Which inputs answer each ask."""
    rows = zip(responded(ANSWER, NATIVE), (READ, LOOK))
    rows = list(rows) + [
        (SWITCH[0], DRAW),
        (SWITCH[1], READ),
        ((packet(3, b'another answer'), 4, FULL, 'read 5'), READ),
        ((packet(5, b'one'), 6, b'', check(7, PASSWORD)), CHECK),
        (('checked', 6, b'', settle(7, PASSWORD, True)), SETTLE),
        (('stale', 6, b'', 'renew 6e6174'), LOOK),
        (('looked known 8', 6, b'', check(8, PASSWORD)), CHECK),
        (('checked', 6, b'', settle(8, PASSWORD, True)), SETTLE),
        (('stale', 6, b'', f'settle locked {FLAGS} 6e6174 {PASSWORD}'), REPLY),
        (('opened', 6, OK, 'read 0'), READ),
    ]
    statement = prepared(OWN, NEW, TO_NEW, FRESH) + twice_stale(OWN, NEW) + ended('done', OK)
    rows += zip(statement, (LOOK, DRAW, PREPARE, COMMIT, LOOK, PREPARE, COMMIT, RUN, READ))
    rows += [
        ((query(b'FLUSH PRIVILEGES'), 1, b'', 'commit plain 3 flush'), RUN),
        (('ran done', 1, OK, 'read 0'), READ),
        ((packet(0, b'\x01'), 1, b'', 'quit'), ENDED),
    ]
    for step, marks in rows:
        yield step
        yield ('answers', marks)


def nonces():
    """A nonce answers where each of its bytes is of the alphabet of salts."""
    yield from responded(ANSWER, NATIVE) + SWITCH[:1]
    yield ('nonces', bytes(sorted(ALPHABET)).hex())


def without_memory():
    """A session for which there was no memory takes anything, and fails again."""
    yield BEGUN
    yield ('memory', 'memory')
    yield ('answers', ANYTHING)


def steps():
    for group in (BY_A_DIGEST, STALE, IN_THE_CLEAR, CHANGED, REFUSALS, STATEMENTS):
        for case in group:
            yield from case
    yield from commands()
    yield ('answers', ENDED)
    yield from answering()
    yield from nonces()
    yield from without_memory()


def printed(step):
    if len(step) == 2:
        return step[1]
    given, first, sent, asked = step
    return ' '.join(word for word in (str(first), sent.hex(), asked) if word)


if __name__ == '__main__':
    wanted = sys.argv[1:] == ['stdout']
    for step in steps():
        print(printed(step) if wanted else step[0])
