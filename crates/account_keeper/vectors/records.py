#!/usr/bin/env python3
"""Prints what record_probe is asked (`records.py stdin`) and what it has to answer (`records.py stdout`): the root
account's record, a record with every field and each cut of it, each field at both ends of its range and outside
it, and the longest pasts. Then come the calls of a keeper in memory, whose first, second, fourth and sixth call fail, and
of a second one, none of whose calls does.

Whether bytes are a record stands in the table, written by hand. What an account's record says is read by a
restatement of the layout that shares nothing with the crate.
"""

import sys

ROOT = bytes.fromhex('0104726f6f740001000000000000000000000000000000000000000000030000')
NATIVE = b'\x01*2470C0C06DEE42FD1618BB99005ADCA2EC9D1E19'
SHA2 = b'\x02$A$005$abcdefghij./89ABCXYZ9GIw6meBOQ1frJy52VltqMrrPrtoVnwO1h7XZjEZhBB'
SAME, BAD = True, False


def eight(moment):
    return moment.to_bytes(8, 'little')


# The bytes of the root account's record from the first place to the second are replaced by those that follow.
CHANGES = [
    # Version, user, host, method.
    (0, 1, b'\x00', BAD),
    (0, 1, b'\x02', BAD),
    (1, 6, b'\x00', BAD),
    (1, 6, b'\x01x', SAME),
    (1, 6, b'\x20' + b'\xff' * 32, SAME),
    (1, 6, b'\x21' + b'\xff' * 33, BAD),
    (1, 6, b'\x02a\x00', BAD),
    (6, 7, b'\x01', SAME),
    (6, 7, b'\x02', BAD),
    (7, 8, b'\x00', SAME),
    (7, 8, b'\x02', BAD),
    # Passwords. A secondary of the account's method, of the other one, an empty one, and one beside an empty
    # primary.
    (7, 9, b'\x00' + NATIVE, SAME),
    (7, 9, b'\x01' + NATIVE, BAD),
    (7, 9, b'\x01' + SHA2, SAME),
    (7, 9, b'\x00' + SHA2, BAD),
    (8, 9, b'\x03', BAD),
    (8, 9, b'\x01*' + b'a' * 40, BAD),
    (7, 10, b'\x01' + SHA2 + b'\x01' + SHA2, SAME),
    (7, 10, b'\x01' + SHA2 + b'\x01' + NATIVE, BAD),
    (7, 10, b'\x01' + SHA2 + b'\x01\x00', BAD),
    (7, 10, b'\x01' + SHA2 + b'\x02', BAD),
    (7, 10, b'\x01\x00\x01' + SHA2, BAD),
    # Labels.
    (10, 11, b'\x01\x01\x00', SAME),
    (10, 11, b'\x01\x00', BAD),
    (10, 11, b'\x01\x40' + b'x' * 64, SAME),
    (10, 11, b'\x01\x41' + b'x' * 65, BAD),
    (10, 11, b'\x02\x01\x00\x01\x00', SAME),
    (10, 11, b'\x03\x01\x00\x01\x00\x01\x00', BAD),
    # The moment of the last change, expiry, lifetime, history, reuse.
    (11, 19, b'\xff' * 8, SAME),
    (19, 20, b'\x01', SAME),
    (19, 20, b'\x02', BAD),
    (20, 21, b'\x01', SAME),
    (20, 21, b'\x02\x00\x00', BAD),
    (20, 21, b'\x02\x01\x00', SAME),
    (20, 21, b'\x02\xff\xff', SAME),
    (20, 21, b'\x03', BAD),
    (21, 22, b'\x01\x00\x00', SAME),
    (21, 22, b'\x01\x00\x01', SAME),
    (21, 22, b'\x01\x01\x01', BAD),
    (21, 22, b'\x02', BAD),
    (22, 23, b'\x01\x00\x00', SAME),
    (22, 23, b'\x01\xff\xff', SAME),
    (22, 23, b'\x02\x00\x00', BAD),
    # Attempts, lock time, lock, privileges.
    (23, 25, b'\xff\x7f', SAME),
    (23, 25, b'\x00\x80', BAD),
    (25, 28, b'\x00\xff\x7f', SAME),
    (25, 28, b'\x00\x00\x80', BAD),
    (25, 28, b'\x01', SAME),
    (25, 28, b'\x02', BAD),
    (28, 29, b'\x01', SAME),
    (28, 29, b'\x02', BAD),
    (29, 30, b'\x00', SAME),
    (29, 30, b'\x01', SAME),
    (29, 30, b'\x02', SAME),
    (29, 30, b'\x04', BAD),
    (29, 30, b'\x83', BAD),
    # Past passwords, whose moments don't rise, and a byte behind the last field.
    (30, 32, b'\x01\x00' + eight(1) + NATIVE, SAME),
    (30, 32, b'\x01\x00' + eight(1) + b'\x00', BAD),
    (30, 32, b'\x02\x00' + eight(256) + NATIVE + eight(1) + SHA2, SAME),
    (30, 32, b'\x02\x00' + eight(1) + NATIVE + eight(1) + SHA2, SAME),
    (30, 32, b'\x02\x00' + eight(1) + NATIVE + eight(256) + SHA2, BAD),
    (32, 32, b'\x00', BAD),
]


def every_field(past):
    """A record with a secondary, two labels and these past passwords, each with its moment."""
    front = ROOT[:7] + b'\x01' + SHA2 + b'\x01' + SHA2 + b'\x02\x01a\x02bb' + ROOT[11:30]
    return front + len(past).to_bytes(2, 'little') + b''.join(eight(moment) + stored for moment, stored in past)


FULL = every_field([(9, NATIVE), (9, NATIVE)])


def cases():
    """Each key and its bytes, and whether they are a record."""
    for key, outcome in [(1, SAME), (7, SAME), (1 << 62, SAME), (0, BAD), ((1 << 62) + 1, BAD)]:
        yield key, ROOT, outcome
    for end in range(len(ROOT)):
        yield 1, ROOT[:end], BAD
    for start, end, new, outcome in CHANGES:
        yield 1, ROOT[:start] + new + ROOT[end:], outcome
    yield 5, FULL, SAME
    yield 1, FULL + b'\x00', BAD
    for end in range(len(FULL)):
        yield 1, FULL[:end], BAD
    yield 1, every_field([(9, NATIVE)] * 256), SAME
    yield 1, every_field([(256 - i, SHA2) for i in range(256)]), SAME
    yield 1, every_field([(9, NATIVE)] * 257), BAD


class Reader:
    def __init__(self, text):
        self.text = text

    def take(self, length):
        taken, self.text = self.text[:length], self.text[length:]
        return taken

    def number(self, length):
        return int.from_bytes(self.take(length), 'little')

    def stored(self):
        kind = self.number(1)
        if kind == 0:
            return 'empty '
        if kind == 1:
            return self.take(41)[1:].decode().lower() + ' '
        text = self.take(70)
        return '%d %s %s ' % (int(text[3:6], 16), text[7:27].hex(), text[27:].hex())

    def limit(self, name):
        return '%s default ' % name if self.number(1) == 0 else '%s %d ' % (name, self.number(2))


def account(key, record):
    """What is printed of the account whose record this is."""
    reader = Reader(record)
    reader.take(1)
    said = '%d %s ' % (key, reader.take(reader.number(1)).hex())
    said += ['localhost ', '% '][reader.number(1)] + ['native ', 'caching '][reader.number(1)]
    said += 'primary 0 ' + reader.stored()
    if reader.number(1) == 1:
        said += 'secondary 0 ' + reader.stored()
    for _ in range(reader.number(1)):
        said += 'label %s ' % reader.take(reader.number(1)).hex()
    said += 'changed %d ' % reader.number(8)
    expired = reader.number(1)
    lifetime = reader.number(1)
    said += ['lifetime default ', 'lifetime never ', 'lifetime %d '][lifetime] % ((reader.number(2),)
                                                                                  if lifetime == 2 else ())
    said += reader.limit('history') + reader.limit('reuse')
    said += 'attempts %d ' % reader.number(2)
    said += 'days %d ' % reader.number(2) if reader.number(1) == 0 else 'unbounded '
    locked = reader.number(1)
    privileges = reader.number(1)
    said += 'expired ' * expired + 'locked ' * locked
    said += 'create_user ' * (privileges & 1) + 'password_admin ' * (privileges >> 1)
    for _ in range(reader.number(2)):
        said += 'past %d ' % reader.number(8) + reader.stored()
    assert reader.text == b''
    return said


# Calls of a keeper, and what each prints: rows stand in the order of their keys, a row that is put takes the place of the
# one with its key, a row that isn't there may be removed, and a call that fails changes nothing.
CALLS = [
    ('attach', 'failed'), ('load', 'failed'), ('put 1 6f6e65', 'done'), ('put 2 74776f', 'failed'),
    ('remove 4', 'done'), ('remove 1', 'failed'), ('rows', '1=6f6e65 faults 4'), ('fail', 'done'),
    ('remove 1', 'failed'), ('rows', '1=6f6e65 faults 5'), ('remove 1', 'done'), ('rows', 'faults 5'),
    ('new', ''),
    ('attach', 'done'), ('load', 'loaded'), ('put 5 66697665', 'done'), ('put 2 74776f', 'done'),
    ('put 5 6669667468', 'done'), ('put 9 6e696e65', 'done'), ('remove 9', 'done'), ('remove 3', 'done'),
    ('load', '2=74776f 5=6669667468 loaded'), ('rows', '2=74776f 5=6669667468 faults 0'),
]


def main():
    wanted = sys.argv[1]
    for key, record, outcome in cases():
        if wanted == 'stdin':
            print(key, record.hex())
        else:
            print(account(key, record) + 'same' if outcome else 'bad')
    for call, said in CALLS:
        print('keeper ' + call if wanted == 'stdin' else said, end='\n' if wanted == 'stdin' or said else '')


main()
