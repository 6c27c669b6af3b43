#!/usr/bin/env python3
"""Prints what machine_probe is asked (`machine.py stdin`) and what it has to answer (`machine.py stdout`): tables of
refused statements, dual passwords and the digests that are known, reuse, a full history, a keeper that fails, locks,
restarts, bad rows and expiry, and some hundred random statements and attempts.

The answers come from histories.py, which restates the rules. In the tables they stand beside the lines too, written by
hand, and are compared before anything is printed.
"""

import copy
import random
import sys

from histories import HANDLES_EXPIRED, Account, Entry, History, Statement, Stored, fast_answer, native_answer, root

SETTINGS = {'lifetime': 0, 'disconnect': True, 'history': 0, 'reuse': 0}


class Probe:
    """The lines and their answers. By `kinds`, statements and attempts are done at once, or prepared and checked first."""

    def __init__(self):
        self.lines, self.answers, self.kinds = [], [], ('statement', 'login')

    def say(self, line, answer, expected=None):
        assert expected is None or answer == expected, (line, answer, expected)
        assert b'\n' not in line
        self.lines.append(line)
        self.answers.append(answer)

    def start(self, settings=SETTINGS, accounts=()):
        """Accounts that are loaded from the rows of a keeper, or the root account alone."""
        self.rows = {a.id: a.record() for a in accounts}
        self.fails = False
        rows = ''.join(f' {key} {row.hex()}' for key, row in sorted(self.rows.items()))
        self.load(settings, accounts)
        words = ' '.join(str(int(settings[name])) for name in ('lifetime', 'disconnect', 'history', 'reuse'))
        self.say(f'start {words}{rows}'.encode(), 'ready')

    def load(self, settings, accounts):
        accounts = copy.deepcopy(sorted(accounts, key=lambda a: a.id)) or [root()]
        number = 0
        for account in accounts:
            number += 1
            account.primary_id = number
            if account.secondary:
                number += 1
                account.secondary = (account.secondary[0], number)
        self.history = History(accounts, settings)

    def restart(self):
        """The keeper's rows are loaded again. It has one of each account that a statement made or changed."""
        kept = [a for a in self.history.accounts if a.id in self.rows]
        assert {a.id: a.record() for a in kept} == self.rows
        self.load(self.history.settings, kept)
        self.say(b'restart', 'ready')

    def fail(self):
        self.fails = True
        self.say(b'fail', 'planned')

    def statement(self, statement, actor=1, reading=0, expected=None):
        history = self.history
        now = max(history.moment, reading)
        refusal = history.refusal(statement, actor, now)
        before, reply, made = history.accounts, 'done', None
        if refusal is not None:
            reply = f'refused {refusal}'
        elif statement.kind != 'flush' and self.fails:
            reply, self.fails = 'refused 50008', False
        else:
            history.accounts, made, target = history.effect(statement, actor, now)
            if statement.kind == 'drop':
                self.rows.pop(target.id, None)
            elif statement.kind != 'flush':
                self.rows[target.id] = target.record()
        entry = Entry('statement', before, now, reply, statement=statement, actor=actor, made=made)
        history.entries.append(entry)
        history.moment = now
        words = f'{self.kinds[0]} {actor} {reading} '
        self.say(words.encode() + statement.text(), reply, expected)

    def login(self, user, *evidences, flags=0, reading=0, expected=None):
        def word(given):
            if given[0] == 'external':
                return f'external,{given[1].hex()},{"yes" if given[2] else "no"}'
            return given[0] if given[0] == 'empty' else f'{given[0]},{given[1].hex()}'

        reply = self.history.attempt(user, evidences, flags, reading)
        line = f'{self.kinds[1]} {user.hex() or "-"} {flags} {reading} ' + ' '.join(map(word, evidences))
        self.say(line.encode(), reply, expected)

    def look(self, *who, expected=None):
        history = self.history
        if who[0] == 'login':
            user, line = who[1], f'login {who[1].hex() or "-"}'
            account = history.in_force(history.accounts, user)
        elif who[0] == 'name':
            user, line = who[1], f'name {who[1].hex() or "-"} {who[2]}'
            account = next((a for a in history.accounts if (a.user, a.host) == who[1:]), None)
        else:
            account, line = next((a for a in history.accounts if a.id == who[1]), None), f'own {who[1]}'
            user = account.user if account else b''
        out = f'{user.hex() or "-"} {history.stamp(user)}'
        if account is None:
            out += ' none'
        else:
            out += f' {account.id} {account.user.hex()} {account.host} {account.method}'
            for stored, number in account.credentials():
                known = history.known(number)
                out += f' {number} {stored.text().hex()} {known.hex() if known else "-"}'
            out += ''.join(f' label {label.hex()}' for label in account.labels)
            if who[0] != 'login':
                out += ''.join(f' past {moment} {kept.text().hex()}' for moment, kept in account.past)
        self.say(f'look {line}'.encode(), out, expected)

    def tell(self):
        """The keeper's rows, which are the records of the accounts that statements made or changed."""
        told = ' '.join(f'{key} {row.hex()}' for key, row in sorted(self.rows.items()))
        self.say(b'rows', told or 'none')


# ## Tables

A, B, ROOT = (b'a', '%'), (b'b', '%'), (b'root', 'localhost')
ANN = (b'ann', 'localhost')


def create(name, password=None, word=None, **more):
    change = 'password' if password is not None or word is not None else None
    return Statement('create', name, change, word=word, password=password, **more)


def alter(name, password=None, word=None, **more):
    change = more.pop('change', 'password' if password is not None or word is not None else None)
    return Statement('alter', name, change, word=word, password=password, **more)


def refused(probe):
    probe.start()
    probe.statement(create(A, b'p'), expected='done')
    for statement, answer in [
        (create(A), 'refused 1396'),
        (alter(B, options=[('locked', True)]), 'refused 1396'),
        (Statement('drop', B), 'refused 1396'),
        (Statement('grant', B, privileges=['create_user']), 'refused 1410'),
        (Statement('revoke', B, privileges=['create_user']), 'refused 1396'),
        (create((b'', 'localhost')), 'refused 50007'),
        (create((b'x' * 33, '%')), 'refused 50007'),
        (create((b'x' * 32, '%')), 'done'),
        (alter(A, b'q', b'foo'), 'refused 1524'),
        (alter(A, change='drop', factor=(2,)), 'refused 50006'),
        (alter(A, change='add', factor=(3, b'external_clear', b'pin')), 'refused 50006'),
        (alter(A, change='add', factor=(2, b'external_clear', b'')), 'refused 50009'),
        (alter(A, change='add', factor=(2, b'other', b'pin')), 'refused 1524'),
        (alter(A, b'q', b'mysql_native_password', retain=True), 'refused 50002'),
        (alter(ROOT, b'q', retain=True), 'refused 50001'),
        (alter(A, b'x' * 257), 'refused 50003'),
        (alter(A, b'x' * 256), 'done'),
        (alter(A, b'x\x00'), 'refused 50003'),
        (alter(A, options=[('history', 257)]), 'refused 50004'),
        (alter(A, options=[('expire', 0)]), 'refused 50004'),
        (alter(A, options=[('attempts', 99999), ('attempts', 2)]), 'done'),
        (alter(A, options=[('attempts', 2), ('attempts', 99999)]), 'refused 50004'),
        (alter(ROOT, b'r', b'CACHING_sha2_PASSWORD'), 'done'),
    ]:
        probe.statement(statement, expected=answer)
    probe.statement(Statement('flush'), actor=2, expected='refused 1227')
    probe.statement(alter(A, b'own'), actor=2, expected='done')
    probe.statement(alter(None, b'more', retain=True), actor=2, expected='refused 1227')
    probe.statement(Statement('grant', A, privileges=['password_admin']), expected='done')
    probe.statement(alter(None, b'more', retain=True), actor=2, expected='done')
    probe.statement(alter(None, change='discard'), actor=2, expected='done')
    probe.statement(alter(A, b'more', options=[('locked', False)]), actor=2, expected='refused 1227')
    probe.statement(Statement('flush'), actor=9, expected='refused 1227')
    probe.look('name', *A)
    probe.tell()


def dual(probe):
    full, fast = ('full', b'one'), ('fast', fast_answer(b'one'))
    probe.start()
    probe.statement(create(ANN, b'one'), expected='done')
    probe.login(b'ann', fast, expected='denied yes')
    probe.login(b'ann', full, expected='opened 2 localhost')
    probe.login(b'ann', fast, expected='opened 2 localhost')
    probe.look('login', b'ann')
    probe.statement(alter(ANN, b'two', retain=True), expected='done')
    probe.login(b'ann', fast, expected='denied yes')
    probe.login(b'ann', full, expected='opened 2 localhost')
    probe.login(b'ann', ('full', b'two'), expected='opened 2 localhost')
    probe.login(b'ann', fast, expected='opened 2 localhost')
    probe.look('login', b'ann')
    # A change without RETAIN keeps the secondary.
    probe.statement(alter(ANN, b'three'), expected='done')
    probe.login(b'ann', ('full', b'two'), expected='denied yes')
    probe.login(b'ann', full, expected='opened 2 localhost')
    probe.statement(alter(ANN, change='discard'), expected='done')
    probe.login(b'ann', full, expected='denied yes')
    probe.login(b'ann', ('full', b'three'), expected='opened 2 localhost')
    # Options and privileges leave what is known.
    probe.statement(alter(ANN, options=[('locked', True)]), expected='done')
    probe.statement(Statement('grant', ANN, privileges=['create_user']), expected='done')
    probe.look('login', b'ann')
    # A verified login that is refused by the lock of the account shows nothing.
    probe.statement(Statement('flush'), expected='done')
    probe.login(b'ann', ('full', b'three'), expected='locked')
    probe.look('login', b'ann')
    probe.statement(alter(ANN, options=[('locked', False), ('expire', 'now')]), expected='done')
    probe.login(b'ann', ('full', b'three'), expected='mustchange')
    probe.look('login', b'ann')
    probe.login(b'ann', ('full', b'three'), flags=HANDLES_EXPIRED, expected='sandbox 2 localhost')
    probe.look('login', b'ann')
    # A CREATE USER anew has other numbers.
    probe.statement(Statement('drop', ANN), expected='done')
    probe.statement(create(ANN, b'three'), expected='done')
    probe.login(b'ann', ('fast', fast_answer(b'three')), expected='denied yes')
    probe.look('own', 3)
    probe.tell()


def reuse(probe):
    probe.start()
    limits = [('history', 2), ('reuse', 1)]
    probe.statement(create(ANN, b'one', options=limits), expected='done')
    probe.statement(alter(ANN, b'two'), reading=10, expected='done')
    probe.statement(alter(ANN, b'three'), reading=20, expected='done')
    probe.statement(alter(ANN, b'one'), reading=86399, expected='refused 3638')
    probe.statement(alter(ANN, b'one'), reading=86400, expected='done')
    probe.statement(alter(ANN, b'three'), reading=86400, expected='refused 3638')
    probe.statement(alter(ANN, b'three', options=[('history', 0), ('reuse', 0)]), reading=86400, expected='done')
    probe.look('name', *ANN)


def history_full(probe):
    name = (b'h', '%')
    probe.start()
    probe.statement(create(name, b'w0', b'mysql_native_password', options=[('reuse', 1)]), expected='done')
    for number in range(1, 256):
        probe.statement(alter(name, f'w{number}'.encode()), expected='done')
    probe.statement(alter(name, b'w256'), reading=86399, expected='refused 50005')
    probe.statement(alter(name, b'w256'), reading=86400, expected='done')
    probe.statement(alter(name, b'w0'), reading=86400, expected='done')
    probe.statement(alter(name, b'w2'), reading=86400, expected='done')


def keeper(probe):
    probe.start()
    probe.fail()
    probe.statement(create((b'', '%')), expected='refused 50007')
    probe.statement(Statement('flush'), expected='done')
    probe.statement(create(B, b'q'), expected='refused 50008')
    probe.look('name', *B)
    probe.statement(create(B, b'q'), expected='done')
    probe.login(b'b', ('full', b'q'), expected='opened 2 %')
    probe.fail()
    probe.statement(alter(B, b'r'), expected='refused 50008')
    probe.look('name', *B)
    probe.fail()
    probe.statement(Statement('drop', B), expected='refused 50008')
    probe.statement(Statement('drop', B), expected='done')
    probe.tell()


def lock(probe):
    probe.start()
    probe.statement(create(ANN, b'one', options=[('attempts', 3), ('lock_days', 1)]), expected='done')
    bad, good = ('full', b'bad'), ('full', b'one')
    for expected in ('denied yes', 'denied yes', 'blocked 3 1 1'):
        probe.login(b'ann', bad, reading=1000, expected=expected)
    probe.login(b'ann', good, reading=1000, expected='blocked 3 1 1')
    probe.login(b'ann', good, reading=87399, expected='blocked 3 1 1')
    probe.login(b'ann', good, reading=87400, expected='opened 2 localhost')
    for expected in ('denied yes', 'denied yes', 'blocked 3 1 1'):
        probe.login(b'ann', bad, reading=90000, expected=expected)
    probe.statement(alter(ANN, options=[('locked', False)]), reading=90000, expected='done')
    probe.login(b'ann', good, reading=90000, expected='opened 2 localhost')


def restarts(probe):
    made = Account(5, b'old', '%', 'native')
    made.primary, made.secondary, made.changed = Stored('native', b'now'), (Stored('native', b'then'), 0), 1000
    made.past = [(1000, made.primary), (500, made.secondary[0])]
    made.labels = [b'pin']
    admin = root()
    admin.id = 3
    probe.start(accounts=[made, admin])
    pin = ('external', b'pin', True)
    probe.login(b'old', ('native', native_answer(b'then')), pin, expected='opened 5 %')
    probe.login(b'old', ('native', native_answer(b'now')), pin, expected='opened 5 %')
    probe.login(b'old', ('native', native_answer(b'now')), ('external', b'pin', False), expected='denied yes')
    probe.login(b'old', ('native', native_answer(b'now')), expected='denied yes')
    probe.look('own', 5)
    probe.statement(create(ANN, b'one'), actor=3, expected='done')
    probe.login(b'ann', ('full', b'one'), expected='opened 6 localhost')
    probe.statement(alter((b'old', '%'), b'new', retain=True), actor=3, expected='done')
    probe.statement(create(B, b'one'), actor=3, expected='done')
    probe.statement(Statement('drop', B), actor=3, expected='done')
    probe.tell()
    probe.restart()
    for number in (3, 5, 6, 7):
        probe.look('own', number)
    probe.login(b'ann', ('fast', fast_answer(b'one')), expected='denied yes')
    probe.statement(create(B, b'two'), actor=3, expected='done')
    probe.look('name', *B)


def bad_rows(probe):
    """Rows of which one is no record or has an account of an earlier name."""
    made, again, other = (Account(3, user, '%', 'native') for user in (b'one', b'one', b'two'))
    short = made.record()[:-1]
    for rows, key in [
        ([(3, made.record()), (5, short), (7, b'')], 5),
        ([(3, made.record()), (7, again.record()), (9, short)], 7),
        ([(3, made.record()), (7, other.record()), (9, again.record() + b'\x00')], 9),
        ([(0, made.record())], 0),
        ([(2 ** 62 + 1, made.record())], 2 ** 62 + 1),
    ]:
        words = ''.join(f' {number} {row.hex() or "00"}' for number, row in rows)
        probe.say(f'start 0 1 0 0{words}'.encode(), f'bad row {key}')


def expiry(probe):
    """Passwords that last one day, and a clock that goes back."""
    settings = dict(SETTINGS, lifetime=1)
    probe.start(settings)
    for reading, flags, answer in [
        (86399, 0, 'opened 1 localhost'),
        (86400, 0, 'mustchange'),
        (86400, HANDLES_EXPIRED, 'sandbox 1 localhost'),
        (5, 0, 'mustchange'),
    ]:
        probe.login(b'root', ('empty',), flags=flags, reading=reading, expected=answer)
    probe.login(b'zz', ('empty',), expected='denied no')
    probe.login(b'zz', ('native', native_answer(b'bad')), expected='denied yes')
    probe.start(dict(settings, disconnect=False))
    probe.login(b'root', ('empty',), reading=86400, expected='sandbox 1 localhost')
    probe.statement(alter(ROOT, options=[('expire', 2)]), reading=86400, expected='done')
    probe.login(b'root', ('empty',), reading=172799, expected='opened 1 localhost')
    probe.login(b'root', ('empty',), reading=172800, expected='sandbox 1 localhost')
    probe.statement(alter(ROOT, options=[('expire', 'never')]), expected='done')
    probe.login(b'root', ('empty',), expected='opened 1 localhost')
    probe.statement(alter(None, b'set'), expected='done')
    probe.statement(alter(ROOT, word=b'mysql_native_password'), expected='done')
    probe.look('own', 1)
    probe.login(b'root', ('empty',), expected='sandbox 1 localhost')


# ## At random


def at_random(probe, seed, count):
    chance = random.Random(seed)
    names = [(user, host) for user in (b'a', b'b') for host in ('localhost', '%')]
    words = [None, None, b'mysql_native_password', b'caching_sha2_password']
    passwords = [b'', b'p', b'q', b'r']
    lifetime, disconnect = chance.choice([0, 3]), chance.choice([True, False])
    probe.start({'lifetime': lifetime, 'disconnect': disconnect, 'history': 1, 'reuse': 0})
    reading = 0

    def options():
        some = [
            ('expire', chance.choice(['now', 'default', 'never', 2])),
            ('history', chance.choice(['default', 0, 1])),
            ('reuse', chance.choice(['default', 0, 1])),
            ('attempts', chance.choice([0, 1, 2])),
            ('lock_days', chance.choice([0, 1, 2, 'unbounded'])),
            ('locked', chance.choice([True, False, False])),
        ]
        return [option for option in some if chance.random() < 0.15]

    def statement():
        name = chance.choice(names)
        kind = chance.choice(['create', 'create', 'alter', 'alter', 'alter', 'drop', 'flush', 'grant', 'revoke'])
        factor = (chance.choice([2, 3]), b'external_clear', chance.choice([b'pin', b'key']))
        if kind == 'create':
            set_one = chance.random() < 0.9
            factors = [factor[1:]] if set_one and chance.random() < 0.2 else []
            word = chance.choice(words)
            password = chance.choice(passwords) if word is None else chance.choice(passwords + [None])
            if not set_one:
                return create(name, options=options())
            return create(name, password, word, factors=factors, options=options())
        if kind == 'alter':
            target = chance.choice([name, name, None])
            change = chance.choice(['password', 'password', 'password', 'discard', 'add', 'modify', 'drop', None])
            own = target is None
            if change == 'password' or own and change != 'discard':
                word = None if own else chance.choice(words)
                password = chance.choice(passwords) if own or word is None or chance.random() < 0.8 else None
                retain = password is not None and chance.random() < 0.4
                return alter(target, password, word, change='password', retain=retain, options=[] if own else options())
            some = [] if own else options()
            if change is None and not some:
                some = [('locked', False)]
            place = factor if change in ('add', 'modify', 'drop') else None
            return alter(target, change=change, factor=place, options=some)
        if kind in ('grant', 'revoke'):
            privileges = chance.sample(['create_user', 'password_admin'], chance.choice([1, 2]))
            return Statement(kind, name, privileges=privileges)
        return Statement(kind, None if kind == 'flush' else name)

    def evidence():
        password = chance.choice(passwords[1:])
        answers = [('fast', fast_answer(password)), ('native', native_answer(password)), ('empty',)]
        first = chance.choice([('full', password), ('full', password)] + answers)
        further = ('external', chance.choice([b'pin', b'key']), chance.random() < 0.8)
        return [first, further] if chance.random() < 0.3 else [first]

    def fitting(account):
        """Evidence that fits an account's passwords."""
        stored, _ = chance.choice(account.credentials())
        first = {None: ('empty',), 'native': ('native', native_answer(stored.password))}.get(stored.method)
        first = first or chance.choice([('full', stored.password), ('fast', fast_answer(stored.password))])
        return [first] + [('external', label, True) for label in account.labels]

    for _ in range(count):
        reading = max(0, reading + chance.choice([0, 0, 0, 1000, 50000, -1000]))
        act = chance.random()
        if act < 0.45:
            actor = 1 if chance.random() < 0.8 else chance.choice(probe.history.accounts).id
            probe.statement(statement(), actor, reading)
        elif act < 0.85:
            user = chance.choice([b'a', b'b'])
            account = probe.history.in_force(probe.history.accounts, user)
            given = fitting(account) if account and chance.random() < 0.7 else evidence()
            probe.login(user, *given, flags=chance.choice([0, HANDLES_EXPIRED]), reading=reading)
        elif act < 0.97:
            user = chance.choice([b'a', b'b', b'root'])
            number = chance.randint(1, 12)
            probe.look(*chance.choice([('login', user), ('name', *chance.choice(names)), ('own', number)]))
        elif act < 0.98:
            probe.fail()
        else:
            probe.tell()
    probe.tell()


def main():
    probe = Probe()
    for table in (refused, dual, reuse, history_full, keeper, lock, restarts, bad_rows, expiry):
        table(probe)
    for seed in range(6):
        probe.kinds = ('statement', 'login') if seed < 4 else ('prepared', 'settle')
        at_random(probe, seed, 120)
    out = probe.lines if sys.argv[1] == 'stdin' else [answer.encode() for answer in probe.answers]
    sys.stdout.buffer.write(b''.join(line + b'\n' for line in out))


main()
