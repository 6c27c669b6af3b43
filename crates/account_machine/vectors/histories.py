"""The rules of accounts restated on whole histories: what is known, the failures that count and the stamps are
searched for in the list of entries, and nothing is kept beside it but the accounts before each entry. It shares nothing
with the crates.

Stored values come from the formula in interop/sha_crypt.py, which follows the text of the method.
"""

import copy
import hashlib
import os
import sys

sys.path.insert(0, os.path.join(os.path.dirname(os.path.abspath(__file__)), '..', '..', '..', 'interop'))
from sha_crypt import formula  # noqa: E402

DAY = 86400
SALT = b'.' * 20
NONCE = b'00000000000000000001'
HANDLES_EXPIRED = 0x400000


def sha1(text):
    return hashlib.sha1(text).digest()


def sha256(text):
    return hashlib.sha256(text).digest()


def xor(one, other):
    return bytes(a ^ b for a, b in zip(one, other))


# ## Passwords and evidence


class Stored:
    """A password as it is stored: by no method where it is empty."""

    texts = {}

    def __init__(self, method, password):
        self.method = method if password else None
        self.password = password

    def fits(self, password):
        return len(password) <= 256 and self.password == password

    def text(self):
        if self.method is None:
            return b'\x00'
        if self.method == 'native':
            return b'\x01*' + sha1(sha1(self.password)).hex().upper().encode()
        if self.password not in Stored.texts:
            Stored.texts[self.password] = formula(self.password, SALT, 5000)
        return b'\x02$A$005$' + SALT + Stored.texts[self.password]


def native_answer(password):
    return xor(sha1(password), sha1(NONCE + sha1(sha1(password))))


def digest(password):
    return sha256(sha256(password))


def fast_answer(password):
    return xor(sha256(password), sha256(digest(password) + NONCE))


def evidence_fits(given, stored, known):
    """Whether a first piece fits a stored password of which a digest is known or not."""
    kind = given[0]
    if kind == 'native':
        return stored.method == 'native' and given[1] == native_answer(stored.password)
    if kind == 'fast':
        return known is not None and sha256(xor(given[1], sha256(known + NONCE))) == known
    if kind == 'full':
        return stored.method == 'caching' and stored.fits(given[1])
    return kind == 'empty' and stored.method is None


# ## Accounts


class Account:
    def __init__(self, number, user, host, method):
        self.id, self.user, self.host, self.method = number, user, host, method
        self.primary, self.primary_id, self.secondary = Stored(None, b''), 0, None
        self.labels, self.changed, self.expired = [], 0, False
        self.lifetime = self.history = self.reuse = 'default'
        self.attempts, self.lock_days, self.locked = 0, 0, False
        self.create_user = self.password_admin = False
        self.past = []

    def credentials(self):
        return [(self.primary, self.primary_id)] + ([self.secondary] if self.secondary else [])

    def record(self):
        """The bytes of the account's record."""
        def counted(text):
            return bytes([len(text)]) + text

        def limit(value):
            return b'\x00' if value == 'default' else b'\x01' + value.to_bytes(2, 'little')

        lifetime = {'default': b'\x00', 'never': b'\x01'}.get(self.lifetime)
        lock = b'\x01' if self.lock_days == 'unbounded' else b'\x00' + self.lock_days.to_bytes(2, 'little')
        return b''.join([
            b'\x01', counted(self.user), bytes([self.host == '%', self.method == 'caching']),
            self.primary.text(), b'\x01' + self.secondary[0].text() if self.secondary else b'\x00',
            bytes([len(self.labels)]), *map(counted, self.labels),
            self.changed.to_bytes(8, 'little'), bytes([self.expired]),
            lifetime or b'\x02' + self.lifetime.to_bytes(2, 'little'), limit(self.history), limit(self.reuse),
            self.attempts.to_bytes(2, 'little'), lock,
            bytes([self.locked, self.create_user + 2 * self.password_admin]), len(self.past).to_bytes(2, 'little'),
            *(moment.to_bytes(8, 'little') + kept.text() for moment, kept in self.past),
        ])


def root():
    account = Account(1, b'root', 'localhost', 'caching')
    account.primary_id = 1
    account.create_user = account.password_admin = True
    return account


# ## Statements


class Statement:
    """A statement: its kind, the name that it is about (None for USER() and FLUSH), and what it says."""

    def __init__(self, kind, name=None, change=None, word=None, password=None, retain=False, **more):
        self.kind, self.name, self.change = kind, name, change
        self.word, self.password, self.retain = word, password, retain
        self.factors, self.factor = more.get('factors', ()), more.get('factor')
        self.options, self.privileges = more.get('options', ()), more.get('privileges', ())

    def sets_password(self):
        return self.kind == 'create' or self.change == 'password'

    def identified(self):
        """Whether IDENTIFIED stands in it: a CREATE USER may lack it."""
        return self.change == 'password'

    def further(self):
        return list(self.factors) + ([self.factor[1:]] if self.change in ('add', 'modify') else [])

    def new_password(self):
        return self.password or b'' if self.identified() else b''

    def option(self, kind):
        """The last option of a kind, or None."""
        return next((value for name, value in reversed(self.options) if name == kind), None)

    def text(self):
        def quoted(text):
            text = text.replace(b'\\', b'\\\\').replace(b"'", b"''").replace(b'\x00', b'\\0')
            return b"'" + text + b"'"

        def name():
            if self.name is None:
                return b'USER()'
            return quoted(self.name[0]) + b'@' + quoted(self.name[1].encode())

        def auth():
            out = b' IDENTIFIED'
            if self.word is not None:
                out += b' WITH ' + quoted(self.word)
            if self.password is not None:
                out += b' BY ' + quoted(self.password)
            return out + (b' RETAIN CURRENT PASSWORD' if self.retain else b'')

        def factor_text(factor):
            return b' IDENTIFIED WITH ' + quoted(factor[0]) + b' AS ' + quoted(factor[1])

        heads = {'create': b'CREATE USER ', 'alter': b'ALTER USER ', 'drop': b'DROP USER '}
        out = heads.get(self.kind, b'FLUSH PRIVILEGES')
        if self.kind in ('grant', 'revoke'):
            words = {'create_user': b'CREATE USER', 'password_admin': b'APPLICATION_PASSWORD_ADMIN'}
            between = b' TO ' if self.kind == 'grant' else b' FROM '
            named = b', '.join(words[privilege] for privilege in self.privileges)
            return self.kind.upper().encode() + b' ' + named + b' ON *.*' + between + name()
        if self.kind == 'flush':
            return out
        out += name()
        if self.change == 'password':
            out += auth()
        elif self.change == 'discard':
            out += b' DISCARD OLD PASSWORD'
        elif self.change in ('add', 'modify'):
            out += f' {self.change.upper()} {self.factor[0]} FACTOR'.encode() + factor_text(self.factor[1:])
        elif self.change == 'drop':
            out += f' DROP {self.factor[0]} FACTOR'.encode()
        for factor in self.factors:
            out += b' AND' + factor_text(factor)
        for kind, value in self.options:
            out += b' ' + option_text(kind, value).encode()
        return out


def option_text(kind, value):
    if kind == 'expire':
        words = {'now': '', 'default': ' DEFAULT', 'never': ' NEVER'}
        return 'PASSWORD EXPIRE' + words.get(value, f' INTERVAL {value} DAY')
    if kind == 'history':
        return 'PASSWORD HISTORY ' + ('DEFAULT' if value == 'default' else str(value))
    if kind == 'reuse':
        return 'PASSWORD REUSE INTERVAL ' + ('DEFAULT' if value == 'default' else f'{value} DAY')
    if kind == 'attempts':
        return f'FAILED_LOGIN_ATTEMPTS {value}'
    if kind == 'lock_days':
        return 'PASSWORD_LOCK_TIME ' + ('UNBOUNDED' if value == 'unbounded' else str(value))
    return 'ACCOUNT ' + ('LOCK' if value else 'UNLOCK')


METHODS = {b'mysql_native_password': 'native', b'caching_sha2_password': 'caching'}

# ## Histories


class Entry:
    """An attempt or a statement, with its reply, the accounts before it and its moment."""

    def __init__(self, kind, before, moment, reply, **fields):
        self.kind, self.before, self.moment, self.reply = kind, before, moment, reply
        self.__dict__.update(fields)


class History:
    def __init__(self, accounts, settings):
        self.accounts, self.settings, self.entries = accounts, settings, []
        self.moment = max([0] + [a.changed for a in accounts] + [m for a in accounts for m, _ in a.past])
        self.given_account = max(a.id for a in accounts)
        self.given_credential = max(number for a in accounts for _, number in a.credentials())

    # ### Searches

    def target(self, accounts, statement, actor):
        if statement.kind == 'flush':
            return None
        if statement.name is None:
            return next((a for a in accounts if a.id == actor), None)
        return next((a for a in accounts if (a.user, a.host) == statement.name), None)

    def in_force(self, accounts, user):
        for host in ('localhost', '%'):
            for account in accounts:
                if (account.user, account.host) == (user, host):
                    return account
        return None

    def clears_all(self, entry):
        return entry.kind == 'statement' and entry.reply == 'done' and entry.statement.kind == 'flush'

    def cleared(self, entry):
        """The account that a statement which was done clears, as it was before it, or the name that it makes."""
        if entry.kind != 'statement' or entry.reply != 'done':
            return None
        statement = entry.statement
        if statement.kind == 'create':
            return Account(0, statement.name[0], statement.name[1], 'caching')
        if statement.kind == 'drop' or statement.change is not None:
            return self.target(entry.before, statement, entry.actor)
        return None

    def stamp(self, user):
        def clears(entry):
            cleared = self.cleared(entry)
            return self.clears_all(entry) or (cleared is not None and cleared.user == user)

        return sum(1 for entry in self.entries if clears(entry))

    def known(self, number):
        """The digest of a password: that of the first attempt which opened by it in clear, after the last entry that
        clears its account."""
        last = -1
        for place, entry in enumerate(self.entries):
            cleared = self.cleared(entry)
            if self.clears_all(entry) or (cleared is not None and number in [n for _, n in cleared.credentials()]):
                last = place
        for entry in self.entries[last + 1:]:
            if entry.kind != 'attempt' or entry.reply[0] not in ('opened', 'sandbox'):
                continue
            if entry.evidences[0][0] != 'full':
                continue
            for stored, held in self.in_force(entry.before, entry.user).credentials():
                if evidence_fits(entry.evidences[0], stored, None):
                    if held == number:
                        return digest(entry.evidences[0][1])
                    break
        return None

    def verifies(self, account, evidences):
        if len(evidences) != len(account.labels) + 1:
            return False
        first = evidences[0]
        if not any(evidence_fits(first, stored, self.known(number)) for stored, number in account.credentials()):
            return False
        return all(given == ('external', label, True) for given, label in zip(evidences[1:], account.labels))

    def failures(self, number):
        """The moments of the failures that count against an account."""
        steps = []
        for entry in self.entries:
            resets = renews = counts = False
            if entry.kind == 'attempt':
                account = self.in_force(entry.before, entry.user)
                if account is not None and account.id == number:
                    lock = locked_at(account, counted(steps))
                    resets = entry.reply[0] in ('opened', 'sandbox')
                    renews = lock is not None and has_ended(account, lock, entry.moment)
                    counts = tracks(account) and not blocked(account, lock, entry.moment) and not entry.verified
            elif entry.reply == 'done':
                resets = self.resets(entry, number)
            steps.append((entry.moment, resets, renews, counts))
        return counted(steps)

    def resets(self, entry, number):
        statement = entry.statement
        if statement.kind == 'create':
            return entry.made == number
        if statement.kind == 'flush':
            return True
        if statement.kind != 'alter':
            return False
        clears = statement.option('attempts') is not None or statement.option('lock_days') is not None
        clears = clears or statement.option('locked') is False
        return clears and self.target(entry.before, statement, entry.actor).id == number

    # ### Attempts

    def attempt(self, user, evidences, flags, reading):
        now = max(self.moment, reading)
        account = self.in_force(self.accounts, user)
        verified = account is not None and self.verifies(account, evidences)
        reply = self.attempt_reply(account, verified, evidences, flags, now)
        entry = Entry('attempt', self.accounts, now, reply, user=user, evidences=evidences, verified=verified)
        self.entries.append(entry)
        self.moment = now
        return ' '.join(map(str, reply))

    def attempt_reply(self, account, verified, evidences, flags, now):
        denied = ('denied', 'no' if evidences[0][0] == 'empty' else 'yes')
        if account is None:
            return denied
        failures = self.failures(account.id)
        lock = locked_at(account, failures)
        days = account.lock_days
        if blocked(account, lock, now):
            left = 0 if days == 'unbounded' else (lock + DAY * days - now + DAY - 1) // DAY
            return ('blocked', account.attempts, days, left)
        if lock is not None and has_ended(account, lock, now):
            failures = []
        if not verified:
            if tracks(account) and len(failures) + 1 == account.attempts:
                return ('blocked', account.attempts, days, 0 if days == 'unbounded' else days)
            return denied
        if account.locked:
            return ('locked',)
        expired = self.is_expired(account, now)
        if expired and self.settings['disconnect'] and not flags & HANDLES_EXPIRED:
            return ('mustchange',)
        return ('sandbox' if expired else 'opened', account.id, account.host)

    def is_expired(self, account, now):
        days = {'default': self.settings['lifetime'], 'never': 0}.get(account.lifetime, account.lifetime)
        return account.expired or (days >= 1 and now >= account.changed + DAY * days)

    # ### Statements

    def refusal(self, statement, actor, now):
        own = next((a for a in self.accounts if a.id == actor), None)
        target = self.target(self.accounts, statement, actor)
        create, flush = statement.kind == 'create', statement.kind == 'flush'
        conditions = [
            (1227, lambda: own is None or self.lacks(statement, own, target)),
            (1410 if statement.kind == 'grant' else 1396, lambda: not flush and create == (target is not None)),
            (50007, lambda: create and (not 1 <= len(statement.name[0]) <= 32 or 0 in statement.name[0])),
            (1524, lambda: self.unknown(statement)),
            (50006, lambda: self.misfits(statement, target)),
            (50009, lambda: any(not 1 <= len(label) <= 64 for _, label in statement.further())),
            (50002, lambda: statement.retain and self.method_after(statement, target) != target.method),
            (50001, lambda: statement.retain and target.primary.method is None),
            (50003, lambda: len(statement.new_password()) > 256 or 0 in statement.new_password()),
            (50004, lambda: self.out_of_range(statement)),
            (3638, lambda: target is not None and self.is_reused(statement, target, now)),
            (50005, lambda: target is not None and self.is_full(statement, target, now)),
        ]
        return next((number for number, holds in conditions if holds()), None)

    def lacks(self, statement, own, target):
        if statement.kind == 'alter' and target is not None and target.id == own.id and not statement.options:
            if statement.change == 'password' and statement.word is None and statement.password is not None:
                return statement.retain and not (own.create_user or own.password_admin)
            if statement.change == 'discard':
                return not (own.create_user or own.password_admin)
        return not own.create_user

    def unknown(self, statement):
        first = statement.identified() and statement.word is not None and statement.word.lower() not in METHODS
        return first or any(word.lower() != b'external_clear' for word, _ in statement.further())

    def misfits(self, statement, target):
        if statement.kind != 'alter':
            return False
        count = len(target.labels)
        place = statement.factor[0] if statement.factor else None
        if statement.change == 'modify':
            return place > count + 1
        return {'add': place != count + 2, 'drop': place != count + 1}.get(statement.change, False)

    def method_after(self, statement, account):
        return METHODS[statement.word.lower()] if statement.word is not None else account.method

    def out_of_range(self, statement):
        most = {'expire': 65535, 'history': 256, 'reuse': 65535, 'attempts': 32767, 'lock_days': 32767}
        for kind in most:
            value = statement.option(kind)
            if isinstance(value, int) and not (kind == 'expire') <= value <= most[kind]:
                return True
        return False

    def limit(self, statement, account, kind):
        value = statement.option(kind)
        value = getattr(account, kind) if value is None else value
        return self.settings[kind] if value == 'default' else value

    def is_reused(self, statement, account, now):
        password = statement.new_password()
        if password == b'' or statement.kind != 'alter':
            return False
        history, reuse = self.limit(statement, account, 'history'), self.limit(statement, account, 'reuse')
        past = enumerate(account.past)
        barred = [kept for place, (moment, kept) in past if place < history or now < moment + DAY * reuse]
        return any(kept.fits(password) for kept in barred)

    def is_full(self, statement, account, now):
        if statement.new_password() == b'' or statement.kind != 'alter':
            return False
        return len(account.past) == 256 and now < account.past[-1][0] + DAY * self.limit(statement, account, 'reuse')

    def effect(self, statement, actor, now):
        accounts = copy.deepcopy(self.accounts)
        target = self.target(accounts, statement, actor)
        made = None
        if statement.kind == 'create':
            self.given_account += 1
            made = self.given_account
            target = Account(made, statement.name[0], statement.name[1], 'caching')
            accounts.append(target)
        if statement.sets_password():
            self.set_password(statement, target, now)
        if statement.change == 'discard':
            target.secondary = None
        if statement.change == 'add':
            target.labels.append(statement.factor[2])
        if statement.change == 'modify':
            target.labels[statement.factor[0] - 2] = statement.factor[2]
        if statement.change == 'drop':
            target.labels.pop()
        target and target.labels.extend(label for _, label in statement.factors)
        for kind in {kind for kind, _ in statement.options}:
            value = statement.option(kind)
            if kind == 'expire' and value == 'now':
                target.expired = True
            else:
                setattr(target, 'lifetime' if kind == 'expire' else kind, value)
        for privilege in statement.privileges:
            setattr(target, privilege, statement.kind == 'grant')
        if statement.kind == 'drop':
            accounts.remove(target)
        return accounts, made, target

    def set_password(self, statement, account, now):
        method = self.method_after(statement, account)
        password = statement.password or b''
        old = (account.primary, account.primary_id)
        if password == b'' or method != account.method:
            account.secondary = None
        elif statement.retain:
            account.secondary = old
        self.given_credential += 1
        account.method, account.primary = method, Stored(method, password)
        account.primary_id = self.given_credential
        account.changed, account.expired = now, statement.kind == 'alter' and statement.password is None
        if password != b'':
            account.past = [(now, account.primary)] + account.past[:255]


def tracks(account):
    return account.attempts >= 1 and account.lock_days != 0


def has_ended(account, lock, now):
    return account.lock_days != 'unbounded' and now >= lock + DAY * account.lock_days


def blocked(account, lock, now):
    return lock is not None and tracks(account) and not has_ended(account, lock, now)


def locked_at(account, failures):
    place = max(account.attempts - 1, 0)
    return failures[place] if place < len(failures) else None


def counted(steps):
    """The moments of the failures that count in the span of the steps."""
    for place in reversed(range(len(steps))):
        if steps[place][1]:
            steps = steps[place + 1:]
            break
    for place in reversed(range(len(steps))):
        if steps[place][2]:
            steps = steps[place:]
            break
    return [moment for moment, _, _, counts in steps if counts]
