"""Replay scripts: their lines restated, and random ones."""

import random
import re

LONGEST = 16_777_216
HEX = rb"(-|(?:[0-9A-Fa-f]{2})+)"
SESSION = rb"([1-9][0-9]{0,9})"
NUMBER = rb"(0|[1-9][0-9]{0,19})"
NEEDED = 0x200 | 0x8000 | 0x80000
BARRED = 0x8 | 0x100000
BOUNDS = {b"lifetime": 65535, b"history": 256, b"reuse": 65535, b"disconnect": 1}

EVENTS = [
    ("clock", rb"clock " + NUMBER, "n"),
    ("admin", rb"admin (.*)", "t"),
    ("open", rb"open " + SESSION, "s"),
    ("client", rb"client " + SESSION + rb" ([0-9A-Fa-f]{8}) " + HEX + b" " + HEX + 2 * (rb"(?: " + HEX + b")?"), "sfhhhh"),
    ("bytes", rb"bytes " + SESSION + b" " + HEX, "sh"),
    ("up", rb"up " + SESSION + b" " + NUMBER, "sn"),
    ("down", rb"down " + SESSION + b" " + NUMBER, "sn"),
    ("step", rb"step " + SESSION, "s"),
    ("run", rb"run " + SESSION, "s"),
    ("say", rb"say " + SESSION + rb" (.*)", "st"),
    ("command", rb"command " + SESSION + b" " + HEX, "sh"),
    ("close", rb"close " + SESSION, "s"),
    ("cut", rb"cut " + SESSION, "s"),
    ("fail", rb"fail keeper", ""),
]


class BadLine(Exception):
    """The line is of no kind."""


def value(kind, word):
    if word is None:
        return None
    if kind == "h":
        return b"" if word == b"-" else bytes.fromhex(word.decode())
    if kind == "f":
        return int(word, 16)
    if kind == "t":
        return word
    number = int(word)
    if number >= (1 << 32 if kind == "s" else 1 << 64):
        raise BadLine
    return number


def setup_line(line, accounts, settings):
    """Takes a line of the first part; whether it is one."""
    match = re.fullmatch(rb"account " + HEX + b" " + HEX, line)
    if match:
        user, password = value("h", match[1]), value("h", match[2])
        if not 1 <= len(user) <= 32 or len(password) > 256 or 0 in user + password or user == b"root":
            raise BadLine
        if any(user == other for other, _ in accounts):
            raise BadLine
        accounts.append((user, password))
        return True
    match = re.fullmatch(rb"set ([a-z]+) " + NUMBER, line)
    if match is None:
        return False
    if match[1] not in BOUNDS or int(match[2]) > BOUNDS[match[1]]:
        raise BadLine
    settings[match[1].decode()] = int(match[2])
    return True


def event_line(line):
    for name, form, kinds in EVENTS:
        match = re.fullmatch(form, line, re.DOTALL)
        if match:
            words = [value(kind, word) for kind, word in zip(kinds, match.groups())]
            if name == "client":
                hidden = b"".join(word for word in words[2:] if word is not None)
                if words[1] & NEEDED != NEEDED or words[1] & BARRED or 0 in hidden:
                    raise BadLine
            return name, words
    raise BadLine


def read(text):
    """The accounts, settings and events of a script, or the number of the first line that doesn't fit."""
    if len(text) > LONGEST:
        return 0
    lines = text.split(b"\n")
    accounts, settings, events, ended = [], {"lifetime": 0, "history": 0, "reuse": 0, "disconnect": 1}, [], False
    for number, line in enumerate(lines[:-1], 1):
        try:
            if line == b"" or line.startswith(b"#"):
                continue
            if ended:
                raise BadLine
            if line == b"end":
                ended = True
            elif events or not setup_line(line, accounts, settings):
                events.append(event_line(line))
        except BadLine:
            return number
    return (accounts, settings, events) if ended and lines[-1] == b"" else len(lines)


USERS = ["ann", "ann", "bob", "nat", "root"]
PASSWORDS = ["one", "one", "two", "three", ""]
METHODS = ["mysql_native_password", "caching_sha2_password", "foo"]


def random_name(draw):
    user = draw.choice(USERS)
    hosts = ["@'localhost'", "@localhost", "@'localhost'", "@'%'", ""] if user != "root" else ["@'localhost'"]
    return f"'{user}'" + draw.choice(hosts)


def random_options(draw):
    some = draw.sample([
        "PASSWORD EXPIRE", "PASSWORD EXPIRE NEVER", "PASSWORD EXPIRE DEFAULT", "PASSWORD EXPIRE INTERVAL 2 DAY",
        "PASSWORD HISTORY 2", "PASSWORD HISTORY DEFAULT", "PASSWORD REUSE INTERVAL 3 DAY", "PASSWORD HISTORY 257",
        "FAILED_LOGIN_ATTEMPTS 2 PASSWORD_LOCK_TIME 1", "FAILED_LOGIN_ATTEMPTS 1", "PASSWORD_LOCK_TIME 1",
        "FAILED_LOGIN_ATTEMPTS 1 PASSWORD_LOCK_TIME UNBOUNDED",
        "ACCOUNT LOCK", "ACCOUNT UNLOCK", "PASSWORD REUSE INTERVAL 65536 DAY",
    ], draw.randrange(3))
    return "".join(" " + each for each in some)


def random_change(draw):
    by = f" BY '{draw.choice(PASSWORDS)}'"
    retain = draw.choice(["", " RETAIN CURRENT PASSWORD"])
    return draw.choice([
        " IDENTIFIED" + by, " IDENTIFIED" + by, " IDENTIFIED" + by + retain,
        f" IDENTIFIED WITH {draw.choice(METHODS)}" + by + retain,
        f" IDENTIFIED WITH {draw.choice(METHODS)}", " DISCARD OLD PASSWORD", "", "", draw.choice([
            " DROP 2 FACTOR", " ADD 2 FACTOR IDENTIFIED WITH external_clear AS 'tok'",
            " ADD 3 FACTOR IDENTIFIED WITH external_clear AS 'key'", " DROP 3 FACTOR",
            " MODIFY 2 FACTOR IDENTIFIED WITH foo AS ''",
        ]),
    ])


def random_statement(draw):
    kind = draw.randrange(12)
    if kind < 3:
        auth = draw.choice(["", " IDENTIFIED BY 'one'", f" IDENTIFIED WITH {draw.choice(METHODS)} BY 'one'"])
        return f"CREATE USER {random_name(draw)}{auth}{random_options(draw)}"
    if kind < 8:
        return f"ALTER USER {random_name(draw)}{random_change(draw)}{random_options(draw)}"
    if kind == 8:
        return f"ALTER USER USER(){random_change(draw)}"
    privileges = draw.choice(["CREATE USER", "APPLICATION_PASSWORD_ADMIN", "CREATE USER, APPLICATION_PASSWORD_ADMIN"])
    return [
        "FLUSH PRIVILEGES", f"DROP USER {random_name(draw)}",
        f"{draw.choice(['GRANT', 'REVOKE'])} {privileges} ON *.* {draw.choice(['TO', 'FROM'])} {random_name(draw)}",
    ][kind - 9]


def random_pieces(draw, session):
    """A session goes on in pieces, and the administrator often comes between."""
    lines = []
    for _ in range(draw.randrange(2, 6)):
        lines += [f"down {session} 1000", f"up {session} {draw.choice([5, 1000, 1000])}"] if draw.randrange(2) else []
        lines.append(f"step {session}")
        if draw.randrange(3) == 0:
            lines.append(f"admin {draw.choice([random_statement(draw), 'FLUSH PRIVILEGES'])}")
    return lines


def random_login(draw, session):
    user = draw.choice(["ann", "ann", "ann", "bob", "nat", "root"])
    secret = draw.choice(["", "", "", "one"] if user == "root" else ["one", "one", "one", "two", "three", ""])
    flags = draw.choice(["1028a200", "1068a200", "0068a200"])
    lines = [f"client {session} {flags} {user.encode().hex()} {secret.encode().hex() or '-'}"]
    if draw.randrange(3) == 0:
        lines += [f"down {session} 1000", f"up {session} 1000"] + random_pieces(draw, session)
    return lines + [f"run {session}"] * (draw.randrange(6) != 0)


def random_query(draw, session):
    lines = [f"say {session} {random_statement(draw)}"]
    if draw.randrange(3) == 0:
        lines += [f"up {session} 1000"] + random_pieces(draw, session)
    return lines + [f"run {session}"]


def random_other(draw, session):
    return [draw.choice([
        f"clock {draw.choice([0, 1, 2, 3, 4]) * 86400 + draw.choice([0, 1, 2, 50000])}", f"step {session}", f"run {session}",
        f"command {session} {draw.choice(['0e', '1f', '01', '05', '-'])}\nrun {session}", f"open {session}",
        f"up {session} {draw.choice([1, 40, 1000])}", f"down {session} {draw.choice([1, 40, 1000])}", "fail keeper",
        f"{draw.choice(['close', 'cut'])} {session}",
    ])]


def random_script(seed):
    """A script by a seed: accounts, settings, and then logins, statements, and other events of some sessions."""
    draw = random.Random(seed)
    lines = [f"account {b'nat'.hex()} {b'one'.hex()}"]
    for kind, most in (("lifetime", 2), ("history", 2), ("reuse", 2), ("disconnect", 1)):
        if draw.randrange(3) == 0:
            lines.append(f"set {kind} {draw.randrange(most + 1)}")
    lines += [f"admin CREATE USER 'ann'@'localhost' IDENTIFIED BY 'one'{random_options(draw)}"]
    lines += [f"admin CREATE USER 'bob' IDENTIFIED WITH {draw.choice(METHODS[:2])} BY 'one'{random_options(draw)}"]
    last = 0
    for _ in range(draw.randrange(10, 60)):
        kind = draw.randrange(10)
        if last == 0 or kind < 3:
            last += 1
            lines += random_login(draw, last)
        elif kind < 5:
            lines.append(f"admin {random_statement(draw)}")
        else:
            do = random_query if kind < 8 else random_other
            lines += do(draw, max(1, last - draw.choice([0, 0, 0, 1, 2])))
    return "\n".join(lines + ["end", ""]).encode()
