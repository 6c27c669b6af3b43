"""Reads account statements: their grammar restated as a reader that goes on token by token.

A statement is a dictionary; a text that is none raises `Fault` with the place of the first token at which no statement
fits, or the length of the text where it ends too early.
"""

import re

TOKEN = re.compile(
    rb"""(?P<word>[0-9A-Za-z_$]+)|(?P<sign>[@*.,;()])|(?P<single>'(?:[^'\\]|\\.|'')*'(?!'))"""
    rb"""|(?P<double>"(?:[^"\\]|\\.|"")*"(?!"))|(?P<back>`(?:[^`]|``)*`(?!`))""",
    re.DOTALL,
)
ESCAPES = {b"0": b"\0", b"n": b"\n", b"r": b"\r", b"t": b"\t", b"b": b"\b", b"Z": b"\x1a", b"%": b"\\%", b"_": b"\\_"}


class Fault(Exception):
    """The text is no statement, by this place."""


class Token:
    def __init__(self, kind, at, written):
        self.kind, self.at, self.written = kind, at, written
        self.text = written
        if kind in ("single", "double"):
            quote = written[:1]
            inside = re.compile(rb"\\(.)|" + quote + quote, re.DOTALL)
            self.text = inside.sub(lambda m: ESCAPES.get(m[1], m[1]) if m[1] is not None else quote, written[1:-1])
        elif kind == "back":
            self.text = written[1:-1].replace(b"``", b"`")


def tokens(text):
    """The tokens of a text; behind the last stands one without kind at its end, or at the bytes that are no token."""
    at, found = 0, []
    while True:
        while at < len(text) and text[at : at + 1] in (b" ", b"\t", b"\r", b"\n"):
            at += 1
        match = TOKEN.match(text, at)
        if match is None:
            return found + [Token("none", at, b"")]
        found.append(Token(match.lastgroup, at, match[0]))
        at = match.end()


class Reader:
    def __init__(self, text):
        self.tokens = tokens(text)
        self.next = 0

    def here(self):
        return self.tokens[self.next]

    def take(self):
        self.next += 1
        return self.tokens[self.next - 1]

    def fail(self):
        raise Fault(self.here().at)

    def is_word(self, *words):
        token = self.here()
        return token.kind == "word" and token.written.upper() in [word.encode() for word in words]

    def may(self, word):
        """Takes this keyword where it is next."""
        return bool(self.is_word(word) and self.take())

    def must(self, *words):
        for word in words:
            if not self.may(word):
                self.fail()

    def sign(self, sign):
        if self.here().kind != "sign" or self.here().written != sign:
            self.fail()
        self.take()

    def is_sign(self, sign):
        return self.here().kind == "sign" and self.here().written == sign

    def of_kind(self, *kinds):
        if self.here().kind not in kinds:
            self.fail()
        return self.take()

    def string(self):
        return self.of_kind("single", "double").text

    def quoted_or_word(self):
        return self.of_kind("word", "single", "double", "back").text

    def number(self):
        if self.here().kind != "word" or not self.here().written.isdigit():
            self.fail()
        return min(int(self.take().written), 4294967295)

    def name(self):
        user = self.quoted_or_word()
        if not self.is_sign(b"@"):
            return user, "%"
        self.take()
        host = self.here()
        if host.kind in ("word", "single", "double", "back") and host.text.lower() == b"localhost":
            self.take()
            return user, "localhost"
        if host.kind in ("single", "double", "back") and host.text == b"%":
            self.take()
            return user, "%"
        return self.fail()

    def by(self, retains):
        """BY and the password, with RETAIN CURRENT PASSWORD where it may stand."""
        self.must("BY")
        password = self.string()
        retain = retains and self.may("RETAIN")
        if retain:
            self.must("CURRENT", "PASSWORD")
        return password, bool(retain)

    def auth(self, retains):
        """What stands behind IDENTIFIED, for the first factor."""
        method = password = None
        retain = False
        if self.is_word("BY"):
            password, retain = self.by(retains)
        else:
            self.must("WITH")
            method = self.quoted_or_word()
            if self.is_word("BY"):
                password, retain = self.by(retains)
        return {"kind": "password", "method": method, "password": password, "retain": retain}

    def factor_auth(self):
        self.must("IDENTIFIED", "WITH")
        method = self.quoted_or_word()
        self.must("AS")
        return method, self.string()

    def factor_number(self):
        if not self.is_word("2", "3"):
            self.fail()
        return int(self.take().written)

    def change(self):
        if self.may("IDENTIFIED"):
            return self.auth(True)
        if self.may("DISCARD"):
            self.must("OLD", "PASSWORD")
            return {"kind": "discard"}
        for word in ("ADD", "MODIFY"):
            if self.may(word):
                number = self.factor_number()
                self.must("FACTOR")
                method, label = self.factor_auth()
                return {"kind": word.lower(), "number": number, "method": method, "label": label}
        if self.may("DROP"):
            number = self.factor_number()
            self.must("FACTOR")
            return {"kind": "drop", "number": number}
        return {"kind": "nothing"}

    def days(self):
        number = self.number()
        self.must("DAY")
        return number

    def password_option(self, options):
        if self.may("EXPIRE"):
            if self.may("INTERVAL"):
                options["expire"] = self.days()
            else:
                options["expire"] = "default" if self.may("DEFAULT") else "never" if self.may("NEVER") else "now"
        elif self.may("HISTORY"):
            options["history"] = "default" if self.may("DEFAULT") else self.number()
        elif self.may("REUSE"):
            self.must("INTERVAL")
            options["reuse"] = "default" if self.may("DEFAULT") else self.days()
        else:
            self.fail()

    def options(self):
        options = {}
        while True:
            if self.may("PASSWORD"):
                self.password_option(options)
            elif self.may("FAILED_LOGIN_ATTEMPTS"):
                options["attempts"] = self.number()
            elif self.may("PASSWORD_LOCK_TIME"):
                options["lock_time"] = None if self.may("UNBOUNDED") else self.number()
            elif self.may("ACCOUNT"):
                options["lock"] = self.is_word("LOCK")
                if not self.is_word("LOCK", "UNLOCK"):
                    self.fail()
                self.take()
            else:
                return options

    def create(self):
        self.must("USER")
        name, auth, factors = self.name(), None, []
        if self.may("IDENTIFIED"):
            auth = self.auth(False)
            while len(factors) < 2 and self.may("AND"):
                factors.append(self.factor_auth())
        return {"kind": "create", "name": name, "auth": auth, "factors": factors, "options": self.options()}

    def alter(self):
        self.must("USER")
        follows = self.tokens[self.next + 1] if self.is_word("USER") else None
        if follows is not None and follows.kind == "sign" and follows.written == b"(":
            self.take()
            self.sign(b"(")
            self.sign(b")")
            if not self.is_word("IDENTIFIED", "DISCARD"):
                self.fail()
            if self.may("IDENTIFIED"):
                password, retain = self.by(True)
                change = {"kind": "password", "method": None, "password": password, "retain": retain}
            else:
                change = self.change()
            return {"kind": "alter", "name": None, "change": change, "options": {}}
        name, change = self.name(), self.change()
        options = self.options()
        if change["kind"] == "nothing" and not options:
            self.fail()
        return {"kind": "alter", "name": name, "change": change, "options": options}

    def privileges(self, kind, before):
        found = set()
        while True:
            if self.may("CREATE"):
                self.must("USER")
                found.add("create_user")
            else:
                self.must("APPLICATION_PASSWORD_ADMIN")
                found.add("password_admin")
            if not self.is_sign(b","):
                break
            self.take()
        self.must("ON")
        for sign in (b"*", b".", b"*"):
            self.sign(sign)
        self.must(before)
        return {"kind": kind, "privileges": found, "name": self.name()}

    def statement(self):
        if self.may("CREATE"):
            found = self.create()
        elif self.may("ALTER"):
            found = self.alter()
        elif self.may("DROP"):
            self.must("USER")
            found = {"kind": "drop", "name": self.name()}
        elif self.may("FLUSH"):
            self.must("PRIVILEGES")
            found = {"kind": "flush"}
        elif self.may("GRANT"):
            found = self.privileges("grant", "TO")
        else:
            self.must("REVOKE")
            found = self.privileges("revoke", "FROM")
        if self.is_sign(b";"):
            self.take()
        if self.next + 1 < len(self.tokens):
            self.fail()
        return found


def read(text):
    """The statement of a text."""
    reader = Reader(text)
    found = reader.statement()
    if reader.here().at < len(text):
        reader.fail()
    return found
