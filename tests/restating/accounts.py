"""The accounts: looks, attempts and statements, restated over passwords as they stand."""

from methods import CACHING, NATIVE, fast_answer, native_answer

DAY = 86400
EXPIRED_FLAG = 0x400000
OPERATIONS = {"create": b"CREATE USER", "alter": b"ALTER USER", "drop": b"DROP USER", "revoke": b"REVOKE"}


def shown(data):
    return data.hex().encode() or b"-"


def syntax(place):
    return 1064, "42000", b"You have an error in your SQL syntax at place %d" % place


def denied(user, evidence):
    using = b"NO" if evidence[0] == "empty" else b"YES"
    return 1045, "28000", b"Access denied for user '%s'@'localhost' (using password: %s)" % (user[:64], using)


def days_left(seconds):
    return -(-seconds // DAY)


class Store:
    def __init__(self, opening, settings):
        self.settings, self.clock, self.moment = settings, 0, 0
        self.keeper_fails = False
        self.accounts, self.known, self.stamps, self.flushes = [], {}, {}, 0
        self.last_account = self.last_credential = 0
        for user, password, method in [(b"root", b"", CACHING)] + [(u, p, NATIVE) for u, p in opening]:
            self.last_account += 1
            self.last_credential += 1
            self.accounts.append(self.new(user, "localhost", method, password, user == b"root"))

    def new(self, user, host, method, password, privileged=False):
        return {
            "id": self.last_account, "user": user, "host": host, "method": method,
            "primary": (password, self.last_credential), "secondary": None, "labels": [], "changed": 0, "expired": False,
            "lifetime": "default", "history": "default", "reuse": "default", "attempts": 0, "lock_time": 0, "locked": False,
            "create_user": privileged, "password_admin": privileged, "past": [], "count": 0, "since": None,
        }

    # Looks.

    def by_name(self, name):
        return next((a for a in self.accounts if (a["user"], a["host"]) == name), None)

    def by_id(self, number):
        return next((a for a in self.accounts if a["id"] == number), None)

    def in_force(self, user):
        return self.by_name((user, "localhost")) or self.by_name((user, "%"))

    def target(self, statement, actor):
        return self.by_id(actor) if statement["name"] is None else self.by_name(statement["name"])

    def stamp(self, user):
        return self.stamps.get(user, 0) + self.flushes

    def credentials(self, account):
        return [account["primary"]] + ([account["secondary"]] if account["secondary"] else [])

    def look(self, user, account):
        known = [] if account is None else [self.known[i] for _, i in self.credentials(account) if i in self.known]
        return {"user": user, "stamp": self.stamp(user), "method": account and account["method"], "known": known}

    # Attempts.

    def fitting(self, account, evidence):
        """The credential that the evidence fits."""
        for password, number in self.credentials(account):
            kind, native = evidence[0], account["method"] == NATIVE
            if kind == "empty" and not password:
                return password, number
            if kind == "native" and native and password and evidence[2] == native_answer(password, evidence[1]):
                return password, number
            if kind == "full" and not native and password and evidence[1] == password:
                return password, number
            if kind == "fast" and number in self.known:
                if evidence[2] == fast_answer(self.known[number], evidence[1]):
                    return password, number
        return None

    def tracks(self, account):
        return account["attempts"] >= 1 and account["lock_time"] != 0

    def in_lock(self, account):
        since, days = account["since"], account["lock_time"]
        return self.tracks(account) and since is not None and (days is None or self.moment < since + DAY * days)

    def blocked(self, account):
        user, days = account["user"], account["lock_time"]
        left = b"unlimited" if days is None else b"%d" % days_left(account["since"] + DAY * days - self.moment)
        return {"word": "blocked", "error": (3955, "HY000", (
            b"Access denied for user '%s'@'localhost'. Account is blocked for %s day(s) (%s day(s) remaining) due to %d "
            b"consecutive failed logins." % (
                user[:64], b"unlimited" if days is None else b"%d" % days, left, account["attempts"])))}

    def is_expired(self, account):
        lifetime = account["lifetime"]
        days = self.settings["lifetime"] if lifetime == "default" else 0 if lifetime == "never" else lifetime
        return account["expired"] or (days >= 1 and self.moment >= account["changed"] + DAY * days)

    def attempt(self, user, evidence, flags):
        self.moment = max(self.moment, self.clock)
        account = self.in_force(user)
        refused = {"word": "denied", "error": denied(user, evidence)}
        if account is None:
            return refused
        if self.tracks(account) and account["since"] is not None and not self.in_lock(account):
            account["count"], account["since"] = 0, None
        if self.in_lock(account):
            return self.blocked(account)
        fitting = None if account["labels"] else self.fitting(account, evidence)
        if fitting is None:
            if self.tracks(account):
                account["count"] += 1
                if account["count"] >= account["attempts"]:
                    account["since"] = self.moment
                    return self.blocked(account)
            return refused
        return self.let_in(user, account, evidence, flags, fitting)

    def let_in(self, user, account, evidence, flags, fitting):
        expired = self.is_expired(account)
        if account["locked"]:
            text = b"Access denied for user '%s'@'localhost'. Account is locked." % user[:64]
            return {"word": "locked", "error": (3118, "HY000", text)}
        if expired and self.settings["disconnect"] and not flags & EXPIRED_FLAG:
            text = b"Your password has expired; log in with a client that supports expired passwords"
            return {"word": "mustchange", "error": (1862, "HY000", text)}
        account["count"], account["since"] = 0, None
        if evidence[0] == "full":
            self.known.setdefault(fitting[1], fitting[0])
        return {"word": "sandbox" if expired else "opened", "account": account["id"], "host": account["host"]}

    # Statements.

    def limits(self, account, options):
        """The history and the interval of reuse that stand once the options are taken in."""
        found = []
        for kind in ("history", "reuse"):
            limit = options.get(kind, account[kind] if account else "default")
            found.append(self.settings[kind] if limit == "default" else limit)
        return found

    def lacks(self, statement, account, actor):
        """The refusal for want of a privilege."""
        own = self.by_id(actor)
        change = statement.get("change") or {"kind": "nothing"}
        of_own = statement["kind"] == "alter" and own is not None and account is own and not statement["options"]
        password = change["kind"] == "password" and change["method"] is None
        if of_own and password and not change["retain"]:
            return None
        if of_own and (password or change["kind"] == "discard"):
            if own["password_admin"] or own["create_user"]:
                return None
            text = b"the APPLICATION_PASSWORD_ADMIN or CREATE USER privilege"
        else:
            if own is not None and own["create_user"]:
                return None
            text = b"the CREATE USER privilege"
        return 1227, "42000", b"Access denied; you need " + text + b" for this operation"

    def refused_name(self, statement, account):
        kind = statement["kind"]
        if kind == "flush" or (account is None) == (kind == "create"):
            return None
        if kind == "grant":
            return 1410, "42000", b"GRANT does not create an account"
        user, host = statement["name"]
        return 1396, "HY000", b"Operation %s failed for '%s'@'%s'" % (OPERATIONS[kind], user[:64], host.encode())

    def refused_parts(self, statement, account):
        """The refusals by methods, factors, labels and passwords, of CREATE USER and ALTER USER."""
        change = statement.get("change") or statement.get("auth") or {"kind": "nothing"}
        further = statement.get("factors") or []
        if change["kind"] in ("add", "modify"):
            further = [(change["method"], change["label"])]
        methods = [(change["method"], (NATIVE, CACHING))] if change["kind"] == "password" and change["method"] else []
        for method, loaded in methods + [(method, (b"external_clear",)) for method, _ in further]:
            if method.lower() not in loaded:
                return 1524, "HY000", b"Plugin '%s' is not loaded" % method[:64]
        count = len(account["labels"]) if account else 0
        if (
            (change["kind"] == "add" and change["number"] != count + 2)
            or (change["kind"] == "modify" and change["number"] > count + 1)
            or (change["kind"] == "drop" and change["number"] != count + 1)
        ):
            return 50006, "HY000", b"The factor does not fit the account"
        if any(not 1 <= len(label) <= 64 for _, label in further):
            return 50009, "HY000", b"A label has 1 to 64 bytes"
        if change["kind"] == "password" and change["retain"]:
            if change["method"] and change["method"].lower() != account["method"]:
                return 50002, "HY000", b"The current password cannot be retained while the method changes"
            if not account["primary"][0]:
                return 50001, "HY000", b"The current password is empty and cannot be retained"
        if change["kind"] == "password" and (len(change["password"] or b"") > 256 or 0 in (change["password"] or b"")):
            return 50003, "HY000", b"A password has at most 256 bytes and no zero byte"
        return None

    def out_of_range(self, options):
        expire, history, reuse = options.get("expire"), options.get("history"), options.get("reuse")
        return (
            (isinstance(expire, int) and not 1 <= expire <= 65535)
            or (isinstance(history, int) and history > 256)
            or (isinstance(reuse, int) and reuse > 65535)
            or options.get("attempts", 0) > 32767
            or (options.get("lock_time") or 0) > 32767
        )

    def refused_password(self, statement, account):
        change = statement.get("change") or statement.get("auth")
        password = change["password"] if change and change["kind"] == "password" else None
        if not password or account is None:
            return None
        history, reuse = self.limits(account, statement["options"])
        past = account["past"]
        used = [(place, at) for place, (at, old) in enumerate(past) if old == password]
        if any(place < history or self.moment < at + DAY * reuse for place, at in used):
            return 3638, "HY000", b"The password contradicts the password history policy"
        if len(past) == 256 and self.moment < past[-1][0] + DAY * reuse:
            return 50005, "HY000", b"The account keeps 256 passwords that may not be used again yet"
        return None

    def refused(self, statement, actor):
        """The first refusal that holds."""
        account = None if statement["kind"] == "flush" else self.target(statement, actor)
        found = self.lacks(statement, account, actor) or self.refused_name(statement, account)
        if found or statement["kind"] not in ("create", "alter"):
            return found
        user = statement["name"][0] if statement["name"] else b"own"
        if statement["kind"] == "create" and (not 1 <= len(user) <= 32 or 0 in user):
            return 50007, "HY000", b"A user name has 1 to 32 bytes and no zero byte"
        found = self.refused_parts(statement, account)
        if found is None and self.out_of_range(statement["options"]):
            found = 50004, "HY000", b"A number is out of its range"
        return found or self.refused_password(statement, account)

    def commit(self, statement, actor):
        self.moment = max(self.moment, self.clock)
        error = self.refused(statement, actor)
        if error is None and statement["kind"] != "flush" and self.keeper_fails:
            self.keeper_fails = False
            error = 50008, "HY000", b"The account store failed"
        if error is None:
            self.take(statement, actor)
        return error

    def clear(self, account):
        """Forgets what is known of an account's credentials, and lets looks at its user be out of date."""
        for _, number in self.credentials(account):
            self.known.pop(number, None)
        self.stamps[account["user"]] = self.stamps.get(account["user"], 0) + 1

    def take(self, statement, actor):
        kind = statement["kind"]
        if kind == "flush":
            self.flushes += 1
            self.known.clear()
            for account in self.accounts:
                account["count"], account["since"] = 0, None
            return
        account = self.target(statement, actor)
        if kind == "drop":
            self.clear(account)
            self.accounts.remove(account)
        elif kind in ("grant", "revoke"):
            for privilege in statement["privileges"]:
                account[privilege] = kind == "grant"
        elif kind == "create":
            self.last_account += 1
            account = self.new(*statement["name"], CACHING, b"")
            self.accounts.append(account)
            auth = statement["auth"] or {"method": None, "password": None, "retain": False}
            self.set_password(account, auth, False)
            self.clear(account)
            account["labels"] = [label for _, label in statement["factors"]]
            self.set_options(account, statement["options"])
        else:
            self.change(account, statement["change"])
            self.set_options(account, statement["options"])

    def change(self, account, change):
        if change["kind"] != "nothing":
            self.clear(account)
        if change["kind"] == "password":
            self.set_password(account, change, True)
        elif change["kind"] == "discard":
            account["secondary"] = None
        elif change["kind"] == "add":
            account["labels"].append(change["label"])
        elif change["kind"] == "modify":
            account["labels"][change["number"] - 2] = change["label"]
        elif change["kind"] == "drop":
            account["labels"].pop()

    def set_password(self, account, auth, altering):
        password = auth["password"] or b""
        method = auth["method"].lower() if auth["method"] else account["method"]
        self.last_credential += 1
        if not password or method != account["method"]:
            account["secondary"] = None
        elif auth["retain"]:
            account["secondary"] = account["primary"]
        account["method"], account["primary"] = method, (password, self.last_credential)
        account["changed"], account["expired"] = self.moment, altering and auth["password"] is None
        if password:
            account["past"] = [(self.moment, password)] + account["past"][:255]

    def set_options(self, account, options):
        if options.get("expire") == "now":
            account["expired"] = True
        elif "expire" in options:
            account["lifetime"] = options["expire"]
        for kind in ("history", "reuse", "attempts", "lock_time"):
            if kind in options:
                account[kind] = options[kind]
        if "lock" in options:
            account["locked"] = options["lock"]
        if "attempts" in options or "lock_time" in options or options.get("lock") is False:
            account["count"], account["since"] = 0, None
