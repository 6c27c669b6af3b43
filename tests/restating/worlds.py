"""Worlds of accounts, sessions and login clients: what each event prints."""

import struct

import accounts
import statements
from methods import CACHING, NATIVE, fast_answer, native_answer

OK = bytes.fromhex("00000002000000")
LIMIT = 1_048_576
LAST_COMMAND = 1_048_576
LENENC_FLAG = 0x200000


def packet(first, payload):
    return len(payload).to_bytes(3, "little") + bytes([first]) + payload


def error_packet(number, state, text):
    return b"\xff" + struct.pack("<H", number) + b"#" + state.encode() + text


def greeting(session, nonce):
    return (
        b"\x0a8.0.0-login\0" + struct.pack("<I", session) + nonce[:8] + b"\0\x08\xa2\xff\x02\0\x78\x10\x15" + bytes(10)
        + nonce[8:] + b"\0" + CACHING + b"\0"
    )


class Malformed(Exception):
    """The payload is no message, by this place."""


class Cursor:
    def __init__(self, payload):
        self.payload, self.at = payload, 0

    def take(self, count):
        if len(self.payload) - self.at < count:
            raise Malformed(len(self.payload))
        self.at += count
        return self.payload[self.at - count : self.at]

    def text(self):
        end = self.payload.find(b"\0", self.at)
        if end < 0:
            raise Malformed(len(self.payload))
        return self.take(end + 1 - self.at)[:-1]

    def count(self):
        at, first = self.at, self.take(1)[0]
        if first in (0xFB, 0xFF):
            raise Malformed(at)
        return first if first < 0xFB else int.from_bytes(self.take({0xFC: 2, 0xFD: 3, 0xFE: 8}[first]), "little")


def response(payload):
    """The flags, the user, the answer and the method of a handshake response."""
    cursor = Cursor(payload)
    needed = bytes.fromhex("00820800")
    for place, byte in enumerate(payload[:4]):
        if byte & needed[place] != needed[place]:
            raise Malformed(place)
    flags = int.from_bytes(cursor.take(4), "little")
    cursor.take(28)
    user = cursor.text()
    answer = cursor.take(cursor.count() if flags & LENENC_FLAG else cursor.take(1)[0])
    if flags & 0x8:
        cursor.text()
    method = cursor.text()
    if flags & 0x100000:
        cursor.take(cursor.count())
    return flags, user, answer, method


class Session:
    """The server's end. Its talk is a generator: `read` asks for a payload, a function is a call of the account store."""

    def __init__(self, world, number, client):
        self.world, self.number, self.client = world, number, client
        self.inbox, self.read_bytes, self.next_id = b"", 0, 0
        self.closing = None
        self.ended = False
        self.asked = None
        self.commands = 0
        self.talk = self.whole()
        self.go(None)

    # What the session prints and sends.

    def send(self, payload):
        self.world.line(b"send %d %d %s" % (self.number, self.next_id, accounts.shown(payload)))
        if self.client:
            self.client.down += packet(self.next_id, payload)
        self.next_id = (self.next_id + 1) % 256

    def end(self, words):
        self.ended, self.asked = True, None
        self.world.line(b"ended %d %s" % (self.number, words))

    def bad(self, number, state, text, place):
        self.send(error_packet(number, state, text))
        self.end(b"bad %d %d" % (number, place))

    # How it goes on.

    def go(self, answer):
        """Answers the talk, and goes on until it waits for bytes or for a call."""
        while True:
            self.asked = self.talk.send(answer)
            if self.ended or self.asked != "read":
                return
            if not self.front():
                return
            if self.ended:
                return
            answer = self.payload

    def front(self):
        """Takes the packet at the front of what came; whether the talk has ended or has its payload."""
        if len(self.inbox) >= 4:
            length, first = int.from_bytes(self.inbox[:3], "little"), self.inbox[3]
            if first != self.next_id:
                self.next_id = (self.next_id + 1) % 256
                self.bad(1156, "08S01", b"Got packets out of order", self.read_bytes)
                return True
            if length > LIMIT:
                self.next_id = (self.next_id + 1) % 256
                self.bad(1153, "08S01", b"Got a packet bigger than the limit", self.read_bytes)
                return True
            if len(self.inbox) >= 4 + length:
                self.payload, self.inbox = self.inbox[4 : 4 + length], self.inbox[4 + length :]
                self.read_bytes += 4 + length
                self.next_id = (self.next_id + 1) % 256
                return True
        if self.closing:
            self.end(b"linkfault" if self.closing == "cut" else b"closed cut" if self.inbox else b"closed")
            return True
        return False

    def come(self):
        """Goes on where bytes or the peer's end have come."""
        if not self.ended and self.asked == "read" and self.front() and not self.ended:
            self.go(self.payload)

    def waits(self):
        return not self.ended and callable(self.asked)

    def step(self):
        self.go(self.asked())

    # What is said.

    def whole(self):
        nonce = self.world.draw()
        self.send(greeting(self.number, nonce))
        payload = yield "read"
        try:
            self.flags, user, answer, method = response(payload)
        except Malformed as fault:
            self.bad(1043, "08S01", b"Bad handshake", fault.args[0])
            yield
        yield from self.attempt(user, method, answer, nonce)
        while True:
            self.next_id = 0
            payload = yield "read"
            self.commands += 1
            if self.commands == LAST_COMMAND:
                self.end(b"long")
                yield
            yield from self.command(payload)

    def attempt(self, user, named, answer, nonce):
        store = self.world.store
        look = yield lambda: self.world.observe(user, store.in_force(user))
        method = look["method"] or CACHING
        if named != method:
            nonce = self.world.draw()
            self.send(b"\xfe" + method + b"\0" + nonce + b"\0")
            answer = yield "read"
        evidence = yield from self.evidence(method, answer, nonce, look)
        reply = yield from self.in_order(
            user, look, lambda: self.world.observe(user, store.in_force(user)),
            lambda: self.world.attempt(user, evidence, self.flags),
        )
        if reply["word"] not in ("opened", "sandbox"):
            self.send(error_packet(*reply["error"]))
            self.end(b"refused %d" % reply["error"][0])
            yield
        self.account, self.name = reply["account"], (user, reply["host"])
        self.sandbox = reply["word"] == "sandbox"
        self.send(OK)

    def evidence(self, method, answer, nonce, look):
        if answer in (b"", b"\0"):
            return ("empty",)
        if method == NATIVE:
            return "native", nonce, answer
        if len(answer) == 32 and any(answer == fast_answer(password, nonce) for password in look["known"]):
            self.send(b"\x01\x03")
            return "fast", nonce, answer
        self.send(b"\x01\x04")
        password = yield "read"
        password = password[:-1] if password.endswith(b"\0") else password
        return ("full", password) if password else ("empty",)

    def in_order(self, user, look, renew, settle):
        """Settles or commits what rests on a look, of which at most two are found stale."""
        for stale in (1, 2):
            stands, seen = object(), look
            reply = yield lambda: stands if self.world.store.stamp(user) > seen["stamp"] else settle()
            if reply is not stands:
                return reply
            self.world.line(b"stale %d" % self.number)
            if stale == 1:
                look = yield renew
        return (yield settle)

    def command(self, payload):
        first = payload[:1]
        if first == b"\x01":
            self.end(b"quit")
            yield
        elif first == b"\x03":
            yield from self.query(payload[1:])
        elif first in (b"\x0e", b"\x1f"):
            self.send(OK)
        else:
            self.send(error_packet(1047, "08S01", b"Unknown command"))

    def query(self, text):
        try:
            statement = statements.read(text)
        except statements.Fault as fault:
            self.send(error_packet(*accounts.syntax(fault.args[0])))
            return
        if self.sandbox and not self.is_own_password(statement):
            self.send(error_packet(
                1820, "HY000", b"You must reset your password using ALTER USER before executing this statement"))
            return
        commit = lambda: self.world.commit(statement, self.account)  # noqa: E731
        if statement["kind"] in ("create", "alter"):
            look_at = lambda: self.world.observe_target(statement, self.account)  # noqa: E731
            look = yield look_at
            self.world.draw_salt(statement)
            error = yield from self.in_order(look["user"], look, look_at, commit)
        else:
            error = yield commit
        if error:
            self.send(error_packet(*error))
        else:
            self.sandbox = False
            self.send(OK)

    def is_own_password(self, statement):
        if statement["kind"] != "alter" or statement["name"] not in (None, self.name):
            return False
        return statement["change"]["kind"] == "password" and statement["change"]["password"] is not None


class Client:
    """The client's end: its talk is a generator that is given payloads."""

    def __init__(self, flags, user, secrets):
        self.flags, self.user, self.secrets = flags, user, secrets
        self.up, self.down, self.inbox = b"", b"", b""
        self.result = None
        self.talk = self.whole()
        next(self.talk)

    def get(self, data):
        if self.result:
            return
        self.inbox += data
        while not self.result and len(self.inbox) >= 4:
            length = int.from_bytes(self.inbox[:3], "little")
            if len(self.inbox) < 4 + length:
                return
            self.next_id = (self.inbox[3] + 1) % 256
            payload, self.inbox = self.inbox[4 : 4 + length], self.inbox[4 + length :]
            self.talk.send(payload)

    def write(self, payload):
        self.up += packet(self.next_id, payload)

    def whole(self):
        payload = yield
        nonce = payload[17:25] + payload[44:56]
        secret = self.secrets[0]
        answer = fast_answer(secret, nonce) if secret else b""
        self.write(
            struct.pack("<IIB", self.flags, 1 << 24, 0xFF) + bytes(23) + self.user + b"\0" + bytes([len(answer)]) + answer
            + CACHING + b"\0"
        )
        while True:
            payload = yield
            if payload[:1] == b"\x00":
                self.result = b"opened"
            elif payload[:1] == b"\xff":
                self.result = b"refused %d" % int.from_bytes(payload[1:3], "little")
            elif payload == b"\x01\x04":
                self.write(secret + b"\0")
            elif payload[:1] == b"\xfe":
                method, nonce = payload[1:].split(b"\0", 1)
                answers = {NATIVE: native_answer, CACHING: fast_answer}
                self.write(answers[method](secret, nonce[:20]) if secret else b"")


class World:
    def __init__(self, opening, settings):
        self.lines, self.entries, self.draws = [], 0, 0
        self.store = accounts.Store(opening, settings)
        self.sessions = {}

    def line(self, words):
        self.lines.append(words)

    def entry(self, words):
        self.entries += 1
        self.line(b"entry %d %s" % (self.entries, words))

    def draw(self):
        self.draws += 1
        return b"%020d" % self.draws

    def draw_salt(self, statement):
        part = statement["auth"] if statement["kind"] == "create" else statement["change"]
        if part and part.get("password") is not None:
            self.draw()

    # The calls of the account store.

    def observe(self, user, account):
        self.entry(b"observe " + accounts.shown(user))
        return self.store.look(user, account)

    def observe_target(self, statement, actor):
        account = self.store.target(statement, actor)
        if statement["name"] is not None:
            return self.observe(statement["name"][0], account)
        return self.observe(account["user"] if account else b"", account)

    def attempt(self, user, evidence, flags):
        reply = self.store.attempt(user, evidence, flags)
        self.entry(b"attempt %s %s" % (accounts.shown(user), reply["word"].encode()))
        return reply

    def commit(self, statement, actor):
        error = self.store.commit(statement, actor)
        self.entry(b"statement %d" % (error[0] if error else 0))
        return error

    # The events.

    def event(self, name, words):
        if name == "clock":
            self.store.clock = words[0]
        elif name == "fail":
            self.store.keeper_fails = True
        elif name == "admin":
            self.admin(words[0])
        elif not getattr(self, "on_" + name)(*words):
            self.line(b"idle %d" % words[0])

    def admin(self, text):
        try:
            statement = statements.read(text)
        except statements.Fault:
            self.line(b"admin 1064")
            return
        if statement["kind"] in ("create", "alter"):
            self.observe_target(statement, 1)
            self.draw_salt(statement)
        self.commit(statement, 1)

    def begin(self, number, client):
        if number in self.sessions:
            return False
        self.sessions[number] = Session(self, number, client)
        return True

    def on_open(self, number):
        return self.begin(number, None)

    def on_client(self, number, flags, user, *secrets):
        return self.begin(number, Client(flags, user, secrets))

    def open_to(self, number, with_client):
        """The session where it takes what its peer sends."""
        session = self.sessions.get(number)
        if session is None or session.ended or session.closing or bool(session.client) != with_client:
            return None
        return session

    def on_bytes(self, number, data):
        session = self.open_to(number, False)
        if session is None:
            return False
        session.inbox += data
        session.come()
        return True

    def on_up(self, number, most):
        session = self.open_to(number, True)
        if session is None or not session.client.up:
            return False
        self.bring_up(session, most)
        return True

    def bring_up(self, session, most):
        client = session.client
        session.inbox, client.up = session.inbox + client.up[:most], client.up[most:]
        session.come()

    def bring_down(self, session, most):
        client, had = session.client, session.client.result
        data, client.down = client.down[:most], client.down[most:]
        client.get(data)
        if client.result and not had:
            self.line(b"login %d %s" % (session.number, client.result))

    def finds_closed(self, session):
        """Tells the client that waits for bytes that none will come; whether it does wait so."""
        client = session.client
        if not client or client.result or client.down or not session.ended:
            return False
        client.result = b"closed"
        self.line(b"login %d closed" % session.number)
        return True

    def on_down(self, number, most):
        session = self.sessions.get(number)
        if session is None or not session.client:
            return False
        if not session.client.down:
            return self.finds_closed(session)
        self.bring_down(session, most)
        return True

    def on_step(self, number):
        session = self.sessions.get(number)
        if session is None or not session.waits():
            return False
        session.step()
        return True

    def on_run(self, number):
        session, done = self.sessions.get(number), False
        if session is None:
            return False
        while True:
            client = session.client
            if session.waits():
                session.step()
            elif client and client.down:
                self.bring_down(session, len(client.down))
            elif client and client.up and self.open_to(number, True):
                self.bring_up(session, len(client.up))
            else:
                return self.finds_closed(session) or done
            done = True

    def on_command(self, number, payload):
        session = self.open_to(number, True)
        if session is None or session.client.result != b"opened":
            return False
        session.client.up += packet(0, payload)
        return True

    def on_say(self, number, text):
        return self.on_command(number, b"\x03" + text)

    def end_peer(self, number, how):
        session = self.sessions.get(number)
        if session is None or session.ended or session.closing:
            return False
        session.closing = how
        session.come()
        return True

    def on_close(self, number):
        return self.end_peer(number, "close")

    def on_cut(self, number):
        return self.end_peer(number, "cut")


def replay(opening, settings, events):
    """What the events print, and the last line."""
    world = World(opening, settings)
    for name, words in events:
        world.event(name, words)
    world.line(b"end %d" % world.entries)
    return b"\n".join(world.lines) + b"\n"
