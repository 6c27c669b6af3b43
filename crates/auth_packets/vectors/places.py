#!/usr/bin/env python3
"""Prints what packet_probe is asked (`places.py stdin`) and what it has to answer (`places.py stdout`): payloads
of each message, each cut, and each with one byte made 00 or ff; the fields of what a payload spells and the
payload that is written of them, or the place at which a reader must stop. Then each byte that another command
may begin with, or may not.

It shares nothing with the crate: a recogniser of whole payloads that knows no places gives the fields, a writer
of each message lays them out again, and for the places each front of a payload is tried with a list of ends, a
run of zero bytes and then an end of a sample payload.
"""

import sys

def lenenc(b, i):
    if i >= len(b): return None
    f = b[i]
    if f < 251: return f, i + 1
    n = {252: 2, 253: 3, 254: 8}.get(f)
    if n is None or i + 1 + n > len(b): return None
    return int.from_bytes(b[i+1:i+1+n], 'little'), i + 1 + n

def nul(b, i):
    j = b.find(0, i)
    return None if j < 0 else (b[i:j], j + 1)

def counted(b, i, le):
    if le:
        r = lenenc(b, i)
    else:
        r = (b[i], i + 1) if i < len(b) else None
    if r is None: return None
    n, i = r
    return None if i + n > len(b) else (b[i:i+n], i + n)

def greeting(b):
    if b[:1] != b'\x0a': return None
    r = nul(b, 1)
    if r is None: return None
    version, i = r
    if i + 4 + 8 + 1 + 2 + 1 + 2 + 2 + 1 + 10 > len(b): return None
    id = b[i:i+4]; n1 = b[i+4:i+12]; i += 13
    low = int.from_bytes(b[i:i+2], 'little'); cs = b[i+2]; st = b[i+3:i+5]
    high = int.from_bytes(b[i+5:i+7], 'little'); n = b[i+7]; i += 18
    flags = low | high << 16
    if flags & 0x88200 != 0x88200: return None
    size = max(13, n - 8)
    if i + size > len(b): return None
    part = b[i:i+size]; i += size
    if n == 21 and part[12] != 0: return None
    rest = b[i:]
    if rest.endswith(b'\0'): rest = rest[:-1]
    if 0 in rest: return None
    return (version, id, n1 + part[:12], flags, cs, st, rest)

def response(b):
    if len(b) < 32: return None
    flags = int.from_bytes(b[:4], 'little')
    if flags & 0x88200 != 0x88200: return None
    r = nul(b, 32)
    if r is None: return None
    user, i = r
    r = counted(b, i, flags & 0x200000 != 0)
    if r is None: return None
    auth, i = r
    db = None
    if flags & 8:
        r = nul(b, i)
        if r is None: return None
        db, i = r
    r = nul(b, i)
    if r is None: return None
    plugin, i = r
    attrs = None
    if flags & 0x100000:
        r = counted(b, i, True)
        if r is None: return None
        attrs, i = r
    return (flags, b[4:8], b[8], user, auth, db, plugin, attrs, b[i:])

def named(first):
    def f(b):
        if b[:1] != bytes([first]): return None
        t = b[1:]
        j = t.find(0)
        return (t, b'') if j < 0 else (t[:j], t[j+1:])
    return f

def more(b):
    return (b[1:],) if b[:1] == b'\x01' else None

def ok(b):
    if b[:1] != b'\0': return None
    r = lenenc(b, 1)
    if r is None: return None
    a, i = r
    r = lenenc(b, i)
    if r is None: return None
    l, i = r
    if i + 4 > len(b): return None
    return (a, l, b[i:i+2], b[i+2:i+4], b[i+4:])

def err(b):
    if b[:1] != b'\xff' or len(b) < 3: return None
    t = b[3:]
    if t[:1] == b'#':
        return None if len(t) < 6 else (b[1:3], t[1:6], t[6:])
    return (b[1:3], b'HY000', t)

def eof(b):
    return (b[1:3], b[3:5]) if len(b) == 5 and b[0] == 0xfe else None

def change(b):
    if b[:1] != b'\x11': return None
    r = nul(b, 1)
    if r is None: return None
    u, i = r
    r = counted(b, i, False)
    if r is None: return None
    a, i = r
    r = nul(b, i)
    if r is None: return None
    d, i = r
    return (u, a, d, b[i:])

def command(b):
    if not b: return 'nothing'
    if b[0] == 0x11:
        c = change(b)
        return None if c is None else ('change',) + c
    return (b[0], b[1:] if b[0] == 3 else b'')

H = bytes.fromhex
FILLER = '00' * 23
GREETING = H('0a382e302e302d6c6f67696e00' '01000000' '3030303030303030' '00' '08a2' 'ff' '0200' '7810' '15'
             '00000000000000000000' '303030303030303030303030' '00' '63616368696e675f736861325f70617373776f726400')
LONG_NONCE = H('0a352e3700' '02000000' '4142434445464748' '07' '00a2' '21' '0200' '0800' '17'
               '01010101010101010101' '494a4b4c4d4e4f5051525354' '585960' '6d79')
PLAIN = H('00820800' '00000001' 'ff' + FILLER + '6e617400' '03' 'aabbcc' '6d79' '00')
ALL_FLAGS = H('8da6ff11' '00000001' 'ff' + FILLER + '726f6f7400' '0100' '7465737400' '63616368696e6700' '16'
              '0c5f636c69656e745f6e616d65' '086c69626d7973716c')
LONG_FORMS = H('00823800' '00000001' '21' + FILLER + '6e00' 'fc0200' '0102' '7000' 'fd040000' '01610162' '9999')
SAMPLES = {
    'greeting': (greeting, [GREETING, LONG_NONCE]),
    'response': (response, [PLAIN, ALL_FLAGS, LONG_FORMS]),
    'switch': (named(0xfe), [H('fe6d790030313200'), H('fe6d79')]),
    'more': (more, [H('010400')]),
    'next': (named(0x02), [H('026d7973716c00'), H('0261'), H('026d7973716c5f636c6561725f70617373776f7264')]),
    'ok': (ok, [H('00fc05000002000000'), H('00fd010203fe0102030405060708020001006869')]),
    'err': (err, [H('ff1504233238303030') + b'no', H('ff15046e6f'), H('ff1504')]),
    'eof': (eof, [H('fe00000200')]),
    'change': (change, [H('11726f6f7400' '02' 'a1a2' '646200' '2d00'), H('11726f6f74000000')]),
    'command': (command, [H('11726f6f74000000'), H('0373656c6563742031'), H('0e'), H('01'), H('1f00'), H('1b00'),
                          H('1b01')]),
}
# Responses that real clients send, taken from a Unix socket on which a server had greeted them with the method
# caching_sha2_password or mysql_native_password; the last two lack flags, and no reader takes them.
CLIENTS = {
    'the command line of MariaDB': H(
        '84a6ff20000010002100000000000000000000000000000000000000000000006e61740020a9496e88462d05a27ca513'
        '91f001e6e4215fac994deb5d27c3a7767c912c6ab863616368696e675f736861325f70617373776f72640068035f6f73'
        '054c696e75780c5f636c69656e745f6e616d650a6c69626d617269616462045f7069640532333538300f5f636c69656e'
        '745f76657273696f6e06332e332e3230095f706c6174666f726d067838365f36340c70726f6772616d5f6e616d65056d'
        '7973716c'),
    'PyMySQL': H(
        '05a23a00ffffff002d00000000000000000000000000000000000000000000006e61740020359071f7530ace4afbe8d3'
        '7bd236056c0212f8b6df74ef3fc8a4bd3f28dfa4f263616368696e675f736861325f70617373776f726400360c5f636c'
        '69656e745f6e616d650770796d7973716c045f7069640532333539330f5f636c69656e745f76657273696f6e05312e30'
        '2e32'),
    "PHP's mysqlnd": H(
        '85a21a00000000c0ff00000000000000000000000000000000000000000000006e617400205e0c2ef01063cc64753a69'
        'fb00923f8751ca7fcbe9c1b74cff558d89b749b40f63616368696e675f736861325f70617373776f7264002c0c5f636c'
        '69656e745f6e616d65076d7973716c6e640c5f7365727665725f686f7374096c6f63616c686f7374'),
    "Go's go-sql-driver": H(
        '81a20a00000000002d00000000000000000000000000000000000000000000006e617400205ee8fcbcb2c28047a7c3b0'
        '50372f564cfef2285e1b3fe2c41aeca71d4bc1964a63616368696e675f736861325f70617373776f726400'),
    "MariaDB's Connector/J": H(
        '82a3be0000000040e000000000000000000000000000000000000000000000006e61740014fde73f8efd378502c6cbdb'
        'acc2e14e00302dffda6d7973716c5f6e61746976655f70617373776f726400970c5f636c69656e745f6e616d65134d61'
        '726961444220436f6e6e6563746f722f4a0f5f636c69656e745f76657273696f6e05322e372e360c5f7365727665725f'
        '686f7374096c6f63616c686f7374035f6f73054c696e7578045f706964053233363834075f74687265616401310c5f6a'
        '6176615f76656e646f720644656269616e0d5f6a6176615f76657273696f6e0731372e302e3135'),
    "Go's mymysql": H(
        '00a20300ffffff00ff00000000000000000000000000000000000000000000006e61740014b56dde91dcb6bfb366a90e'
        '3b66775764a6cb6899'),
    'the old check of HAProxy': H(
        '00800000016e61740000'),
}


def place(kind, payload):
    """The length of the longest front that goes on to a spelling; None where the whole is one."""
    recognise, samples = SAMPLES[kind]
    if recognise(payload) is not None:
        return None
    ends = sorted({s[k:] for s in samples for k in range(len(s) + 1)}, key=len)
    for n in range(len(payload), -1, -1):
        for zeros in list(range(45)) + [100, 140, 200, 255, 260]:
            front = payload[:n] + bytes(zeros)
            if any(recognise(front + end) is not None for end in ends):
                return n
        # A length in two or three bytes.
        if kind == 'response' and recognise(payload[:n] + bytes(17000000)) is not None:
            return n
    raise SystemExit('no front of %s goes on' % payload.hex())


# ## The fields as text, and the message laid out again


def number(b):
    return int.from_bytes(b, 'little')


def shortest(n):
    """A length-encoded integer."""
    if n < 251:
        return bytes([n])
    size, first = (2, 252) if n < 1 << 16 else (3, 253) if n < 1 << 24 else (8, 254)
    return bytes([first]) + n.to_bytes(size, 'little')


def greeting_out(value):
    version, ident, nonce, flags, charset, status, plugin = value
    low = flags.to_bytes(4, 'little')
    text = [('version', version), ('id', number(ident)), ('nonce', nonce), ('flags', flags), ('charset', charset),
            ('status', number(status)), ('plugin', plugin)]
    return text, (b'\x0a' + version + b'\0' + ident + nonce[:8] + b'\0' + low[:2] + bytes([charset]) + status
                  + low[2:] + b'\x15' + bytes(10) + nonce[8:] + b'\0' + plugin + b'\0')


def response_out(value):
    flags, most, charset, user, auth, database, plugin, attributes, rest = value
    text = [('flags', flags), ('max_packet', number(most)), ('charset', charset), ('user', user), ('auth', auth),
            ('database', database), ('plugin', plugin), ('attributes', attributes), ('rest', rest)]
    length = shortest(len(auth)) if flags & 0x200000 else bytes([len(auth)])
    out = flags.to_bytes(4, 'little') + most + bytes([charset]) + bytes(23) + user + b'\0' + length + auth
    if database is not None:
        out += database + b'\0'
    out += plugin + b'\0'
    if attributes is not None:
        out += shortest(len(attributes)) + attributes
    return text, out + rest


def named_out(first):
    return lambda value: ([('plugin', value[0]), ('body', value[1])], bytes([first]) + value[0] + b'\0' + value[1])


def more_out(value):
    return [('body', value[0])], b'\x01' + value[0]


def ok_out(value):
    affected, last_id, status, warnings, info = value
    text = [('affected', affected), ('last_id', last_id), ('status', number(status)), ('warnings', number(warnings)),
            ('info', info)]
    return text, b'\0' + shortest(affected) + shortest(last_id) + status + warnings + info


def err_out(value):
    code, state, text = value
    return [('number', number(code)), ('state', state), ('text', text)], b'\xff' + code + b'#' + state + text


def eof_out(value):
    warnings, status = value
    return [('warnings', number(warnings)), ('status', number(status))], b'\xfe' + warnings + status


def change_out(value):
    user, auth, database, rest = value
    text = [('user', user), ('auth', auth), ('database', database), ('rest', rest)]
    return text, b'\x11' + user + b'\0' + bytes([len(auth)]) + auth + database + b'\0' + rest


def command_out(value):
    if value == 'nothing':
        return 'nothing', b''
    if value[0] == 'change':
        return change_out(value[1:])
    first, text = value
    if first == 3:
        return [('query', text)], b'\x03' + text
    known = {1: 'quit', 14: 'ping', 31: 'reset'}
    return known.get(first, [('other', first)]), bytes([first])


WRITERS = {
    'greeting': greeting_out, 'response': response_out, 'switch': named_out(0xfe), 'more': more_out,
    'next': named_out(0x02), 'ok': ok_out, 'err': err_out, 'eof': eof_out, 'change': change_out,
    'command': command_out,
}


def shown(fields):
    if isinstance(fields, str):
        return fields + ' '
    line = ''
    for name, value in fields:
        if value is None:
            line += name + ':none '
        else:
            line += '%s=%s ' % (name, value.hex() if isinstance(value, bytes) else value)
    return line


def answer(kind, payload):
    value = SAMPLES[kind][0](payload)
    if value is None:
        return 'at %d' % place(kind, payload)
    fields, out = WRITERS[kind](value)
    return shown(fields) + ('same' if out == payload else 'written=' + out.hex())


# COM_QUIT, COM_QUERY, COM_PING, COM_CHANGE_USER and COM_RESET_CONNECTION.
KNOWN = {0x01, 0x03, 0x0e, 0x11, 0x1f}


def payloads():
    """The kinds and payloads, in the order in which they are asked."""
    for kind, (_, samples) in SAMPLES.items():
        for sample in samples:
            for n in range(len(sample) + 1):
                yield kind, sample[:n]
            for byte in (0x00, 0xff):
                for i in range(len(sample)):
                    yield kind, sample[:i] + bytes([byte]) + sample[i + 1:]
    for client in CLIENTS.values():
        yield 'response', client


def main():
    wanted = sys.argv[1]
    for kind, payload in payloads():
        print('%s %s' % (kind, payload.hex()) if wanted == 'stdin' else answer(kind, payload))
    for first in range(256):
        known = first in KNOWN
        print('other %02x' % first if wanted == 'stdin' else 'not whole' if known else 'whole')


main()
