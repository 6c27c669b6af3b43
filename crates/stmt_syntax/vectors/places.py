#!/usr/bin/env python3
"""Prints what syntax_probe is asked (`places.py stdin`) and what it has to answer (`places.py stdout`): statements
and what is printed of them, texts and where they are refused, the beginnings of sample statements and samples of
which one token is edited, and spellings with odd spacing, case and quotes.

The first two tables are written by hand. The places near samples come from a brute search that shares nothing
with the crate: tokens are cut out by a regular expression, whole statements are recognised by another one over
the tokens, and a token is the first at which no statement fits where none of many completions of the tokens up
to it is recognised. The completions are the ends of the samples, alone or behind one more token of them. The odd
spellings are drawn by a fixed seed.
"""
import functools
import random
import re
import sys

READS = None
TOKEN = re.compile(
    rb"(?P<word>[A-Za-z0-9_$]+)|(?P<sign>[@*.,;()])"
    rb"|(?P<text>'(?:''|\\.|[^'\\])*'(?!')|\"(?:\"\"|\\.|[^\"\\])*\"(?!\"))"
    rb"|(?P<quoted>`(?:``|[^`])*`(?!`))", re.DOTALL)
BLANKS = re.compile(rb"[ \t\r\n]*")


def content(literal):
    """What stands in quotes; the samples have no escape but a backslash and a quote."""
    quote = literal[:1]
    inner = literal[1:-1].replace(quote + quote, quote)
    return inner if quote == b'`' else re.sub(rb"\\(.)", rb"\1", inner, flags=re.DOTALL)


def tokens(text):
    """The tokens with their first and last places; a bad one ends them."""
    found, at = [], BLANKS.match(text).end()
    while at < len(text):
        m = TOKEN.match(text, at)
        if m is None:
            return found + [('b', at, len(text))]
        kind = m.lastgroup
        spelled = m.group().decode('latin1')
        if kind == 'word':
            code = 'w' + spelled.lower()
        elif kind == 'sign':
            code = 's' + spelled
        else:
            code = kind[0] + content(m.group()).lower().hex()
        found.append((code, at, m.end()))
        at = BLANKS.match(text, m.end()).end()
    return found


def words(text):
    return ' '.join('w' + word for word in text.lower().split())


PART = r'(?:w\S+|t\S*|q\S*)'
TEXT = r't\S*'
NUMBER = r'w[0-9]+'
LOCALHOST = b'localhost'.hex()
NAME = rf'{PART}(?: s@ (?:wlocalhost|[tq]{LOCALHOST}|[tq]25))?'
RETAIN = rf'(?: {words("RETAIN CURRENT PASSWORD")})?'
FACTOR = rf'{words("IDENTIFIED WITH")} {PART} was {TEXT}'
AUTH = rf'widentified (?:wby {TEXT}|wwith {PART}(?: wby {TEXT})?)'
OPTION = '(?: (?:' + '|'.join([
    rf'wpassword wexpire(?: wdefault| wnever| winterval {NUMBER} wday)?',
    rf'wpassword whistory (?:wdefault|{NUMBER})',
    rf'wpassword wreuse winterval (?:wdefault|{NUMBER} wday)',
    rf'wfailed_login_attempts {NUMBER}',
    rf'wpassword_lock_time (?:wunbounded|{NUMBER})',
    r'waccount w(?:un)?lock']) + '))'
NUMBERED = r'w[23] wfactor'
CHANGE = '(?: (?:' + '|'.join([
    rf'widentified wby {TEXT}{RETAIN}',
    rf'widentified wwith {PART}(?: wby {TEXT}{RETAIN})?',
    words('DISCARD OLD PASSWORD'),
    rf'w(?:add|modify) {NUMBERED} {FACTOR}',
    rf'wdrop {NUMBERED}']) + '))'
OWN = rf'(?:widentified wby {TEXT}{RETAIN}|{words("DISCARD OLD PASSWORD")})'
PRIVILEGE = rf'(?:{words("CREATE USER")}|wapplication_password_admin)'
PRIVILEGES = rf'{PRIVILEGE}(?: s, {PRIVILEGE})* won s\* s\. s\*'
STATEMENT = re.compile('(?:' + '|'.join([
    rf'wcreate wuser {NAME}(?: {AUTH}(?: wand {FACTOR}){{0,2}})?{OPTION}*',
    rf'walter wuser {NAME}(?:{CHANGE}{OPTION}*|{OPTION}+)',
    rf'walter wuser wuser s\( s\) {OWN}',
    rf'wdrop wuser {NAME}',
    words('FLUSH PRIVILEGES'),
    rf'wgrant {PRIVILEGES} wto {NAME}',
    rf'wrevoke {PRIVILEGES} wfrom {NAME}']) + ')(?: s;)?')

SAMPLES = [
    b"create user 'a'@'localhost' identified with 'm' by 'p' and identified with x as 'y' AND IDENTIFIED WITH z AS ''"
    b" password expire interval 3 day account lock",
    b'ALTER USER a@`%` IDENTIFIED BY "p" RETAIN CURRENT PASSWORD PASSWORD HISTORY 5;',
    b"ALTER USER USER() IDENTIFIED BY 'p' RETAIN CURRENT PASSWORD",
    b"alter user user@localhost discard old password failed_login_attempts 3 password_lock_time unbounded",
    b"ALTER USER a ADD 2 FACTOR IDENTIFIED WITH m AS 'l' PASSWORD REUSE INTERVAL 7 DAY",
    b"ALTER USER a MODIFY 3 FACTOR IDENTIFIED WITH `m` AS \"l\"\t",
    b"ALTER USER a DROP 2 FACTOR",
    b"DROP USER 'a''b\\'c'@\"%\" ;",
    b"FLUSH PRIVILEGES;",
    b"GRANT CREATE USER, APPLICATION_PASSWORD_ADMIN ON *.* TO a@localhost",
    b"REVOKE APPLICATION_PASSWORD_ADMIN,CREATE USER ON*.*FROM\"a\"",
    b"CREATE USER create PASSWORD EXPIRE NEVER PASSWORD HISTORY DEFAULT PASSWORD REUSE INTERVAL DEFAULT"
    b" PASSWORD_LOCK_TIME 5 ACCOUNT UNLOCK",
    b"ALTER USER USER ( ) DISCARD OLD PASSWORD",
    b"ALTER USER `a` IDENTIFIED WITH m BY 'q' PASSWORD EXPIRE PASSWORD EXPIRE DEFAULT",
]
CODES = [[code for code, _, _ in tokens(sample)] for sample in SAMPLES]
ENDS = sorted({tuple(codes[k:]) for codes in CODES for k in range(len(codes) + 1)}, key=len)
ONE_MORE = sorted({code for codes in CODES for code in codes})


def is_statement(codes):
    return STATEMENT.fullmatch(' '.join(codes)) is not None


@functools.lru_cache(maxsize=None)
def goes_on(front):
    if any(is_statement(front + end) for end in ENDS):
        return True
    return any(is_statement(front + (code,) + end) for code in ONE_MORE for end in ENDS)


def place(text):
    found = tokens(text)
    codes = tuple(code for code, _, _ in found)
    if is_statement(codes):
        return READS
    for n, (_, start, _) in enumerate(found):
        if not goes_on(codes[:n + 1]):
            return start
    return len(text)


# What is printed, and its words: a name or a string is a pair.
NAMES = [b'a', b'', b"it's", b'USER', b'back\\slash', b'two "x"', b'b`q', b'\0nul', b'tab\tand\nline', b'100%']
PRINTED = [
    ['CREATE', 'USER', ('name', 0), '@', ('host', b'%')],
    ['CREATE', 'USER', ('name', 1), '@', ('host', b'localhost'), 'IDENTIFIED', 'BY', ('text', 2), 'PASSWORD', 'EXPIRE'],
    ['CREATE', 'USER', ('name', 2), '@', ('host', b'%'), 'IDENTIFIED', 'WITH', ('name', 4), 'BY', ('text', 5), 'AND', 'IDENTIFIED',
     'WITH', ('name', 6), 'AS', ('text', 7), 'AND', 'IDENTIFIED', 'WITH', ('name', 8), 'AS', ('text', 1), 'PASSWORD', 'EXPIRE',
     'INTERVAL', '90', 'DAY', 'PASSWORD', 'HISTORY', '5', 'PASSWORD', 'REUSE', 'INTERVAL', '365', 'DAY', 'FAILED_LOGIN_ATTEMPTS',
     '4', 'PASSWORD_LOCK_TIME', 'UNBOUNDED', 'ACCOUNT', 'UNLOCK'],
    ['ALTER', 'USER', 'USER', '(', ')', 'IDENTIFIED', 'BY', ('text', 9), 'RETAIN', 'CURRENT', 'PASSWORD'],
    ['ALTER', 'USER', 'USER', '(', ')', 'DISCARD', 'OLD', 'PASSWORD'],
    ['ALTER', 'USER', ('name', 3), '@', ('host', b'localhost'), 'IDENTIFIED', 'WITH', ('name', 9), 'PASSWORD', 'EXPIRE', 'NEVER'],
    ['ALTER', 'USER', ('name', 5), '@', ('host', b'%'), 'DISCARD', 'OLD', 'PASSWORD', 'PASSWORD', 'HISTORY', 'DEFAULT'],
    ['ALTER', 'USER', ('name', 7), '@', ('host', b'%'), 'ADD', '2', 'FACTOR', 'IDENTIFIED', 'WITH', ('name', 0), 'AS', ('text', 4)],
    ['ALTER', 'USER', ('name', 8), '@', ('host', b'%'), 'MODIFY', '3', 'FACTOR', 'IDENTIFIED', 'WITH', ('name', 1), 'AS', ('text', 6),
     'PASSWORD', 'REUSE', 'INTERVAL', 'DEFAULT', 'PASSWORD_LOCK_TIME', '0'],
    ['ALTER', 'USER', ('name', 9), '@', ('host', b'localhost'), 'DROP', '3', 'FACTOR', 'ACCOUNT', 'LOCK'],
    ['DROP', 'USER', ('name', 6), '@', ('host', b'%')],
    ['FLUSH', 'PRIVILEGES'],
    ['GRANT', 'CREATE', 'USER', ',', 'APPLICATION_PASSWORD_ADMIN', 'ON', '*', '.', '*', 'TO', ('name', 4), '@', ('host', b'localhost')],
    ['GRANT', 'APPLICATION_PASSWORD_ADMIN', 'ON', '*', '.', '*', 'TO', ('name', 0), '@', ('host', b'%')],
    ['REVOKE', 'CREATE', 'USER', 'ON', '*', '.', '*', 'FROM', ('name', 2), '@', ('host', b'%')],
]


def bytes_of(word):
    return NAMES[word[1]] if isinstance(word[1], int) else word[1]


def printed_word(word):
    if isinstance(word, str):
        return word.encode()
    marks = {39: b"''", 92: b'\\\\', 0: b'\\0'}
    return b"'" + b''.join(marks.get(b, bytes([b])) for b in bytes_of(word)) + b"'"


def printed(words_):
    text = b''
    for i, word in enumerate(words_):
        before = words_[i - 1] if i else None
        glued = i == 0 or word in ('@', '.', ',', '(', ')') or before in ('@', '.')
        text += (b'' if glued or (word == '*' and before == '.') else b' ') + printed_word(word)
    return text


def odd_word(draw, word):
    if isinstance(word, str):
        if word.isdigit() and word not in ('2', '3'):
            return (b'0' * draw.randrange(3)) + word.encode()
        return ''.join(draw.choice((c.lower(), c.upper())) for c in word).encode()
    kind, data = word[0], bytes_of(word)
    if kind == 'host' and data == b'localhost' and draw.randrange(2):
        return b'LocalHost'
    if kind == 'name' and re.fullmatch(rb'[A-Za-z0-9_$]+', data) and data != b'USER' and draw.randrange(2):
        return data
    quote = draw.choice((b"'", b'"') if kind == 'text' else (b"'", b'"', b'`'))
    if quote == b'`':
        return quote + data.replace(quote, quote + quote) + quote
    escapes = {0: b'\\0', 10: b'\\n', 9: b'\\t', 13: b'\\r'}
    spelled = b''
    for b in data:
        byte = bytes([b])
        if byte == quote:
            spelled += draw.choice((quote + quote, b'\\' + quote))
        elif byte == b'\\':
            spelled += b'\\\\'
        elif b in escapes and draw.randrange(2):
            spelled += escapes[b]
        elif byte in (b'x', b'a', b'`') and draw.randrange(2):
            spelled += b'\\' + byte
        else:
            spelled += byte
    return quote + spelled + quote


def odd(draw, words_):
    text, before = b'', b' '
    for word in words_:
        spelled = odd_word(draw, word)
        word_like = re.compile(rb'[A-Za-z0-9_$]')
        touching = bool(word_like.match(before[-1:]) and word_like.match(spelled[:1]))
        touching = touching or (before[-1:] == spelled[:1] and spelled[:1] in (b"'", b'"', b'`'))
        blanks = b''.join(draw.choice((b' ', b'\t', b'\n', b'\r')) for _ in range(draw.randrange(3)))
        text += (blanks or (b' ' if touching else b'')) + spelled
        before = spelled
    return text + draw.choice((b'', b';', b' ; ', b'\n'))


# Statements, and what is printed of them.
SHOWN = [
    (b"create user a", b"CREATE USER 'a'@'%'"),
    (b"alter user user() discard old password", b"ALTER USER USER() DISCARD OLD PASSWORD"),
    (b"DROP\tUSER a @ LocalHost\r\n;", b"DROP USER 'a'@'localhost'"),
    (b"Flush Privileges", b"FLUSH PRIVILEGES"),
    (b"grant application_password_admin,create user,create user on*.*to a",
     b"GRANT CREATE USER, APPLICATION_PASSWORD_ADMIN ON *.* TO 'a'@'%'"),
    (b"REVOKE CREATE USER ON * . * FROM a@`%`", b"REVOKE CREATE USER ON *.* FROM 'a'@'%'"),
    (b"ALTER USER USER ( ) IDENTIFIED BY \"p\" RETAIN CURRENT PASSWORD;",
     b"ALTER USER USER() IDENTIFIED BY 'p' RETAIN CURRENT PASSWORD"),
    (b"ALTER USER 'a' IDENTIFIED WITH foo BY 'q'", b"ALTER USER 'a'@'%' IDENTIFIED WITH 'foo' BY 'q'"),
    (b"ALTER USER 'a' DROP 2 FACTOR", b"ALTER USER 'a'@'%' DROP 2 FACTOR"),
    (b"ALTER USER 'a' ADD 2 FACTOR IDENTIFIED WITH external_clear AS ''",
     b"ALTER USER 'a'@'%' ADD 2 FACTOR IDENTIFIED WITH 'external_clear' AS ''"),
    (b"ALTER USER a MODIFY 3 FACTOR IDENTIFIED WITH \"m\" AS 'l'",
     b"ALTER USER 'a'@'%' MODIFY 3 FACTOR IDENTIFIED WITH 'm' AS 'l'"),
    (b"ALTER USER 'a' IDENTIFIED WITH mysql_native_password BY 'q' RETAIN CURRENT PASSWORD",
     b"ALTER USER 'a'@'%' IDENTIFIED WITH 'mysql_native_password' BY 'q' RETAIN CURRENT PASSWORD"),
    (b"ALTER USER 'root'@'localhost' IDENTIFIED BY 'q' RETAIN CURRENT PASSWORD",
     b"ALTER USER 'root'@'localhost' IDENTIFIED BY 'q' RETAIN CURRENT PASSWORD"),
    (b"CREATE USER 'a' IDENTIFIED BY 'p'", b"CREATE USER 'a'@'%' IDENTIFIED BY 'p'"),
    (b"CREATE USER ''@'localhost'", b"CREATE USER ''@'localhost'"),
    (b"CREATE USER a IDENTIFIED WITH Caching_SHA2_password",
     b"CREATE USER 'a'@'%' IDENTIFIED WITH 'Caching_SHA2_password'"),
    (b"CREATE USER a IDENTIFIED WITH `m` BY 'p' AND IDENTIFIED WITH x AS 'y' AND IDENTIFIED WITH z AS \"\"",
     b"CREATE USER 'a'@'%' IDENTIFIED WITH 'm' BY 'p' AND IDENTIFIED WITH 'x' AS 'y' AND IDENTIFIED WITH 'z' AS ''"),
    (b"ALTER USER 'b' ACCOUNT LOCK", b"ALTER USER 'b'@'%' ACCOUNT LOCK"),
    (b"ALTER USER 'a' PASSWORD HISTORY 257", b"ALTER USER 'a'@'%' PASSWORD HISTORY 257"),
    (b"ALTER USER 'a' FAILED_LOGIN_ATTEMPTS 99999 FAILED_LOGIN_ATTEMPTS 2",
     b"ALTER USER 'a'@'%' FAILED_LOGIN_ATTEMPTS 2"),
    (b"ALTER USER a FAILED_LOGIN_ATTEMPTS 4294967296 PASSWORD HISTORY 007",
     b"ALTER USER 'a'@'%' PASSWORD HISTORY 7 FAILED_LOGIN_ATTEMPTS 4294967295"),
    (b"ALTER USER a PASSWORD_LOCK_TIME 99999999999999999999999", b"ALTER USER 'a'@'%' PASSWORD_LOCK_TIME 4294967295"),
    (b"CREATE USER a ACCOUNT LOCK ACCOUNT UNLOCK PASSWORD_LOCK_TIME UNBOUNDED PASSWORD REUSE INTERVAL DEFAULT PASSWORD EXPIRE INTERVAL 3 DAY",
     b"CREATE USER 'a'@'%' PASSWORD EXPIRE INTERVAL 3 DAY PASSWORD REUSE INTERVAL DEFAULT PASSWORD_LOCK_TIME UNBOUNDED ACCOUNT UNLOCK"),
    (b"CREATE USER a PASSWORD EXPIRE NEVER PASSWORD EXPIRE PASSWORD HISTORY DEFAULT PASSWORD REUSE INTERVAL 4 DAY PASSWORD_LOCK_TIME 5",
     b"CREATE USER 'a'@'%' PASSWORD EXPIRE PASSWORD HISTORY DEFAULT PASSWORD REUSE INTERVAL 4 DAY PASSWORD_LOCK_TIME 5"),
    (b"CREATE USER a PASSWORD EXPIRE DEFAULT PASSWORD EXPIRE NEVER", b"CREATE USER 'a'@'%' PASSWORD EXPIRE NEVER"),
    (b"alter user user account lock", b"ALTER USER 'user'@'%' ACCOUNT LOCK"),
    (b"alter user User@localhost account unlock", b"ALTER USER 'User'@'localhost' ACCOUNT UNLOCK"),
    (b"create user create identified with with by 'by'", b"CREATE USER 'create'@'%' IDENTIFIED WITH 'with' BY 'by'"),
    (b"drop user user", b"DROP USER 'user'@'%'"),
    (b"drop user 2", b"DROP USER '2'@'%'"),
    (b"DROP USER 'a\\'b''c\\\\d\\%\\_\\0\\n\\r\\t\\b\\Z\\x\"'",
     b"DROP USER 'a''b''c\\\\d\\\\%\\\\_\\0\n\r\t\x08\x1ax\"'@'%'"),
    (b"DROP USER \"a\\\"b\"\"c'\"", b"DROP USER 'a\"b\"c'''@'%'"),
    (b"DROP USER `a\\n``b`", b"DROP USER 'a\\\\n`b'@'%'"),
    (b"DROP USER 'a\n\xff'", b"DROP USER 'a\n\xff'@'%'"),
    (b"DROP USER '\\0'", b"DROP USER '\\0'@'%'"),
    (b"DROP USER \"\\n\\r\\t\\b\\Z\"", b"DROP USER '\n\r\t\x08\x1a'@'%'"),
    (b"DROP USER '\\%\\_'", b"DROP USER '\\\\%\\\\_'@'%'"),
    (b"DROP USER '\\'\\\"\\\\'", b"DROP USER '''\"\\\\'@'%'"),
    (b"ALTER USER a IDENTIFIED BY '\\%\\q'", b"ALTER USER 'a'@'%' IDENTIFIED BY '\\\\%q'"),
    (b"DROP USER ''''", b"DROP USER ''''@'%'"),
    (b"DROP USER \"\"\"\"", b"DROP USER '\"'@'%'"),
    (b"DROP USER ````", b"DROP USER '`'@'%'"),
    (b"DROP USER `\\`", b"DROP USER '\\\\'@'%'"),
    (b"ALTER USER a PASSWORD HISTORY 4294967294 PASSWORD REUSE INTERVAL 4294967295 DAY FAILED_LOGIN_ATTEMPTS 4294967296",
     b"ALTER USER 'a'@'%' PASSWORD HISTORY 4294967294 PASSWORD REUSE INTERVAL 4294967295 DAY FAILED_LOGIN_ATTEMPTS 4294967295"),
    (b"ALTER USER a PASSWORD EXPIRE INTERVAL 18446744073709551616 DAY PASSWORD_LOCK_TIME 00000000000000000000004294967297",
     b"ALTER USER 'a'@'%' PASSWORD EXPIRE INTERVAL 4294967295 DAY PASSWORD_LOCK_TIME 4294967295"),
]

# Texts, and where they are refused.
REFUSED = [
    (b"ALTER USER", 10),
    (b"", 0),
    (b"  \n", 3),
    (b"FLUSH", 5),
    (b"ALTER USER a", 12),
    (b"ALTER USER a  ", 14),
    (b"CREATE USER a IDENTIFIED BY 'p' AND", 35),
    (b"ALTER USER USER (", 17),
    (b"ALTER USER a PASSWORD HISTORY", 29),
    (b"GRANT CREATE USER,", 18),
    (b"DROP USER a@", 12),
    (b"CREATE USER 'a'@'h'", 16),
    (b"CREATE USER a@%", 14),
    (b"FLUSH TABLES", 6),
    (b"FLUSH PRIVILEGES ;;", 18),
    (b"FLUSH PRIVILEGES ; x", 19),
    (b"ALTER USER a;", 12),
    (b"CREATE USER a IDENTIFIED BY `p`", 28),
    (b"CREATE USER a IDENTIFIED BY 'p' RETAIN CURRENT PASSWORD", 32),
    (b"CREATE USER a IDENTIFIED WITH m AS 'l'", 32),
    (b"ALTER USER a ADD 4 FACTOR", 17),
    (b"ALTER USER a ADD 02 FACTOR", 17),
    (b"ALTER USER a PASSWORD HISTORY ACCOUNT LOCK", 30),
    (b"ALTER USER a FAILED_LOGIN_ATTEMPTS -1", 35),
    (b"ALTER USER a FAILED_LOGIN_ATTEMPTS 1x", 35),
    (b"CREATE USER a IDENTIFIED BY '' AND IDENTIFIED WITH x AS '' AND IDENTIFIED WITH x AS '' AND", 87),
    (b"CREATE USER a AND", 14),
    (b"GRANT CREATE USER ON *.* FROM a", 25),
    (b"GRANT CREATE ON *.* TO a", 13),
    (b"ALTER USER USER ( ) ACCOUNT LOCK", 20),
    (b"ALTER USER USER() IDENTIFIED WITH m", 29),
    (b"ALTER USER `USER`() DISCARD OLD PASSWORD", 17),
    (b"ALTER USER a ACCOUNT LOCK DISCARD OLD PASSWORD", 26),
    (b"ALTER USER a IDENTIFIED WITH m RETAIN CURRENT PASSWORD", 31),
    (b"'ALTER' USER a", 0),
    (b"DROP USER a%", 11),
    (b"DROP TABLE %", 5),
    (b"CREATE USER 'a\\'", 12),
    (b"CREATE USER 'a", 12),
    (b"CREATE USER `a``", 12),
    (b"DROP USER a 'b", 12),
    (b"DROP USER 'a'' ;", 10),
    (b"FLUSH PRIVILEGES; #", 18),
    (b"DROP USER '\\", 10),
    (b"DROP USER \"a\\\"", 10),
    (b"DROP USER '''", 10),
    (b"ALTER USER a IDENTIFIED BY 'p\\'", 27),
]


def cases():
    """What is asked, and its answer."""
    for text, shown in SHOWN:
        yield 'print', text, shown.hex()
    for text, at in REFUSED:
        yield 'place', text, at
    for sample in SAMPLES:
        found = tokens(sample)
        near = [sample[:n] for n in range(len(sample) + 1)]
        for _, start, stop in found:
            token = sample[start:stop]
            for new in [b' ', token + b' ' + token, b' or ', b'?']:
                near.append(sample[:start] + new + sample[stop:])
        for text in near:
            at = place(text)
            yield 'place', text, 'read' if at is READS else at
    draw = random.Random(20261201)
    for words_ in PRINTED:
        shown = printed(words_).hex()
        yield 'print', printed(words_), shown
        for _ in range(3):
            yield 'print', odd(draw, words_), shown


# Texts of a mebibyte: front, part, how often it stands, back, and what is printed of the whole or the place.
LONG = [
    (b"DROP USER '", b"ab", 524288, b"'", b"DROP USER '" + b"ab" * 524288 + b"'@'%'"),
    (b"ALTER USER a", b" ACCOUNT LOCK", 80660, b"", b"ALTER USER 'a'@'%' ACCOUNT LOCK"),
    (b"ALTER USER a", b" ACCOUNT LOCK", 80660, b" x", 1048593),
]


def long_answer(answer):
    return answer if isinstance(answer, int) else '%d %s' % (len(answer), answer[-20:].hex())


def main():
    for kind, text, answer in cases():
        print('%s %s' % (kind, text.hex()) if sys.argv[1] == 'stdin' else answer)
    for front, part, count, back, answer in LONG:
        if sys.argv[1] == 'stdin':
            print('long', front.hex(), part.hex(), count, back.hex())
        else:
            print(long_answer(answer))


main()
