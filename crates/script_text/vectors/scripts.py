#!/usr/bin/env python3
"""Prints what script_probe is asked (`scripts.py stdin`) and what it has to answer (`scripts.py stdout`).

Every answer is written here by hand, from what docs/REPLAY.md says of scripts: the number of the first line that
doesn't fit, or the accounts, the settings and the events.
"""

import sys

# Lines of a setup that fit nowhere.
SETUP_LINES = [
    b"account  61 62",
    b"account 61  62",
    b"account 61 62 ",
    b" account 61 62",
    b"account\t61 62",
    b"account 61\t62",
    b"account 616 62",
    b"account 61 6",
    b"account 61 6g",
    b"account 61",
    b"account 61 ",
    b"account",
    b"account 61 62 63",
    b"account - 62",
    b"account 726f6f74 62",
    b"account 726F6F74 -",
    b"account 6100 62",
    b"account 61 6200",
    b"account 61 00",
    b"account 616161616161616161616161616161616161616161616161616161616161616161 -",
    b"Account 61 62",
    b"accounts 61 62",
    b"set  lifetime 1",
    b"set lifetime  1",
    b"set lifetime 1 2",
    b"set lifetime",
    b"set\tlifetime 1",
    b"set lifetime 65536",
    b"set lifetime 01",
    b"set lifetime +1",
    b"set lifetime -1",
    b"set history 257",
    b"set history 00",
    b"set reuse 65536",
    b"set reuse 1.",
    b"set disconnect 2",
    b"set disconnect on",
    b"set Lifetime 1",
    b"set other 1",
]

# Lines of events that fit nowhere.
EVENT_LINES = [
    b"clock",
    b"clock ",
    b"clock  1",
    b"clock\t1",
    b"clock 1 2",
    b"clock 01",
    b"clock 00",
    b"clock -1",
    b"clock +1",
    b"clock 1a",
    b"clock 18446744073709551616",
    b"clock 100000000000000000000000000000000000000000",
    b"admin",
    b"admin\tFLUSH PRIVILEGES",
    b"Admin FLUSH PRIVILEGES",
    b"admins FLUSH PRIVILEGES",
    b" admin FLUSH PRIVILEGES",
    b"fail",
    b"fail ",
    b"fail  keeper",
    b"fail keeper ",
    b"fail keeper 1",
    b"fail keepers",
    b"fail Keeper",
    b"fail\tkeeper",
    b"Fail keeper",
    b"failkeeper",
    b"open",
    b"open 0",
    b"open 01",
    b"open  1",
    b"open 1 ",
    b"open 1 2",
    b"open\t1",
    b"open 1\r",
    b"open 4294967296",
    b"bytes 1",
    b"bytes 1 ",
    b"bytes 1 0",
    b"bytes 1 000",
    b"bytes 0 00",
    b"bytes 01 00",
    b"bytes 4294967296 00",
    b"bytes 1  00",
    b"bytes  1 00",
    b"bytes 1 00 00",
    b"bytes 1\t00",
    b"bytes 1 0x00",
    b"bytes 1 --",
    b"bytes - 00",
]

# Lines of no kind.
OTHER_LINES = [
    b"end ",
    b"end 1",
    b" end",
    b"END",
    b" ",
    b"\t",
    b" # a comment begins a line",
    b"accept 61 62 63",
    b"Client 1 1028a200 61 62",
    b"clients 1 1028a200 61 62",
    b"Up 1 1",
    b"ups 1 1",
    b"dow 1 1",
    b"says 1 x",
    b"SAY 1 x",
    b"commands 1 00",
    b"fail verifier",
]

# Lines of clients that fit nowhere.
CLIENT_LINES = [
    b"client",
    b"client 1",
    b"client 1 1028a200",
    b"client 1 1028a200 61",
    b"client 1 1028a200 61 ",
    b"client 1 1028a200 61 70 ",
    b"client 1 1028a200 61 70 71 72 ",
    b"client 1 1028a200 61 70 71 72 73",
    b"client 1 1028a200 61 70 71 72 73 74",
    b"client  1 1028a200 61 70",
    b"client 1  1028a200 61 70",
    b"client 1 1028a200  61 70",
    b"client 1 1028a200 61  70",
    b"client 1 1028a200 61 70  71",
    b"client\t1 1028a200 61 70",
    b"client 1 1028a200 61\t70",
    b"client 0 1028a200 61 70",
    b"client 01 1028a200 61 70",
    b"client 4294967296 1028a200 61 70",
    b"client - 1028a200 61 70",
    b"client 1 1028a200 6 70",
    b"client 1 1028a200 6g 70",
    b"client 1 1028a200 61 7",
    b"client 1 1028a200 61 70 7",
    b"client 1 1028a200 61 70 71 7g",
    b"client 1 1028a200 6100 70",
    b"client 1 1028a200 00 70",
    b"client 1 1028a200 61 7000",
    b"client 1 1028a200 61 70 0071",
    b"client 1 1028a200 61 70 71 720072",
]

# Lines of what a client writes that fit nowhere.
WRITING_LINES = [
    b"say",
    b"say ",
    b"say 1",
    b"say x",
    b"say 0 x",
    b"say 01 x",
    b"say  1 x",
    b"say\t1 x",
    b"say 1\tx",
    b"say - x",
    b"say 4294967296 x",
    b"command",
    b"command 1",
    b"command 1 ",
    b"command 1 0",
    b"command 1 000",
    b"command 1 0g",
    b"command 0 03",
    b"command 01 03",
    b"command 4294967296 03",
    b"command 1  03",
    b"command  1 03",
    b"command 1 03 ",
    b"command 1 03 03",
    b"command 1\t03",
    b"command 1 --",
    b"command - 03",
]

# No session, behind the keyword of a line that tells one.
SESSIONS = [
    b"",
    b" ",
    b" 0",
    b" 01",
    b"  1",
    b" 1 1",
    b" 1 ",
    b"\t1",
    b" 4294967296",
    b" a",
]

# Flags that no client tells.
FLAGS = [
    b"",
    b"-",
    b"28a200",
    b"028a200",
    b"1028a20",
    b"1028a2000",
    b"001028a200",
    b"1028a20g",
    b"0x28a200",
    b"+028a200",
    b"1028a000",
    b"10282200",
    b"1020a200",
    b"00000000",
    b"1028a208",
    b"1038a200",
    b"ffffffff",
    b"00a22810",
]

# No session and count of bytes, behind `up` and `down`.
COUNTS = [
    b"",
    b" ",
    b" 1",
    b" 1 ",
    b" 1 -1",
    b" 1 +1",
    b" 1 -",
    b" 1 01",
    b" 1 00",
    b" 1 1a",
    b" 1 18446744073709551616",
    b" 1 100000000000000000000000000000000000000000",
    b" 1 1 1",
    b" 1 1 ",
    b"  1 1",
    b" 1  1",
    b"\t1 1",
    b" 1\t1",
    b" 0 1",
    b" 01 1",
    b" - 1",
    b" 4294967296 1",
]

# Texts whose parts are out of order, or without their end, or with bytes behind the last line, and the line at
# which each is refused.
TEXTS = [
    (b"open 1\naccount 61 62\nend\n", 2),
    (b"clock 1\n\n#\nset reuse 1\nend\n", 4),
    (b"end\nopen 1\n", 2),
    (b"end\n#\nend\n", 3),
    (b"end\naccount 61 62\n", 2),
    (b"account 61 62\nend\nset reuse 1\n", 3),
    (b"", 1),
    (b"\n", 2),
    (b"# end\nopen 1\n", 3),
    (b"account 61 62\n", 2),
    (b"end", 1),
    (b"open 1\nend", 2),
    (b"open 1\nend\n#", 3),
    (b"end\n\n ", 3),
    (b"open 1", 1),
    (b"account 61 62\naccount 61 62\nend\n", 2),
    (b"account 6a 62\n#\naccount 62 62\naccount 6A -\nend\n", 4),
    (b"account 66 " + b"7" * 514 + b"\nend\n", 1),
    (b"admin x\naccount 61 62\nend\n", 2),
    (b"fail keeper\nset reuse 1\nend\n", 2),
    (b"end\nadmin x\n", 2),
    (b"end\n\nfail keeper\n", 3),
    (b"open 1\nadmin x\nfail keeper\n", 4),
    (b"admin end", 1),
]

USUAL = 'lifetime 0 disconnect true history 0 reuse 0'

# Scripts, and what they say.
SCRIPTS = [
    (b"end\n", USUAL),
    (b"account 61 62\naccount 41 -\nend\n", 'account 61 62; account 41 -; ' + USUAL),
    (b"account 616E6e -\n# setup\n\naccount 62 70fF\nset lifetime 65535\nset history 256\nset reuse 7\n"
     b"set disconnect 0\nset reuse 0\nclock 18446744073709551615\nopen 4294967295\nbytes 1 00aBFf\nbytes 2 -\n"
     b"#\nstep 3\nrun 4\nclose 5\ncut 6\nclock 0\nend\n\n# after\n",
     'account 616e6e -; account 62 70ff; lifetime 65535 disconnect false history 256 reuse 0; '
     'clock 18446744073709551615; open 4294967295; bytes 1 00abff; bytes 2 -; step 3; run 4; close 5; cut 6; '
     'clock 0'),
    (b"account " + b"6" * 64 + b" " + b"7" * 512 + b"\nend\n",
     'account ' + '66' * 32 + ' ' + '77' * 256 + '; ' + USUAL),
    (b"client 1 1028a200 616e6E 70\nclient 4294967295 0028A200 - - 71fF\nclient 3 1068a200 61 70 - 72\n"
     b"client 4 FfEffFf7 ff 2d 61 -\nend\n",
     USUAL + '; client 1 271098368 616e6e 70 none none; client 4294967295 2662912 - - 71ff none; '
     'client 3 275292672 61 70 - 72; client 4 4293918711 ff 2d 61 -'),
    (b"client 1 1028a200 61 70\nrun 1\nclient 2 1068a200 - - 70\nend\n",
     USUAL + '; client 1 271098368 61 70 none none; run 1; client 2 275292672 - - 70 none'),
    (b"up 1 0\nup 4294967295 18446744073709551615\ndown 2 7\ndown 3 10\nend\n",
     USUAL + '; up 1 0; up 4294967295 18446744073709551615; down 2 7; down 3 10'),
    (b"say 1 \nsay 2  x\nsay 3 #a  b \r\x00\xff\nsay 4  \ncommand 1 -\ncommand 5 03aBFf\nend\n",
     USUAL + '; say 1 -; say 2 2078; say 3 2361202062200d00ff'
     + '; say 4 20; command 1 -; command 5 03abff'),
    (b"admin FLUSH PRIVILEGES\nadmin \nadmin  a  b \nfail keeper\nadmin #\r\x00\xff\nfail keeper\nadmin end\nend\n",
     USUAL + '; admin 464c5553482050524956494c45474553; admin -; admin 2061202062' + '20; fail keeper; '
     'admin 230d00ff; fail keeper; admin 656e64'),
    (b"account 61 62\nadmin ALTER USER USER() DISCARD OLD PASSWORD\nopen 1\nend\n",
     'account 61 62; ' + USUAL + '; admin ' + b"ALTER USER USER() DISCARD OLD PASSWORD".hex() + '; open 1'),
]


# Texts with so many lines `account` before them, whose users are the five digits of 0, 1, .., and the answer: the
# number of accounts and the last user, or the line at which the whole is refused.
MANY = [
    (20000, b"end\n", 'accounts 20000 ' + b"19999".hex()),
    (20000, b"account 3030303037 61\nend\n", 'line 20001'),
]


def misfits():
    """Lines that fit nowhere."""
    yield from SETUP_LINES + EVENT_LINES + OTHER_LINES + CLIENT_LINES + WRITING_LINES
    for keyword in [b"step", b"run", b"close", b"cut"]:
        for session in SESSIONS:
            yield keyword + session
    for flags in FLAGS:
        yield b"client 1 " + flags + b" 61 70"
    for keyword in [b"up", b"down"]:
        for count in COUNTS:
            yield keyword + count


def cases():
    """Each text and its answer. A line that fits nowhere stands as the first, among others, and behind `end`."""
    yield from SCRIPTS
    for text, line in TEXTS:
        yield text, 'line %d' % line
    for line in misfits():
        yield line + b"\nend\n", 'line 1'
        yield b"#\nset reuse 1\n" + line + b"\nopen 1\nend\n", 'line 3'
        yield b"open 1\nend\n\n" + line + b"\n", 'line 4'


def main():
    wanted = sys.argv[1]
    for text, said in cases():
        print(text.hex() if wanted == 'stdin' else said)
    for count, last, said in MANY:
        print('%d %s' % (count, last.hex()) if wanted == 'stdin' else said)


main()
