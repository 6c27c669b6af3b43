#!/usr/bin/env python3
"""Prints the payloads that a server sends for a few queries over the text protocol, without DEPRECATE_EOF.

usage: server.py SOCKET USER

SOCKET is the Unix socket of a MySQL or MariaDB server, USER an account that mysql_native_password lets in without a
password. A line of the output is `QUERY<tab>HEX HEX ..`, one HEX for each payload of the answer. The lines in
payloads.txt came from Debian's mariadb-server 10.11, on a socket and data of its own:

    mariadb-install-db --no-defaults --auth-root-authentication-method=normal --datadir=DATA
    mariadbd --no-defaults --datadir=DATA --socket=SOCKET --skip-networking
    vectors/server.py SOCKET root > vectors/payloads.txt
"""

import socket
import struct
import sys

LONG_PASSWORD, PROTOCOL_41, SECURE_CONNECTION, PLUGIN_AUTH = 0x1, 0x200, 0x8000, 0x80000
QUERIES = [
    "SELECT 1",
    "SELECT NULL",
    "SELECT ''",
    "SELECT 'a', 2",
    "SELECT CURRENT_USER()",
    "SELECT 12345678901 AS number, 'text' AS text, NULL AS nothing, '' AS empty",
    "SELECT 1 a, 2 b, 3 c, 4 d, 5 e, 6 f, 7 g, 8 h",
    "SELECT 1 AS n UNION SELECT 2 UNION SELECT NULL ORDER BY n",
    "SELECT 1 AS n WHERE 1 = 0",
    "SELECT REPEAT('x', 250), REPEAT('y', 251), REPEAT('z', 300)",
    "SELECT user, host FROM mysql.user WHERE user = 'root' AND host = 'localhost'",
]


class Connection:
    """A connection, packet by packet."""

    def __init__(self, path):
        self.link = socket.socket(socket.AF_UNIX, socket.SOCK_STREAM)
        self.link.connect(path)

    def bytes(self, size):
        got = b""
        while len(got) < size:
            piece = self.link.recv(size - len(got))
            if not piece:
                raise EOFError
            got += piece
        return got

    def payload(self):
        header = self.bytes(4)
        self.next_id = (header[3] + 1) % 256
        return self.bytes(int.from_bytes(header[:3], "little"))

    def send(self, payload, packet_id):
        self.link.sendall(struct.pack("<I", len(payload))[:3] + bytes([packet_id]) + payload)


def log_in(connection, user):
    connection.payload()
    flags = LONG_PASSWORD | PROTOCOL_41 | SECURE_CONNECTION | PLUGIN_AUTH
    response = struct.pack("<IIB23x", flags, 1 << 24, 45) + user.encode() + b"\0" + b"\0" + b"mysql_native_password\0"
    connection.send(response, connection.next_id)
    answer = connection.payload()
    if answer[:1] == b"\xfe":
        connection.send(b"", connection.next_id)
        answer = connection.payload()
    if answer[:1] != b"\0":
        sys.exit("no login: " + answer.hex())


def ask(connection, query):
    """The payloads up to the second EOF, or to an ERR."""
    connection.send(b"\x03" + query.encode(), 0)
    payloads, ends = [], 0
    while ends < 2:
        payload = connection.payload()
        payloads.append(payload)
        if payload[:1] == b"\xfe" and len(payload) < 9:
            ends += 1
        if payload[:1] == b"\xff":
            break
    return payloads


def main():
    connection = Connection(sys.argv[1])
    log_in(connection, sys.argv[2])
    for query in QUERIES:
        print(query + "\t" + " ".join(payload.hex() for payload in ask(connection, query)))


main()
