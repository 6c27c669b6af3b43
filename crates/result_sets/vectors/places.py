#!/usr/bin/env python3
"""Prints what table_probe is asked (`places.py stdin`) and what it has to answer (`places.py stdout`): the answers of a
server (payloads.txt, by server.py), tables of our own, each list cut, each payload cut or with one byte made 00, fb, fe
or ff, and payloads behind the end; the table of a list and the payloads that are written of it, or the payload and the
place in it at which a reader must stop.

It shares nothing with the crate: a recogniser of whole payloads that knows no places gives the tables, a writer lays them
out again, and for the places each front of the payload that doesn't fit is tried with a list of ends.
"""

import os
import sys

EOF = bytes.fromhex("fe00000200")


def lenenc_text(n):
    for first, size in ((None, 1), (252, 2), (253, 3), (254, 8)):
        if n < (251 if first is None else 256**size):
            return (b"" if first is None else bytes([first])) + n.to_bytes(size, "little")


class Payload:
    """A front, a run of zero bytes, which may be longer than a memory, and a tail."""

    def __init__(self, front, run=0, tail=b""):
        self.front, self.run, self.tail = front, run, tail
        self.size = len(front) + run + len(tail)

    def at(self, i):
        if i < len(self.front):
            return self.front[i]
        i -= len(self.front) + self.run
        return self.tail[i] if i >= 0 else 0


def lenenc(payload, i):
    """A number and the place behind it, or None."""
    if i >= payload.size:
        return None
    first = payload.at(i)
    size = {252: 2, 253: 3, 254: 8}.get(first, 0)
    if first in (251, 255) or i + 1 + size > payload.size:
        return None
    return sum(payload.at(i + 1 + k) << 8 * k for k in range(size)) if size else first, i + 1 + size


def text(payload, i):
    """Where a text behind its length begins and ends, or None."""
    found = lenenc(payload, i)
    return (found[1], found[1] + found[0]) if found and found[1] + found[0] <= payload.size else None


def count(payload):
    found = lenenc(payload, 0)
    return found[0] if found and found[0] > 0 and found[1] == payload.size else None


def column(payload):
    """Where the name stands, and whether the type is that of a number."""
    names, i = [], 0
    for _ in range(6):
        found = text(payload, i)
        if found is None:
            return None
        names.append(found)
        i = found[1]
    if payload.size != i + 13 or payload.at(i) != 0x0C:
        return None
    return names[4], payload.at(i + 7) == 8


def is_eof(payload):
    return payload.size == 5 and payload.at(0) == 0xFE


def row(width, payload):
    """Where the text of each cell stands."""
    cells, i = [], 0
    for _ in range(width):
        if i < payload.size and payload.at(i) == 0xFB:
            cells.append(None)
            i += 1
            continue
        found = text(payload, i)
        if found is None:
            return None
        cells.append(found)
        i = found[1]
    return cells if i == payload.size else None


def parted(payloads):
    """The number of columns, the columns, the first EOF and the lines behind it, as far as the list goes, or None."""
    width = count(payloads[0]) if payloads else None
    return (width, payloads[1 : 1 + width], payloads[1 + width : 2 + width], payloads[2 + width :]) if width else None


def begins(payloads):
    """Whether the payloads are the first ones of a table's."""
    if not payloads:
        return True
    parts = parted(payloads)
    if parts is None:
        return False
    width, columns, middle, lines = parts
    rows = lines[:-1] if lines and is_eof(lines[-1]) else lines
    return all(map(column, columns)) and all(map(is_eof, middle)) and all(row(width, line) for line in rows)


def table(payloads):
    """The columns and rows of a list, or None."""
    parts = parted([Payload(payload) for payload in payloads])
    if parts is None or not begins([Payload(payload) for payload in payloads]):
        return None
    width, columns, middle, lines = parts
    if not middle or not lines or not is_eof(lines[-1]):
        return None
    found = [(column(each), each.front) for each in columns]
    cells = [(row(width, each), each.front) for each in lines[:-1]]
    return (
        [(payload[name[0] : name[1]], is_number) for (name, is_number), payload in found],
        [[payload[cell[0] : cell[1]] if cell else None for cell in each] for each, payload in cells],
    )


def column_text(name, is_number):
    kind = bytes.fromhex("3f001400000008" if is_number else "ff0000040000fd")
    return b"\x03def\0\0\0" + lenenc_text(len(name)) + name + b"\0\x0c" + kind + bytes(5)


def cell_text(cell):
    return b"\xfb" if cell is None else lenenc_text(len(cell)) + cell


def written(columns, rows):
    return (
        [lenenc_text(len(columns))]
        + [column_text(*each) for each in columns]
        + [EOF]
        + [b"".join(map(cell_text, cells)) for cells in rows]
        + [EOF]
    )


# ## The places


def ends(front, width):
    """Bytes that may stand behind a front of a payload: zero bytes to the end of each text that may have begun in it, and
    then an end of a column or of a row."""
    tail = b"\0\x0c" + bytes(12)
    yield from (Payload(front + b"\x01" * size) for size in range(10))
    begun = [0]
    for i in range(len(front)):
        found = lenenc(Payload(front, 8), i)
        if found:
            begun.append(found[0] + found[1] - len(front))
    for run in sorted({size + more for size in begun for more in range(6) if size + more >= 0}):
        yield from (Payload(front, run, tail[i:]) for i in range(len(tail) + 1))
        yield from (Payload(front, run, b"\xfb" * nulls) for nulls in range(1, width + 1))


def place(payloads):
    whole = [Payload(payload) for payload in payloads]
    index = next((i for i in range(len(whole)) if not begins(whole[: i + 1])), len(whole))
    if index == len(whole) or (index > 0 and table(payloads[:index])):
        return index, 0
    before, payload = whole[:index], payloads[index]
    width = count(before[0]) if before else 1
    fronts = (at for at in range(len(payload) + 1) if any(begins(before + [each]) for each in ends(payload[:at], width)))
    return index, max(fronts, default=0)


# ## The cases


def served():
    path = os.path.join(os.path.dirname(os.path.abspath(__file__)), "payloads.txt")
    with open(path, encoding="utf-8") as file:
        for line in file:
            yield [bytes.fromhex(payload) for payload in line.rstrip("\n").split("\t")[1].split(" ")]


def changed(payloads):
    """Lists with one payload cut, or with one byte changed."""
    for index, payload in enumerate(payloads):
        for at in range(len(payload)):
            yield payloads[:index] + [payload[:at]] + payloads[index + 1 :]
        for at in range(len(payload)):
            for byte in (0x00, 0xFB, 0xFE, 0xFF):
                yield payloads[:index] + [payload[:at] + bytes([byte]) + payload[at + 1 :]] + payloads[index + 1 :]


def cases():
    lists = list(served())
    small = [written([(b"n", True)], [[b"1"], [None]]), written([(b"a", False), (b"", True)], [[b"", b"xy"]])]
    made = small + [
        written([(b"c%d" % i, i % 2 == 0) for i in range(8)], [[None] * 8, [b"v%d" % i for i in range(8)]]),
        written([(b"c", False)] * 9, [[b"x"] * 9]),
        [b"\xfc\x01\x00", column_text(b"n", True), bytes.fromhex("feffffffff"), b"\xfd\x01\x00\x00x", EOF],
        [b"\x01", column_text(b"n", True), EOF, b"\xfe" + bytes([2]) + bytes(7) + b"xy", EOF],
        [b"\x01", b"\xfe" + bytes(8) + column_text(b"n", True)[4:], EOF, EOF],
    ]
    wrong = [[], [b""], [b"\x00"], [bytes.fromhex("fc0000")], [bytes.fromhex("fd000000")], [bytes.fromhex("fe") + bytes(8)], [b"\xff"], [b"\x01\x01"]]
    for size in range(1, 10):
        wrong.append(small[0][:3] + [b"\xfe" + bytes(size - 1), EOF])
        wrong.append(small[0][:2] + [b"\xfe" + bytes(size - 1)] + small[0][3:])
    for payloads in lists + made:
        yield payloads
    for payloads in lists[:4] + small:
        for size in range(len(payloads)):
            yield payloads[:size]
        yield payloads + [EOF]
        yield payloads + [b"\x01"]
        yield payloads + [b""]
    yield from (payloads for payloads in wrong if payloads)
    for payloads in [lists[0]] + small:
        yield from changed(payloads)


COUNTS = [(1, 0), (1, 65536), (8, 65536), (8, 3)]
NOT_COUNTED = [(0, 1), (9, 1), (1, 65537)]


def shown(payload):
    return payload.hex() or "-"


def answer(payloads):
    found = table(payloads)
    if found is None:
        return "payload %d at %d" % place(payloads)
    columns, rows = found
    words = ["%s %s" % (shown(name), "number" if is_number else "text") for name, is_number in columns]
    for cells in rows:
        words += ["row"] + ["null" if cell is None else shown(cell) for cell in cells]
    if len(columns) > 8:
        words.append("not whole")
    elif written(columns, rows) == payloads:
        words.append("same")
    else:
        words.append("written " + "".join(shown(payload) + " " for payload in written(columns, rows)))
    return " ".join(words)


def main():
    for payloads in cases():
        if payloads:
            print("table " + " ".join(map(shown, payloads)) if sys.argv[1] == "stdin" else answer(payloads))
    for columns, rows in COUNTS:
        counts = "payloads %d columns %d rows %d cells %d" % (columns + rows + 3, columns, rows, columns * rows)
        print("count %d %d" % (columns, rows) if sys.argv[1] == "stdin" else counts)
    for columns, rows in NOT_COUNTED:
        print("count %d %d" % (columns, rows) if sys.argv[1] == "stdin" else "no table")


main()
