#!/usr/bin/env python3
"""What `regtrace` prints for the bytes on its standard input, written from docs/TRACES.md alone.

Usage: reference.py < TRACE
Prints a report and ends with status 0, or prints a fault and ends with status 1.
"""
import sys

LINE_BYTES = 80
MOST_SLOTS = 1024
MOST_ROWS = 2048
MOST_COST = 65280
READ_BYTES = 65536

LAYERS = {9: "lines", 10: "table", 11: "table", 12: "values", 13: "table", 14: "report"}
DECIMAL = frozenset(b"0123456789")
HEXADECIMAL = frozenset(b"0123456789ABCDEF")
ORDERS = {b"key cost": ("key", "cost"), b"cost key": ("cost", "key")}


class Fault(Exception):
    def __init__(self, number, line, column):
        super().__init__(number, line, column)
        self.number, self.line, self.column = number, line, column

    def layer(self):
        return LAYERS.get(self.number, "cache")


def value(column, text):
    """The number that the text of a column means, or None."""
    digits, base, most, low, high = {
        "slots": (DECIMAL, 10, 4, 0, MOST_SLOTS),
        "key": (HEXADECIMAL, 16, 8, 0, 2**32 - 1),
        "cost": (DECIMAL, 10, 5, 1, MOST_COST),
    }[column]
    if not 1 <= len(text) <= most or any(b not in digits for b in text):
        return None
    number = 0
    for b in text:
        number = number * base + int(chr(b), base)
    return number if low <= number <= high else None


def lines_of(text):
    """Each line as (bytes before its LF, whether an LF ends it)."""
    pieces = text.split(b"\n")
    lines = [(piece, True) for piece in pieces[:-1]]
    if pieces[-1]:
        lines.append((pieces[-1], False))
    return lines


def sound(lines, number):
    """The bytes of a line, which has to be there, ended and short."""
    if number > len(lines):
        raise Fault(9, number, 1)
    body, ended = lines[number - 1]
    if not ended or len(body) > LINE_BYTES:
        raise Fault(9, number, 1)
    return body


def row_of(columns, body, number):
    cells = body.split(b" ")
    if len(cells) != 2 or not all(cells):
        raise Fault(11, number, 1)
    row = {}
    place = 1
    for column, cell in zip(columns, cells):
        row[column] = value(column, cell)
        if row[column] is None:
            raise Fault(12, number, place)
        place += len(cell) + 1
    if number - 3 > MOST_ROWS:
        raise Fault(13, number, 1)
    return row["key"], row["cost"]


def read(text):
    lines = lines_of(text)
    if sound(lines, 1) != b"slots":
        raise Fault(10, 1, 1)
    body = sound(lines, 2)
    if not body or b" " in body:
        raise Fault(11, 2, 1)
    slots = value("slots", body)
    if slots is None:
        raise Fault(12, 2, 1)
    names = sound(lines, 3)
    if names not in ORDERS:
        raise Fault(10, 3, 1)
    rows = [row_of(ORDERS[names], sound(lines, n), n) for n in range(4, len(lines) + 1)]
    return slots, rows


def replay(slots, rows):
    held = {}  # key: [rank, touched, cost]
    level = hits = paid = 0
    evictions = []
    for at, (key, cost) in enumerate(rows, 1):
        if key in held:
            entry = held[key]
            entry[0], entry[1] = level + entry[2], at
            hits += 1
            continue
        if slots == 0:
            raise Fault(8, at + 3, 1)
        if len(held) == slots:
            leaver = min(held, key=lambda k: (held[k][0], held[k][1]))
            level = held.pop(leaver)[0]
            evictions.append((at, leaver))
        held[key] = [level + cost, at, cost]
        paid += cost
    return hits, evictions, paid


def printed(text):
    """What is printed for a text, and the status at the end."""
    try:
        slots, rows = read(text[:READ_BYTES])
        hits, evictions, paid = replay(slots, rows)
    except Fault as fault:
        return f"fault line column layer\n{fault.number} {fault.line} {fault.column} {fault.layer()}\n", 1
    report = f"slots rows hits evictions paid\n{slots} {len(rows)} {hits} {len(evictions)} {paid}\nrow evicted\n"
    return report + "".join(f"{at} {key:X}\n" for at, key in evictions), 0


if __name__ == "__main__":
    out, status = printed(sys.stdin.buffer.read())
    sys.stdout.write(out)
    sys.exit(status)
