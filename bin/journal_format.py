#!/usr/bin/env python3
"""The bytes of a journal, `airdv.journal`, read and written in plain Python, apart from the program.

    bin/journal_format.py FILE

prints the changes of FILE, frame after frame, a line for each, and then how many rows stand in each table. FILE
is only read. Ends with 1 if it is no journal.

A file of at most 9 bytes is the empty journal. Any other begins with the eight bytes AIRDVJ01; frames follow. A
frame is a gate, the byte 01, then the length of its body in four bytes, and the body. The first gate that is not
01 ends the journal, and what follows it is not read. A body is a batch: how many changes it has, in four bytes,
and these. A change is the byte 00 and a row to be put, or the byte 01 and a key to be dropped; a row or a key
is the number of its table in one byte, and its fields in order. A whole number has eight bytes (two's
complement), an optional one the byte 00 alone, or the byte 01 and the number; bytes have their length in four
bytes before them. Each count, length and number has its most significant byte first.
"""

import pathlib
import sys

HEADER = b"AIRDVJ01"
SHUT, OPEN = 0, 1
PUT, DROP = 0, 1
# A file of no more bytes is the empty journal.
MOST_EMPTY = 9


class NoJournal(ValueError):
    """The bytes are of another form."""


# ---- the tables: of each the kinds of its fields, of which the first ones are the key

WHOLE, OPTIONAL, BYTES = "whole", "optional", "bytes"
PLACE = [("site", WHOLE), ("pollutant", WHOLE), ("poc", WHOLE), ("hour", WHOLE)]
CODES = [("nullcode", BYTES), ("quals", BYTES)]


class Table:
    def __init__(self, number, name, key, *fields):
        self.number, self.name, self.key, self.fields = number, name, key, [*key, *fields]

    def key_of(self, row):
        return row[:len(self.key)]


RECORDS = Table(0, "records", [("kind", WHOLE), ("rowkey", BYTES)], ("line", BYTES))
OBSERVATIONS = Table(1, "observations", PLACE, ("value", OPTIONAL), *CODES)
LOADS = Table(2, "loads", [("number", WHOLE)], ("digest", BYTES), ("lines", WHOLE), ("accepted", WHOLE),
              ("listed", BYTES), ("rest", BYTES))
OBSERVATIONS3 = Table(3, "observations3", PLACE, ("value", OPTIONAL), ("method", OPTIONAL), *CODES)
TABLES = [RECORDS, OBSERVATIONS, LOADS, OBSERVATIONS3]


# ---- as bytes

def count_bytes(count):
    return count.to_bytes(4, "big")


def whole_bytes(number):
    return number.to_bytes(8, "big", signed=True)


def sized(data):
    return count_bytes(len(data)) + data


def field_bytes(kind, value):
    if kind == WHOLE:
        return whole_bytes(value)
    if kind == OPTIONAL:
        return b"\0" if value is None else b"\1" + whole_bytes(value)
    return sized(value)


def change_bytes(change):
    """The bytes of (PUT, table, row) or (DROP, table, key)."""
    action, table, values = change
    fields = table.fields if action == PUT else table.key
    return bytes([action, table.number]) + b"".join(field_bytes(kind, value) for (_, kind), value in zip(fields, values, strict=True))


def body_of(batch):
    return count_bytes(len(batch)) + b"".join(change_bytes(change) for change in batch)


def frame_of(batch):
    return bytes([OPEN]) + sized(body_of(batch))


def journal_of(batches, gate=SHUT, rest=b""):
    return HEADER + b"".join(frame_of(batch) for batch in batches) + bytes([gate]) + rest


# ---- as they are read

class Reader:
    """Bytes that are read from the front on."""

    def __init__(self, data, place=0):
        self.data, self.place = data, place

    def take(self, size):
        if len(self.data) - self.place < size:
            raise NoJournal(f"the bytes end before place {self.place + size}")
        self.place += size
        return self.data[self.place - size:self.place]

    def byte(self):
        return self.take(1)[0]

    def count(self):
        return int.from_bytes(self.take(4), "big")

    def whole(self):
        return int.from_bytes(self.take(8), "big", signed=True)

    def optional(self):
        flag = self.byte()
        if flag > 1:
            raise NoJournal(f"the flag {flag}")
        return self.whole() if flag else None

    def field(self, kind):
        if kind == WHOLE:
            return self.whole()
        if kind == OPTIONAL:
            return self.optional()
        return self.take(self.count())

    def change(self):
        action, number = self.byte(), self.byte()
        if action > 1 or number >= len(TABLES):
            raise NoJournal(f"a change {action} of table {number}")
        table = TABLES[number]
        return action, table, tuple(self.field(kind) for _, kind in (table.fields if action == PUT else table.key))


def batch_in(body):
    reader = Reader(body)
    batch = [reader.change() for _ in range(reader.count())]
    if reader.place != len(body):
        raise NoJournal(f"{len(body) - reader.place} bytes are left of a body")
    return batch


def read(data):
    """The batches of a journal, and the place of the gate that ends it."""
    if len(data) <= MOST_EMPTY:
        return [], len(HEADER)
    if data[:len(HEADER)] != HEADER:
        raise NoJournal("other first bytes")
    reader, batches = Reader(data, len(HEADER)), []
    while reader.byte() == OPEN:
        batches.append(batch_in(reader.take(reader.count())))
    return batches, reader.place - 1


def tables_of(batches):
    """The rows by their keys, by the tables' names, after the batches in order."""
    tables = {table.name: {} for table in TABLES}
    for batch in batches:
        for action, table, values in batch:
            if action == PUT:
                tables[table.name][table.key_of(values)] = values
            else:
                tables[table.name].pop(values, None)
    return tables


def rows_of(data):
    """The rows of a journal in the order of their keys, by the tables' names."""
    return {name: [rows[key] for key in sorted(rows)] for name, rows in tables_of(read(data)[0]).items()}


# ---- as text

def shown(name, value):
    if name == "digest":
        return value.hex()
    if isinstance(value, bytes):
        return f'"{value.decode("ascii", "backslashreplace")}"'
    return "-" if value is None else str(value)


def change_text(change):
    action, table, values = change
    names = [name for name, _ in table.fields]
    texts = (f"{name} {shown(name, value)}" for name, value in zip(names, values))
    return f"{'put' if action == PUT else 'drop'} {table.name}: {', '.join(texts)}"


def main(words):
    if len(words) != 1:
        sys.exit("usage: bin/journal_format.py FILE")
    data = pathlib.Path(words[0]).read_bytes()
    try:
        batches, end = read(data)
    except NoJournal as error:
        print(f"no journal: {error}")
        return 1
    for number, batch in enumerate(batches, 1):
        print(f"batch {number}")
        for change in batch:
            print(f"  {change_text(change)}")
    for name, rows in tables_of(batches).items():
        print(f"{len(rows)} rows in {name}")
    print(f"the journal ends at the gate at place {end}; the file has {len(data)} bytes")
    return 0


if __name__ == "__main__":
    sys.exit(main(sys.argv[1:]))
