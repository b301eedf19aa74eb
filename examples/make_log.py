#!/usr/bin/env python3
"""Writes small binary logs (MySQL's format, version 4) as the nodes of a sharded database write them.

    make_log.py NODE FILE WORD ..

appends the events of the words to FILE, as node NODE (1 to 256) would; a FILE that isn't there begins with its head. Each
node has its share of one table, `shop_NODE.orders (id INT, item VARCHAR(20), cents INT)`. A branch has the gtrid ID, the
bqual NODE and the format 1. The same words always give the same bytes.

    prepare:ID:ROW:ITEM:CENTS    XA START, a table map, an inserted row, XA END, XA_PREPARE
    commit:ID:TIME               the commit timestamp and XA COMMIT
    rollback:ID                  XA ROLLBACK
    one:ID:TIME:ROW:ITEM:CENTS   a branch that is prepared and committed in one phase
    local:ROW:ITEM:CENTS         BEGIN, a table map, an inserted row, XID
    beat:TIME                    a heartbeat
    table:ID                     prepares the statement of the whole database that creates `shop.orders`
    own:TEXT                     a statement of this node alone, with blanks for _
    many:FIRST:COUNT:NODES       COUNT transactions from number FIRST on, each over all of NODES nodes, and a beat
    large:ID:BYTES               a prepared branch whose one row event has so many bytes, most of them a hole in FILE
    event:TYPE:HEX               an event of this type and body
    bytes:HEX                    these bytes
"""
import struct
import sys

FORMAT = (
    struct.pack("<H50sIB", 4, b"5.7.0-cdc", 0, 19)
    + bytes.fromhex("380d0008001200040404041200005f00041a08000000080808020000000a0a0a2a2a00123400")
    + bytes(5)
)
CREATE = b"DDL::shop::CREATE TABLE orders (id INT PRIMARY KEY, item VARCHAR(20) CHARACTER SET utf8mb4, cents INT)"
FIRST_SECOND = 1_700_000_000


def short(text):
    """A text behind its length in one byte."""
    return bytes([len(text)]) + text


class Log:
    """The end of a node's log: its place, and the second at which events are written."""

    def __init__(self, node, file):
        self.node = node
        self.file = file
        self.place = file.seek(0, 2)
        self.second = FIRST_SECOND
        if self.place == 0:
            self.bytes_(b"\xfebin".hex())
            self.put(15, FORMAT)

    def put(self, kind, body, hole=0):
        """Appends an event, whose last bytes are a hole of so many zeros."""
        length = 19 + len(body) + hole
        behind = self.place + length
        header = struct.pack("<IBIIIH", self.second, kind, 100 + self.node, length, behind % 2**32, 0)
        self.file.write(header + body)
        if hole:
            self.file.truncate(behind)
            self.file.seek(behind)
        self.place = behind

    def query(self, text):
        """Appends a statement without a database."""
        self.put(2, struct.pack("<IIBHHB", 0, 0, 0, 0, 0, 0) + text)

    def statement(self, verb, name):
        """Appends an XA statement of this node's branch."""
        branch = f"X'{name.encode().hex()}',X'{str(self.node).encode().hex()}',1"
        self.query(f"XA {verb} {branch}".encode())

    def prepared(self, name, one_phase):
        """Appends XA_PREPARE."""
        gtrid, bqual = name.encode(), str(self.node).encode()
        self.put(38, struct.pack("<BIII", one_phase, 1, len(gtrid), len(bqual)) + gtrid + bqual)

    def timestamp(self, kind, time):
        """Appends a commit timestamp (1) or a heartbeat (2)."""
        self.second = FIRST_SECOND + int(time) % 2**31
        self.put(200, struct.pack("<BQ", kind, int(time)))

    def row(self, row, item, cents):
        """Appends a table map and an inserted row."""
        table = struct.pack("<IHH", 100 + self.node, 0, 1)
        columns = bytes([3, 3, 15, 3]) + short(struct.pack("<H", 80)) + bytes([6])
        names = short(f"shop_{self.node}".encode()) + b"\0" + short(b"orders") + b"\0"
        self.put(19, table + names + columns)
        values = struct.pack("<i", int(row)) + short(item.encode()) + struct.pack("<i", int(cents))
        self.put(30, table + struct.pack("<HBBB", 2, 3, 7, 0) + values)

    def prepare(self, name, row, item, cents):
        self.statement("START", name)
        self.row(row, item, cents)
        self.statement("END", name)
        self.prepared(name, 0)

    def commit(self, name, time):
        self.timestamp(1, time)
        self.statement("COMMIT", name)

    def rollback(self, name):
        self.statement("ROLLBACK", name)

    def one(self, name, time, row, item, cents):
        self.timestamp(1, time)
        self.statement("START", name)
        self.row(row, item, cents)
        self.statement("END", name)
        self.prepared(name, 1)

    def local(self, row, item, cents):
        self.query(b"BEGIN")
        self.row(row, item, cents)
        self.put(16, struct.pack("<Q", int(row)))

    def beat(self, time):
        self.timestamp(2, time)

    def table(self, name):
        self.statement("START", name)
        self.put(29, short(CREATE))
        self.statement("END", name)
        self.prepared(name, 0)

    def own(self, text):
        self.query(text.replace("_", " ").encode())

    def many(self, first, count, nodes):
        for number in range(int(first), int(first) + int(count)):
            name = f"{number:08d}"
            self.prepare(name, number * int(nodes) + self.node - 1, f"item {number % 100}", number % 1000)
            self.commit(name, 10 * number)
        self.beat(10 * (int(first) + int(count)))

    def large(self, name, size):
        self.statement("START", name)
        self.put(30, b"", int(size) - 19)
        self.statement("END", name)
        self.prepared(name, 0)

    def event(self, kind, body=""):
        self.put(int(kind), bytes.fromhex(body))

    def bytes_(self, body):
        self.place += self.file.write(bytes.fromhex(body))


WORDS = {
    "prepare": Log.prepare, "commit": Log.commit, "rollback": Log.rollback, "one": Log.one, "local": Log.local,
    "beat": Log.beat, "table": Log.table, "own": Log.own, "many": Log.many, "large": Log.large, "event": Log.event,
    "bytes": Log.bytes_,
}


def main(words):
    if len(words) < 2 or not words[0].isdigit() or not 1 <= int(words[0]) <= 256:
        sys.exit(__doc__)
    with open(words[1], "ab") as file:
        log = Log(int(words[0]), file)
        for word in words[2:]:
            name, *values = word.split(":")
            if name not in WORDS:
                sys.exit(f"make_log.py: no word {name}")
            try:
                WORDS[name](log, *values)
            except (TypeError, ValueError) as error:
                sys.exit(f"make_log.py: {word}: {error}")


if __name__ == "__main__":
    main(sys.argv[1:])
