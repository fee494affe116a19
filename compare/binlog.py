"""A server's own binary log, read as a replica reads it: each change of a row, in the order of the log.

Only what the comparison needs: rows of integers, VARCHAR and VARBINARY with all their columns. The statement that a change belongs to
is in the log as well; a REPLACE is reported as the rows that it displaces and the row that it writes.
"""
import dataclasses
import struct

DUMP, NON_BLOCK, WITH_STATEMENTS = b"\x12", 1, 2
QUERY, ROTATE, TABLE_MAP, COMMIT = 2, 4, 19, 16
STATEMENTS = (160, 29)  # MariaDB's number, and MySQL's
ROWS = {23: "write", 24: "update", 25: "delete", 30: "write", 31: "update", 32: "delete"}
SIZES = {1: 1, 2: 2, 9: 3, 3: 4, 8: 8}
VARCHAR = 15
OPTIONS = ("--binlog-format=ROW", "--binlog-row-image=FULL", "--server-id=1", "--binlog-checksum=NONE", "--sync-binlog=0")


@dataclasses.dataclass
class Event:
    table: str
    kind: str  # write, update or delete
    before: tuple = None
    after: tuple = None
    statement: str = ""


@dataclasses.dataclass
class Columns:
    """What the log doesn't say of a table: of each column whether its integers have no sign and whether it holds bytes; and the
    places of its clustered key."""

    unsigned: list
    bytes: list
    key: list


def number_at(data, at):
    first = data[at]
    if first < 0xFB:
        return first, at + 1
    width = {0xFC: 2, 0xFD: 3, 0xFE: 8}[first]
    return int.from_bytes(data[at + 1 : at + 1 + width], "little"), at + 1 + width


class Log:
    """`tables` has the columns of the tables that are followed. Events of others are passed over."""

    def __init__(self, server, database, tables):
        self.server, self.database, self.tables = server, database, tables
        self.maps, self.events, self.group, self.statement = {}, [], [], ""
        session = server.session()
        self.file, self.at = session.need("SHOW MASTER STATUS").rows[0][:2]
        self.file, self.at = self.file.decode() if isinstance(self.file, bytes) else self.file, int(self.at)
        session.close()

    def read(self):
        """Reads to the log's end."""
        session = self.server.session()
        try:
            session.need("SET @master_binlog_checksum = 'NONE', @mariadb_slave_capability = 4")
            session.place = 0
            session.send(DUMP + struct.pack("<IHI", self.at, NON_BLOCK | WITH_STATEMENTS, 77) + self.file.encode())
            packet = session.packet()
            while not (packet[0] == 0xFE and len(packet) <= 8):
                if packet[0] == 0xFF:
                    raise RuntimeError(f"the server's binary log can't be read: {packet[3:].decode(errors='replace')}")
                self.take(packet[1:])
                packet = session.packet()
        finally:
            session.close()
        self.end_statement()

    def take(self, data):
        kind, size, position = data[4], *struct.unpack_from("<II", data, 9)
        body = data[19:size]
        if kind == ROTATE:
            self.file = body[8:].decode()
            return
        self.at = position or self.at
        if kind in STATEMENTS:
            self.end_statement()
            self.statement = body.lstrip(b"\0").decode(errors="replace").lstrip()
        elif kind in (COMMIT, QUERY):
            self.end_statement()
        elif kind == TABLE_MAP:
            self.take_map(body)
        elif kind in ROWS:
            self.take_rows(kind, body)

    def end_statement(self):
        """A REPLACE as its displaced rows in the order of their keys, and the row that it writes."""
        if self.group and self.statement[:7].upper() == "REPLACE":
            key = self.tables[self.group[0].table].key
            gone = sorted((it.before for it in self.group if it.before is not None), key=lambda row: [row[at] for at in key])
            table, new = self.group[0].table, [it.after for it in self.group if it.after is not None]
            self.group = [Event(table, "delete", row) for row in gone] + [Event(table, "write", after=row) for row in new]
        for event in self.group:
            event.statement = self.statement
        self.events += self.group
        self.group, self.statement = [], ""

    def take_map(self, body):
        number, at = int.from_bytes(body[:6], "little"), 8
        size, at = body[at], at + 1
        database, at = body[at : at + size].decode(), at + size + 1
        size, at = body[at], at + 1
        name, at = body[at : at + size].decode(), at + size + 1
        count, at = number_at(body, at)
        kinds, at = body[at : at + count], at + count
        _, at = number_at(body, at)
        widths = []
        for kind in kinds:
            widths.append(struct.unpack_from("<H", body, at)[0] if kind == VARCHAR else SIZES.get(kind, 0))
            at += 2 if kind == VARCHAR else 0
        is_followed = database == self.database and name in self.tables and len(self.tables[name].unsigned) == count
        self.maps[number] = (name if is_followed else None, kinds, widths)

    def take_rows(self, kind, body):
        number, at = int.from_bytes(body[:6], "little"), 8
        name, kinds, widths = self.maps[number]
        if name is None:
            return
        if kind >= 30:
            at += struct.unpack_from("<H", body, at)[0]
        count, at = number_at(body, at)
        images = 2 if ROWS[kind] == "update" else 1
        for _ in range(images):
            if not all(body[at + n // 8] >> n % 8 & 1 for n in range(count)):
                raise RuntimeError("the server's binary log has rows without all their columns")
            at += (count + 7) // 8
        while at < len(body):
            rows = []
            for _ in range(images):
                row, at = self.row(body, at, kinds, widths, self.tables[name])
                rows.append(row)
            before = rows[0] if ROWS[kind] in ("update", "delete") else None
            self.group.append(Event(name, ROWS[kind], before, rows[-1] if ROWS[kind] in ("update", "write") else None))

    @staticmethod
    def row(body, at, kinds, widths, columns):
        nulls, at = body[at : at + (len(kinds) + 7) // 8], at + (len(kinds) + 7) // 8
        row = []
        for n, kind in enumerate(kinds):
            if nulls[n // 8] >> n % 8 & 1:
                row.append(None)
            elif kind == VARCHAR:
                width = 1 if widths[n] < 256 else 2
                size = int.from_bytes(body[at : at + width], "little")
                value, at = bytes(body[at + width : at + width + size]), at + width + size
                row.append(value if columns.bytes[n] else value.decode("utf-8"))
            else:
                row.append(int.from_bytes(body[at : at + widths[n]], "little", signed=not columns.unsigned[n]))
                at += widths[n]
        return tuple(row), at
