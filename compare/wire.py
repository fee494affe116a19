"""A session of a MySQL or MariaDB server over its socket: a statement goes in, its answer comes out.

Only what the comparison needs of the protocol is here: no password, no compression, no prepared statement.
"""
import select
import socket
import struct

BINARY = 63  # the character set number of columns that hold bytes
UTF8MB4 = 45
# long password, protocol 4.1, transactions, secure connection, plugin authentication
CAPABILITIES = 0x1 | 0x200 | 0x2000 | 0x8000 | 0x80000
INTEGERS = (0x01, 0x02, 0x03, 0x08, 0x09)
OK, SWITCH, ERROR = 0x00, 0xFE, 0xFF


class Ok:
    """A statement that has no rows: how many it changed."""

    def __init__(self, changed):
        self.changed = changed


class Refused:
    """The number and the text of a refusal."""

    def __init__(self, number, text):
        self.number, self.text = number, text


class Rows:
    """The names of the columns, and rows of values: None, whole numbers, texts and bytes."""

    def __init__(self, names, rows):
        self.names, self.rows = names, rows


class Session:
    """A connection. Statements are answered one by one."""

    def __init__(self, path, seconds=60):
        self.socket = socket.socket(socket.AF_UNIX, socket.SOCK_STREAM)
        self.socket.settimeout(seconds)
        self.socket.connect(path)
        self.stream = self.socket.makefile("rb")
        self.place, self.number = 0, None
        self.greet()

    def packet(self):
        head = self.stream.read(4)
        if len(head) < 4:
            raise ConnectionError("the server closed the session")
        size = head[0] | head[1] << 8 | head[2] << 16
        self.place = head[3] + 1
        body = self.stream.read(size)
        return body + self.packet() if size == 0xFFFFFF else body

    def send(self, body):
        self.socket.sendall(struct.pack("<I", len(body))[:3] + bytes([self.place & 255]) + body)

    def greet(self):
        greeting = self.packet()
        if greeting[0] == ERROR:
            raise ConnectionError(greeting[3:].decode(errors="replace"))
        self.number = struct.unpack_from("<I", greeting, greeting.index(b"\0", 1) + 1)[0]
        head = struct.pack("<IIB23x", CAPABILITIES, 1 << 24, UTF8MB4)
        self.send(head + b"root\0" + b"\0" + b"mysql_native_password\0")
        said = self.packet()
        while said[0] not in (OK, ERROR):
            if said[0] == SWITCH:
                self.send(b"")
            said = self.packet()
        if said[0] == ERROR:
            raise ConnectionError(said[9:].decode(errors="replace"))

    def begin(self, statement):
        """Sends a statement without waiting for its answer."""
        self.place = 0
        self.send(b"\x03" + statement.encode("utf-8", errors="surrogatepass"))

    def ask(self, statement):
        self.begin(statement)
        return self.answer()

    def need(self, statement):
        """Asks, where only a refusal is unexpected."""
        answer = self.ask(statement)
        if isinstance(answer, Refused):
            raise RuntimeError(f"{answer.number} {answer.text}: {statement}")
        return answer

    def answer(self):
        first = self.packet()
        if first[0] == OK:
            return Ok(number_at(first, 1)[0])
        if first[0] == ERROR:
            return Refused(first[1] | first[2] << 8, first[9:].decode(errors="replace"))
        columns = [column_of(self.packet()) for _ in range(number_at(first, 0)[0])]
        self.packet()
        rows, packet = [], self.packet()
        while packet[0] != SWITCH or len(packet) > 8:
            if packet[0] == ERROR:
                return Refused(packet[1] | packet[2] << 8, packet[9:].decode(errors="replace"))
            rows.append(row_of(packet, columns))
            packet = self.packet()
        return Rows([name for name, _, _ in columns], rows)

    def is_answered(self, seconds):
        """Whether the answer of what was begun comes within so many seconds."""
        return bool(select.select([self.socket], [], [], seconds)[0])

    def close(self):
        self.stream.close()
        self.socket.close()


def number_at(packet, at):
    """A number of the protocol's variable width, and where it ends; none for a null."""
    first = packet[at]
    if first < 0xFB:
        return first, at + 1
    if first == 0xFB:
        return None, at + 1
    width = {0xFC: 2, 0xFD: 3, 0xFE: 8}[first]
    return int.from_bytes(packet[at + 1 : at + 1 + width], "little"), at + 1 + width


def text_at(packet, at):
    size, at = number_at(packet, at)
    return (None, at) if size is None else (packet[at : at + size], at + size)


def column_of(packet):
    """A column's name, character set and kind."""
    at, name = 0, b""
    for _ in range(4):
        _, at = text_at(packet, at)
    name, at = text_at(packet, at)
    _, at = text_at(packet, at)
    charset, _, kind = struct.unpack_from("<HIB", packet, at + 1)
    return name.decode("utf-8", errors="replace"), charset, kind


def row_of(packet, columns):
    at, row = 0, []
    for _, charset, kind in columns:
        piece, at = text_at(packet, at)
        row.append(value_of(piece, charset, kind))
    return row


def value_of(piece, charset, kind):
    if piece is None:
        return None
    if kind in INTEGERS:
        return int(piece)
    return bytes(piece) if charset == BINARY else piece.decode("utf-8", errors="replace")
