"""Reads what `ghost` printed: a report of `replay`, and the altered schema of `check`."""
import re

from serving import Shape

COLUMN = re.compile(r"`([^`]*)` (\w+(?:\(\d+\))?(?: UNSIGNED)?)( NOT NULL)?(?: DEFAULT (.*))?\Z")
KEY = re.compile(r"(?:PRIMARY KEY|UNIQUE KEY `[^`]*`|KEY `[^`]*`) \(.*\)\Z")
REFUSED = re.compile(r"refused (\d+) (\w+)(?: (.*))?\n\Z")
NUMBER = re.compile(r"\d+\.\d+ ok (\d+ id \d+)\Z")
UNFIT = re.compile(r"reverted unfit turn \d+ key \((.*)\) column '(.*)' (\d+)\Z")
TABLE = re.compile(r"table t \((.*)\)\Z")


class Report:
    def __init__(self, ran):
        self.status, self.text = ran.status, ran.text
        self.refused, self.unfit = None, None  # a code; a number and a column
        self.is_of_second = False  # whether the second table is refused
        self.second_columns, self.second_rows = None, None
        self.replies = []  # a list for each client
        self.columns, self.rows = None, None
        self.order = []  # the clients by their turns, from 0, where the report has the order
        refused = REFUSED.match(ran.text)
        if refused:
            self.refused = int(refused.group(1))
            self.is_of_second = (refused.group(3) or "").startswith("table 2")
        else:
            self.read(ran.text.split("\n"))

    def done(self):
        return self.status == 0

    def read(self, lines):
        unfit = UNFIT.match(lines[0])
        if unfit:
            self.unfit = int(unfit.group(3)), unfit.group(2).replace("''", "'")
        at = 1
        while at < len(lines) and lines[at].startswith("client "):
            at = self.read_client(lines, at + 1)
        table = TABLE.match(lines[at])
        self.columns = table.group(1) if table else None
        self.rows = sorted(rows_from(lines, at + 1))
        self.read_second(lines)
        self.order = [client for line in lines if line.startswith("order ") for client in clients_of(line)]

    def read_second(self, lines):
        at = next((at for at, line in enumerate(lines) if line.startswith("table u (")), None)
        if at is not None:
            self.second_columns, self.second_rows = lines[at][len("table u (") : -1], sorted(rows_from(lines, at + 1))

    def read_client(self, lines, at):
        replies = []
        while re.match(r"\d+\.\d+ ", lines[at]):
            _, form, count = lines[at].split(" ")[:3] if lines[at].count(" ") > 1 else (*lines[at].split(" "), "0")
            rows = lines[at + 1 : at + 1 + int(count)] if form == "rows" else []
            number = NUMBER.match(lines[at])
            replies.append((form, number.group(1) if number else sorted(rows) if form == "rows" else int(count)))
            at += 1 + len(rows)
        self.replies.append(replies)
        return at


def clients_of(line):
    for actor, number, _, times in re.findall(r"\b(c)(\d+)(\*(\d+))?", line):
        yield from [int(number) - 1] * int(times or 1)


def rows_from(lines, at):
    while at < len(lines) and lines[at].startswith("("):
        yield lines[at]
        at += 1


def shape_of(text):
    """The shape that `check` printed; none where it printed no schema."""
    lines = text.split("\n")
    if not lines[0].startswith("CREATE TABLE `t` ("):
        return None
    columns, keys, comment = [], [], "''"
    for line in lines[1:]:
        if line.startswith(")"):
            comment = line.partition("COMMENT=")[2] or "''"
            break
        item = line.strip().removesuffix(",")
        if KEY.match(item):
            keys.append(item)
        else:
            name, kind, strict, default = COLUMN.match(item).groups()
            columns.append((name, kind, strict is None, default is not None, default))
    return Shape(columns, keys, comment)
