"""Random plans: a table, its rows, the clients' lines and an ALTER. A series and a number give the same plan always."""
import random

import scripts
from alters import alter_of
from plan import Plan
from words import words

# Of a hundred choices, how many are made so that they don't fit or are refused.
ODD = 4
# Names of columns, as they may be written; some only between backquotes.
NAMES = ["a", "b", "c", "d", "e", "Name", "note", "v1", "_x", "`key`", "`group`", "n", "Total", "`a b`", "`to`", "flag"]
WORDS_OF_MYSQL = ["rank", "groups", "order", "select", "interval", "range"]
LETTERS = ["a", "b", "ab", "B", "x", "yz", "abc", "é", "ß", "", " ", "0", "7", "12", "日本", "A-7", "long text"]
LETTERS += ["it's", "a\nb", "\\", "%_", "\t", '"', "a\0b", "\r", "😀", "-5", "+5", "1e3"]
ESCAPES = {"\\": "\\\\", "'": "''", "\n": "\\n", "\t": "\\t", "\r": "\\r", "\0": "\\0"}
MISTAKES = "NOT NULL DEFAULT PRIMARY KEY UNIQUE INDEX ( ) , FIRST AFTER COLUMN ADD DROP INT VARCHAR(3) 5 'x' `a` id TO COMMENT = ;".split()
WIDTHS = {"TINYINT": 8, "SMALLINT": 16, "MEDIUMINT": 24, "INT": 32, "BIGINT": 64}


class Column:
    def __init__(self, name, kind, length=0, unsigned=False, nullable=True):
        self.name, self.kind, self.length, self.unsigned, self.nullable = name, kind, length, unsigned, nullable
        self.default, self.in_unique, self.in_clustered, self.indexed = None, False, False, False
        self.is_auto = False

    def bare(self):
        return self.name.strip("`").lower()

    def is_integer(self):
        return self.kind in WIDTHS

    def written(self, r):
        if not self.is_integer():
            return f"{letters(r, self.kind)}({self.length})"
        kind = "INTEGER" if self.kind == "INT" and chance(r, 10) else self.kind
        width = f"({r.choice([1, 5, 11, 255])})" if chance(r, 15) else ""
        return letters(r, kind) + width + (" " + letters(r, "UNSIGNED") if self.unsigned else "")

    def limits(self):
        bits = WIDTHS[self.kind]
        return (0, 2**bits - 1) if self.unsigned else (-(2 ** (bits - 1)), 2 ** (bits - 1) - 1)


def with_remark(r, text):
    """Now and then a comment or white space of another kind behind a comma."""
    if chance(r, 5):
        return text.replace(", ", r.choice([", -- a remark\n", ",\t", ", # it's\n", ",\r\n"]), 1)
    return text


def with_mistake(r, text, behind=0):
    """The text with a word left out, written twice, put in place of another or between two, behind the first words."""
    listed = [it.text for it in words(text)]
    at, form = r.randrange(behind, len(listed)), r.choice(["out", "twice", "other", "more"])
    put = listed[at] if form == "twice" else r.choice(MISTAKES)
    listed[at : at + (form in ("out", "other"))] = [] if form == "out" else [put]
    return " ".join(listed)


def chance(r, percent):
    return r.randrange(100) < percent


def letters(r, word):
    """A keyword in capitals, as a rule."""
    return word.lower() if chance(r, 12) else word


def random_column(r, name):
    kind = r.choice(["INT", "INT", "BIGINT", "TINYINT", "SMALLINT", "MEDIUMINT", "VARCHAR", "VARCHAR", "VARCHAR", "VARBINARY"])
    length = r.choice([1, 2, 3, 5, 8, 12, 20]) if kind not in WIDTHS else 0
    return Column(name, kind, length, kind in WIDTHS and chance(r, 25), chance(r, 65))


def text_literal(r, text):
    """A text between quotes of either kind; each sign that may be escaped is."""
    mark = '"' if chance(r, 15) else "'"
    escapes = {**ESCAPES, "'": "'" if mark == '"' else r.choice(["''", "\\'"]), '"': '""' if mark == '"' else '"'}
    return mark + "".join(escapes.get(it, it) for it in text) + mark


def number_text(r, number):
    """A number as it may be written: with a sign, or with zeros ahead."""
    if number >= 0 and chance(r, 8):
        return r.choice(["+", "0", "00"]) + str(number)
    return "-0" if number == 0 and chance(r, 8) else str(number)


def number_for(r, column):
    low, high = column.limits()
    small = [it for it in (0, 1, 2, 3, 4, 5, 7, 9, -1, -2, 100) if low <= it <= high]
    return r.choice(small) if chance(r, 80) else r.choice([low, high, low + 1, high - 1])


def literal_for(r, column):
    """A literal that the column stores, as a rule."""
    if chance(r, 1):
        return odd_literal(r, column)
    if column.nullable and chance(r, 20):
        return "NULL"
    if column.is_integer():
        number = number_for(r, column)
        return text_literal(r, number_text(r, number)) if chance(r, 6) else number_text(r, number)
    if column.kind == "VARBINARY":
        size = r.randrange(min(column.length, 4) + 1)
        return "x'" + bytes(r.randrange(256) for _ in range(size)).hex() + "'"
    if chance(r, 8):
        return number_text(r, r.randrange(10 ** min(column.length, 3)))
    fitting = [it for it in LETTERS if len(it) <= column.length]
    return text_literal(r, r.choice(fitting))


def odd_literal(r, column):
    if column.is_integer():
        low, high = column.limits()
        return r.choice([str(high + 1), str(low - 1), "' 5'", "'5 '", "'x'", "'5.4'", "''", "x'05'", "NULL"])
    long = "a" * (column.length + 1)
    return r.choice([f"'{long}'", "'" + "b" * column.length + " '", "x'41'", "NULL", "10000000000000000000000"])


def attributes(r, column):
    """What stands behind a column's kind, in any order."""
    listed = [] if column.nullable else ["NOT NULL"]
    if column.nullable and chance(r, 10):
        listed.append("NULL")
    if chance(r, 2):
        return " NULL NOT NULL" if not column.nullable else " NOT NULL NULL"
    if column.default is not None:
        listed.append(f"DEFAULT {column.default}")
    if chance(r, 8):
        listed.append(f"COMMENT {text_literal(r, r.choice(['as printed', 'x', '']))}")
    r.shuffle(listed)
    return "".join(f" {it}" for it in listed)


def random_default(r, column):
    if chance(r, 30):
        literal = literal_for(r, column)
        column.default = literal if literal != "NULL" or column.nullable or chance(r, ODD) else None


def make_columns(r):
    count = r.choice([1, 2, 3, 3, 4, 4, 5, 6])
    names = r.sample(NAMES, count)
    if chance(r, 2):
        names[-1] = r.choice(WORDS_OF_MYSQL)
    columns = [random_column(r, name) for name in names]
    place = r.randrange(count) if chance(r, 25) else 0
    key = columns[place]
    key.name = "id" if chance(r, 70) else key.name
    if chance(r, 85):
        key.kind, key.length = r.choice(["INT", "INT", "BIGINT", "SMALLINT"]), 0
    key.nullable = False
    return columns, key


class Table:
    """A table's text and what the other parts need to know of it."""

    name, counts = "t", False

    def __init__(self, r):
        self.columns, self.key = make_columns(r)
        self.clustered = [self.key]
        self.uniques, self.indexes, self.lines, self.marks = [], [], [], {}
        self.make_keys(r)
        for column in self.columns:
            if column is not self.key or chance(r, 30):
                random_default(r, column)
        self.text = self.create(r)

    def make_keys(self, r):
        if len(self.columns) > 1 and chance(r, 10):
            self.clustered.append(r.choice([it for it in self.columns if it is not self.key]))
            r.shuffle(self.clustered)
        for column in self.clustered:
            column.in_unique = column.in_clustered = True
            column.nullable = False
        for _ in range(r.choice([0, 0, 0, 1, 1, 2])):
            self.add_key(r)

    def add_key(self, r):
        listed = r.sample(self.columns, min(len(self.columns), r.choice([1, 1, 2])))
        name = f"k{len(self.lines)}" if chance(r, 70) else ""
        names = ", ".join(letters(r, it.name) for it in listed)
        if len(listed) == 1 and chance(r, 20):
            self.marks[listed[0].name] = letters(r, r.choice([" UNIQUE", " UNIQUE KEY"]))
            self.uniques.append(listed)
            listed[0].in_unique = True
            return
        if chance(r, 40):
            self.uniques.append(listed)
            for column in listed:
                column.in_unique = True
            word = r.choice(["UNIQUE", "UNIQUE KEY", "UNIQUE INDEX"])
        else:
            word = r.choice(["KEY", "INDEX"])
            self.indexes.append(name)
            for column in listed:
                column.indexed = True
        self.lines.append(f"{letters(r, word)} {name} ({names})".replace("  ", " "))

    def create(self, r):
        lines = [f"{it.name} {it.written(r)}{attributes(r, it)}{self.marks.get(it.name, '')}" for it in self.columns]
        named = ", ".join(it.name for it in self.clustered)
        if len(self.clustered) == 1 and chance(r, 60):
            lines[self.columns.index(self.key)] += r.choice([" PRIMARY KEY", " PRIMARY KEY", " primary key"])
        elif chance(r, 80):
            self.lines.insert(r.randrange(len(self.lines) + 1), f"PRIMARY KEY ({named})")
        else:
            self.lines.insert(0, f"UNIQUE KEY clustered ({named})")
        lines += self.lines
        text = f"CREATE TABLE t ({', '.join(self.odd(r, lines))}){self.options(r)}"
        return with_remark(r, text)

    def options(self, r):
        listed = [" ENGINE=InnoDB"] if chance(r, 20) else []
        if chance(r, 15):
            listed.append(f" COMMENT {r.choice(['', '= '])}{text_literal(r, r.choice(['orders', 'it is', 'a; b']))}")
        if chance(r, 2):
            listed.append(r.choice([" DEFAULT CHARSET=utf8mb4", " COLLATE utf8mb4_general_ci", " CHARACTER SET = utf8mb4"]))
        return "".join(listed) + (";" if chance(r, 5) else "")

    def odd(self, r, lines):
        """Now and then a fault of the text, or what the model leaves out."""
        if not chance(r, ODD):
            return lines
        extra = [f"{self.key.name} INT", "KEY k9 (nothing)", "z DATE", "z INT AUTO_INCREMENT", "z INT NOTNULL", "KEY k8 (id), KEY k8 (id)"]
        extra += ["z VARCHAR(0)", "z VARCHAR(2000)", "z TINYINT DEFAULT 300", "z INT NOT NULL DEFAULT NULL", "z VARCHAR(2) DEFAULT 'abc'"]
        extra += ["z INT DEFAULT 'x'", "z INT,", "FOREIGN KEY (id) REFERENCES u (id)", "CHECK (1 = 1)", "z INT ZEROFILL", "PRIMARY KEY (id)"]
        extra += [f"KEY k6 ({self.key.name}, {self.key.name})", "z VARCHAR(1000)", "z INT(0)", "z INT COMMENT 'a' COMMENT 'b'", "KEY `` (id)"]
        extra += [", ".join(f"UNIQUE u{at} ({self.key.name})" for at in range(9)), ", ".join(f"y{at} INT" for at in range(64)), f"{'n' * 65} INT"]
        extra += ["z VARCHAR(1000) NOT NULL, UNIQUE kz (z)", ", ".join(f"y{at} VARCHAR(1000)" for at in range(17))]
        extra += [f"KEY k7 ({self.key.name} DESC)", "z INT DEFAULT x'05'", "z VARCHAR(3) DEFAULT x'41'"]
        return [*lines, r.choice(extra)]


def make_rows(r, table):
    """Rows of which no two clash, as a rule."""
    rows, seen = [], [set() for _ in range(len(table.uniques) + 1)]
    for _ in range(r.choice([0, 1, 2, 3, 4, 5, 8, 12])):
        literals = {column.name: literal_for(r, column) for column in table.columns}
        keys = [tuple(literals[it.name].strip("'\"") for it in listed) for listed in [table.clustered, *table.uniques]]
        clash = any(key in held and "NULL" not in key for key, held in zip(keys, seen))
        if clash and not chance(r, 1):
            continue
        for key, held in zip(keys, seen):
            held.add(key)
        rows.append("(" + ", ".join(literals[it.name] for it in table.columns) + ")")
    return rows


def make_plan(series, number):
    """The plan of a number."""
    r = random.Random(f"{series} {number}")
    table = Table(r)
    rows = make_rows(r, table)
    clients = scripts.make_clients(r, table)
    alter = alter_of(r, table)
    if chance(r, 2):
        table.text = with_mistake(r, table.text, 3)
    if chance(r, 4):
        alter = with_mistake(r, alter)
    waits = r.choice([1, 3, 20]) if len(clients) > 1 else 0
    return Plan(f"{number}", table.text, rows, alter, clients, chance(r, 96), waits)
