"""Tables whose numbers are given out: random ones beside the migrated table, and which statements draw a number of theirs."""
import random
import re

import making
import scripts
from plan import Plan
from words import items, joined, split_at_commas, words

# The table that is migrated beside them, and its ALTER.
MIGRATED, ALTER = "CREATE TABLE t (id INT PRIMARY KEY, a INT)", "ADD COLUMN b INT"
# What has no number to give out; the program refuses each of them with 32.
ODD_COLUMNS = ("BIGINT UNSIGNED AUTO_INCREMENT", "VARCHAR(5) AUTO_INCREMENT", "INT DEFAULT 5 AUTO_INCREMENT", "INT DEFAULT NULL AUTO_INCREMENT")
ODD_STARTS = ("0", "9223372036854775808", "99999999999999999999")
ZERO = re.compile(r"[+-]?0+")


class Counter(making.Table):
    """A table `u` whose key's one column gives out numbers."""

    name, counts = "u", True

    def make_keys(self, r):
        key = self.key
        key.kind, key.length, key.nullable, key.is_auto = r.choice(["INT", "INT", "BIGINT", "SMALLINT", "MEDIUMINT", "TINYINT", "TINYINT"]), 0, False, True
        key.unsigned = key.kind != "BIGINT" and making.chance(r, 30)
        key.in_unique = key.in_clustered = True
        for _ in range(r.choice([0, 0, 1, 1, 2])):
            self.add_key(r)

    def create(self, r):
        self.key.default = None
        lines = [f"{it.name} {it.written(r)}{making.attributes(r, it)}{self.marks.get(it.name, '')}" for it in self.columns]
        word, at = making.letters(r, "AUTO_INCREMENT"), self.columns.index(self.key)
        fault = r.choice(["column", "key", "unique", "two"]) if making.chance(r, 5) else None
        if fault == "column":
            lines[at] = f"{self.key.name} {r.choice(ODD_COLUMNS)}"
        else:
            lines[at] += f" {word}"
        if fault == "two":
            lines.append("z INT AUTO_INCREMENT")
        self.declare_key(r, lines, at, fault)
        return f"CREATE TABLE u ({', '.join([*lines, *self.lines])}){self.options(r)}"

    def declare_key(self, r, lines, at, fault):
        """The key behind its column or by itself; of two columns, or unique alone, where that is the fault."""
        name = self.key.name
        if fault == "unique":
            lines[at] += " UNIQUE"
        elif fault == "key" and len(self.columns) > 1:
            self.lines.append(f"PRIMARY KEY ({name}, {next(it.name for it in self.columns if it is not self.key)})")
        elif making.chance(r, 60):
            lines[at] += " PRIMARY KEY"
        else:
            self.lines.append(f"PRIMARY KEY ({name})")

    def options(self, r):
        text = " ENGINE=InnoDB" if making.chance(r, 20) else ""
        if making.chance(r, 40):
            _, high = self.key.limits()
            start = r.choice([1, 2, 5, 9, 30]) if making.chance(r, 75) else r.choice([high - 2, high, high + 1]) % 2**63 or 1
            text += f" AUTO_INCREMENT{r.choice(['=', ' ', ' = '])}{r.choice(ODD_STARTS) if making.chance(r, 4) else start}"
        return text


class Small:
    """The migrated table, as far as statements are made of it."""

    name, counts, uniques = "t", False, []

    def __init__(self):
        self.columns = [making.Column("id", "INT", nullable=False), making.Column("a", "INT")]
        self.key = self.columns[0]
        self.clustered = [self.key]


def make_rows(r, table):
    """Rows with numbers of their own. A 0 is one, as mysqldump has it taken; a NULL is none."""
    rows = making.make_rows(r, table)
    if making.chance(r, 80):
        # (few numbers are left behind the greatest ones)
        at = table.columns.index(table.key)
        rows = [it for it in rows if re.fullmatch(r"\W*0*\d\d?\W*", joined(split_at_commas(words(it)[1:-1])[at]))]
    return ["(" + ", ".join("NULL" for _ in table.columns) + ")", *rows] if making.chance(r, 2) else rows


def make_plan(series, number):
    """The plan of a number: clients of a table that gives out numbers, beside a small one that is migrated."""
    r = random.Random(f"numbers {series} {number}")
    table, migrated = Counter(r), Small()
    rows = make_rows(r, table)
    clients = scripts.make_clients(r, table, table, table, table, migrated)
    waits = r.choice([1, 3, 20]) if len(clients) > 1 else 0
    return Plan(f"n{number}", MIGRATED, ["(1, 1)", "(3, NULL)"], ALTER, clients, True, waits, second=table.text, second_rows=rows)


def auto_column(create):
    """The column that gives out numbers, by its name in lower case, and the names of all; none where no column does."""
    listed = [it for it in items(create)[0] if it and not it[0].is_word("PRIMARY", "UNIQUE", "KEY", "INDEX")]
    auto = next((it[0].name() for it in listed if any(word.is_word("AUTO_INCREMENT") for word in it[1:])), None)
    return auto, [it[0].name() for it in listed]


def draws(line, table, create):
    """Whether an INSERT or a REPLACE into this table asks for its next number: it gives the column no value, NULL or 0."""
    listed = words(line)
    if len(listed) < 4 or not listed[0].is_word("INSERT", "REPLACE") or listed[2].name() != table:
        return False
    auto, columns = auto_column(create)
    at = next((place for place, it in enumerate(listed) if it.is_word("VALUES")), len(listed))
    names = [it.name() for it in listed[4 : at - 1] if it.text != ","] if at > 3 else columns
    values = split_at_commas(listed[at + 2 :])
    if values and values[-1] and values[-1][-1].text == ";":
        values[-1].pop()
    if auto is None or len(names) != len(values):
        return False
    return auto not in names or is_next(values[names.index(auto)])


def is_next(value):
    """Whether a value stands for the next number."""
    text = "".join(it.text for it in value).removesuffix(")").strip("'\"")
    return text.upper() == "NULL" or ZERO.fullmatch(text) is not None
