"""The clauses of an ALTER TABLE, to those that the program reads."""
from sql import closing, name_written, position, split, words_of, written
from tables import left_out

PLACE = "--alter"
NO_VALUE = "it changes no value"
# What a clause may begin with that changes no value, nor anything that the program knows.
PASSED = (
    *("ENGINE", "ROW_FORMAT", "CONVERT", "DEFAULT", "CHARSET", "CHARACTER", "COLLATE", "COMMENT", "AUTO_INCREMENT", "ALGORITHM"),
    *("LOCK", "FORCE", "ORDER", "KEY_BLOCK_SIZE", "STATS_PERSISTENT", "STATS_AUTO_RECALC", "STATS_SAMPLE_PAGES", "COMPRESSION"),
    *("ENCRYPTION", "CHECKSUM", "DELAY_KEY_WRITE", "MAX_ROWS", "MIN_ROWS", "AVG_ROW_LENGTH", "PACK_KEYS", "TABLESPACE", "INSERT_METHOD"),
    *("DISABLE", "ENABLE", "WITHOUT", "WITH"),
)
CONSTRAINTS = ("CONSTRAINT", "FOREIGN", "CHECK", "FULLTEXT", "SPATIAL")


def table_and_clauses(text):
    """The table's name after ALTER TABLE, or none where that isn't written, and the clauses' words."""
    words = words_of(text)
    while words and words[-1].is_sign(";"):
        words = words[:-1]
    if len(words) < 3 or not (words[0].is_word("ALTER") and words[1].is_word("TABLE")):
        return None, split(words)
    at = 4 if len(words) > 4 and words[3].is_sign(".") else 2
    return words[at].name(), split(words[at + 1 :])


class Alters:
    """Converts clauses one after the other. `tables` reads columns and keys, `table` is the table as those before leave it, and
    `left_out` are the columns that it hasn't here."""

    def __init__(self, notes, tables, table):
        self.notes, self.tables, self.table = notes, tables, table
        self.left_out = [name for name in table.all_columns if name not in table.columns]

    def alter(self, clauses):
        texts = [text for clause in clauses for text in self.read_clause(clause)]
        if texts:
            return ", ".join(texts)
        # gh-ost is also used to build a table anew; the program wants a clause for that.
        column = next(iter(self.table.columns.values()))
        self.notes.change(PLACE, f"nothing is left of the ALTER, so that it builds the table anew: column {column.name} is declared as it is")
        number = " AUTO_INCREMENT" if column.is_auto and self.table.is_counting else ""
        return f"MODIFY COLUMN `{column.name}` {column.kind.now}{column.text}{number}"

    def read_clause(self, words):
        try:
            return self.clause(words)
        except IndexError:
            self.notes.leave(PLACE, f"{written(words)} ends too early")
            return [written(words)]

    def clause(self, words):
        """The clauses that stand for one, none where it is left out."""
        first, rest = words[0], words[1:]
        if first.is_word(*PASSED):
            self.notes.change(PLACE, f"{written(words)} is left out: {NO_VALUE}")
            return []
        if first.is_word("ADD") and rest:
            return self.add(words, rest)
        if first.is_word("MODIFY", "CHANGE") and rest:
            return [self.change(words)]
        if first.is_word("DROP") and rest:
            return self.drop(words, rest)
        if first.is_word("ALTER") and rest:
            return self.alter_column(words, rest)
        if first.is_word("RENAME") and len(rest) == 4 and rest[0].is_word("COLUMN"):
            self.rename(rest[1], rest[3])
            return [written(words)]
        return self.leave(words)

    def leave(self, words):
        self.notes.leave(PLACE, f"{written(words)} is no clause that the program reads")
        return [written(words)]

    def rename(self, old, new):
        """A column gets another name, unless only the case of its letters changes."""
        if old.name().lower() == new.name().lower():
            return
        column = self.table.columns.pop(old.name().lower(), None)
        if column is not None:
            self.table.columns[new.name().lower()] = column
        for key in self.table.keys:
            key.columns = [new.name().lower() if name == old.name().lower() else name for name in key.columns]
        self.notes.warn(PLACE, f"{old.name()} gets the name {new.name()}: the plan needs approve_renamed_columns = true (28), as gh-ost does")

    def add(self, words, rest):
        if rest[0].is_word("PARTITION"):
            return self.leave(words)
        if rest[0].is_word(*CONSTRAINTS) and not self.is_unique_constraint(rest):
            if not self.tables.leaves_out(rest):
                self.notes.change(PLACE, f"{written(words)} is left out: {NO_VALUE}")
            return []
        if rest[0].is_word("UNIQUE", "PRIMARY", "KEY", "INDEX", "CONSTRAINT"):
            key, text = self.tables.key(rest, self.table)
            if key is not None and key.is_unique():
                self.notes.leave(PLACE, f"{written(words)}: rows that clash would be lost without a word (25, 26)")
            return [f"ADD {text}"] if text else []
        at = 1 if rest[0].is_word("COLUMN") else 0
        if rest[at].is_sign("("):
            parts = split(rest[at + 1 : closing(rest, at)])
            return [text for part in parts for text in self.add([words[0], *part], part)]
        return self.column_clause("ADD COLUMN", rest[at:])

    def is_unique_constraint(self, rest):
        return rest[0].is_word("CONSTRAINT") and position(rest, "UNIQUE") is not None

    def position_words(self, words):
        """FIRST, or AFTER and a column, at the end of a column's declaration: how many words it has."""
        if words[-1].is_word("FIRST"):
            return 1
        return 2 if len(words) > 1 and words[-2].is_word("AFTER") else 0

    def column_clause(self, head, words):
        """A clause that declares a column, none where the column is left out."""
        width = self.position_words(words)
        declared, place = words[: len(words) - width], words[len(words) - width :]
        unique = [word for word in declared if word.is_word("UNIQUE", "PRIMARY")]
        if unique:
            self.notes.leave(PLACE, f"{written(words)}: the program adds no key with a column (25, 26)")
        column = self.tables.column(declared)
        if column is None:
            return []
        old = self.table.columns.get(column.name.lower())
        if old is not None:
            self.check_change(old, column)
            self.keep_not_null(column)
        if column.is_auto:
            self.keep_number(old, column)
        self.table.columns[column.name.lower()] = column
        if width == 2 and place[1].name().lower() in self.left_out:
            self.notes.change(PLACE, f"{written(place)} is left out: that column is")
            place = []
        where = f" {place[0].text}" if place else ""
        where += f" {name_written(place[1])}" if len(place) == 2 else ""
        return [f"{head} {name_written(declared[0])} {column.kind.now}{column.text}{where}"]

    def keep_not_null(self, column):
        """A column of the PRIMARY KEY is NOT NULL, also where the clause doesn't say it."""
        primary = next((key.columns for key in self.table.keys if key.sort == "PRIMARY"), [])
        if column.is_nullable and column.name.lower() in primary:
            column.text += " NOT NULL"
            self.notes.change(PLACE, f"column {column.name}: NOT NULL is added: it is in the PRIMARY KEY")

    def keep_number(self, old, column):
        """AUTO_INCREMENT stays where the column has it already: the program lets no ALTER give it to one (31)."""
        if old is not None and old.is_auto and self.table.is_counting:
            column.text += " AUTO_INCREMENT"
        else:
            self.notes.change(PLACE, left_out(column))

    def check_change(self, old, column):
        """Says where the values of a column stay as they are, though MySQL would write them anew, or can't go to the new kind."""
        if old.kind.family != "integer" and column.kind.family == "integer":
            self.notes.leave(PLACE, f"column {column.name}: {old.kind.now} to {column.kind.now}: no text becomes a number (31)")
        elif old.kind.was.upper() != column.kind.was.upper() and (old.kind.is_respelled or column.kind.is_respelled):
            self.notes.warn(PLACE, f"column {column.name}: {old.kind.was} to {column.kind.was}: what is stored stays as it is written")

    def change(self, words):
        """MODIFY and CHANGE."""
        rest = words[2:] if words[1].is_word("COLUMN") else words[1:]
        head = "MODIFY COLUMN"
        if words[0].is_word("CHANGE"):
            old, rest = rest[0], rest[1:]
            head = f"CHANGE COLUMN {name_written(old)}"
            self.rename(old, rest[0])
        texts = self.column_clause(head, rest)
        if not texts:
            self.notes.leave(PLACE, f"{written(words)}: a column that is generated")
        return texts[0] if texts else written(words)

    def drop(self, words, rest):
        if rest[0].is_word("FOREIGN", "CONSTRAINT", "CHECK"):
            self.notes.change(PLACE, f"{written(words)} is left out: {NO_VALUE}")
            return []
        if rest[0].is_word("PRIMARY", "PARTITION"):
            return self.leave(words)
        name = rest[-1].name().lower()
        is_key = rest[0].is_word("KEY", "INDEX")
        if not is_key and name in self.left_out:
            self.notes.change(PLACE, f"{written(words)} is left out: the column is")
            return []
        if is_key and name not in [key.name.lower() for key in self.table.keys]:
            self.notes.change(PLACE, f"{written(words)} is left out: the table has no such key here")
            return []
        if not is_key:
            self.table.columns.pop(name, None)
        return [written(words)]

    def alter_column(self, words, rest):
        """ALTER COLUMN .. SET DEFAULT and DROP DEFAULT, as a MODIFY of the whole column."""
        at = 1 if rest[0].is_word("COLUMN") else 0
        column = self.table.columns.get(rest[at].name().lower()) if rest[at].is_name() else None
        action = rest[at + 1 :]
        if column is None or len(action) < 2 or not action[0].is_word("SET", "DROP") or not action[1].is_word("DEFAULT"):
            return self.leave(words)
        declared = words_of(f"`{column.name}` {column.kind.was}")
        null = words_of(" NULL" if column.is_nullable else " NOT NULL")
        default = action[1:] if action[0].is_word("SET") else words_of(" AUTO_INCREMENT") if column.is_auto else []
        self.notes.change(PLACE, f"{written(words)} as a MODIFY of the whole column")
        return self.column_clause("MODIFY COLUMN", [*declared, *null, *default])
