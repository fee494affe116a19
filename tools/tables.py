"""CREATE TABLE as MySQL prints it, to one that the program reads, and the rows of INSERTs."""
from kinds import Integer, Kept, Left, kind_at
from sql import closing, name_written, position, split, text_value, text_written, value_of, written

KEY_WORDS = ("KEY", "INDEX")
MOST_KEYS = 8
MOST_COLUMNS = 64
# What the program reads of a table's options.
OPTIONS = ("ENGINE", "CHARSET", "CHARACTER", "COLLATE", "COMMENT", "DEFAULT")


class Column:
    """A column as it was declared, and how the program has it. `text` has its attributes, `default` its default as a value."""

    def __init__(self, name, kind):
        self.name, self.kind = name, kind
        self.text = ""
        self.default = None
        self.is_nullable = True
        self.is_auto = False
        self.auto_place = None  # where AUTO_INCREMENT is written: whether it stays is known once all of the table is read
        self.collation = None


class Key:
    """A key: PRIMARY, UNIQUE or neither, with the names of its columns in lower case."""

    def __init__(self, sort, name, columns, place):
        self.sort, self.name, self.columns, self.place = sort, name, columns, place

    def is_unique(self):
        return self.sort != ""


class Table:
    """A table of the file. `columns` are those that are kept, by their names in lower case; `all_columns` has the others too."""

    def __init__(self, word, place):
        self.name, self.word, self.place = word.name(), word, place
        self.items, self.options = [], ""
        self.columns = {}
        self.all_columns = []
        self.keys = []
        self.rows = []
        self.next_number = 1
        self.is_counting = False  # whether the program gives out its numbers, and not the converter
        self.collation = None

    def create(self):
        """The CREATE TABLE as the program reads it."""
        items = ",\n".join(f"  {item}" for item in self.items)
        return f"CREATE TABLE {name_written(self.word)} (\n{items}\n){self.options}"

    def auto_column(self):
        return next((name for name, column in self.columns.items() if column.is_auto), None)

    def why_no_counter(self):
        """Why the program lets none of the table's columns give out numbers; none where it does."""
        column = self.columns[self.auto_column()]
        if sum(it.is_auto for it in self.columns.values()) > 1:
            return "two columns have it"
        if not gives_numbers(column.kind):
            return f"a column of {column.kind.now} gives out no numbers in the program"
        if self.clustered_key() != [self.auto_column()]:
            return "in the program the column is the PRIMARY KEY alone"
        return "the column has a DEFAULT" if column.default is not None else None

    def take_number(self):
        self.next_number += 1
        return self.next_number - 1

    def see_number(self, text):
        """Goes on after a number that a row has in the column that counts."""
        if text.lstrip("-").isdigit():
            self.next_number = max(self.next_number, int(text) + 1)

    def clustered_key(self):
        """The columns of the PRIMARY KEY, else of the first unique key that has no column with nulls."""
        uniques = sorted((key for key in self.keys if key.is_unique()), key=lambda key: key.sort != "PRIMARY")
        for key in uniques:
            if key.sort == "PRIMARY" or all(name in self.columns and not self.columns[name].is_nullable for name in key.columns):
                return key.columns
        return []

    def unique_keys(self):
        """The columns of each unique key, those of the PRIMARY KEY first."""
        return [key.columns for key in sorted(self.keys, key=lambda key: key.sort != "PRIMARY") if key.is_unique()]


def left_out(column):
    return f"column {column.name}: AUTO_INCREMENT is left out: an INSERT without a number gets the next one here, as the scripts stand and not as they run"


def why_taken(clauses, table):
    """Why the ALTER leaves the table no counter that the program has; none where it leaves it as it is."""
    name = table.auto_column()
    for words in clauses:
        at = 2 if len(words) > 1 and words[1].is_word("COLUMN") else 1
        if len(words) < at + 1 or not words[at].is_name() or words[at].name().lower() != name:
            continue
        if words[0].is_word("DROP"):
            return "the ALTER drops the column"
        declared = words[at + words[0].is_word("CHANGE") :]
        if not words[0].is_word("MODIFY", "CHANGE") or len(declared) < 2:
            continue
        kind, _, _ = kind_at(declared[1:])
        if position(declared, "AUTO_INCREMENT") is None:
            return "the ALTER takes it away"
        if kind is None or not gives_numbers(kind):
            return f"the ALTER makes the column {kind.now if kind else 'one of another kind'}, which gives out no numbers in the program"
        name = declared[0].name().lower()
    return None


def gives_numbers(kind):
    """Whether the program lets a column of the kind give out numbers: an integer, but no BIGINT UNSIGNED, with a width or without."""
    words = kind.now.upper().replace("(", " ").split()
    return kind.family == "integer" and not (words[0] == "BIGINT" and "UNSIGNED" in words)


class Tables:
    """Reads tables and notes what is changed. `file` names the place of each note, `migrated` the table that is altered, in lower
    case, where it is named, and `clauses` are the ALTER's: they decide whether that table keeps AUTO_INCREMENT."""

    def __init__(self, notes, file, migrated=None, clauses=()):
        self.notes, self.file, self.migrated, self.clauses = notes, file, migrated, clauses

    def place(self, words):
        return f"{self.file}:{words[0].line}" if words and not self.file.startswith("--") else self.file

    # Columns

    def column(self, words):
        """A column as it is declared, or none where it is left out."""
        name = words[0].name()
        kind, rest, was = kind_at(words[1:])
        place = self.place(words)
        if position(rest, "AS", "GENERATED") is not None:
            self.notes.change(place, f"column {name} is left out: it is generated, and no statement may write it")
            return None
        if kind is None:
            self.notes.leave(place, f"column {name}: the program has no kind like {was}")
            column = Column(name, Integer(was, was))
        else:
            column = Column(name, kind)
            if kind.now.upper() != kind.was.upper() or kind.cost:
                self.notes.change(place, f"column {name}: {kind.was} as {kind.now}" + (f": {kind.cost}" if kind.cost else ""))
        column.text = self.attributes(column, rest, place)
        return column

    def attributes(self, column, words, place):
        """What follows a column's kind, as the program reads it."""
        text, at = "", 0
        while at < len(words):
            taken, part = self.attribute(column, words, at, place)
            text += f" {part}" if part else ""
            at += taken
        return text

    def attribute(self, column, words, at, place):
        """How many words the attribute at this place has, and how it is written."""
        word, rest = words[at], words[at + 1 :]
        note = lambda text: self.notes.change(place, f"column {column.name}: {text}")
        if word.is_word("NOT") and rest and rest[0].is_word("NULL"):
            column.is_nullable = False
            return 2, "NOT NULL"
        if word.is_word("AUTO_INCREMENT"):
            column.is_auto, column.auto_place = True, place
            return 1, ""
        if word.is_word("ON"):
            note("ON UPDATE is left out: an UPDATE changes it only where it names it")
            return 2 + self.clock_width(rest[1:]), ""
        if word.is_word("DEFAULT"):
            return self.default(column, words, at, note, place)
        if word.is_word("CHARACTER") and len(rest) > 1:
            return 3, written(words[at : at + 3])
        if word.is_word("CHARSET") and rest:
            return 2, f"CHARACTER SET {rest[0].text}"
        if word.is_word("COLLATE") and rest:
            column.collation = rest[0].text
            return 2, written(words[at : at + 2])
        if word.is_word("COMMENT") and rest and rest[0].kind == "text":
            return 2, f"{word.text} {text_written(text_value(rest[0].text))}"
        if word.is_word("INVISIBLE", "VISIBLE", "STORAGE", "COLUMN_FORMAT", "SRID"):
            width = 2 if word.is_word("STORAGE", "COLUMN_FORMAT", "SRID") else 1
            if not word.is_word("VISIBLE"):
                cost = ": SELECT * shows it" if word.is_word("INVISIBLE") else ""
                note(f"{written(words[at : at + width])} is left out{cost}")
            return width, ""
        if word.is_word("REFERENCES", "CHECK", "CONSTRAINT"):
            note(f"{written(words[at:])} is left out: nothing is checked")
            return len(words) - at, ""
        if not word.is_word("NULL", "PRIMARY", "UNIQUE", "KEY"):
            self.notes.leave(place, f"column {column.name}: {word.text} isn't read there")
        return 1, word.text

    def clock_width(self, words):
        """How many words CURRENT_TIMESTAMP has at the front, with its parentheses."""
        return 1 + (closing(words, 1) if len(words) > 1 and words[1].is_sign("(") else 0)

    def default(self, column, words, at, note, place):
        """A column's DEFAULT: a literal, the clock, or an expression, which is left out."""
        rest = words[at + 1 :]
        width = self.expression_width(rest)
        value = value_of(rest[:width])
        if value.sort == "other":
            note(f"DEFAULT {value.written} is left out: an INSERT without a value gets NULL, or 1364 where that isn't allowed")
            return 1 + width, ""
        text = self.literal(column, value, place)
        if value.sort == "now":
            note(f"DEFAULT {value.written} as {text}: there is no clock")
        column.default = text
        return 1 + width, f"{words[at].text} {text}"

    def expression_width(self, words):
        """How many words the expression after DEFAULT has."""
        if words[:1] and words[0].is_sign("("):
            return closing(words, 0) + 1
        if words[:1] and words[0].is_sign("-", "+"):
            return 2
        if len(words) > 1 and words[0].kind == "name" and words[1].is_sign("("):
            return closing(words, 1) + 1
        if len(words) > 1 and words[0].kind == "name" and words[0].text.startswith("_"):
            return 2
        return 1

    # Keys

    def key(self, words, table):
        """A key and its text, or none where it is left out."""
        place, start = self.place(words), 0
        if words[0].is_word("CONSTRAINT"):
            start = 1 if words[1].is_word("UNIQUE", "PRIMARY") else 2
        opening = next((at for at, word in enumerate(words) if word.is_sign("(")), None)
        end = closing(words, opening) if opening is not None else len(words)
        if opening is None or end == len(words):
            self.notes.leave(place, f"{written(words)} has no columns in parentheses")
            return None, written(words)
        head = [word for word in words[start:opening]]
        using = position(head, "USING", "TYPE")
        if using is not None:
            self.notes.change(place, f"{written(head[using : using + 2])} is left out: it changes no value")
            head = head[:using]
        sort = next((word.text.upper() for word in head if word.is_word("PRIMARY", "UNIQUE")), "")
        names = [word for word in head if not word.is_word("PRIMARY", "UNIQUE", *KEY_WORDS)]
        label = names[0].name() if names else "PRIMARY" if sort == "PRIMARY" else "without a name"
        if start == 2 and not names and sort == "UNIQUE":
            head.append(words[1])
        columns, texts = [], []
        for part in split(words[opening + 1 : end]):
            if not part[0].is_name():
                self.notes.change(place, f"key {label} is left out: {written(part)} is an expression")
                return None, None
            if part[0].name().lower() not in table.columns:
                self.notes.change(place, f"key {label} is left out: it has column {part[0].name()}, which is left out")
                return None, None
            self.note_part(place, label, sort, part)
            columns.append(part[0].name().lower())
            texts.append(name_written(part[0]))
        if words[end + 1 :]:
            self.notes.change(place, f"key {label}: {written(words[end + 1 :])} is left out: it changes no value")
        text = " ".join(name_written(word) if word.kind == "quoted" else word.text for word in head)
        return Key(sort, label, columns, place), f"{text} ({', '.join(texts)})"

    def note_part(self, place, label, sort, part):
        """Notes the length of a prefix and DESC."""
        if len(part) > 1 and part[1].is_sign("("):
            cost = "two values that differ only after it don't clash" if sort else "no value changes by that"
            self.notes.change(place, f"key {label}: {written(part)} is the whole column: {cost}")
        elif part[-1].is_word("DESC", "ASC"):
            self.notes.change(place, f"key {label}: {written(part)} without {part[-1].text.upper()}: no value changes by that")

    # CREATE TABLE

    def create(self, words):
        """A table, by the words of a CREATE TABLE; none where it has no columns in parentheses."""
        at = 2 if words[1].is_word("TABLE") else 3
        if words[at].is_word("IF"):
            at += 3
        at = self.after_database(words, at)
        if not words[at].is_name() or not words[at + 1].is_sign("("):
            self.notes.leave(self.place(words), f"{written(words[: at + 2])} .. has no columns in parentheses")
            return None
        table = Table(words[at], self.place(words))
        end = closing(words, at + 1)
        items = split(words[at + 2 : end])
        texts = [self.column_item(item, table) for item in items if not self.is_constraint(item)]
        table.items = [text for text in texts if text]
        self.add_keys([item for item in items if self.is_constraint(item)], table)
        self.keep_numbers(table)
        table.options = self.options(words[end + 1 :], table)
        return table

    def keep_numbers(self, table):
        """AUTO_INCREMENT stays where the program takes it, and of the table that is altered where the ALTER leaves it."""
        auto = table.auto_column()
        if auto is None or table.is_counting:
            return
        why = table.why_no_counter()
        if why is None and self.migrated in (None, table.name.lower()):
            why = why_taken(self.clauses, table)
        if why is not None:
            self.notes.change(table.columns[auto].auto_place, f"{left_out(table.columns[auto])}: {why}")
            return
        table.items[list(table.columns).index(auto)] += " AUTO_INCREMENT"
        table.is_counting = True

    def after_database(self, words, at):
        """Where a table's name stands, after its database and a point where they are written."""
        if not words[at + 1].is_sign("."):
            return at
        self.notes.change(self.place(words), f"{written(words[at : at + 3])} as {words[at + 2].text}: one database is enough")
        return at + 2

    def is_constraint(self, item):
        return item[0].is_word("PRIMARY", "UNIQUE", "CONSTRAINT", "FOREIGN", "CHECK", "FULLTEXT", "SPATIAL", *KEY_WORDS)

    def column_item(self, item, table):
        column = self.column(item)
        table.all_columns.append(item[0].name().lower())
        if column is None:
            return None
        table.columns[column.name.lower()] = column
        for sort in self.own_keys(item):
            table.keys.append(Key(sort, column.name, [column.name.lower()], self.place(item)))
        return f"{name_written(item[0])} {column.kind.now}{column.text}"

    def own_keys(self, item):
        """PRIMARY KEY and UNIQUE in a column's declaration."""
        return [word.text.upper() for word in item[1:] if word.is_word("PRIMARY", "UNIQUE")]

    def add_keys(self, items, table):
        """Adds keys to a table, but for those that the program has nothing like or doesn't take so many of."""
        for item in items:
            key, text = (None, None) if self.leaves_out(item) else self.key(item, table)
            plain = sum(not key.is_unique() for key in table.keys)
            if key is not None and not key.is_unique() and plain == MOST_KEYS:
                self.notes.change(self.place(item), f"key {key.name} is left out: the program takes {MOST_KEYS} that aren't unique")
                continue
            table.keys += [key] if key else []
            table.items += [text] if text else []

    def add_clause(self, clause, table):
        """A clause of an ALTER TABLE that belongs to the table's declaration, as phpMyAdmin prints it. False for another one."""
        if clause[0].is_word("ADD") and len(clause) > 1 and self.is_constraint(clause[1:]):
            self.add_keys([clause[1:]], table)
        elif clause[0].is_word("MODIFY") and position(clause, "AUTO_INCREMENT") is not None:
            column = table.columns.get(clause[2 if clause[1].is_word("COLUMN") else 1].name().lower())
            if column is None:
                return False
            self.attribute(column, clause, position(clause, "AUTO_INCREMENT"), self.place(clause))
            self.keep_numbers(table)
        elif clause[0].is_word("AUTO_INCREMENT"):
            table.options += self.options(clause, table)
        else:
            return clause[0].is_word("ENABLE", "DISABLE")
        return True

    def leaves_out(self, item):
        """Notes a constraint or key that the program has nothing like."""
        opening = next((at for at, word in enumerate(item) if word.is_sign("(")), len(item))
        names = [word.name() for word in item[1:opening] if word.is_name() and not word.is_word("FOREIGN", "CHECK", *KEY_WORDS)]
        name = names[0] if names else "without a name"
        if position(item, "FOREIGN") is not None:
            self.notes.change(self.place(item), f"foreign key {name} is left out: gh-ost itself refuses the table while it has one")
        elif position(item, "CHECK") is not None:
            self.notes.change(self.place(item), f"CHECK {name} is left out: nothing is checked")
        elif item[0].is_word("FULLTEXT", "SPATIAL"):
            self.notes.change(self.place(item), f"{item[0].text} key {name} is left out: no value changes by that")
        else:
            return False
        return True

    def options(self, words, table):
        """What follows a table's parenthesis."""
        text, at = "", 0
        words = [word for word in words if not word.is_sign(",", ";")]
        partition = position(words, "PARTITION")
        if partition is not None:
            self.notes.change(self.place(words[partition:]), "PARTITION BY is left out: no value changes by that")
            words = words[:partition]
        while at < len(words):
            width = self.option_width(words[at:])
            option = words[at : at + width]
            name = next((word.text.upper() for word in option if not word.is_word("DEFAULT")), "")
            if name == "AUTO_INCREMENT":
                table.next_number = int(option[-1].text)
                if table.is_counting and 0 < table.next_number < 2**63:
                    text += f" AUTO_INCREMENT={table.next_number}"
                    at += width
                    continue
                self.notes.change(self.place(option), f"{written(option)} is left out: the scripts' numbers go on from it")
            elif name in OPTIONS:
                if name == "COLLATE":
                    table.collation = option[-1].text
                text += f" {self.option_text(option)}"
            else:
                self.notes.change(self.place(option), f"{written(option)} is left out: it changes no value")
            at += width
        return text

    def option_width(self, words):
        """How many words an option has: its name, `=` and a value."""
        width = 1 + words[0].is_word("DEFAULT", "CHARACTER", "INDEX", "DATA")
        if words[0].is_word("DEFAULT") and words[1:2] and words[1].is_word("CHARACTER"):
            width += 1
        if words[width:] and words[width].is_sign("="):
            width += 1
        return min(width + 1, len(words))

    def option_text(self, option):
        if option[-1].kind == "text":
            return written(option[:-1]) + ("" if option[-2].is_sign("=") else " ") + text_written(text_value(option[-1].text))
        return written(option)

    def check_limits(self, table):
        place = table.place
        if len(table.columns) > MOST_COLUMNS:
            self.notes.leave(place, f"table {table.name} has {len(table.columns)} columns, and the program takes {MOST_COLUMNS} (15)")
        if sum(key.is_unique() for key in table.keys) > MOST_KEYS:
            self.notes.leave(place, f"table {table.name} has more than {MOST_KEYS} unique keys (16)")
        if len(table.name) > 59:
            self.notes.leave(place, f"table {table.name} has a name of more than 59 characters (17)")
        if not table.clustered_key():
            self.notes.leave(place, f"table {table.name} has no PRIMARY KEY, nor a unique key without nulls, and gh-ost needs one (14)")
        self.warn_of_collations(table)

    def warn_of_collations(self, table):
        """Texts compare by their bytes, which matters in unique keys."""
        for key in table.keys:
            texts = [table.columns[name] for name in key.columns if table.columns[name].kind.family == "text"]
            texts = [column for column in texts if column.kind.was.upper().startswith(("VARCHAR", "CHAR", "TEXT", "ENUM"))]
            loose = [column for column in texts if not (column.collation or table.collation or "").endswith("_bin")]
            if key.is_unique() and loose:
                name = loose[0].collation or table.collation or "the table's collation"
                self.notes.warn(key.place, f"key {key.name}: texts compare by their bytes, not by {name}: 'a' and 'A' are two values")

    # Rows

    def rows(self, words, table, limit, shorten):
        """Adds the rows of an INSERT to a table."""
        at = position(words, "VALUES", "VALUE")
        if at is None:
            self.notes.change(self.place(words), f"{written(words[:6])} .. is left out: it has no VALUES")
            return
        names = self.listed_names(words[:at]) or table.all_columns
        for part in split(words[at + 1 :]):
            if not part[0].is_sign("("):
                self.notes.change(self.place(part), f"{written(part)} is left out")
            elif len(table.rows) >= limit:
                self.notes.change(self.file, f"table {table.name}: the rows after the first {limit:,} are left out")
                return
            else:
                table.rows.append(self.row(part, names, table, shorten))

    def listed_names(self, words):
        """The columns in parentheses, where an INSERT lists them."""
        opening = next((at for at, word in enumerate(words) if word.is_sign("(")), None)
        if opening is None:
            return None
        return [word.name().lower() for word in words[opening + 1 : closing(words, opening)] if word.is_name()]

    def row(self, words, names, table, shorten):
        values, unknown = split(words[1:-1]), [name for name in names if name not in table.all_columns]
        if unknown or len(values) != len(names):
            why = f"there is no column {unknown[0]}" if unknown else f"it has {len(values)} values, and there are {len(names)} columns"
            self.notes.leave(self.place(words), f"a row of {table.name}: {why} (58)")
            return written(words)
        given = dict(zip(names, values))
        texts = []
        for name, column in table.columns.items():
            text = self.stored(column, given.get(name), table, words, shorten)
            if column.is_auto:
                table.see_number(text)
            texts.append(text)
        return f"({', '.join(texts)})"

    def stored(self, column, words, table, row, shorten):
        """A value of a row, as the program reads it."""
        place = self.place(row)
        if words is None or (len(words) == 1 and words[0].is_word("DEFAULT")):
            if column.default is None and not column.is_nullable:
                self.notes.leave(place, f"column {column.name}: a row without a value, and there is no DEFAULT")
            return column.default or "NULL"
        value = value_of(words)
        if column.kind.is_too_long(value):
            value = self.cut(column, value, place, shorten)
        text = self.literal(column, value, place)
        if value.sort == "now":
            self.notes.change(place, f"column {column.name}: {value.written} as {text}: there is no clock")
        return text

    def literal(self, column, value, place):
        """A value as the program reads it in a column, or as it is where it can't be converted."""
        try:
            return column.kind.literal(value)
        except Kept as kept:
            self.notes.warn(place, f"column {column.name}: {kept}")
            return kept.text
        except Left as why:
            self.notes.leave(place, f"column {column.name}: {why}")
            return value.written

    def cut(self, column, value, place, shorten):
        """A value that is longer than the program takes: cut, where that is asked for."""
        if shorten:
            self.notes.change(self.file, f"column {column.name}: longer values are cut, and end with a sum that tells them apart")
            return column.kind.shortened(value)
        unit = "bytes" if value.sort == "bytes" else "characters"
        self.notes.leave(place, f"column {column.name}: a value of {len(value.value):,} {unit} (58); --shorten cuts it")
        return value
