"""Clients' statements, to lines of scripts as the program reads them."""
import itertools
import re

from kinds import Kept, Left, Text
from sql import Word, closing, is_name_text, name_written, position, split, value_of, without_parentheses, words_of, written
from tables import Column

SETTINGS = ("SET", "USE", "SHOW", "LOCK", "UNLOCK", "SAVEPOINT", "RELEASE", "FLUSH", "ANALYZE", "EXPLAIN", "DESCRIBE", "DESC")
AUTOCOMMIT = re.compile(r"SET (?:SESSION |@@SESSION\.|@@LOCAL\.|@@)?AUTOCOMMIT ?= ?(0|1|ON|OFF)", re.I)
COMPARED = {"<": ">", "<=": ">=", ">": "<", ">=": "<="}
MOST_STATEMENTS = 100
LOCKING = "FOR", "LOCK"
# What may follow a table, and is no other name of it.
AFTER_TABLE = (
    *("WHERE", "SET", "ORDER", "LIMIT", "GROUP", "HAVING", "USE", "FORCE", "IGNORE", "PARTITION", "ON", "USING", *LOCKING),
    *("JOIN", "INNER", "LEFT", "RIGHT", "CROSS", "STRAIGHT_JOIN", "NATURAL"),
)
SELECT_WORDS = ("ALL", "HIGH_PRIORITY", "SQL_NO_CACHE", "SQL_CACHE", "SQL_SMALL_RESULT", "SQL_BIG_RESULT", "SQL_BUFFER_RESULT")


# The column of a table that isn't in the file, which takes literals as they are.
UNKNOWN = Column("", Text("", ""))


class Unread(Exception):
    """What the program can't read of a statement."""


class Condition:
    """A conjunction: equalities, each with its values, and comparisons, both of columns by their names as they are written."""

    def __init__(self):
        self.equal, self.compared = [], []

    def is_read(self):
        """Whether the program reads it: equalities alone, or comparisons of one column."""
        columns = {column.name().lower() for column, _, _ in self.compared}
        return not self.compared or (not self.equal and len(columns) == 1 and len(self.compared) <= 2)

    def columns(self):
        return {column.name().lower() for column, *_ in [*self.equal, *self.compared]}

    def is_on_key(self, table):
        """Whether the server runs it: it names all columns of a unique key, or compares a clustered key of one column."""
        if self.compared:
            return [*self.columns()] == table.clustered_key()
        return any(self.columns() == set(key) for key in table.unique_keys())

    def is_one(self, table):
        """Whether it holds of one row at most."""
        return not self.compared and all(len(texts) == 1 for _, texts in self.equal) and self.is_on_key(table)

    def texts(self):
        """The condition, as often as values of IN (..) make several."""
        if self.compared:
            yield " AND ".join(f"{name_written(column)} {sign} {text}" for column, sign, text in self.compared)
            return
        for texts in itertools.product(*(texts for _, texts in self.equal)):
            yield " AND ".join(f"{name_written(column)} = {text}" for (column, _), text in zip(self.equal, texts))


class Scripts:
    """Converts clients' scripts. `tables` are those of the file, by their names; longer values are cut where `shorten` says so."""

    def __init__(self, notes, tables, shorten):
        self.notes, self.tables, self.shorten = notes, tables, shorten
        # Whether a transaction is open, and whether each statement outside one begins one.
        self.is_open = self.has_no_autocommit = False

    def script(self, file, text):
        """The lines of a script; statements end in `;`, or where a file has none, at the end of a line."""
        self.file, self.is_open, self.has_no_autocommit, lines = file, False, False, []
        words = words_of(text)
        if any(word.is_sign(";") for word in words):
            statements = split(words, ";")
        else:
            statements = [words_of(line, number) for number, line in enumerate(text.split("\n"), 1)]
        for statement in filter(None, statements):
            self.place = f"{file}:{statement[0].line}"
            lines += self.statement(statement)
        if self.is_open:
            self.notes.change(self.place, "COMMIT is added: the last transaction was left open")
            lines.append("COMMIT")
        return lines

    def change(self, text):
        self.notes.change(self.place, text)

    def statement(self, words):
        """The lines that stand for a statement."""
        first = words[0]
        if first.is_word("BEGIN", "START", "COMMIT", "ROLLBACK"):
            return self.bound(words)
        autocommit = AUTOCOMMIT.fullmatch(written(words))
        if autocommit:
            return self.set_autocommit(words, autocommit[1].upper() in ("0", "OFF"))
        if first.is_word("XA") or (first.is_word(*SETTINGS) and position(words, "FROM") is None):
            self.change(f"{written(words)} is left out: no session has settings, locks of its own or savepoints")
            return []
        if first.is_word("SELECT") and position(words, "FROM") is None:
            self.change(f"{written(words)} is left out: it reads no table")
            return []
        if self.has_no_autocommit and not self.is_open:
            self.change("BEGIN is added: autocommit is off")
            self.is_open = True
            return ["BEGIN", *self.statement_lines(words)]
        return self.statement_lines(words)

    def statement_lines(self, words):
        """The same of a statement on a table; itself, where it can't be converted."""
        mark = self.notes.mark()
        try:
            return self.lines(words)
        except (Unread, Left) as cause:
            why = cause
        except IndexError:
            why = "it ends too early"
        self.notes.back(mark)
        self.notes.leave(self.place, f"{written(words)}: {why}")
        return [written(words)]

    def set_autocommit(self, words, is_off):
        """SET autocommit, which commits what is open where it is switched on."""
        is_open, self.is_open, self.has_no_autocommit = self.is_open, self.is_open and is_off, is_off
        ends = is_open and not is_off
        self.change(f"{written(words)} as " + ("COMMIT" if ends else "BEGIN before the next statement" if is_off else "nothing"))
        return ["COMMIT"] if ends else []

    def bound(self, words):
        """BEGIN, COMMIT and ROLLBACK, without what may follow them."""
        first = words[0].text.upper()
        if first == "ROLLBACK" and position(words, "TO") is not None:
            self.notes.leave(self.place, f"{written(words)}: there are no savepoints")
            return [written(words)]
        plain = "BEGIN" if first in ("BEGIN", "START") else first
        if plain != "BEGIN" and self.is_open and words[-1].is_word("CHAIN") and position(words, "NO") is None:
            self.change(f"{written(words)} as {plain} and BEGIN")
            return [plain, "BEGIN"]
        if len(words) > 1 and not (first == "START" and len(words) == 2):
            self.change(f"{written(words)} as {plain}: all transactions are SERIALIZABLE and may write")
        if plain == "BEGIN" and self.is_open:
            self.change("COMMIT is added: BEGIN ends the transaction that is open")
            return ["COMMIT", "BEGIN"]
        if plain != "BEGIN" and not self.is_open:
            self.change(f"{plain} is left out: no transaction is open")
            return []
        self.is_open = plain == "BEGIN"
        return [plain]

    def together(self, lines, why):
        """Several lines for one statement: a transaction of their own, where none is open."""
        if len(lines) == 1:
            return lines
        self.change(why)
        return lines if self.is_open else ["BEGIN", *lines, "COMMIT"]

    def lines(self, words):
        if any(word.is_sign("'", '"', "`") for word in words):
            raise Unread("a quote is open")
        words = self.without_tables(words)
        if words[0].is_word("INSERT", "REPLACE"):
            return self.insert(words)
        if words[0].is_word("UPDATE"):
            return self.update(words)
        if words[0].is_word("DELETE"):
            return self.delete(words)
        if words[0].is_word("SELECT"):
            return self.select(words)
        raise Unread("no statement that the program reads")

    # Names

    def without_tables(self, words):
        """Words without the table or database before a point: `t`.`c` is c."""
        kept = []
        for word in words:
            if len(kept) > 1 and kept[-1].is_sign(".") and kept[-2].is_name():
                self.notes.change(self.file, "names before a point are left out: t.c as c")
                gap = kept[-2].gap
                kept = kept[:-2]
                word = Word(word.kind, word.text, gap, word.line)
            kept.append(word)
        return kept

    def table_of(self, word):
        table = self.tables.get(word.name().lower())
        if table is None:
            self.notes.warn(self.place, f"table {word.name()} isn't in the file: answered 1146")
        return table

    def without_alias(self, words, at):
        """Words without another name for the table at this place."""
        end = at + 1
        if words[end:] and words[end].is_word("AS"):
            end += 1
        if words[end:] and words[end].is_name() and not words[end].is_word(*AFTER_TABLE):
            end += 1
        if words[end:] and words[end].is_word("USE", "FORCE", "IGNORE") and words[end + 1].is_word("INDEX", "KEY"):
            end = closing(words, end + 2) + 1
        if end > at + 1:
            self.change(f"{written(words[at:end])} as {words[at].text}")
        if words[end:] and (words[end].is_sign(",") or words[end].is_word(*AFTER_TABLE[-7:])):
            raise Unread("it has more than one table")
        return words[: at + 1] + words[end:]

    def column(self, table, word):
        return table.columns.get(word.name().lower()) if table else None

    def literal(self, table, word, words, is_compared=False):
        """An expression as the program reads it in a column."""
        value, column = value_of(words), self.column(table, word)
        if value.sort == "default" and column is not None:
            if column.default is None and not column.is_nullable:
                raise Unread(f"{word.name()} has no DEFAULT")
            self.change(f"DEFAULT of {word.name()} as {column.default or 'NULL'}")
            return column.default or "NULL"
        if table and column is None:
            self.notes.warn(self.place, f"{table.name} has no column {word.name()}: answered 1054")
        if column is None:
            column = UNKNOWN
        if column.kind.is_too_long(value):
            value = self.cut(word, column, value)
        try:
            text = column.kind.condition(value) if is_compared else column.kind.literal(value)
        except Kept as kept:
            self.notes.warn(self.place, f"column {word.name()}: {kept}")
            text = kept.text
        if value.sort == "now":
            self.change(f"{value.written} as {text}: there is no clock")
        return text

    def cut(self, word, column, value):
        """A value that is longer than the program takes: cut, where that is asked for, and else answered 1406."""
        unit = "bytes" if value.sort == "bytes" else "characters"
        if self.shorten:
            self.change(f"column {word.name()}: a value of {len(value.value):,} {unit} is cut, and ends with a sum that tells it apart")
            return column.kind.shortened(value)
        self.notes.warn(self.place, f"column {word.name()}: a value of {len(value.value):,} {unit} is answered 1406; --shorten cuts it")
        return value

    # INSERT and REPLACE

    def insert(self, words):
        verb, at = words[0].text.upper(), 1
        while words[at].is_word("IGNORE", "LOW_PRIORITY", "HIGH_PRIORITY", "DELAYED"):
            if words[at].is_word("IGNORE"):
                self.change("IGNORE is left out: a row that clashes is answered 1062, and one that doesn't fit is refused and not cut")
            at += 1
        at += words[at].is_word("INTO")
        table = self.table_of(words[at])
        start = f"INTO {name_written(words[at])}"
        rest = words[at + 1 :]
        update = position(rest, "ON")
        assigned = rest[update + 4 :] if update is not None else []
        rest = rest[:update]
        names, rows, alias = self.rows_of(rest, table)
        lines = []
        for row in rows:
            names_here, texts = self.numbered(table, names, row)
            listed = f" ({', '.join(name_written(name) for name in names_here)})" if names_here else ""
            lines.append(f"{verb} {start}{listed} VALUES ({', '.join(texts)})")
            if assigned and not self.clashes_with_none(table, names_here, texts):
                lines.append(self.update_of_row(table, words[at], names_here, texts, assigned, alias))
        if len(lines) > len(rows):
            why = "ON DUPLICATE KEY UPDATE as two statements, an INSERT, which is answered 1062 where the row is there, and an UPDATE of that row"
            return self.together(lines, why)
        if assigned:
            self.change("ON DUPLICATE KEY UPDATE is left out: each row gets a number of its own, and the table has no other unique key")
        why = f"{verb} of {len(lines)} rows as {len(lines)} statements of one transaction: one that fails doesn't undo the others"
        return self.together(lines, why)

    def rows_of(self, words, table):
        """The columns that are listed, or none, each row's expressions, and the rows' other name."""
        if words[:1] and words[0].is_word("SET"):
            sets = [self.assignment(part) for part in split(words[1:])]
            self.change("INSERT .. SET as INSERT .. VALUES")
            return [name for name, _ in sets], [[value for _, value in sets]], None
        names = None
        if words[:1] and words[0].is_sign("("):
            end = closing(words, 0)
            names = [part[0] for part in split(words[1:end])]
            words = words[end + 1 :]
        if not words or not words[0].is_word("VALUES", "VALUE"):
            raise Unread("no VALUES")
        alias = position(words, "AS")
        name = words[alias + 1].name().lower() if alias is not None else None
        rows = [split(row[1:-1]) for row in split(words[1:alias]) if row[0].is_sign("(")]
        if names is None and table:
            names_of_all = [Word("quoted", f"`{column}`") for column in table.all_columns]
            kept = [at for at, column in enumerate(table.all_columns) if column in table.columns]
            if len(kept) < len(names_of_all) and all(len(row) == len(names_of_all) for row in rows):
                rows = [[row[at] for at in kept] for row in rows]
        return names, rows, name

    def numbered(self, table, names, row):
        """The columns and values of a row, with a number of the table's own where it has none."""
        places = names or [Word("quoted", f"`{column.name}`") for column in (table.columns.values() if table else [])]
        if table and names:
            kept = [at for at, name in enumerate(names) if name.name().lower() not in table.all_columns or name.name().lower() in table.columns]
            if len(kept) < len(names):
                self.change("values of generated columns are left out")
                names, places = [names[at] for at in kept], [names[at] for at in kept]
                row = [row[at] for at in kept]
        texts = []
        auto = table.auto_column() if table else None
        for at, words in enumerate(row):
            word = places[at] if at < len(places) else Word("name", "")
            is_auto = auto is not None and word.name().lower() == auto
            value = value_of(words)
            if is_auto and table.is_counting and value.sort == "default":
                texts.append("NULL")
            elif is_auto and not table.is_counting and (value.sort in ("null", "default") or (value.sort == "number" and value.value == 0)):
                texts.append(str(table.take_number()))
            else:
                texts.append(self.literal(table, word, words))
                if is_auto:
                    table.see_number(texts[-1])
        if auto is not None and not table.is_counting and names and auto not in [name.name().lower() for name in names]:
            name = table.columns[auto].name
            names = [Word("name" if is_name_text(name) else "quoted", name if is_name_text(name) else f"`{name}`"), *names]
            if any(word.kind == "quoted" for word in names[1:]):
                names[0] = Word("quoted", f"`{name}`")
            texts = [str(table.take_number()), *texts]
        return names, texts

    def clashes_with_none(self, table, names, texts):
        """Whether a row gets a number of its own, and the table has no other unique key."""
        auto = table.auto_column() if table and table.is_counting else None
        listed = [name.name().lower() for name in names] if names else list(table.columns) if table else []
        given = dict(zip(listed, texts)).get(auto, "NULL")
        return auto is not None and table.unique_keys() == [[auto]] and given in ("NULL", "0", "'0'")

    def assignment(self, words):
        """A column and the words of its new value."""
        if len(words) < 3 or not words[0].is_name() or not words[1].is_sign("=", ":="):
            raise Unread(f"{written(words)} sets no column")
        return words[0], words[2:]

    def update_of_row(self, table, table_word, names, texts, assigned, alias):
        """The UPDATE of the row that an INSERT found: of the first unique key whose columns the INSERT has."""
        if table is None:
            raise Unread("ON DUPLICATE KEY UPDATE of a table that isn't in the file")
        listed = names or [Word("quoted", f"`{column.name}`") for column in table.columns.values()]
        given = {name.name().lower(): text for name, text in zip(listed, texts)}
        auto = table.auto_column()
        was_given = [key for key in table.unique_keys() if set(key) <= set(given) and auto not in key]
        key = next(iter(was_given or [key for key in table.unique_keys() if set(key) <= set(given)]), None)
        if key is None:
            raise Unread("ON DUPLICATE KEY UPDATE of a row that has no unique key's columns")
        sets = []
        for part in split(assigned):
            name, value = self.assignment(part)
            sets.append(f"{name_written(name)} = {self.value_of_row(table, name, value, given, alias)}")
        where = " AND ".join(f"{name_written(Word('quoted', f'`{table.columns[column].name}`'))} = {given[column]}" for column in key)
        return f"UPDATE {name_written(table_word)} SET {', '.join(sets)} WHERE {where}"

    def value_of_row(self, table, name, words, given, alias):
        """VALUES(c), or the column of the new row: what the INSERT has in it. Another value would be set in a new row too."""
        source = None
        if len(words) == 4 and words[0].is_word("VALUES") and words[1].is_sign("("):
            source = words[2].name().lower()
        elif alias is not None and len(words) == 1 and words[0].is_name():
            source = words[0].name().lower()
        if source not in given:
            raise Unread(f"ON DUPLICATE KEY UPDATE {name.name()} = {written(words)}: not the value that the INSERT has")
        return given[source]

    # UPDATE, DELETE, SELECT

    def update(self, words):
        at = 1 + words[1].is_word("IGNORE", "LOW_PRIORITY")
        words = self.without_alias(words, at)
        table = self.table_of(words[at])
        if not words[at + 1 : at + 2] or not words[at + 1].is_word("SET"):
            raise Unread("no SET")
        where = position(words, "WHERE", "ORDER", "LIMIT")
        sets = []
        for part in split(words[at + 2 : where]):
            name, value = self.assignment(part)
            sets.append(f"{name_written(name)} = {self.literal(table, name, value)}")
        head = f"UPDATE {name_written(words[at])} SET {', '.join(sets)}"
        return self.with_conditions(head, table, words[where:] if where is not None else [], "UPDATE")

    def delete(self, words):
        at = position(words, "FROM")
        if at is None:
            raise Unread("no FROM")
        words = self.without_alias(words, at + 1)
        table = self.table_of(words[at + 1])
        return self.with_conditions(f"DELETE FROM {name_written(words[at + 1])}", table, words[at + 2 :], "DELETE")

    def select(self, words):
        at = position(words, "FROM")
        if at is None:
            raise Unread("no FROM")
        words = self.without_alias(words, at + 1)
        table = self.table_of(words[at + 1])
        shown = self.shown(words[1:at], table)
        return self.with_conditions(f"SELECT {shown} FROM {name_written(words[at + 1])}", table, words[at + 2 :], "SELECT")

    def shown(self, words, table):
        """What a SELECT shows: all, a count, or columns."""
        while words and words[0].is_word(*SELECT_WORDS):
            self.change(f"{words[0].text} is left out: it changes no reply")
            words = words[1:]
        if words and words[0].is_word("DISTINCT", "DISTINCTROW"):
            raise Unread("DISTINCT isn't read")
        texts = [self.shown_part(part, table) for part in split(words)]
        if len(texts) > 1 and ("*" in texts or "COUNT(*)" in texts):
            raise Unread(f"{written(words)} isn't columns, * or COUNT(*)")
        return ", ".join(texts)

    def shown_part(self, part, table):
        alias = position(part, "AS")
        if alias is None and len(part) > 1 and part[-1].is_name() and part[-2].kind in ("name", "quoted", "number"):
            alias = len(part) - 1
        if alias is not None:
            self.change(f"{written(part)} as {written(part[:alias])}: replies have no names")
            part = part[:alias]
        text = written(part)
        if text == "*" or (len(part) == 1 and part[0].is_name()):
            return text if text == "*" else name_written(part[0])
        if part[0].is_word("COUNT") and len(part) == 4 and (part[2].is_sign("*") or part[2].kind == "number"):
            if part[2].kind == "number":
                self.change(f"{text} as COUNT(*): the same number")
            return "COUNT(*)"
        if len(part) == 1 and part[0].kind == "number" and table and table.clustered_key():
            columns = [table.columns[name].name for name in table.clustered_key()]
            self.change(f"SELECT {text} as SELECT {', '.join(columns)}: the same rows, with their key")
            return ", ".join(name_written(Word("quoted", f"`{column}`")) for column in columns)
        raise Unread(f"{text} isn't a column")

    def with_conditions(self, head, table, words, verb):
        """A statement with its condition, once for each value of IN (..)."""
        cut = position(words, "ORDER", "LIMIT", "GROUP", "HAVING", *LOCKING)
        tail = words[cut:] if cut is not None else []
        words = words[:cut]
        if tail and tail[0].is_word("GROUP", "HAVING"):
            raise Unread(f"{written(tail)} isn't read")
        if not words:
            self.tail(tail, None, table, verb)
            return [head]
        if not words[0].is_word("WHERE"):
            raise Unread(f"{written(words)} isn't WHERE")
        condition = self.condition(table, words[1:])
        if not condition.columns():
            self.tail(tail, None, table, verb)
            return [head]
        if not condition.is_read():
            raise Unread(f"{written(words)} is neither equalities nor a range of one column")
        if table and not condition.is_on_key(table):
            self.notes.warn(self.place, f"{written(words)} isn't on all columns of a unique key: answered 1235, and not run")
        self.tail(tail, condition, table, verb)
        lines = [f"{head} WHERE {text}" for text in itertools.islice(condition.texts(), MOST_STATEMENTS + 1)]
        if len(lines) > MOST_STATEMENTS:
            raise Unread(f"IN (..) stands for more than {MOST_STATEMENTS} statements")
        return self.together(lines, f"{verb} .. IN (..) as {len(lines)} statements of one transaction")

    def tail(self, words, condition, table, verb):
        """Notes ORDER BY, LIMIT and locking words, which are left out; LIMIT of a write on several rows isn't."""
        if not words:
            return
        is_one = condition is not None and table is not None and condition.is_one(table)
        limit = position(words, "LIMIT")
        if limit is not None and not is_one and verb != "SELECT":
            raise Unread(f"{written(words)}: which rows it takes isn't known")
        if limit is not None and is_one and len(words) > limit + 1 and words[limit + 1].text == "0":
            raise Unread("LIMIT 0 takes no row")
        exclusive = position(words, *LOCKING)
        costs = []
        if limit is not None or words[0].is_word("ORDER"):
            costs.append("it is one row at most" if is_one else "all rows come, in the order of the key")
        if exclusive is not None and words[exclusive + 1 : exclusive + 2] and words[exclusive + 1].is_word("UPDATE"):
            costs.append("the rows are locked shared, and not exclusively")
        elif exclusive is not None:
            costs.append("every SELECT locks what it reads shared")
        self.change(f"{written(words)} is left out: {'; '.join(costs)}")

    # Conditions

    def condition(self, table, words):
        """A conjunction of equalities, IN, BETWEEN and comparisons with literals."""
        found = Condition()
        for part in conjuncts(words):
            self.conjunct(table, part, found)
        return found

    def conjunct(self, table, words, found):
        text = written(words)
        if [word.text for word in words] in (["1", "=", "1"], ["TRUE"], ["1"]):
            self.change(f"{text} is left out: it holds of every row")
        elif len(words) > 2 and words[0].is_name() and words[1].is_sign("=", "<=>"):
            found.equal.append((words[0], [self.operand(table, words[0], words[2:])]))
        elif len(words) > 2 and words[0].is_name() and words[1].is_sign(*COMPARED):
            found.compared.append((words[0], words[1].text, self.operand(table, words[0], words[2:])))
        elif len(words) > 2 and words[-1].is_name() and words[-2].is_sign("=", *COMPARED) and not words[0].is_name():
            sign = words[-2].text
            swapped = [words[-1], Word("sign", COMPARED.get(sign, sign)), *words[:-2]]
            self.change(f"{text} as {written(swapped)}")
            self.conjunct(table, swapped, found)
        elif len(words) > 3 and words[0].is_name() and words[1].is_word("IN") and words[2].is_sign("("):
            found.equal.append((words[0], [self.operand(table, words[0], part) for part in split(words[3 : closing(words, 2)])]))
        elif len(words) > 4 and words[0].is_name() and words[1].is_word("BETWEEN"):
            middle = position(words, "AND")
            found.compared.append((words[0], ">=", self.operand(table, words[0], words[2:middle])))
            found.compared.append((words[0], "<=", self.operand(table, words[0], words[middle + 1 :])))
        else:
            raise Unread(f"{text} is no condition that the program reads")

    def operand(self, table, word, words):
        text = self.literal(table, word, words, is_compared=True)
        if text == "NULL":
            raise Unread(f"{word.name()} is compared with NULL")
        return text


def conjuncts(words):
    """The parts of a condition that AND joins, without parentheses around them."""
    words = without_parentheses(words)
    parts, part, depth, is_between = [], [], 0, False
    for word in words:
        depth += word.is_sign("(") - word.is_sign(")")
        if depth == 0 and word.is_word("OR", "XOR", "NOT") or word.is_sign("||"):
            raise Unread(f"{written(words)} has {word.text.upper()}")
        if depth == 0 and word.is_word("BETWEEN"):
            is_between = True
        if depth == 0 and (word.is_word("AND") or word.is_sign("&&")) and not is_between:
            parts.append(part)
            part = []
        else:
            is_between = is_between and not (depth == 0 and word.is_word("AND"))
            part.append(word)
    parts.append(part)
    if len(parts) == 1:
        return parts
    return [inner for part in parts if part for inner in conjuncts(part)]
