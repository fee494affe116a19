"""What a server says to a plan: the table's shape before and after the ALTER, each answer, and the rows that are left."""
from beside import Beside
from numbers_given import Spare, drawn, forget
from printing import answer_of, number_of, printed, printed_row, refusal_of
from wire import Refused


class Served:
    """None stands where a step wasn't reached."""

    def __init__(self):
        self.created = None  # the number of CREATE's refusal, 0 where it was done
        self.rows_refused = []  # (place of the row, number)
        self.answers = {}  # (client, place of the line): ("ok", N), ("error", number) or ("rows", [texts])
        self.replies, self.left = None, None  # where an order of turns was followed: each client's, and why not to its end
        self.sequence = None  # the clients of these replies, as they came
        self.altered = None  # the number of the refusal of the ALTER on the table without rows, or 0
        self.shape = None  # the shape that the ALTER leaves
        self.copied = None  # the number of the refusal of the ALTER on the table with its rows, or 0
        self.column = None  # the column that this refusal names
        self.columns, self.rows = None, None  # the table at the end
        self.second = Second()  # the table beside it


class Second:
    """The same of a table beside the migrated one."""

    def __init__(self):
        self.created, self.rows_refused, self.columns, self.rows = None, [], None, None


class Shape:
    """A table as SHOW CREATE TABLE would tell it: columns as (name, kind, nullable, has a default, default), keys and comment."""

    def __init__(self, columns, keys, comment):
        self.columns, self.keys, self.comment = columns, sorted(keys), comment

    def reported(self):
        listed = [f"{name} {kind}{'' if nullable else ' NOT NULL'}{f' DEFAULT {default}' if has else ''}" for name, kind, nullable, has, default in self.columns]
        return "; ".join([*listed, *self.keys, f"COMMENT {self.comment}"])


def kind_of(column_type):
    """A kind in the model's words: without the width of display."""
    kind, _, rest = column_type.partition("(")
    unsigned = " UNSIGNED" if "unsigned" in column_type else ""
    length = f"({rest.partition(')')[0]})" if kind.startswith("var") else ""
    return kind.split(" ")[0].upper() + length + unsigned


class Bench:
    """A session with two databases: in `shape` tables stay without rows, in `plan` they have them."""

    def __init__(self, server):
        self.server = server
        self.session = server.session()
        for name in ("plan", "shape"):
            server.database(self.session, name)

    def serve(self, plan, turns=None):
        """By turns of clients where they are given, else line by line."""
        served = Served()
        served.created = self.create("shape", plan)
        if served.created:
            return served
        served.altered = self.alter(plan)[0]
        served.shape = self.shape() if not served.altered else None
        self.create("plan", plan)
        served.rows_refused = self.fill("t", plan.rows)
        if plan.second and not self.create_second(plan, served.second):
            return served
        if turns:
            served.replies, served.sequence, served.left = self.beside(plan, turns)
        elif plan.clients:
            served.answers = self.answers(plan)
        served.second.columns, served.second.rows = self.rows_of("u") if plan.second else (None, None)
        served.copied, served.column = self.alter(plan) if plan.carried is None else self.copy(plan)
        served.columns, served.rows = self.rows_of("t")
        return served

    def rows_of(self, table):
        left = self.session.ask(f"SELECT * FROM {table}")
        return (None, None) if isinstance(left, Refused) else (left.names, sorted(printed_row(row) for row in left.rows))

    def fill(self, table, rows):
        """The rows that are refused, by their places and numbers."""
        answers = [number_of(self.session.ask(f"INSERT INTO {table} VALUES {row}")) for row in rows]
        return [(place, number) for place, number in enumerate(answers) if number]

    def create_second(self, plan, second):
        """Whether the table beside is there. A 0 among its rows is a number, as where mysqldump's files are read."""
        second.created = number_of(self.session.ask(plan.second))
        if not second.created:
            self.session.need("SET @mode = @@sql_mode, sql_mode = CONCAT(@@sql_mode, ',NO_AUTO_VALUE_ON_ZERO')")
            second.rows_refused = self.fill("u", plan.second_rows)
            self.session.need("SET sql_mode = @mode")
        return not second.created

    def answers(self, plan):
        """The answer to each client's line, with the number that it got."""
        if not plan.second:
            return {(client, place): answer_of(self.session.ask(line)) for client, place, line in plan.turns()}
        found, spare = {}, Spare(self.server, "plan", {"u": plan.second}) if plan.spares else None
        for client, place, line in plan.turns():
            forget(self.session, line)
            answer = self.session.ask(line)
            found[client, place] = answer_of(answer, drawn(self.session, line, answer))
            if spare:
                spare.see(line, answer)
        if spare:
            spare.close()
        return found

    def beside(self, plan, turns):
        clients = Beside(self.server, plan)
        try:
            return clients.follow(turns)
        finally:
            clients.close()

    def create(self, database, plan):
        self.session.need(f"USE {database}")
        for (name,) in self.session.need("SHOW TABLES").rows:
            self.session.need(f"DROP TABLE `{name}`")
        return number_of(self.session.ask(plan.create))

    def alter(self, plan):
        for text in plan.alters():
            answer = self.session.ask(text)
            if isinstance(answer, Refused):
                return refusal_of(answer)
        return 0, None

    def copy(self, plan):
        """The ALTER of an empty copy of the table, and an INSERT of its rows there: all of it, or nothing."""
        moved = self.session.ask("RENAME TABLE t TO old")
        if isinstance(moved, Refused):
            return refusal_of(moved)
        self.session.need("CREATE TABLE t LIKE old")
        refused = self.alter(plan)
        if not refused[0]:
            places = {text_of(row[0]).lower(): at for at, row in enumerate(self.session.need("SHOW COLUMNS FROM t").rows)}
            pairs = sorted(plan.carried, key=lambda pair: places.get(pair[0], 0))
            into, of = (named(pair[place] for pair in pairs) for place in (0, 1))
            refused = refusal_of(self.session.ask(f"INSERT INTO t ({into}) SELECT {of} FROM old ORDER BY {named(plan.order)}"))
        if refused[0]:
            self.session.need("DROP TABLE IF EXISTS t")
            self.session.need("RENAME TABLE old TO t")
        return refused

    def shape(self):
        """Of the table `t`, which has no rows, and none afterwards."""
        reported = "SELECT COLUMN_NAME, COLUMN_TYPE, IS_NULLABLE, COLUMN_DEFAULT FROM information_schema.COLUMNS"
        columns = self.session.need(f"{reported} WHERE TABLE_SCHEMA = 'shape' AND TABLE_NAME = 't' ORDER BY ORDINAL_POSITION").rows
        if not columns:
            return None
        columns = [[text_of(it) for it in column] for column in columns]
        defaults = self.defaults(columns)
        listed = []
        for (name, column_type, nullable, default), stored in zip(columns, defaults):
            has = default not in (None, "NULL")
            listed.append((name, kind_of(column_type), nullable == "YES", has, stored if has else None))
        comment = "SELECT TABLE_COMMENT FROM information_schema.TABLES WHERE TABLE_SCHEMA = 'shape' AND TABLE_NAME = 't'"
        return Shape(listed, self.keys(), printed(text_of(self.session.need(comment).rows[0][0])))

    def defaults(self, columns):
        """What each column stores where nothing is said."""
        needed = [(name, column_type) for name, column_type, nullable, default in columns if default is None and nullable == "NO"]
        names = named(name for name, _ in needed)
        values = ", ".join("''" if column_type.startswith("var") else "0" for _, column_type in needed)
        self.session.need(f"INSERT INTO t ({names}) VALUES ({values})")
        row = self.session.need("SELECT * FROM t").rows[0]
        self.session.need("DELETE FROM t")
        return [printed(value) for value in row]

    def keys(self):
        found = {}
        index = self.session.need("SHOW INDEX FROM t")
        at = [index.names.index(it) for it in ("Key_name", "Non_unique", "Column_name")]
        for row in index.rows:
            name, common, column = (row[place] for place in at)
            found.setdefault((name, common), []).append(f"`{column}`")
        return [key_text(name, int(common), columns) for (name, common), columns in found.items()]


def named(names):
    return ", ".join(f"`{it}`" for it in names)


def text_of(value):
    return value.decode("utf-8", errors="replace") if isinstance(value, bytes) else value


def key_text(name, common, columns):
    kind = "PRIMARY KEY" if name == "PRIMARY" else f"{'KEY' if common else 'UNIQUE KEY'} `{name}`"
    return f"{kind} ({', '.join(columns)})"
