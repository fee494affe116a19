"""The tool's migration in SQL after gh-ost's: what each actor of the tool asks next, and what an answer means for it.

The order of steps is that of docs/FORMATS.md, "The turns". It is written here apart from the program, and works from a server's answers
alone. An answer is a tuple: ("ok", count), ("refused", number, column), ("rows", rows), ("events", events, next), ("at", number),
("waits", bool), ("lost",) or ("timed out",).
"""
import dataclasses

from printing import printed

SENTRY = "ghost-cut-over-sentry"
TOOL = ("insp", "copy", "apply", "lock", "ren")
UNFIT = (1048, 1264, 1366, 1406)
# In the tool's sessions a 0 is a number, as gh-ost sets its mode: a row that is copied or applied draws none.
MODE = "SET sql_mode = CONCAT(@@sql_mode, ',NO_AUTO_VALUE_ON_ZERO')"
# MySQL 8 answers AUTO_INCREMENT from a cache of a day; MariaDB asks the table, and passes this comment over. (It wasn't tried on MySQL.)
FRESH = "SET @fresh = 1 /*!80000 , information_schema_stats_expiry = 0 */"


@dataclasses.dataclass
class Call:
    """`what` names the call, `lines` are its statements; `key` is that of the old row that it is of."""

    what: str
    lines: list
    key: tuple = None


@dataclasses.dataclass
class Shape:
    """The new table: pairs of a new column and the place of its old one, the clustered key of the old table, and the unique keys
    of the new one by places of old columns (a new column without an old one never changes)."""

    columns: list
    old_columns: list
    old_key: list
    uniques: list


def named(name):
    return f"`{name}`"


def listed(names):
    return ", ".join(map(named, names))


def equal(columns, values):
    return " AND ".join(f"{named(column)} = {printed(value)}" for column, value in zip(columns, values))


def beyond(columns, key, sign):
    """(a, b) > (1, 2), so that a server takes a range of the key."""
    parts = []
    for at, column in enumerate(columns):
        is_last = at == len(columns) - 1
        head = [equal(columns[:at], key[:at])] if at else []
        parts.append(" AND ".join([*head, f"{named(column)} {sign if is_last else sign[0]} {printed(key[at])}"]))
    return "(" + " OR ".join(f"({it})" for it in parts) + ")"


class Bad(Exception):
    """An answer that no step of the tool has."""


def is_bad(answer):
    return answer[0] in ("lost", "timed out")


class Copier:
    def __init__(self, tool, ends, size):
        self.tool, self.size, self.number = tool, size, 1
        self.low = (">=", ends[0]) if ends else None
        self.top, self.is_copied = (ends[1] if ends else None), ends is None
        self.fails = []
        self.restart()

    def restart(self):
        self.step, self.keys, self.at = "end", [], 0

    def within(self, end):
        columns = self.tool.key_columns()
        return f"{beyond(columns, self.low[1], self.low[0])} AND {beyond(columns, end, '<=')}"

    def next(self):
        tool, columns = self.tool, listed(self.tool.key_columns())
        if self.is_copied:
            return None
        if self.step == "end":
            line = f"SELECT {columns} FROM {tool.t} WHERE {self.within(self.top)} ORDER BY {columns} LIMIT {self.size - 1}, 1"
            return Call("chunk end", [line])
        if self.step == "begin":
            line = f"SELECT {columns} FROM {tool.t} WHERE {self.within(self.end)} ORDER BY {columns} LOCK IN SHARE MODE"
            return Call("chunk", ["BEGIN", line])
        if self.step == "rows":
            return Call("copy row", [tool.copy_of(self.keys[self.at])], self.keys[self.at])
        return Call("commit", ["COMMIT"])

    def took(self, answer):
        if self.step == "end":
            self.end, self.step, self.asked = (answer[1][0] if answer[1] else self.top), "begin", self.size
        elif self.step == "begin":
            rows = answer[1]
            self.keys, self.at = rows[: self.asked], 0
            self.end = rows[self.asked - 1] if len(rows) > self.asked else self.end
            self.step = "rows" if self.keys else "commit"
        elif self.step == "rows":
            self.at += 1
            self.step = "rows" if self.at < len(self.keys) else "commit"
        else:
            self.low, self.is_copied, self.number, self.fails = (">", self.end), self.end == self.top, self.number + 1, []
            self.restart()


class Applier:
    def __init__(self, tool, position):
        self.tool, self.position, self.hint, self.fails = tool, position, 0, []
        self.restart()

    def restart(self):
        self.step, self.queue = "read", []

    def next(self):
        if self.step == "read":
            return Call("read log", [])
        if self.step == "apply":
            return Call("apply", [self.queue[0][0]], self.queue[0][1])
        return Call(self.step, [self.step.upper()])

    def took(self, answer):
        if self.step == "read":
            self.target, self.next_hint = answer[2], self.hint
            self.queue = []
            for event in answer[1]:
                if event.table == self.tool.table:
                    self.queue += self.tool.statements_of(event)
                elif event.kind == "write" and event.after[1] == "cut-over":
                    self.next_hint = event.after[0]
            self.step = "begin"
            if not self.queue:
                self.move_on()
        elif self.step == "begin":
            self.step = "apply"
        elif self.step == "apply":
            self.queue.pop(0)
            self.step = "apply" if self.queue else "commit"
        else:
            self.move_on()

    def move_on(self):
        self.position, self.hint, self.fails, self.step = self.target, self.next_hint, [], "read"


class Attempt:
    def __init__(self, number):
        self.number, self.lock, self.insp, self.counter = number, "lock", None, None
        self.hinted = self.carried = self.renaming = self.dropping = self.ending = self.failed = self.drops = False
        self.turns = 0


class Tool:
    """What the tool knows. `state` answers what it can't know by itself: who waits, holds the table lock, or has a transaction open,
    and how many events are unread. `has_counter` says whether the table has an AUTO_INCREMENT column."""

    def __init__(self, table, options, operator, shape, state, has_counter):
        self.table, self.options, self.shape, self.state, self.has_counter = table, options, shape, state, has_counter
        self.t, self.gho, self.ghc, self.old = (named(it) for it in (table, f"_{table}_gho", f"_{table}_ghc", f"_{table}_del"))
        self.operator, self.line, self.unit = operator, 0, 0
        self.throttled, self.postponed, self.size = False, options["postpone"], options["chunk_size"]
        self.setup, self.drops, self.setup_fails, self.first = "show", [], [], 0
        self.cause, self.renamed, self.showing, self.finished = None, False, False, False
        self.copier = self.applier = self.attempt = None
        self.attempts, self.cut_fails = 0, []

    # ------------------------------------------------------------------ SQL
    def key_columns(self):
        return [self.shape().old_columns[at] for at in self.shape().old_key]

    def copy_of(self, key):
        """INSERT IGNORE would cut what doesn't fit; this refuses it, and changes nothing where the row is there."""
        shape = self.shape()
        new, of = listed(new for new, _ in shape.columns), listed(shape.old_columns[at] for _, at in shape.columns)
        same = f"{self.gho}.{named(shape.columns[0][0])}"
        where = equal(self.key_columns(), key)
        return f"INSERT INTO {self.gho} ({new}) SELECT {of} FROM {self.t} WHERE {where} LOCK IN SHARE MODE ON DUPLICATE KEY UPDATE {same} = {same}"

    def removal(self, row):
        return f"DELETE FROM {self.gho} WHERE {self.by_key(row)}", self.key_of(row)

    def putting(self, row):
        columns = self.shape().columns
        return f"REPLACE INTO {self.gho} ({listed(new for new, _ in columns)}) VALUES ({', '.join(printed(row[at]) for _, at in columns)})", self.key_of(row)

    def change(self, before, after):
        sets = ", ".join(f"{named(new)} = {printed(after[at])}" for new, at in self.shape().columns)
        return f"UPDATE {self.gho} SET {sets} WHERE {self.by_key(before)}", self.key_of(after), before, after

    def key_of(self, row):
        return tuple(row[at] for at in self.shape().old_key)

    def by_key(self, row):
        shape = self.shape()
        new_names = {at: new for new, at in shape.columns}
        return equal([new_names[at] for at in shape.old_key], self.key_of(row))

    def statements_of(self, event):
        if event.kind == "write":
            return [self.putting(event.after)]
        if event.kind == "delete":
            return [self.removal(event.before)]
        is_moved = any(event.before[at] != event.after[at] for places in self.shape().uniques for at in places)
        return [self.removal(event.before), self.putting(event.after)] if is_moved else [self.change(event.before, event.after)]

    # ------------------------------------------------------------------ the operator
    def has_words(self):
        return self.line < len(self.operator)

    def command(self, turn):
        word = self.operator[self.line]
        name, _, number = word.replace("=", " ").partition(" ")
        self.unit += 1
        if name == "wait" and self.unit < int(number):
            return
        self.line, self.unit = self.line + 1, 0
        if name in ("throttle", "no-throttle"):
            self.throttled = name == "throttle"
        elif name == "chunk-size":
            self.size = int(number)
            if self.copier:
                self.copier.size = self.size
        elif name == "unpostpone":
            self.postponed = False
        elif name == "panic" and not self.renamed:
            self.revert(("panic", turn))

    def is_throttled(self):
        return self.throttled and self.has_words() or self.state.open_clients() > self.options["max_load"]

    def is_over(self):
        if self.renamed:
            return self.finished
        is_open = any(self.state.waits(actor) for actor in TOOL) or any(self.state.is_open(actor) for actor in ("copy", "apply"))
        return self.cause is not None and self.attempt is None and not is_open

    # ------------------------------------------------------------------ what is asked next
    def given(self, actor):
        return getattr(self, f"given_{actor}")()

    def show(self):
        return Call("show tables", ["SELECT TABLE_NAME, TABLE_COMMENT FROM information_schema.TABLES WHERE TABLE_SCHEMA = DATABASE()"])

    def dropped(self, name):
        return Call("drop", [f"DROP TABLE {name}"])

    def given_insp(self):
        if self.renamed:
            return self.show() if self.showing else self.dropped(self.drops[0]) if self.drops else None
        if self.attempt:
            if self.attempt.ending:
                if self.state.waits("lock") or self.state.is_locked() or self.state.waits("ren"):
                    return None
                return self.dropped(self.old) if self.attempt.drops else self.show()
            return self.given_in_attempt(self.attempt)
        if self.cause is not None:
            return None
        return self.given_setup()

    def given_in_attempt(self, attempt):
        if attempt.insp == "hint":
            return Call("hint", [f"INSERT INTO {self.ghc} VALUES ({attempt.number}, 'cut-over', '{attempt.number}')"])
        if attempt.insp == "counter":
            return Call("show counter", [FRESH, f"SELECT AUTO_INCREMENT FROM information_schema.TABLES WHERE TABLE_SCHEMA = DATABASE() AND TABLE_NAME = '{self.table}'"])
        if attempt.insp == "set":
            # (the locker couldn't: it hasn't locked the new table, 1100)
            return Call("set counter", [f"ALTER TABLE {self.gho} AUTO_INCREMENT={attempt.counter}"])
        return Call("show waiting", ["SELECT ID FROM information_schema.PROCESSLIST WHERE STATE LIKE 'Waiting for table metadata lock%'"]) if attempt.insp else None

    def given_setup(self):
        if self.setup == "show":
            return self.show()
        if self.setup == "drop":
            return self.dropped(self.drops[0])
        if self.setup == "log":
            return Call("create log", [f"CREATE TABLE {self.ghc} (id BIGINT PRIMARY KEY, hint VARCHAR(64) NOT NULL, value VARCHAR(255) NOT NULL)"])
        if self.setup == "ghost":
            return Call("create ghost", [f"CREATE TABLE {self.gho} LIKE {self.t}", f"ALTER TABLE {self.gho} {self.state.alter()}"])
        if self.setup == "end":
            return Call("log end", ["SHOW MASTER STATUS"])
        if self.setup == "ends":
            columns = self.key_columns()
            one = f"(SELECT {listed(columns)} FROM {self.t} ORDER BY "
            return Call("ends", [one + ", ".join(f"{named(it)} {way}" for it in columns) + " LIMIT 1)" for way in ("ASC", "DESC")])
        return None

    def given_copy(self):
        if self.cause is not None and not self.renamed:
            return Call("rollback", ["ROLLBACK"]) if self.state.is_open("copy") else None
        if self.copier is None or self.copier.step == "end" and self.is_throttled():
            return None
        return self.copier.next()

    def given_apply(self):
        if self.renamed:
            return None
        if self.cause is not None:
            return Call("rollback", ["ROLLBACK"]) if self.state.is_open("apply") else None
        if self.applier is None:
            return None
        if self.applier.step == "read":
            is_held = self.attempt.renaming if self.attempt else self.is_throttled()
            if is_held or self.state.unread(self.applier.position) == 0:
                return None
        return self.applier.next()

    def given_lock(self):
        if self.renamed:
            return None
        if self.attempt is None:
            is_near = self.copier is not None and self.copier.is_copied and self.state.unread(self.applier.position) <= self.options["max_backlog"]
            may = is_near and self.cause is None and not self.is_throttled() and not (self.postponed and self.has_words())
            return Call("create sentry", [f"CREATE TABLE {self.old} (id INT PRIMARY KEY) COMMENT='{SENTRY}'"]) if may else None
        if self.attempt.ending:
            return Call("unlock", ["UNLOCK TABLES"]) if self.state.is_locked() else None
        calls = {"tables": Call("lock tables", [f"LOCK TABLES {self.t} WRITE, {self.old} WRITE"]), "drop": self.dropped(self.old), "unlock": Call("unlock", ["UNLOCK TABLES"])}
        return calls.get(self.attempt.lock)

    def given_ren(self):
        if self.renamed or self.attempt is None or self.attempt.ending or self.attempt.renaming:
            return None
        may = self.attempt.hinted and self.attempt.carried and self.applier.hint == self.attempt.number
        return Call("rename", [f"RENAME TABLE {self.t} TO {self.old}, {self.gho} TO {self.t}"]) if may else None

    # ------------------------------------------------------------------ what a call and its answer change
    def called(self, call):
        if call.what == "create sentry":
            self.attempts += 1
            self.attempt = Attempt(self.attempts)
        elif call.what == "rename":
            self.attempt.renaming = True
        elif call.what == "drop" and self.attempt and self.attempt.lock == "drop" and not self.attempt.ending:
            self.attempt.dropping = True

    def rename_waits(self):
        if self.attempt and not self.attempt.ending:
            self.attempt.insp = "waiting"

    def revert(self, cause):
        self.cause = self.cause or cause
        if self.attempt:
            self.attempt.ending |= not (cause[0] == "panic" and self.attempt.dropping)

    def fail(self, fails, task, turn):
        fails.append(turn)
        if len(fails) == self.options["default_retries"]:
            self.revert(("spent", task, list(fails)))

    def fail_attempt(self, turn):
        if self.attempt and not self.attempt.ending:
            self.attempt.ending = self.attempt.failed = True
            self.fail(self.cut_fails, "cutover", turn)

    def fail_chunk(self, turn):
        self.copier.restart()
        self.fail(self.copier.fails, f"chunk {self.copier.number}", turn)

    def fail_batch(self, turn):
        self.applier.restart()
        self.fail(self.applier.fails, f"batch {self.applier.position}", turn)

    def fail_setup(self, turn):
        self.setup = "show"
        self.fail(self.setup_fails, "setup", turn)

    def found_done(self):
        if self.attempt and self.attempt.failed:
            self.cut_fails.pop()
        self.attempt, self.renamed, self.showing = None, True, True

    def took(self, actor, call, answer, turn):
        if actor in ("copy", "apply"):
            return self.took_rows(actor, call, answer, turn)
        return getattr(self, f"took_{actor}")(call, answer, turn)

    def tables_in(self, answer):
        return {named(name): comment for name, comment in answer[1]}

    def took_last_tables(self, tables):
        wanted = [self.ghc, self.old] if self.options["ok_to_drop_table"] else [self.ghc]
        self.drops, self.showing = [it for it in wanted if it in tables], False
        self.finished = not self.drops

    def took_insp(self, call, answer, turn):
        if self.renamed:
            if is_bad(answer):
                self.showing = True
            elif self.showing:
                self.took_last_tables(self.tables_in(answer))
            else:
                self.drops.pop(0)
                self.finished = not self.drops
        elif self.attempt:
            if self.attempt.ending:
                self.took_end(call, answer)
            elif is_bad(answer):
                self.fail_attempt(turn)
            else:
                self.took_in_attempt(self.attempt, call, answer)
        elif self.setup != "done":
            self.took_setup(answer, turn)

    def took_in_attempt(self, attempt, call, answer):
        if call.what == "hint":
            attempt.hinted, attempt.carried = True, not self.has_counter
            attempt.insp = "counter" if self.has_counter else None
        elif call.what == "show counter":
            attempt.counter, attempt.insp = answer[1], "set"
        elif call.what == "set counter":
            attempt.carried, attempt.insp = True, None
        else:
            attempt.insp = None
            attempt.lock = "drop" if answer[1] else attempt.lock

    def took_end(self, call, answer):
        if call.what == "drop":
            if is_bad(answer):
                self.attempt.drops = False
            else:
                self.attempt = None
        elif call.what == "show tables" and not is_bad(answer):
            tables = self.tables_in(answer)
            if self.gho not in tables:
                self.found_done()
                self.took_last_tables(tables)
            elif tables.get(self.old) == SENTRY:
                self.attempt.drops = True
            else:
                self.attempt = None

    def took_setup(self, answer, turn):
        if is_bad(answer):
            self.fail_setup(turn)
        elif self.setup in ("show", "drop"):
            if self.setup == "show":
                tables = self.tables_in(answer)
                self.drops = [it for it in (self.ghc, self.gho, self.old) if it in tables]
            else:
                self.drops.pop(0)
            self.setup = "drop" if self.drops else "log"
        elif self.setup == "log":
            self.setup = "ghost"
        elif self.setup == "ghost":
            self.setup = "end"
        elif self.setup == "end":
            self.first, self.setup = answer[1], "ends"
        else:
            self.copier, self.applier, self.setup = Copier(self, answer[1], self.size), Applier(self, self.first), "done"

    def took_rows(self, actor, call, answer, turn):
        if self.cause is not None:
            return
        worker = self.copier if actor == "copy" else self.applier
        if is_bad(answer):
            self.fail_chunk(turn) if actor == "copy" else self.fail_batch(turn)
        elif answer[0] == "refused" and answer[1] in UNFIT and call.key is not None:
            self.revert(("unfit", turn, call.key, answer[2], answer[1]))
        elif answer[0] == "refused" and answer[1] == 1062 and call.what == "apply" and len(worker.queue[0]) == 4:
            before, after = worker.queue[0][2:]
            worker.queue[:1] = [self.removal(before), self.putting(after)]
        elif answer[0] == "refused":
            raise Bad(f"{actor}: {call.lines[-1]}: {answer[1]}")
        else:
            worker.took(answer)

    def applier_turn(self, turn):
        """After each turn of the applier: has it had its turns behind the lock, and not come past the hint?"""
        attempt = self.attempt
        if attempt and not attempt.ending and attempt.hinted:
            attempt.turns += 1
            if attempt.turns >= self.options["drain_limit"] and self.applier.hint != attempt.number:
                self.fail_attempt(turn)

    def took_lock(self, call, answer, turn):
        attempt = self.attempt
        if attempt is None or attempt.ending:
            return
        if is_bad(answer):
            self.fail_attempt(turn)
        elif attempt.lock == "tables":
            attempt.lock, attempt.insp = "held", "hint"
        else:
            attempt.lock = {"lock": "tables", "drop": "unlock"}.get(attempt.lock, "free")

    def took_ren(self, call, answer, turn):
        if answer[0] == "ok":
            self.found_done()
        elif is_bad(answer):
            self.fail_attempt(turn)

    def cut(self, actor, had, turn):
        """A loss between calls; `had` tells of an open transaction, a table lock or a wait."""
        if not had or self.renamed:
            return
        if actor in ("copy", "apply"):
            if self.cause is None:
                self.fail_chunk(turn) if actor == "copy" else self.fail_batch(turn)
        elif self.attempt:
            self.fail_attempt(turn)
        elif self.setup != "done" and self.cause is None:
            self.fail_setup(turn)
