"""Whole migrations beside a server, many of them: their plans, the comparison with what the program prints for the same turns, and the
classes of what differs."""
import itertools
import json
import os
import random
import re
import tomllib
from collections import Counter

from answers import EQUAL_ROW, blockers_compared, compared, journal, printed_lines
from binlog import OPTIONS as LOG_OPTIONS
from counters import auto_column
from cutover import NAMES_SEEN
from migration import equal
from program import TOP
from rehearsal import Rehearsal, Stop, Turn, in_other_order
from server import Server
from words import words

MOST_CLIENTS = 64
CASES = f"{TOP}/crates/test_plans/data/cases"
CLASSES = f"{os.path.dirname(os.path.realpath(__file__))}/classes"


DRAWN_EARLY = "a statement that waits draws in the turn that answers it"
HAS_DRAWN = "a refused statement has drawn its number"
HAS_MOVED = "an UPDATE that is refused moves nothing"
PAST_RANGE = "a number past its column's range is refused like any other value"
# The classes of what differs: rules of this project's own that docs/MODEL.md tells, each with a plan in compare/classes.
EXPLAINED = {
    "the server answers where the model waits, and the plan goes another way",
    "the model's time-out comes where the server has answered",
    "a statement that waits for a row has its table's name meanwhile, and goes before LOCK TABLES",
    "a deadlock of names: LOCK TABLES waits for a transaction that has read, which then writes",
    "sessions wait for each other, and in the model they don't",
    "a REPLACE by an equal row counts 1 in the server, and isn't logged",
    DRAWN_EARLY,
    HAS_DRAWN,
    HAS_MOVED,
    PAST_RANGE,
    "the server waits longer, and the tool goes another way meanwhile",
    "the RENAME asks for its names one after the other, and a client goes before it where the lock ends while the sentry stands",
    # (a key names one column twice)
    "the server refuses the plan's tables by 1060",
}
FAULTS_TOLD = "of two faults another is reported"


# ---------------------------------------------------------------------- plans
def quoted(value):
    if isinstance(value, bool):
        return str(value).lower()
    if isinstance(value, list):
        return f"[{', '.join(map(quoted, value))}]"
    return json.dumps(value, ensure_ascii=False).replace("\x7f", "\\u007f") if isinstance(value, str) else str(value)


def toml(tree):
    lines = [f"{key} = {quoted(value)}" for key, value in tree.items() if key not in ("options", "tables")]
    lines += ["[options]", *(f"{key} = {quoted(value)}" for key, value in tree.get("options", {}).items())]
    for table in tree["tables"]:
        lines += ["[[tables]]", *(f"{key} = {quoted(value)}" for key, value in table.items())]
    return "\n".join(lines) + "\n"


def plans_of_folder(folder):
    for name in sorted(it for it in os.listdir(folder) if it.endswith(".toml")):
        with open(f"{folder}/{name}", "rb") as file:
            yield name, tomllib.load(file)


def plans_of_cases(name):
    """The plans of a file of cases, of those that are replayed."""
    with open(f"{CASES}/{name}.cases", encoding="utf-8") as file:
        for text in re.split(r"^#### case ", file.read(), flags=re.M)[1:]:
            head, _, rest = text.partition("\n")
            title, words, _ = (it.strip() for it in head.split("|"))
            plan = rest.partition("#### prints")[0]
            if words == "replay" and "#### " not in plan:
                try:
                    yield f"{name} {title}", tomllib.loads(plan)
                except tomllib.TOMLDecodeError:
                    continue


TABLES = [
    ("id INT PRIMARY KEY, v INT", "id", ["id"]),
    ("id INT PRIMARY KEY, v VARCHAR(8)", "id", ["id"]),
    ("id INT PRIMARY KEY, m VARCHAR(5), v INT, UNIQUE KEY m (m)", "id", ["id", "m"]),
    ("a INT, b INT, v INT, PRIMARY KEY (a, b)", None, []),
    ("id VARCHAR(4) PRIMARY KEY, v INT NOT NULL", "id", ["id"]),
    ("id BIGINT UNSIGNED NOT NULL, v VARBINARY(6), m SMALLINT, PRIMARY KEY (id), UNIQUE (m)", "id", ["id", "m"]),
]
ALTERS = [
    "ADD COLUMN z INT NOT NULL DEFAULT 7",
    "ADD COLUMN z VARCHAR(8) DEFAULT 'x' FIRST",
    "ADD INDEX i (v)",
    "DROP COLUMN v",
    "CHANGE v w VARCHAR(20) NOT NULL, ADD COLUMN z INT",
    "MODIFY v VARBINARY(3)",
]


# Migrated tables that give out numbers, and their ALTERs, some of which widen the key or make it narrower.
COUNTED = [
    ("id INT AUTO_INCREMENT PRIMARY KEY, v INT", "id", ["id"]),
    ("id SMALLINT NOT NULL AUTO_INCREMENT, v VARCHAR(8), PRIMARY KEY (id)", "id", ["id"]),
    ("m VARCHAR(5), id INT UNSIGNED AUTO_INCREMENT PRIMARY KEY, v INT, UNIQUE KEY m (m)", "id", ["id", "m"]),
    ("id TINYINT AUTO_INCREMENT PRIMARY KEY, v INT NOT NULL, m SMALLINT UNIQUE", "id", ["id", "m"]),
]
COUNTED_ALTERS = [
    "MODIFY id BIGINT NOT NULL AUTO_INCREMENT",
    "CHANGE id n BIGINT AUTO_INCREMENT, ADD COLUMN z INT NOT NULL DEFAULT 7",
    "MODIFY id INT NOT NULL AUTO_INCREMENT, DROP COLUMN v",
    "MODIFY id TINYINT AUTO_INCREMENT, ADD INDEX i (v)",
    "ADD COLUMN z VARCHAR(8) DEFAULT 'x' FIRST",
    "CHANGE v w VARCHAR(20) NOT NULL",
]
STARTS = ["", "", "", " AUTO_INCREMENT=5", " AUTO_INCREMENT=20"]
# Near the end of a TINYINT.
LAST_STARTS = ["", " AUTO_INCREMENT=124", " AUTO_INCREMENT=127"]
# Tables beside the migrated one, which give out numbers.
COUNTING = [
    ("id INT AUTO_INCREMENT PRIMARY KEY, v INT, m VARCHAR(3)", ""),
    ("id INT AUTO_INCREMENT PRIMARY KEY, m INT UNIQUE, v INT NOT NULL", " AUTO_INCREMENT=5"),
    ("v INT, m SMALLINT UNIQUE, id TINYINT NOT NULL AUTO_INCREMENT, PRIMARY KEY (id)", " AUTO_INCREMENT=122"),
]


class Maker:
    """A random plan: the same for a series and a number. Values are of their columns' kinds."""

    counted = 40  # of a hundred plans those whose migrated table gives out numbers

    def __init__(self, series, number, losses):
        self.r, self.losses = random.Random(f"migration {series} {number}"), losses

    def chance(self, percent):
        return self.r.randrange(100) < percent

    def kinds(self):
        found = re.findall(r"(\w+) (INT|VARCHAR|VARBINARY|BIGINT|SMALLINT|TINYINT)", self.columns)
        return {name: "VAR" in kind and kind for name, kind in found if name != "KEY"}

    def value(self, name, number=None):
        kind = self.kinds()[name]
        if number is None and name == "v" and "NOT NULL" not in self.columns.partition("v ")[2] and self.chance(15):
            return "NULL"
        number = self.r.randrange(1, 9) if number is None else number
        if name == "v" and self.chance(4):
            return "'abcde'" if kind == "VARCHAR" else "x'0102030405'" if kind == "VARBINARY" else str(100000 + number)
        return f"'{'abcdefghij'[number]}'" if kind == "VARCHAR" else f"x'0{number}'" if kind == "VARBINARY" else str(number)

    def row(self, key):
        return [self.value(name, key + at if name in ("id", "a", "b") else None) for at, name in enumerate(self.kinds())]

    def condition(self):
        if self.keys and self.chance(75):
            name = self.r.choice(self.keys)
            return f" WHERE {name} = {self.value(name, self.r.randrange(1, 9))}"
        if self.key and self.chance(60):
            sign, number = self.r.choice(["<", "<=", ">", ">="]), self.r.randrange(1, 9)
            return f" WHERE {self.key} {sign} {self.value(self.key, number)}"
        if not self.key and self.chance(70):
            return f" WHERE a = {self.r.randrange(1, 9)} AND b = {self.r.randrange(1, 9)}"
        return ""

    def drawing(self, form):
        """An INSERT or a REPLACE of which most draw a number: without the key, or with a NULL, a 0 or a number for it."""
        names = list(self.kinds())
        row = dict(zip(names, self.row(self.r.randrange(1, 12))))
        row["id"] = self.r.choice(["NULL", "NULL", "0", "'0'", row["id"], row["id"]])
        if self.chance(40):
            del row["id"]
        if self.chance(5):
            row["v"] = "NULL"
        listed = f" ({', '.join(row)})" if len(row) < len(names) or self.chance(30) else ""
        return f"{form.upper()} INTO t{listed} VALUES ({', '.join(row.values())})"

    def statement(self):
        names, form = list(self.kinds()), self.r.choice(["insert"] * (8 if self.is_counted else 4) + ["update"] * 3 + ["delete"] * 2 + ["select", "replace"])
        if form in ("insert", "replace") and self.is_counted:
            return self.drawing(form)
        if form == "update" and self.is_counted and self.chance(30):
            return f"UPDATE t SET id = {self.r.randrange(1, 30)} WHERE id = {self.r.randrange(1, 9)}"
        if form in ("insert", "replace"):
            listed = f" ({', '.join(names)})" if self.chance(30) else ""
            return f"{form.upper()} INTO t{listed} VALUES ({', '.join(self.row(self.r.randrange(1, 9)))})"
        if form == "delete":
            return f"DELETE FROM t{self.condition()}"
        if form == "select":
            return f"SELECT {self.r.choice(['*', 'COUNT(*)', names[-1]])} FROM t{self.condition()}"
        name = self.r.choice(["v", "v", names[0]])
        return f"UPDATE t SET {name} = {self.value(name, self.r.randrange(1, 9) if name != 'v' else None)}{self.condition()}"

    def script(self):
        lines = []
        for _ in range(self.r.choice([1, 2, 2, 3])):
            some = [self.statement() for _ in range(self.r.choice([1, 1, 2, 3]))]
            lines += ["BEGIN", *some, self.r.choice(["COMMIT"] * 4 + ["ROLLBACK"])] if self.chance(50) else some
        return "\n".join(lines)

    def words(self, actors):
        words = ["insp*5"] if self.chance(80) else []
        for _ in range(self.r.choice([10, 20, 40])):
            words.append(f"{self.r.choice(actors)}*{self.r.choice([1, 1, 2, 3])}")
        clients = [it for it in actors if it[0] == "c" and it[1:].isdigit()]
        if self.is_counted and self.chance(60):
            # (the whole cut-over, so that numbers are left to be drawn behind it)
            words += ["insp*5", "copy*60", "apply*40", "lock*2", *clients, "insp*3", "apply*6", "ren", "insp", "lock*2", "ren"]
        elif self.chance(40):
            words += ["copy*60", "apply*40", "lock*2", *clients, "insp", "apply*3"]
        return " ".join(words)

    def faults(self, actors):
        faults = []
        for _ in range(self.r.choice([1, 1, 2, 3])):
            actor = self.r.choice(actors[1:])
            faults.append(f"turn {self.r.randrange(2, 60)} {actor}" if self.chance(30) else f"{actor} {self.r.randrange(1, 9)} {self.r.choice(['before', 'after'])}")
        return faults

    def operator(self):
        return self.r.choice(["throttle\nwait 6\nno-throttle", "wait 4\nchunk-size=1", "wait 9\nunpostpone", "wait 30\npanic"])

    def alter(self):
        if self.is_counted:
            return self.r.choice([it for it in COUNTED_ALTERS if "w VARCHAR" not in it or "NOT NULL, m" not in self.columns])
        return self.r.choice([it for it in ALTERS if "w VARCHAR" not in it or "v VARBINARY" not in self.columns])

    def start(self):
        """The table option, where the table gives out numbers."""
        if not self.is_counted:
            return ""
        return self.r.choice(LAST_STARTS if "TINYINT" in self.columns else STARTS)

    def plan(self):
        self.is_counted = self.chance(self.counted)
        self.columns, self.key, self.keys = self.r.choice(COUNTED if self.is_counted else TABLES)
        rows, clients = [], [self.script() for _ in range(self.r.choice([1, 2, 2, 3]))]
        for key in sorted(self.r.sample(range(1, 9), self.r.choice([0, 1, 3, 4, 6]))):
            row = self.row(key)
            if "m" in self.kinds():
                row[list(self.kinds()).index("m")] = self.value("m", key) if self.chance(80) else "NULL"
            rows.append(f"({', '.join(row)})")
        actors = ["op", "insp", "copy", "copy", "apply", "apply", "lock", "ren", *(f"c{at + 1}" for at in range(len(clients)))]
        options = {"chunk_size": self.r.choice([1, 2, 3]), "dml_batch_size": self.r.choice([1, 2, 10]), "default_retries": self.r.choice([1, 2, 3])}
        options |= {"client_wait": self.r.choice([3, 9, 30]), "tool_wait": self.r.choice([4, 12, 40]), "approve_renamed_columns": True}
        options |= {"max_backlog": self.r.choice([0, 2, 100]), "drain_limit": self.r.choice([3, 20, 2000])}
        options |= {"ok_to_drop_table": True} if self.chance(20) else {}
        tree = {"version": 2 if self.is_counted else 1, "table": "t", "alter": self.alter(), "clients": clients, "turns": self.words(actors)}
        if self.chance(25):
            tree["operator"] = self.operator()
            options |= {"postpone": True} if "unpostpone" in tree["operator"] else {}
        if self.losses:
            tree["faults"] = self.faults(actors)
        return {**tree, "options": options, "tables": [{"create": f"CREATE TABLE t ({self.columns}){self.start()}", "rows": rows}]}


class NumbersMaker(Maker):
    """The same with a table `u` beside the migrated one, of which clients draw numbers too."""

    counted = 60

    def value_beside(self, name):
        if name == "id":
            return self.r.choice(["NULL", "NULL", "0", "'0'", str(self.r.randrange(1, 12))])
        if self.chance(10):
            return self.r.choice(["NULL", "99999999999", "'abcd'"])
        return str(self.r.randrange(1, 7))

    def beside(self):
        """A statement of `u`; most draw a number."""
        names, form = re.findall(r"(\w+) (?:INT|VARCHAR|SMALLINT|TINYINT)", self.counting), self.r.randrange(20)
        if form < 13:
            names = [it for it in names if it != "id" or self.chance(50)]
            return f"{'REPLACE' if form < 3 else 'INSERT'} INTO u ({', '.join(names)}) VALUES ({', '.join(map(self.value_beside, names))})"
        where = f" WHERE id = {self.r.randrange(1, 9)}"
        if form < 16:
            return f"UPDATE u SET {self.r.choice(['id', 'v'])} = {self.r.randrange(1, 15)}{where}"
        return self.r.choice([f"DELETE FROM u{where}", "DELETE FROM u", f"SELECT * FROM u{where}", "SELECT * FROM u"])

    def script(self):
        lines = []
        for line in super().script().split("\n"):
            lines += [line, *(self.beside() for _ in range(self.r.choice([0, 1, 1, 2])))]
        return "\n".join(lines)

    def plan(self):
        self.counting, start = self.r.choice(COUNTING)
        tree = super().plan()
        rows = ["(1, 1, 1)"] if self.chance(50) else []
        return {**tree, "version": 2, "tables": [*tree["tables"], {"create": f"CREATE TABLE u ({self.counting}){start}", "rows": rows}]}


# ---------------------------------------------------------------------- one plan
class Pair:
    """A program and a server; `plants` plants a fault, and `keep` is a folder for the plans with their turns."""

    def __init__(self, program, server, plants=None, keep=None):
        self.program, self.server, self.plants, self.keep = program, server, plants, keep
        self.counts, self.slowest = Counter(), 0.0

    def printed(self, tree):
        return self.program.run_text("replay", toml(tree))

    def run_on(self, rehearsal, turns, actors, readers=()):
        """What the program prints after some more turns; `readers` are clients more, whose turns come last."""
        tree = rehearsal.ordered([*turns, *map(Turn, actors)])
        first = len(rehearsal.clients) + 1
        names = [f"c{first + at}" for at in range(len(readers))]
        tree["clients"] = [*tree.get("clients", []), *readers]
        tree["turns"] = " ".join([tree["turns"], *names])
        tree["options"] = {**tree["options"], "turn_limit": len(turns) + len(actors) + len(readers)}
        text = self.program.asker.run_text("replay", toml(tree)).text
        return {client: replies_of(text, client) for client in [*rehearsal.clients, *names]}

    def waits_in_model(self, rehearsal):
        """Whether an actor's next turn waits in the model: of a client, and of the copier's chunk; none where it isn't known."""

        def ask(turns, actor, always=False):
            if not always and not any(rehearsal.is_open(it) for it in rehearsal.talks if it != actor):
                return False
            if actor in rehearsal.clients:
                known = replied(turns, rehearsal)[actor]
                replies = self.run_on(rehearsal, turns, [actor])[actor]
                if replies[: len(known)] != known:
                    raise Stop(self.class_of(rehearsal, turns) or "UNEXPLAINED", f"the model answers {actor} otherwise before: {known} {replies}\n{toml(rehearsal.ordered(turns))}")
                return len(replies) == len(known) or replies[-1].endswith("error 1205")
            return self.is_span_written(rehearsal, turns) if rehearsal.talks[actor].call.what == "chunk" else None

        return ask

    def is_span_written(self, rehearsal, turns):
        """Whether in the model a value of the chunk is locked by one who writes: then a client that reads it waits as well."""
        keys = sorted({*rehearsal.keys_within(), *named_keys(rehearsal)}, key=repr)[:MOST_CLIENTS - len(rehearsal.clients)]
        readers = [f"SELECT * FROM {rehearsal.table} WHERE {equal(rehearsal.tool.key_columns(), key)}" for key in keys]
        replies = self.run_on(rehearsal, turns, [], readers)
        return any(not replies[f"c{len(rehearsal.clients) + 1 + at}"] for at in range(len(readers)))

    def common_order(self, rehearsal):
        """An order of actors that the server answered at once in which the model gives the clients among them the same answers."""

        def ask(found):
            wanted = {it: rehearsal.reply_of(rehearsal.clients[it], rehearsal.reported(rehearsal.talks[it].call, rehearsal.talks[it]))[0] for it in found if it in rehearsal.clients}
            for order in itertools.permutations(found) if len(found) < 5 and wanted else ():
                replies = self.run_on(rehearsal, rehearsal.turns, order)
                if all(replies[client][-1:] == [reply] for client, reply in wanted.items()):
                    return list(order)
            return found

        return ask

    def rehearse(self, name, tree):
        """The class of a plan: `same`, or how it differs."""
        refused = self.printed(tree)
        if refused.status == 2:
            return "the plan is refused", refused.text.strip(), None
        rehearsal, kind, reported = None, "same", ""
        try:
            rehearsal = Rehearsal(self.server, tree)
            rehearsal.model_waits = self.waits_in_model(rehearsal)
            rehearsal.common_order = self.common_order(rehearsal)
            if self.plants:
                self.plants(rehearsal)
            rehearsal.follow()
            rehearsal.finish()
            kind, reported = self.compare(name, rehearsal)
        except Stop as stop:
            kind, reported = stop.kind, stop.reported
        finally:
            if rehearsal:
                self.slowest = max(self.slowest, rehearsal.wakeups.slowest)
                rehearsal.close()
                self.counts.update(rehearsal.counts)
                self.counts["turns"] += len(rehearsal.turns)
        return kind, reported, rehearsal

    def compare(self, name, rehearsal):
        """The program, given the turns, must print the report that the server's answers make."""
        turns = rehearsal.turns
        ours, theirs = self.report(rehearsal, turns), masked(rehearsal.report(turns))
        if ours == theirs:
            return self.same(name, rehearsal, turns)
        waits = sorted(rehearsal.row_waits)
        for chosen, is_whole in [([it], is_whole) for it in waits for is_whole in (True, False)] + [(waits, True), (waits, False)]:
            other = turns
            for wait in chosen:
                other = in_other_order(other, wait, is_whole)
            if self.report(rehearsal, other) == masked(rehearsal.report(other)):
                self.counts["plans with a wait that the model doesn't have"] += 1
                return self.same(name, rehearsal, other)
        reported = self.class_of(rehearsal, turns) or "UNEXPLAINED"
        return reported, f"{toml(rehearsal.ordered(turns))}--- the program\n{ours}--- the server\n{theirs}"

    def same(self, name, rehearsal, turns):
        """The reports are the same: then each answer of the server is held against the trace's line."""
        text = self.program.run_text("trace", toml(rehearsal.ordered(turns))).text
        if printed_lines(text) is None:
            self.counts["plans whose program prints no trace"] += 1
        else:
            same, equal, other = compared(turns, text)
            self.counts["turns whose answer is the trace's"] += same
            self.counts.update({EQUAL_ROW: equal} if equal else {})
            ways, another = blockers_compared(turns, text)
            self.counts.update(ways)
            if other or another:
                return "UNEXPLAINED", f"{toml(rehearsal.ordered(turns))}--- {other or another}"
            for table, theirs in rehearsal.counters.items() if rehearsal.is_over() else ():
                ours = self.counter(rehearsal, turns, table)
                if ours != theirs:
                    reported = class_of_numbers(rehearsal, len(turns), table, ours, theirs) or "UNEXPLAINED"
                    return reported, f"{toml(rehearsal.ordered(turns))}--- at the end {table} gives out {ours}, and by the server {theirs}"
                self.counts["counters at the end that are the same"] += 1
        self.counts[f"verdict {rehearsal.verdict_kind.split()[0]}"] += 1
        for end, text in (("toml", toml(rehearsal.ordered(turns))), ("report", masked(rehearsal.report(turns)))) if self.keep else ():
            with open(f"{self.keep}/{name.replace(' ', '_').removesuffix('.toml')}.{end}", "w", encoding="utf-8") as file:
                file.write(text)
        return "same", ""

    def counter(self, rehearsal, turns, table):
        """The number that a table gives out next, none where it has none left: the one that a client more draws in a turn more."""
        tree = rehearsal.ordered(turns)
        name = f"c{len(rehearsal.clients) + 1}"
        line = f"INSERT INTO {table} ({auto_column(rehearsal.counting[table])[0]}) VALUES (NULL)"
        tree |= {"clients": [*tree.get("clients", []), line], "turns": f"{tree['turns']} {name}", "options": {**tree["options"], "turn_limit": len(turns) + 1}}
        *_, (last, *_) = journal(self.program.run_text("trace", toml(tree)).text) or [("",)]
        found = re.fullmatch(rf"\d+ {name} call (ok|error) (\d+) id (\d+)", last)
        if found is None:
            raise Stop("UNEXPLAINED", f"the program draws no number at the end: {last}\n{toml(tree)}")
        return None if found[2] == "1264" else int(found[3])

    def class_of(self, rehearsal, turns):
        """The class of the first turn after which the clients' replies differ; none where it is in no class."""
        low, high = 0, len(turns)  # after `low` turns they are the same
        while low + 1 < high:
            middle = (low + high) // 2
            low, high = (middle, high) if self.run_on(rehearsal, turns[:middle], []) == replied(turns[:middle], rehearsal) else (low, middle)
        ours, theirs = self.run_on(rehearsal, turns[:high], []), replied(turns[:high], rehearsal)
        turn = turns[high - 1]
        if rehearsal.early_at and high >= rehearsal.early_at:
            return "the server answers where the model waits, and the plan goes another way"
        if ours == theirs or turn.actor not in rehearsal.clients:
            return None
        model, server = (it[turn.actor][-1].split(" ") if it[turn.actor] else [] for it in (ours, theirs))
        if len(ours[turn.actor]) != len(theirs[turn.actor]):
            what = "the server answers where the model waits" if len(ours[turn.actor]) < len(theirs[turn.actor]) else "the server waits longer"
            return f"{what}, and the plan goes another way" if turn.by_rows else None
        is_number = rehearsal.spare and len(model) == 5 and (len(server) == 5 and model[:4] == server[:4] or server[1:] == ["error", "1062"])
        if is_number or rehearsal.spare and ["error", "1264"] in (model[1:], server[1:]):
            # (other numbers, of which one side has none left, or one that is taken by now)
            numbers = [int(it[4]) if len(it) == 5 else None for it in (model, server)]
            reported = class_of_numbers(rehearsal, high, rehearsal.table_at(turn), *numbers)
            if reported and (reported == DRAWN_EARLY or server[1:] != ["error", "1062"]):
                return reported
        if model[:2] == server[:2] and model[1] == "error":
            return f"{FAULTS_TOLD}: {model[2]}, and {server[2]} by the server"
        if turn.line.upper().startswith("REPLACE") and model[1] == server[1] == "ok" and int(model[2]) == int(server[2]) + 1:
            return "a REPLACE by an equal row counts 1 in the server, and isn't logged"
        return None

    def report(self, rehearsal, turns):
        return masked(sorted_rows(self.printed(rehearsal.ordered(turns)).text))


def class_of_numbers(rehearsal, turn, table, ours, theirs):
    """The rule by which the server's next number of a table is another than the model's; none where it isn't known."""
    if rehearsal.early_draw_at and turn >= rehearsal.early_draw_at:
        return DRAWN_EARLY
    if rehearsal.owed_at and turn >= rehearsal.owed_at:
        return HAS_DRAWN
    if any(name == table and (ours or 0) <= number and (theirs is None or number < theirs) for name, number in rehearsal.refused_updates):
        return HAS_MOVED
    if table in rehearsal.spare.past_range and (ours is None or theirs is not None and ours > theirs):
        return PAST_RANGE
    return None


def named_keys(rehearsal):
    """The keys of the copier's chunk that clients name, with a row or without."""
    (sign, low), end, found = rehearsal.tool.copier.low, rehearsal.tool.copier.end, set()
    for client in rehearsal.clients.values():
        for line in client.lines:
            listed = [it for it in words(line) if it.kind in ("number", "text")]
            values = [int(it.text) if it.kind == "number" else it.text[1:-1] for it in listed]
            found |= {tuple(values[at : at + len(end)]) for at in range(len(values) - len(end) + 1)}
    fitting = [key for key in found if [type(it) for it in key] == [type(it) for it in end]]
    return [key for key in fitting if low <= key <= end and (sign == ">=" or key != low)]


def replied(turns, rehearsal):
    """The clients' replies from the server."""
    return {client: [it.reply[1] for it in turns if it.reply and it.reply[0] == client] for client in rehearsal.clients}


def replies_of(text, client):
    found = re.search(rf"^client {client}\n((?:\d+\.\d+ .*\n|\(.*\n)*)", text, re.M)
    return re.findall(r"^\d+\.\d+ .*$", found.group(1), re.M) if found else []


def sorted_rows(text):
    """A report with the rows of each list sorted."""
    lines, rows = [], []
    for line in text.split("\n"):
        if line.startswith("("):
            rows.append(line)
        else:
            lines += [*sorted(rows), line]
            rows = []
    return "\n".join(lines)


def masked(text):
    """A report but for the place in the log, which counts events that the comparison doesn't follow."""
    return re.sub(r"^reverted spent batch \d+", "reverted spent batch", text)


# ---------------------------------------------------------------------- all of them
def plans_asked(series, first, count, maker=Maker):
    for number in range(first, first + count):
        yield f"plan {number}", maker(series, number, number % 2 == 1).plan()


def given_plans():
    """The examples, and the plans that were worked out by hand."""
    yield from plans_of_folder(f"{TOP}/examples")
    yield from plans_of_cases("worked")


def run_all(pair, plans, says, kinds):
    for name, tree in plans:
        kind, reported, _ = pair.rehearse(name, tree)
        kinds.setdefault(kind, []).append(name)
        if kind != "same" and says or not is_explained(kind):
            print(f"{name}: {kind}: {reported}", flush=True)


def cuts(rehearsal):
    """gh-ost's own copy of a row."""
    copy_of = rehearsal.tool.copy_of
    rehearsal.tool.copy_of = lambda key: copy_of(key).replace("INSERT INTO", "INSERT IGNORE INTO").partition(" ON DUPLICATE")[0]


def another_default(rehearsal):
    alter = rehearsal.alter()
    rehearsal.alter = lambda: alter.replace("DEFAULT 7", "DEFAULT 8")


def no_removal(rehearsal):
    rehearsal.tool.removal = lambda row: ("DO 0", rehearsal.tool.key_of(row))


def no_lock(rehearsal):
    """Another table in place of the migrated one."""
    given = rehearsal.tool.given_lock

    def given_lock():
        call = given()
        if call and call.what == "lock tables":
            call.lines = [f"LOCK TABLES {rehearsal.tool.old} WRITE"]
        return call

    rehearsal.tool.given_lock = given_lock


def other_answer(rehearsal):
    """An answer of the tool from which no turn follows: the hint's count."""
    reported = rehearsal.reported
    rehearsal.reported = lambda call, talk: ("ok", 2) if call.what == "hint" else reported(call, talk)


def other_number(rehearsal):
    """The next number but one, wherever a client draws one."""
    reported = rehearsal.reported

    def next_but_one(call, talk):
        answer = reported(call, talk)
        return ("ok", answer[1], answer[2] + 1) if answer[0] == "ok" and len(answer) == 3 and answer[2] else answer

    rehearsal.reported = next_but_one


def no_carried_counter(rehearsal):
    """The new table's counter stays what its rows made of it."""
    given = rehearsal.tool.given_insp

    def given_insp():
        call = given()
        if call and call.what == "set counter":
            call.lines = ["DO 0"]
        return call

    rehearsal.tool.given_insp = given_insp


def lesser_counter(rehearsal):
    """The counter that is carried is one too small."""
    reported = rehearsal.reported

    def one_less(call, talk):
        answer = reported(call, talk)
        return ("at", answer[1] - 1) if call.what == "show counter" and answer[0] == "at" else answer

    rehearsal.reported = one_less


def other_blockers(rehearsal):
    """In place of those for whom a session waits all others."""
    blockers = rehearsal.blockers
    rehearsal.blockers = lambda talk: {it for it, other in rehearsal.talks.items() if other is not talk} - blockers(talk)


FAULTS = {
    "another DEFAULT in the new table": another_default,
    "an applier without DELETE": no_removal,
    "LOCK TABLES without the table": no_lock,
    "two rows in the answer to the hint": other_answer,
    "another number where a client draws one": other_number,
    "a counter that isn't carried to the new table": no_carried_counter,
    "a counter that is carried as one less": lesser_counter,
    "a wait for other sessions": other_blockers,
}


def plant_faults(program):
    """The status: 0 where each planted fault is reported by some plan."""
    drawing = [(name, tree) for name, tree in plans_of_folder(f"{TOP}/examples") if tree["version"] == 2]
    plans, missed = [*plans_of_cases("worked"), *plans_of_folder(CLASSES), *drawing], 0
    with Server(*log_options()) as server:
        plain = Pair(program, server)
        same = [(name, tree) for name, tree in plans if plain.rehearse(name, tree)[0] == "same"]
        for fault, plants in FAULTS.items():
            planted = Pair(program, server, plants)
            reported = [name for name, tree in same if planted.rehearse(name, tree)[0] != "same"]
            print(f"planted: {fault}: reported by {len(reported)} of the {len(same)} plans that are the same without it", flush=True)
            missed += not reported
    return 1 if missed else 0


def show_classes(program):
    """Each plan of the folder begins with the class that it shows, or with `same`."""
    wrong, shown = [], set()
    with Server(*log_options()) as server:
        for name, tree in plans_of_folder(CLASSES):
            with open(f"{CLASSES}/{name}", encoding="utf-8") as file:
                wanted, second = file.readline().removeprefix("# ").strip(), file.readline()
            pair = Pair(program, server, cuts if second.startswith("# with INSERT IGNORE") else None)
            kind = pair.rehearse(name, tree)[0]
            shown |= {wanted} - {"same"}
            if wanted != kind and not (kind == "same" and wanted in pair.counts):
                wrong.append(f"{name} shows {kind}, and not: {wanted}")
    print("\n".join(wrong) if wrong else f"{len(shown)} classes are shown")
    return 1 if wrong else 0


def compare_migrations(program, plans, says, keep=None):
    """The status: 0 where each plan is the same, or differs by a class that is reported. What was done is reported also where it is stopped."""
    kinds, pair = {}, None
    try:
        with Server(*log_options()) as server:
            pair = Pair(program, server, keep=keep)
            run_all(pair, plans, says, kinds)
    finally:
        if pair:
            tell(kinds, pair)
    return 0 if all(map(is_explained, kinds)) else 1


def tell(kinds, pair):
    print(f"server: {pair.server.version}\nplans: {sum(map(len, kinds.values()))}")
    for kind, names in sorted(kinds.items(), key=lambda it: -len(it[1])):
        print(f"{len(names):7} {kind}{'' if kind == 'same' or len(names) > 12 else ': ' + ', '.join(names)}")
    print("of all of them:")
    for what, number in sorted(pair.counts.items()):
        print(f"{number:7} {what}")
    print(f"{1000 * pair.slowest:7.0f} milliseconds at most until the server had woken a session up")


def replay_kept(program, folder):
    """Replays the plans of a folder that a run kept: the program must print each report. No server is asked."""
    names = sorted(it.removesuffix(".toml") for it in os.listdir(folder) if it.endswith(".toml"))
    other = []
    for name in names:
        with open(f"{folder}/{name}.toml", encoding="utf-8") as plan, open(f"{folder}/{name}.report", encoding="utf-8") as wanted:
            if masked(sorted_rows(program.run_text("replay", plan.read()).text)) != wanted.read():
                other.append(name)
    print(f"{len(names) - len(other)} of {len(names)} kept plans print their report{': not ' + ', '.join(other) if other else ''}")
    return 1 if other or not names else 0


def is_explained(kind):
    return kind in EXPLAINED or kind in ("same", "the plan is refused") or kind.startswith(FAULTS_TOLD)


def log_options():
    return ("--log-bin=log", *LOG_OPTIONS, *NAMES_SEEN)
