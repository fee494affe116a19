"""The scenes of `scenes.txt` as proofs: their steps as requests to the plain server, whose answers a proof computes.

usage: python3 compare/computed.py           writes crates/test_worked/proofs/Scenes.antt anew
       python3 compare/computed.py --same    ends with status 1 where the file isn't what would be written
"""
import os
import re
import sys

sys.dont_write_bytecode = True
sys.path.insert(0, os.path.dirname(os.path.realpath(__file__)))

from scenes import scenes

FILE = f"{os.path.dirname(os.path.realpath(__file__))}/../crates/test_worked/proofs/Scenes.antt"
ACTORS = {"lock": "Lock", "ren": "Ren", "insp": "Insp", "copy": "Copy", "apply": "Apply"}
# How often a session may poll where nothing is said of its wait, and where it is.
PATIENT, SHORT = 50, 1
COLUMN = re.compile(r"(\w+) INT( PRIMARY KEY)?( UNIQUE)?( NOT NULL)?(?: DEFAULT (\d+))?\Z")
HEAD = """-- Several sessions beside each other: the scenes of compare/scenes.txt, which a real server plays too, each step with the answer
-- that the definitions compute. (Written by compare/computed.py.)
use Rattle.std.proofs.Common.{pos, true, false, List, [], ◌∷◌, Some, None, refl}
use Rattle.std.specs.Prelude.{codes}
use Rattle.base_values.specs.declared.value.Value.TheVariants.{Null, Num}
use Rattle.base_values.specs.declared.kind.Kind.TheVariants.{Int}
use Rattle.base_values.specs.declared.span.Bound.TheVariants.{Closed}
use Rattle.base_values.specs.declared.row_conversion.map.Origin.TheVariants as from
use Rattle.base_script.specs.declared.actor.Actor.TheVariants.{Insp, Copy, Apply, Lock, Ren, Client}
use Rattle.base_script.specs.declared.statement.Statement.TheVariants as statements
use Rattle.base_script.specs.declared.statement.Condition.TheVariants as conditions
use Rattle.base_script.specs.declared.statement.Shown.TheVariants as shown
use Rattle.table_store.specs.Databases.{Database}
use Rattle.server_model.specs.declared.request.Request.TheVariants as requests
use Rattle.server_model.specs.declared.answer.Answer.TheVariants as answers
use Rattle.server_model.specs.declared.entry.Entry.{Entry}
use Rattle.server_model.specs.declared.entry.Asked.TheVariants.{Call, Poll, Cut}
use Rattle.test_worked.proofs.Computing.{computing, IsServed}
"""


def listed(items):
    return "".join(f"{it} ∷ " for it in items) + "[]"


def name(text):
    return f'codes "{text}"'


def names(texts):
    return listed(name(it) for it in texts)


def number(text):
    return f"Num (pos {text})"


def row(text):
    return listed(number(it) for it in re.findall(r"\d+", text))


def rows(text):
    return listed(f"({row(it)})" for it in re.findall(r"\(([^()]*)\)", text))


class Table:
    def __init__(self, text):
        self.name, inside, comment = re.match(r"CREATE TABLE (\w+) \((.*)\)(?: COMMENT '(.*)')?\Z", text).groups()
        self.comment = name(comment) if comment else "[]"
        self.columns = [COLUMN.match(it).groups() for it in inside.split(", ")]

    def schema(self):
        columns, primary, uniques = [], [], []
        for place, (column, is_primary, is_unique, is_filled, default) in enumerate(self.columns):
            nullable = not (is_primary or is_filled)
            default = f"Some ({number(default)})" if default else "Some Null" if nullable else "None"
            columns.append(f"record {{ name = {name(column)}; kind = Int 4 false; nullable = {str(nullable).lower()}; default = {default}; auto = false }}")
            if is_primary:
                primary.append(f"record {{ name = None; places = {place} ∷ [] }}")
            if is_unique:
                uniques.append(f"record {{ name = Some ({name(column)}); places = {place} ∷ [] }}")
        return (
            f"record {{ name = {name(self.name)}; columns = {listed(columns)}; uniques = {listed(primary + uniques)}; "
            f"indexes = []; comment = {self.comment}; start = None }}"
        )

    def map_from(self, old):
        """Where the columns of this table come from, where it gets rows of the other."""
        there, columns = [it[0] for it in old.columns], []
        for column, is_primary, _, is_filled, default in self.columns:
            nullable = str(not (is_primary or is_filled)).lower()
            origin = f"from.Old {there.index(column)}" if column in there else f"from.Added ({number(default)})"
            columns.append(f"record {{ kind = Int 4 false; nullable = {nullable}; origin = {origin} }}")
        return listed(columns)


def condition(text):
    if not text:
        return "conditions.All"
    column, value = re.match(r" WHERE (\w+) = (\d+)\Z", text).groups()
    return f"(conditions.Equal (record {{ column = {name(column)}; value = {number(value)} }} ∷ []))"


def put(form, table, columns, values):
    listed_columns = f"(Some ({names(columns.split(', '))}))" if columns else "None"
    return f"requests.Do (statements.{form} ({name(table)}) {listed_columns} ({row(values)}) None)"


def select(what, table, where):
    what = "shown.All" if what == "*" else f"(shown.Columns ({names(what.split(', '))}))"
    return f"requests.Do (statements.Select ({name(table)}) {what} {condition(where)})"


def update(table, column, value, where):
    sets = f"record {{ column = {name(column)}; value = {number(value)} }} ∷ []"
    return f"requests.Do (statements.Update ({name(table)}) ({sets}) {condition(where)})"


def rename(pairs):
    both = re.findall(r"(\w+) TO (\w+)", pairs)
    return f"requests.Rename ({listed(f'record {{ old = {name(old)}; new = {name(new)} }}' for old, new in both)})"


# How each statement but a copy stands as a request.
FORMS = [
    (r"BEGIN", lambda: "requests.Begin"),
    (r"COMMIT", lambda: "requests.Commit"),
    (r"ROLLBACK", lambda: "requests.Rollback"),
    (r"UNLOCK TABLES", lambda: "requests.Unlock"),
    (r"LOCK TABLES (.*)", lambda tables: f"requests.LockTables ({names(re.split(' WRITE(?:, )?', tables)[:-1])})"),
    (r"DROP TABLE (\w+)", lambda table: f"requests.Drop ({name(table)})"),
    (r"RENAME TABLE (.*)", rename),
    (r"(CREATE TABLE .*)", lambda text: f"requests.Create ({Table(text).schema()})"),
    (r"INSERT INTO (\w+)(?: \(([\w, ]+)\))? VALUES \((.*)\)", lambda *parts: put("Insert", *parts)),
    (r"REPLACE INTO (\w+)(?: \(([\w, ]+)\))? VALUES \((.*)\)", lambda *parts: put("Replace", *parts)),
    (r"DELETE FROM (\w+)( WHERE .*)?", lambda table, where: f"requests.Do (statements.Delete ({name(table)}) {condition(where)})"),
    (r"UPDATE (\w+) SET (\w+) = (\d+)( WHERE .*)?", update),
    (r"SELECT (\*|[\w, ]+) FROM (\w+)( WHERE .*)?", select),
]
CHUNK = re.compile(r"INSERT IGNORE INTO (\w+) \(.*\) SELECT .* FROM (\w+) WHERE \w+ >= (\d+) AND \w+ <= (\d+) LOCK IN SHARE MODE")
COPY = re.compile(r"INSERT IGNORE INTO (\w+) SELECT \* FROM (\w+) WHERE \w+ = (\d+) LOCK IN SHARE MODE")


def request(text):
    for form, made in FORMS:
        found = re.fullmatch(form, text)
        if found:
            return made(*found.groups())
    raise ValueError(text)


class Play:
    """A scene's steps as the entries of a journal: sessions have numbers in the order in which they come."""

    def __init__(self, scene):
        self.tables = {}
        self.rows = {}
        for text in scene.tables:
            if text.startswith("CREATE"):
                table = Table(text)
                self.tables[table.name] = table
                self.rows[table.name] = "[]"
            else:
                into, values = re.match(r"INSERT INTO (\w+) VALUES (.*)", text).groups()
                self.rows[into] = rows(values)
        self.opening = [f"record {{ schema = {it.schema()}; rows = {self.rows[it.name]} }}" for it in self.tables.values()]
        self.numbers, self.count, self.polls = {}, 0, {}
        self.waits = {"client_wait": PATIENT, "tool_wait": PATIENT}
        self.entries = []
        for step in scene.steps:
            self.take(step)

    def number(self, session):
        if session not in self.numbers:
            self.count += 1
            self.numbers[session] = self.count
        return self.numbers[session]

    def entry(self, session, asked, answer):
        actor = f"Client {session[1:]}" if re.fullmatch(r"c\d", session) else ACTORS[session]
        self.entries.append(
            f"record {{ actor = {actor}; session = {self.number(session)}; asked = {asked}; side = None; answer = {answer}; missed = None; draw = None }}"
        )

    def answer(self, session, text):
        form, _, what = text.partition(" ")
        if form == "waits":
            return f"answers.Waits {self.numbers[what.removeprefix('for ')]}"
        if text == "error 1205":
            return f"answers.TimedOut {self.polls[session]}"
        if form == "error":
            return f"answers.Refused {what} None"
        return f"answers.Ok {what}" if form == "ok" else f"answers.Rows ({rows(what)})"

    def take(self, step):
        session, text = step.session, step.text
        if text.startswith("SET "):
            self.waits["client_wait" if re.fullmatch(r"c\d", session) else "tool_wait"] = SHORT
        elif text == "cut":
            self.entry(session, "Cut", "answers.Lost")
            del self.numbers[session]
        elif text == "poll":
            self.polls[session] += 1
            self.entry(session, "Poll", self.answer(session, step.ours))
        elif CHUNK.match(text):
            self.copy_chunk(session, *CHUNK.match(text).groups())
        elif COPY.match(text):
            into, old, key = COPY.match(text).groups()
            self.copy_row(session, old, into, key, self.answer(session, step.ours))
        else:
            self.polls[session] = 0
            self.entry(session, f"Call ({request(text)})", self.answer(session, step.ours))

    def copy_row(self, session, old, into, key, answer):
        asked = f"requests.CopyRow ({name(old)}) ({name(into)}) ({self.tables[into].map_from(self.tables[old])}) ({row(key)})"
        self.entry(session, f"Call ({asked})", answer)

    def copy_chunk(self, session, into, old, low, high):
        """gh-ost's one statement for a chunk is BeginSpan, and CopyRow of each key."""
        keys = [key for key in map(str, range(int(low), int(high) + 1)) if f"({row(key)})" in self.rows[old]]
        span = f"record {{ low = Closed ({row(low)}); high = Closed ({row(high)}) }}"
        reported = f"answers.Keys ({listed(f'({row(it)})' for it in keys)}) ({row(high)})"
        self.entry(session, f"Call (requests.BeginSpan ({name(old)}) ({span}) {len(keys)})", reported)
        for key in keys:
            self.copy_row(session, old, into, key, "answers.Ok 1")


def proof(number, scene):
    play = Play(scene)
    entries = "\n    ∷ ".join([*play.entries, "[]"])
    waits = "; ".join(f"{it} = {value}" for it, value in play.waits.items())
    return f"""
-- {scene.title}
abbrev scene_tables_{number} : Database
scene_tables_{number} = {listed(play.opening)}

abbrev scene_{number} : List Entry
scene_{number} =
    {entries}

scene_served_{number} : IsServed (record {{ {waits} }}) scene_tables_{number} scene_{number}
unfolding computing
scene_served_{number} = record {{ answers = refl; sides = refl }}
"""


def written():
    return HEAD + "".join(proof(number, scene) for number, scene in enumerate(scenes(), start=1))


def need_same():
    with open(FILE, encoding="utf-8") as file:
        if file.read() != written():
            sys.exit("crates/test_worked/proofs/Scenes.antt isn't what compare/scenes.txt has: run compare/computed.py")


if __name__ == "__main__":
    if sys.argv[1:] == ["--same"]:
        need_same()
        sys.exit()
    with open(FILE, "w", encoding="utf-8") as file:
        file.write(written())
