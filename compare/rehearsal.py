"""One migration beside a server, turn by turn: each actor in a session of its own, the tool by migration.py, losses as killed connections,
and the log's events from the server's own binary log.

The order of turns is the server's where the server chooses: a session that waits takes its turn as soon as the server has answered it.
What comes out is the plan with its `turns`, and the report that the program must print for it.
"""
import dataclasses
import time

from answers import answer_text, loss_text
from binlog import Columns, Log
from clients import Client
from counters import auto_column
from migration import MODE, TOOL, Bad, Call, Shape, Tool
from numbers_given import NO_NUMBER_LEFT, Spare, drawn, forget, set_numbers
from printing import printed_row, refusal_of
from rephrasing import carried
from words import clauses, words
from wakeups import Wakeups
from wire import Ok, Refused

NAME_WAIT = "SELECT 1 FROM information_schema.PROCESSLIST WHERE ID = {0} AND STATE LIKE 'Waiting for table metadata lock%'"
ROW_WAIT = "SELECT 1 FROM information_schema.INNODB_TRX WHERE trx_mysql_thread_id = {0} AND trx_state = 'LOCK WAIT'"
LIVES = "SELECT 1 FROM information_schema.PROCESSLIST WHERE ID = {0}"
LOCK = """SELECT r.lock_mode, r.lock_index, r.lock_data, b.lock_mode, o.trx_mysql_thread_id FROM information_schema.INNODB_LOCK_WAITS w
    JOIN information_schema.INNODB_TRX t ON t.trx_id = w.requesting_trx_id JOIN information_schema.INNODB_TRX o ON o.trx_id = w.blocking_trx_id
    JOIN information_schema.INNODB_LOCKS r ON r.lock_id = w.requested_lock_id JOIN information_schema.INNODB_LOCKS b ON b.lock_id = w.blocking_lock_id
    WHERE t.trx_mysql_thread_id = {0}"""
ROW_BLOCKERS = """SELECT o.trx_mysql_thread_id FROM information_schema.INNODB_LOCK_WAITS w JOIN information_schema.INNODB_TRX t ON t.trx_id = w.requesting_trx_id
    JOIN information_schema.INNODB_TRX o ON o.trx_id = w.blocking_trx_id WHERE t.trx_mysql_thread_id = {0}"""
# Of the name that it waits for: who has it or asks for it, and how; and how it asks itself.
NAME_BLOCKERS = """SELECT o.PROCESSLIST_ID, h.LOCK_TYPE, l.LOCK_TYPE FROM performance_schema.metadata_locks l JOIN performance_schema.threads t ON t.THREAD_ID = l.OWNER_THREAD_ID
    JOIN performance_schema.metadata_locks h ON h.OBJECT_SCHEMA = l.OBJECT_SCHEMA AND h.OBJECT_NAME = l.OBJECT_NAME JOIN performance_schema.threads o ON o.THREAD_ID = h.OWNER_THREAD_ID
    WHERE t.PROCESSLIST_ID = {0} AND o.PROCESSLIST_ID <> {0} AND l.LOCK_STATUS = 'PENDING'"""
SHARED = ("SHARED_READ", "SHARED_WRITE")
# A server tells anew which transactions wait where nobody has asked for a tenth of a second.
APART = 0.12
PATIENCE = 20
OPTIONS = {
    "chunk_size": 1000, "turn_limit": 200000, "dml_batch_size": 10, "default_retries": 60, "max_backlog": 100, "drain_limit": 2000,
    "client_wait": 20000, "tool_wait": 2000, "max_load": 64, "ok_to_drop_table": False, "postpone": False,
}  # fmt: skip


class Stop(Exception):
    """The two can't go on beside each other: a class of difference, and what was seen."""

    def __init__(self, kind, reported):
        Exception.__init__(self, kind, reported)
        self.kind, self.reported = kind, reported


@dataclasses.dataclass
class Turn:
    """`note` is what the turn's report says of it: waits, timed out, cut, lost, or none; `side` the loss at this turn. `wait` numbers
    the wait that a call began or that a poll asks for, `reply` is a client's line of the report, and `line` its statement. `what`
    names the call, and `answer` is what a trace prints of the turn.
    `by_rows` says whether others have transactions open, and nobody the table lock: then rows alone can make the session wait."""

    actor: str
    note: str = ""
    side: str = ""
    wait: int = 0
    reply: tuple = None
    line: str = ""
    by_rows: bool = False
    what: str = ""
    answer: str = ""
    blockers: set = None  # for whom it waits, as the server says; none where it doesn't wait there
    behind: set = None  # for whom these wait in turn
    early: set = None  # whom the server has answered where the model waits


class Talk:
    """An actor's session, and the call that it has under way."""

    def __init__(self, server, database, is_tool):
        self.session = server.session()
        self.session.need(f"USE {database}")
        if is_tool:
            self.session.need(MODE)
        self.session.need("SET innodb_lock_wait_timeout = 1000, lock_wait_timeout = 1000")
        self.call, self.left, self.answers, self.result = None, [], [], None
        self.is_open = self.is_locked = False
        self.polls, self.wait, self.seen_at, self.asked_at = 0, 0, None, None
        self.number = None  # the number that a client's statement drew, once it was asked for
        self.blocked_at, self.blockers = None, None
        self.draws = False  # whether its call is a client's statement which draws a number

    def begin(self, call):
        self.number = None
        self.call, self.left, self.answers, self.result = call, list(call.lines), [], None
        self.polls, self.wait, self.seen_at, self.asked_at = 0, 0, None, None
        self.session.begin(self.left.pop(0))

    def is_answered(self, seconds):
        """Whether all of the call's statements are answered within so many seconds."""
        while self.result is None and self.session.is_answered(seconds):
            self.answers.append(self.session.answer())
            if self.left and not isinstance(self.answers[-1], Refused):
                self.session.begin(self.left.pop(0))
            else:
                self.result = self.answers[-1]
        return self.result is not None


class Rehearsal:
    def __init__(self, server, tree, database="mig"):
        self.server, self.tree, self.database = server, tree, database
        self.options = {**OPTIONS, **tree.get("options", {})}
        self.table = tree["table"]
        self.monitor = server.session()
        self.wakeups = Wakeups(server, self.monitor, PATIENCE)
        self.open_tables()
        self.clients = {f"c{number + 1}": Client(script) for number, script in enumerate(tree.get("clients", []))}
        self.operator = [it.split("#")[0].strip() for it in tree.get("operator", "").split("\n")]
        self.operator = [it for it in self.operator if it and not it.startswith("-- ")]
        self.tool = Tool(self.table, self.options, self.operator, lambda: self.shape, self, self.table in self.counting)
        self.order = ["op", *TOOL, *self.clients]
        self.talks, self.turns, self.taken = {}, [], dict.fromkeys(self.order, 0)
        self.held, self.early = set(), set()
        self.losses, self.cuts = self.read_faults()
        self.words = self.read_words()
        self.place, self.releases, self.waits_begun = -1, 0, 0
        self.history, self.counts = [], {}
        # What the model is asked: whether an actor's next turn waits, and in which order several were answered.
        self.model_waits = lambda turns, actor, always=False: False
        self.common_order = lambda found: found
        self.read_at, self.row_waits = None, set()
        self.early_draw_at = 0  # the turn at which a statement that draws a number first waited for a row: the server has drawn, the model hasn't
        self.owed_at = 0  # the turn at which the script first couldn't let the server draw a number that the model draws
        self.refused_updates = []  # with the table of each: the server has moved the counter with the first row
        self.early_at = 0  # the turn at which a server first answered what the model lets wait

    # ------------------------------------------------------------------ the plan
    def open_tables(self):
        self.monitor.need(f"DROP DATABASE IF EXISTS {self.database}")
        self.server.database(self.monitor, self.database)
        self.monitor.need(MODE)  # (a 0 among a plan's rows is a number, as where mysqldump's files are read)
        for table in self.tree["tables"]:
            answer = self.monitor.ask(table["create"])
            for row in table.get("rows", []):
                answer = answer if isinstance(answer, Refused) else self.monitor.ask(f"INSERT INTO {self.name_in(table['create'])} VALUES {row}")
            if isinstance(answer, Refused):
                raise Stop(f"the server refuses the plan's tables by {answer.number}", answer.text)
        creates = {self.name_in(it["create"]).strip("`"): it["create"] for it in self.tree["tables"]}
        self.counting = {name: create for name, create in creates.items() if auto_column(create)[0]}
        self.spare = Spare(self.server, self.database, self.counting) if self.counting else None
        self.create = next(it["create"] for it in self.tree["tables"] if self.name_in(it["create"]).strip("`") == self.table)
        old_columns, types, key, _ = self.columns_of(self.table)
        self.shape = Shape([], old_columns, key, [])
        columns = Columns(["unsigned" in it for it in types], [it.startswith("varbinary") for it in types], key)
        changelog = Columns([False] * 3, [False] * 3, [0])
        self.log = Log(self.server, self.database, {self.table: columns, f"_{self.table}_ghc": changelog})

    @staticmethod
    def name_in(create):
        return [it.text for it in words(create)][2]

    def columns_of(self, table):
        """The columns of a table with their kinds, the places of its clustered key, and those of all its unique keys."""
        reported = f"SELECT COLUMN_NAME, COLUMN_TYPE, IS_NULLABLE FROM information_schema.COLUMNS WHERE TABLE_SCHEMA = '{self.database}' AND TABLE_NAME = '{table}' ORDER BY ORDINAL_POSITION"
        columns = [[it.decode() if isinstance(it, bytes) else it for it in row] for row in self.monitor.need(reported).rows]
        names = [it[0] for it in columns]
        index = self.monitor.need(f"SHOW INDEX FROM `{table}`")
        at = [index.names.index(it) for it in ("Key_name", "Non_unique", "Column_name")]
        keys = {}
        for row in index.rows:
            name, common, column = (row[place] for place in at)
            if not int(common):
                keys.setdefault(name, []).append(names.index(column))
        strict = [places for places in keys.values() if all(columns[place][2] == "NO" for place in places)]
        return names, [it[1] for it in columns], keys.get("PRIMARY") or (strict or [[]])[0], list(keys.values())

    def alter(self):
        text = self.tree["alter"]
        front = text.split(None, 3)
        return front[3] if [it.upper() for it in front[:2]] == ["ALTER", "TABLE"] else text

    def read_shape(self):
        """The new table's columns, as the server has them, each with its old one."""
        names, _, _, uniques = self.columns_of(f"_{self.table}_gho")
        listed = [it for it in clauses(self.tree["alter"]) if it]
        lower = [it.lower() for it in self.shape.old_columns]
        of = {new: lower.index(old) for new, old in carried(self.create, listed)}
        columns = [(name, of[name.lower()]) for name in names if name.lower() in of]
        places = [[of.get(names[place].lower()) for place in index] for index in uniques]
        self.shape = dataclasses.replace(self.shape, columns=columns, uniques=[[it for it in index if it is not None] for index in places])

    def read_faults(self):
        losses, cuts = {}, []
        for text in self.tree.get("faults", []):
            one, two, *rest = text.split()
            if one == "turn":
                cuts.append((int(two), rest[0]))
            else:
                losses.setdefault((one, int(two)), rest[0])
        return losses, sorted(cuts, key=lambda it: it[0])

    def read_words(self):
        for word in self.tree.get("turns", "").split():
            actor, _, times = word.partition("*")
            for _ in range(int(times or 1)):
                yield actor

    # ------------------------------------------------------------------ what the tool asks of the run
    def waits(self, actor):
        talk = self.talks.get(actor)
        return talk is not None and talk.wait > 0

    def is_open(self, actor):
        return actor in self.talks and self.talks[actor].is_open

    def is_locked(self):
        return "lock" in self.talks and self.talks["lock"].is_locked

    def open_clients(self):
        return sum(self.is_open(it) for it in self.clients)

    def unread(self, position):
        return len(self.log.events) - position

    # ------------------------------------------------------------------ whose turn it is
    def is_over(self):
        return all(it.is_over for it in self.clients.values()) and self.tool.is_over()

    def given(self, actor):
        if actor == "op":
            return Call("command", []) if self.tool.has_words() else None
        client = self.clients.get(actor)
        if client:
            return None if client.is_over else Call("line", [client.said()])
        return self.tool.given(actor)

    def is_ready(self, actor):
        return actor not in self.held and (self.waits(actor) or self.given(actor) is not None)

    def due(self):
        """The actor whose loss between calls comes now."""
        turn = len(self.turns) + 1
        while self.cuts and self.cuts[0][0] < turn:
            self.cuts.pop(0)
        return next((actor for at, actor in self.cuts if at == turn and actor in self.talks), None)

    def answered(self):
        """Those that the server has answered while they waited: the renamer first, then those that came first."""
        found = [it for it, talk in self.talks.items() if talk.call and (talk.wait or it in self.held) and it not in self.early and talk.is_answered(0)]
        return sorted(found, key=lambda it: (it != "ren", self.talks[it].wait))

    def as_logged(self, found):
        """The server answered several: in the order of its log, and so that the model gives these answers."""
        if not self.tool.renamed:
            self.log.read()
        logged = [it.statement for it in self.log.events]
        lines = {it: self.talks[it].call.lines[-1] for it in found}
        place = {it: logged.index(line) if line in logged else len(logged) for it, line in lines.items()}
        return self.common_order(sorted(found, key=lambda it: (it != "ren", place[it], self.talks[it].wait)))

    def choose(self):
        found = self.answered()
        if len(found) > 1:
            found = self.as_logged(found)
        if found:
            return found[0]
        for actor in self.words:
            if actor in self.taken and self.is_ready(actor):
                return actor
        for step in range(1, len(self.order) + 1):
            actor = self.order[(self.place + step) % len(self.order)]
            if self.is_ready(actor):
                self.place = (self.place + step) % len(self.order)
                return actor
        return None

    def follow(self):
        while len(self.turns) < self.options["turn_limit"] and not self.is_over():
            cut = self.due()
            if cut is not None and not (self.waits(cut) and cut in self.answered()):
                self.cut(cut)
                self.settle()
                continue
            actor = cut or self.choose() or self.awaited()
            if actor is None:
                waits = [f"{it}: {talk.call.lines[-1]} for {self.lock_of(talk)}" for it, talk in self.talks.items() if talk.call and talk.result is None]
                raise Stop("sessions wait for each other, and in the model they don't", "; ".join(waits))
            self.turn(actor, is_cut=cut is not None)
            self.settle()

    def awaited(self):
        """The first whom the server answers after all; none where it lets all of them wait."""
        if self.talks:
            self.wakeups.pass_by()
        end = time.monotonic() + self.wakeups.patient(3)
        while time.monotonic() < end:
            found = self.answered()
            if found:
                return found[0]
            time.sleep(0.01)
        return None

    def settle(self):
        """Waits for the answers that the server owes: what waits is asked until it is seen to wait still."""
        if any(talk.call and talk.result is None for talk in self.talks.values()):
            for talk in list(self.talks.values()):
                if talk.call and talk.result is None:
                    self.is_waiting(talk)
        if not self.tool.renamed and self.read_at != self.releases:
            self.read_at = self.releases
            self.log.read()

    # ------------------------------------------------------------------ what the server does
    def is_waiting(self, talk):
        """How it waits, for a name or for a row; none where it is answered. It goes on only once a lock is given free."""
        if talk.seen_at and talk.seen_at[0] == self.releases:
            return None if talk.is_answered(0) else talk.seen_at[1]
        before, pause, began = None, 0.01, time.monotonic()
        while not talk.is_answered(pause):
            how = self.wait_seen(talk)
            if how and how == before:
                talk.seen_at = self.releases, how
                if how == "row" and talk.draws:
                    self.early_draw_at = self.early_draw_at or len(self.turns) + 1
                return how
            if how == "name":
                # (it is shown waiting until it runs again: others that are woken up now come after it)
                self.wakeups.pass_by()
            before, pause = how, 0.01 if how == "name" else APART
            if time.monotonic() > began + self.wakeups.patient(PATIENCE):
                raise Stop("the script: no answer, and no wait is seen", talk.call.lines[-1])
        return None

    def wait_seen(self, talk):
        """How the server shows a session waiting now, or none: it runs, or is to."""
        number = talk.session.number
        how = "name" if self.monitor.need(NAME_WAIT.format(number)).rows else "row" if self.monitor.need(ROW_WAIT.format(number)).rows else None
        return how if how and self.wakeups.is_asleep(number) else None

    def lock_of(self, talk):
        """What a session waits for: a gap, a row with its index and the one that has it, or a name."""
        reported = self.monitor.ask(LOCK.format(talk.session.number))
        for mode, index, data, _, owner in [] if isinstance(reported, Refused) else reported.rows:
            by = next((it for it, other in self.talks.items() if other.session.number == int(owner)), "?")
            if "GAP" in mode or "supremum" in str(data):
                return "a gap", by
            return f"row {data} of {index}", by
        return "a name", "?"

    def blockers(self, talk):
        """For whom a session waits, as the server says: it is asked anew where a lock was given free, or another began to wait."""
        at = self.releases, self.waits_begun
        if talk.blocked_at != at:
            talk.blocked_at, talk.blockers = at, self.blockers_seen(talk)
        return talk.blockers

    def blockers_seen(self, talk):
        is_name, number = talk.seen_at and talk.seen_at[1] == "name", talk.session.number
        for _ in range(PATIENCE):
            rows = self.monitor.need((NAME_BLOCKERS if is_name else ROW_BLOCKERS).format(number)).rows
            numbers = {int(row[0]) for row in rows if not is_name or not {row[1], row[2]} <= set(SHARED)}
            if numbers or not is_name:
                break
            # (it was given that name, and is about to ask for its next one)
            self.wakeups.pass_by()
        return {it for it, other in self.talks.items() if other.session.number in numbers}

    def behind(self, actors):
        """For whom these wait, and those in turn."""
        found, asked = set(), list(actors)
        while asked:
            talk = self.talks[asked.pop()]
            further = self.blockers(talk) - found if talk.call and talk.seen_at and not talk.is_answered(0) else set()
            found |= further
            asked += further
        return found

    def is_beyond_chunk(self, what, by):
        """Whether that is the row after a chunk, which a server locks as well."""
        if by != "copy" or not what.startswith("row ") or not self.tool.copier.keys:
            return False
        return what.split()[1].strip("'") not in {str(it[0]) for it in self.tool.copier.keys}

    def keys_within(self):
        """The keys of the copier's chunk, read without a lock, with the rows of open transactions and without them."""
        end = self.tool.copier.end
        columns, keys = ", ".join(f"`{it}`" for it in self.tool.key_columns()), {end}
        for level in ("READ UNCOMMITTED", "READ COMMITTED"):
            self.monitor.need(f"SET TRANSACTION ISOLATION LEVEL {level}")
            rows = self.monitor.need(f"SELECT {columns} FROM {self.database}.`{self.table}` WHERE {self.tool.copier.within(end)}").rows
            keys |= {tuple(row) for row in rows}
        return keys

    def kill(self, actor):
        talk = self.talks.pop(actor, None)
        self.held.discard(actor)
        self.early.discard(actor)
        self.releases += 1
        if talk is None:
            return
        self.monitor.ask(f"KILL CONNECTION {talk.session.number}")
        end = time.monotonic() + PATIENCE
        while self.monitor.need(LIVES.format(talk.session.number)).rows and time.monotonic() < end:
            time.sleep(0.002)
        talk.session.close()

    def close(self):
        waiting = [it for it, talk in self.talks.items() if talk.call and talk.result is None]
        for actor in [*waiting, *self.talks]:
            self.kill(actor)
        self.wakeups.close()
        if self.spare:
            self.spare.close()
        self.monitor.close()

    # ------------------------------------------------------------------ a turn
    def count(self, what, by=1):
        self.counts[what] = self.counts.get(what, 0) + by

    def end_transaction(self, actor):
        self.history.append(f"{actor}.{self.clients[actor].transaction}")

    def cut(self, actor):
        talk = self.talks[actor]
        had = talk.is_open or talk.is_locked or talk.wait > 0
        self.turns.append(Turn(actor, "cut", answer="lost"))
        self.count("losses between calls")
        if actor in self.clients and talk.wait:
            self.turns[-1].reply = (actor, f"{self.clients[actor].place()} lost")
        if actor in self.clients and had:
            self.end_transaction(actor)
        self.kill(actor)
        if actor in self.clients:
            self.clients[actor].is_over = True
        else:
            self.tool.cut(actor, had, len(self.turns))

    def turn(self, actor, is_cut=False):
        if actor == "op":
            self.turns.append(Turn("op", answer="ok 0"))
            self.taken["op"] += 1
            self.tool.command(len(self.turns))
            return
        talk = self.talks.get(actor)
        polls = talk is not None and talk.wait > 0
        side = "after" if is_cut else self.losses.get((actor, self.taken[actor] + 1))
        if side == "before" and polls and talk.is_answered(0):
            side = "after"  # the server did it without being polled
            self.count("losses before a poll that the server had answered")
        if side == "before":
            call = talk.call if polls else self.given(actor)
            if not polls and actor not in self.clients:
                self.tool.called(call)
            self.turns.append(Turn(actor, "lost", side, talk.wait if polls else 0, what=call.what, answer="lost"))
            self.taken[actor] += 1
            self.count("losses before a call")
            self.lost(actor, call)
            if actor == "apply":
                self.tool.applier_turn(len(self.turns))
            return
        if polls and side != "after" and not self.is_fair_poll(actor, talk):
            return
        if polls or actor in self.held or self.begin(actor):
            self.take(actor, self.talks[actor], polls, side)

    def is_fair_poll(self, actor, talk):
        """False where the server lets a call wait for a row, and the model doesn't any more: its turn comes with the answer."""
        if talk.is_answered(0) or not talk.seen_at or talk.seen_at[1] != "row" or actor in self.held:
            return True
        if self.waits_still(self.turns, actor) is not False:
            return True
        self.held.add(actor)
        self.count("the server waits longer: behind another that waits for the same row")
        return False

    def begin(self, actor):
        """Says the next call. False where the server lets it wait by a rule that the model doesn't have: the turn comes with the answer."""
        if actor not in self.talks:
            self.talks[actor] = Talk(self.server, self.database, actor not in self.clients)
        talk, call = self.talks[actor], self.given(actor)
        if call.what == "read log":
            talk.begin(Call("read log", ["DO 0"]))
            talk.is_answered(PATIENCE)
            return True
        if self.counting and actor in self.clients:
            forget(talk.session, call.lines[-1])
        talk.draws = actor in self.clients and self.spare is not None and self.spare.table_of(call.lines[-1]) is not None
        if talk.draws or call.what == "show counter":
            self.settle_numbers()
        talk.begin(call)
        how = self.is_waiting(talk)
        if how == "row" and self.waits_longer(actor, talk, call):
            self.held.add(actor)
            return False
        if how is None and self.model_waits(self.turns, actor):
            self.early.add(actor)
            self.early_at = self.early_at or len(self.turns)
            self.count("the server answers where the model waits: " + told_answer(actor, call, talk.result))
        return True

    def settle_numbers(self):
        """Before a number is drawn or shown the server is to have drawn all that the model has."""
        if not self.spare:
            return
        self.spare.take()
        if self.is_locked() and not self.talks["lock"].call:
            self.spare.take(self.talks["lock"].session)
        if any(self.spare.owed.values()):
            self.owed_at = self.owed_at or len(self.turns) + 1

    def waits_still(self, turns, actor):
        """Whether it waits in the model, where too it goes on only once a lock is given free."""
        talk = self.talks[actor]
        if talk.asked_at == self.releases:
            return True
        waits = self.model_waits(turns, actor, True)
        talk.asked_at = self.releases if waits else None
        return waits

    def waits_longer(self, actor, talk, call):
        """Whether the server lets the call wait for a row and the model doesn't. Where the model can't be asked, a wait for a gap is one."""
        what, by = self.lock_of(talk)
        label = what if what == "a gap" else "the row after the chunk" if self.is_beyond_chunk(what, by) else None
        waits = self.model_waits(self.turns, actor, True)
        if label is None if waits is None else waits:
            return False
        reported = f"client {call.lines[0].split()[0].upper()}" if actor in self.clients else f"{actor}: {call.what}"
        self.count(f"the server waits longer: {reported} for {label or 'a row that another waits for, or that it only touches'}")
        return True

    def take(self, actor, talk, polls, side):
        """The turn of a call or a poll; with its answer, if there is one by now."""
        call, entry = talk.call, Turn(actor, "", side or "", talk.wait, None, talk.call.lines[-1], what=talk.call.what)
        is_free = not self.is_locked() and not self.waits("lock")
        entry.by_rows = is_free and any(self.is_open(it) for it in self.talks if it != actor)
        was_held = actor in self.held
        if was_held:
            self.held.discard(actor)
            if not polls and actor not in self.clients and (self.given(actor) is None or self.given(actor).lines != call.lines):
                raise Stop("the server waits longer, and the tool goes another way meanwhile", f"{actor}: {call.lines[-1]}")
        self.turns.append(entry)
        self.taken[actor] += 1
        turn = len(self.turns)
        if not polls and actor not in self.clients:
            self.tool.called(call)
        is_done = talk.is_answered(0)
        by_row = was_held or polls and talk.seen_at and talk.seen_at[1] == "row"
        if actor not in self.early and is_done and by_row and self.waits_still(self.turns[:-1], actor):
            if self.waits("lock") and self.talks["lock"].call.what == "lock tables" and not self.has_name(actor):
                raise Stop("a statement that waits for a row has its table's name meanwhile, and goes before LOCK TABLES", f"{actor}: {call.lines[-1]}")
            self.early.add(actor)
            self.early_at = self.early_at or len(self.turns)
            self.count("the server answers where the model waits still: " + told_answer(actor, call, talk.result))
        if actor in self.early:
            is_done = not self.waits_still(self.turns[:-1], actor)
            self.early -= {actor} if is_done else set()
        if is_done and self.goes_before_rename(actor, talk):
            raise Stop("the RENAME asks for its names one after the other, and a client goes before it where the lock ends while the sentry stands", f"{actor}: {call.lines[-1]}")
        if side == "after":
            self.lose_answer(actor, talk, entry, is_done, polls)
        elif not is_done:
            self.wait(actor, talk, entry, polls)
        else:
            talk.wait = 0
            self.answer(actor, talk, entry, turn)
        if actor == "apply":
            self.tool.applier_turn(turn)

    def lose_answer(self, actor, talk, entry, is_done, polls):
        """The session is lost after its call, before the answer is heard."""
        call, is_over = talk.call, talk.polls + polls == self.longest_wait(actor)
        entry.note = "lost"
        entry.answer = loss_text(is_done, is_done and self.reported(call, talk)[0] == "refused", is_over)
        self.count("losses after a call")
        if is_done and call.what == "rename" and isinstance(talk.result, Ok):
            self.renamed()
        if is_done:
            self.draw_as_the_model(call, talk)
        if not is_done or actor in self.early:
            self.count("losses of a call that waits")
        if is_done and call.what == "drop" and self.waits("ren"):
            # (as before UNLOCK: the RENAME is to have asked for the table, which in the model it has; `--cutover` has the race)
            self.releases += 1
            self.is_waiting(self.talks["ren"])
        self.lost(actor, call)

    def goes_before_rename(self, actor, talk):
        """Whether a client that waited for the table's name is given it before a RENAME that waits, while the sentry stands: the RENAME
        asked for the sentry's name alone, and is to be refused by 1050."""
        has_waited = actor in self.clients and talk.wait and talk.seen_at and talk.seen_at[1] == "name" and not self.has_name(actor)
        is_behind = self.waits("ren") and not self.talks["ren"].is_answered(0) and self.tool.attempt and not self.tool.attempt.dropping
        return has_waited and is_behind and self.table.lower() in {it.name() for it in words(talk.call.lines[-1])}

    def has_name(self, actor):
        """Whether a client's transaction used the table in a line before."""
        client = self.clients.get(actor)
        return client is not None and client.is_inside and client.statement > 2

    def wait(self, actor, talk, entry, polls):
        if not polls:
            self.waits_begun += 1
            talk.wait = self.waits_begun
            self.row_waits |= {talk.wait} if talk.seen_at and talk.seen_at[1] == "row" else set()
            self.count(f"waits seen, for a {talk.seen_at[1] if talk.seen_at else 'row'}")
            self.count("waits seen, of the ALTER TABLE that sets the counter", talk.call.what == "set counter")
            if talk.call.what == "rename":
                self.tool.rename_waits()
        entry.wait, entry.note, entry.answer = talk.wait, "waits", "waits"
        entry.blockers = None if actor in self.early else self.blockers(talk)
        entry.behind, entry.early = self.behind(entry.blockers or ()), set(self.early)
        talk.polls += polls
        if talk.polls == self.longest_wait(actor):
            entry.answer = f"timeout {talk.polls}"
            self.time_out(actor, talk, entry)

    def longest_wait(self, actor):
        """How often a wait is polled until it is over."""
        return self.options["client_wait" if actor in self.clients else "tool_wait"]

    def time_out(self, actor, talk, entry):
        if actor in self.early:
            self.end_early(actor, talk)
        else:
            self.monitor.need(f"KILL QUERY {talk.session.number}")
        talk.left = []
        if not talk.is_answered(PATIENCE):
            raise Stop("the script: a statement that can't be ended", talk.call.lines[-1])
        talk.session.need("ROLLBACK")
        self.releases += 1
        self.count("time-outs")
        entry.note = "timed out"
        call, talk.call, talk.wait, talk.is_open = talk.call, None, 0, False
        client = self.clients.get(actor)
        if client:
            entry.reply = (actor, f"{client.place()} error 1205")
            self.end_transaction(actor)
            client.timed_out()
        else:
            self.tool.took(actor, call, ("timed out",), len(self.turns))

    def end_early(self, actor, talk):
        """The model's time-out of what the server has answered: the same, where that changed nothing or can be rolled back."""
        self.early.discard(actor)
        self.count("time-outs of what the server had answered")
        if not self.is_open(actor) and isinstance(talk.result, Ok) and talk.result.changed:
            raise Stop("the model's time-out comes where the server has answered", f"{actor}: {talk.call.lines[-1]}")

    def lost(self, actor, call):
        client, turn = self.clients.get(actor), len(self.turns)
        self.kill(actor)
        if client:
            self.turns[-1].reply = (actor, f"{client.place()} lost")
            self.end_transaction(actor)
            client.is_over = True
        else:
            self.tool.took(actor, call, ("lost",), turn)

    def renamed(self):
        self.history.append("ALTER")
        if self.table in self.counting:
            self.counting[self.table] = self.monitor.need(f"SHOW CREATE TABLE `{self.table}`").rows[0][1]
        self.count("clients that wait at a RENAME that is done", sum(self.waits(it) for it in self.clients))

    def answer(self, actor, talk, entry, turn):
        call, talk.call = talk.call, None
        reported = self.reported(call, talk)
        entry.answer = answer_text(reported)
        self.count(f"answers of {'clients' if actor in self.clients else 'the tool'}")
        if reported[0] == "refused" and reported[1] == 1213:
            raise Stop(self.deadlock(actor), f"{actor}: {call.lines[-1]}")
        client = self.clients.get(actor)
        if client:
            self.answer_client(actor, client, talk, entry, reported)
        else:
            self.answer_tool(actor, call, talk, reported, turn)
        if not talk.is_open:
            self.releases += 1

    def deadlock(self, actor):
        is_asked = any(talk.call and talk.call.what == "lock tables" for talk in self.talks.values())
        return "a deadlock of names: " + ("LOCK TABLES waits for a transaction that has read, which then writes" if is_asked and self.has_name(actor) else f"at {actor}")

    def answer_client(self, actor, client, talk, entry, reported):
        if reported[0] == "refused" and reported[1] == 1146:
            raise Stop("a client's table is missing", f"{actor}: {client.lines[client.at]}")
        entry.reply = (actor, *self.reply_of(client, reported))
        entry.answer = entry.reply[1].partition(" ")[2]
        self.draw_as_the_model(Call("line", [client.lines[client.at]]), talk)
        transaction = client.transaction
        if client.answered():
            self.history.append(f"{actor}.{transaction}")
        talk.is_open = client.is_inside

    def draw_as_the_model(self, call, talk):
        """In the model a refused statement has drawn its number, also where the server refuses it before."""
        if self.spare and self.spare.see(call.lines[-1], talk.result):
            self.count("numbers that the model draws for a refused statement, and the server doesn't")
        if isinstance(talk.result, Refused):
            self.refused_updates += [(name, number) for name, create in self.counting.items() for number in set_numbers(call.lines[-1], name.lower(), create)]
        if talk.number:
            self.count("numbers drawn by clients")
            self.count("numbers drawn by clients from the new table", "ALTER" in self.history and self.spare.table_of(call.lines[-1]) == self.table)

    @staticmethod
    def reply_of(client, reported):
        if reported[0] == "ok" and len(reported) == 3 and reported[2]:
            return (f"{client.place()} ok {reported[1]} id {reported[2]}",)
        if reported[0] == "rows":
            return f"{client.place()} rows {len(reported[1])}", *sorted(printed_row(row) for row in reported[1])
        return (f"{client.place()} {'ok' if reported[0] == 'ok' else 'error'} {reported[1]}",)

    def answer_tool(self, actor, call, talk, reported, turn):
        if call.what in ("begin", "chunk"):
            talk.is_open = True
        elif call.what in ("commit", "rollback"):
            talk.is_open = False
        elif call.what in ("lock tables", "unlock"):
            talk.is_locked = call.what == "lock tables"
        elif call.what == "create ghost":
            self.read_shape()
        elif call.what == "set counter":
            self.count("counters that are carried to the new table")
        elif call.what == "rename":
            self.count("RENAME done" if reported[0] == "ok" else f"RENAME refused by {reported[1]}")
            if reported[0] == "ok":
                self.renamed()
        if reported[0] == "refused" and (call.what, reported[1]) != ("rename", 1050) and reported[1] not in (1048, 1062, 1264, 1366, 1406):
            raise Stop(f"the server refuses a call by {reported[1]}", f"{actor}: {call.lines[-1]}")
        try:
            self.tool.took(actor, call, reported, turn)
        except Bad as bad:
            raise Stop("the server refuses a statement of the tool", str(bad)) from bad

    def reported(self, call, talk):
        """The answer in migration.py's words."""
        if call.what == "read log":
            position = self.tool.applier.position
            events = self.log.events[position : position + self.options["dml_batch_size"]]
            self.count("batches read from the server's log")
            self.count("events read from the server's log", len(events))
            return "events", events, position + len(events)
        for answer in talk.answers:
            if isinstance(answer, Refused):
                number, column = refusal_of(answer)
                if number in NO_NUMBER_LEFT:
                    self.count("statements that the server refuses by 167 or 1467, and the model by 1264: no number is left")
                    number = 1264
                return "refused", number, column
        last = talk.answers[-1]
        if call.what == "log end":
            self.log.read()
            return "at", len(self.log.events)
        if call.what == "show counter":
            return "at", int(last.rows[0][0])
        if isinstance(last, Ok):
            if not self.counting or call.what != "line":
                return "ok", last.changed
            talk.number = drawn(talk.session, call.lines[-1], last) if talk.number is None else talk.number
            return "ok", last.changed, talk.number
        rows = [tuple(row) for row in last.rows]
        if call.what == "show tables":
            return "tables", [tuple(it.decode() if isinstance(it, bytes) else it for it in row) for row in rows]
        if call.what == "ends":
            return "ends", (tuple(talk.answers[0].rows[0]), rows[0]) if rows else None
        if call.what == "show waiting":
            number = self.talks["ren"].session.number if "ren" in self.talks else None
            return "waits", any(int(row[0]) == number for row in rows)
        return "rows", rows

    # ------------------------------------------------------------------ the end
    def verdict(self, turn_of):
        if not self.is_over():
            return "unfinished"
        if self.tool.renamed or self.tool.cause is None:
            return "done"
        what, *rest = self.tool.cause
        if what == "panic":
            return f"reverted panic turn {turn_of(rest[0])}"
        if what == "spent":
            return f"reverted spent {rest[0]} turns {' '.join(str(turn_of(it)) for it in rest[1])}"
        turn, key, column, number = rest
        return f"reverted unfit turn {turn_of(turn)} key {printed_row(key)} column '{column}' {number}"

    def tables(self):
        """The tables of the plan with their rows, and the names of all."""
        reported = []
        for table in self.tree["tables"]:
            name = self.name_in(table["create"]).strip("`")
            if name in (f"_{self.table}_gho", f"_{self.table}_ghc", f"_{self.table}_del"):
                continue
            rows = self.monitor.need(f"SELECT * FROM `{name}`")
            self.count("tables compared")
            self.count("rows compared", len(rows.rows))
            reported += [f"table {name} ({', '.join(rows.names)})", *sorted(printed_row(row) for row in rows.rows)]
        names = sorted(it.decode() if isinstance(it, bytes) else it for (it,) in self.monitor.need("SHOW TABLES").rows)
        return [*reported, " ".join(["tables", *names])]

    def finish(self):
        """Ends all sessions, and reads the tables."""
        self.verdict_kind = self.verdict(str).split(" turn")[0]
        for actor in [it for it, talk in self.talks.items() if talk.call and talk.result is None] + list(self.talks):
            self.kill(actor)
        self.told_tables = self.tables()
        self.settle_numbers()
        self.counters = {name: self.counter(name) for name in self.counting}
        self.count("counters compared", len(self.counters))

    def table_at(self, turn):
        """The table that gives out numbers and that a client's statement names."""
        listed = {it.name() for it in words(turn.line)}
        return next((name for name in self.counting if name.lower() in listed), None)

    def counter(self, table):
        """The number that a table gives out next; none where it has none left."""
        reported = "SELECT AUTO_INCREMENT FROM information_schema.TABLES WHERE TABLE_SCHEMA = '{0}' AND TABLE_NAME = '{1}'"
        number = int(self.monitor.need(reported.format(self.database, table)).rows[0][0])
        self.monitor.need("SET @mode = @@sql_mode, sql_mode = ''")
        self.monitor.need("BEGIN")
        drawn = self.monitor.ask(f"INSERT INTO `{table}` () VALUES ()")
        self.monitor.need("ROLLBACK")
        self.monitor.need("SET sql_mode = @mode")
        return None if isinstance(drawn, Refused) and drawn.number in NO_NUMBER_LEFT else number

    def report(self, turns):
        """The report that the program must print for these turns, rows sorted."""
        places = {id(turn): at + 1 for at, turn in enumerate(turns)}
        lines = [self.verdict(lambda old: places[id(self.turns[old - 1])])]
        for actor in self.clients:
            lines.append(f"client {actor}")
            for turn in turns:
                if turn.reply and turn.reply[0] == actor:
                    lines += turn.reply[1:]
        lines += [*self.told_tables, " ".join(["history", *self.history]), f"turns {len(turns)}", " ".join(["order", *order_of(turns)])]
        return "\n".join(lines) + "\n"

    def ordered(self, turns):
        """The plan with these turns, and with the losses as they came."""
        taken, faults = dict.fromkeys(self.order, 0), []
        for at, turn in enumerate(turns):
            if turn.note == "cut":
                faults.append(f"turn {at + 1} {turn.actor}")
                continue
            taken[turn.actor] += 1
            if turn.side:
                faults.append(f"{turn.actor} {taken[turn.actor]} {turn.side}")
        shown = {"show_turns": True, "show_history": True, "show_tables": True, "show_replies": True}
        return {**self.tree, "faults": faults, "turns": " ".join(order_of(turns)), "options": {**self.tree.get("options", {}), **shown}}


def told_answer(actor, call, result):
    """A class of answers that came where the model waits."""
    who = "client" if actor.startswith("c") and actor[1:].isdigit() else f"{actor} {call.what}"
    word = call.lines[-1].split()[0].upper() if who == "client" else ""
    if isinstance(result, Refused):
        return f"{who} {word} refused by {result.number}".replace("  ", " ")
    changed = "no row" if isinstance(result, Ok) and result.changed == 0 else "rows changed" if isinstance(result, Ok) else "rows read"
    return f"{who} {word}, {changed}".replace(" ,", ",")


def order_of(turns):
    """The actors of turns that aren't losses between calls; equal neighbours are one word."""
    words = []
    for turn in turns:
        if turn.note == "cut":
            continue
        if words and words[-1][0] == turn.actor:
            words[-1][1] += 1
        else:
            words.append([turn.actor, 1])
    return [actor if times == 1 else f"{actor}*{times}" for actor, times in words]


def in_other_order(turns, wait, is_whole):
    """The same where the model doesn't wait, and the call's turn is that of its answer; or where it waits less, and isn't polled before."""
    of_wait = [turn for turn in turns if turn.wait == wait]
    kept = of_wait[-1:] if is_whole else [of_wait[0], of_wait[-1]]
    return [turn for turn in turns if turn.wait != wait or any(turn is it for it in kept)]
