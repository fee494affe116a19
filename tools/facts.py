"""What a printed run shows beside its turns: waits, locks, open transactions, the ALTER, and how far copy and events were."""
import collections
import re

from calls import BEGIN, CHANGE, CHECKPOINT, COMMIT, COPY, HINT, LOG_END, RANGE, READ, ROLLBACK, SPAN, UNLOCK, is_begin, is_end, is_note

CHANGES = re.compile(r"(?i)(?:insert\s+into|replace\s+into|update|delete\s+from)\s+(`(?:[^`]|``)+`|\w+)")
CHUNK, TRANSACTION, BATCH, TABLE_LOCK = "chunk locked, shared", "transaction open", "batch open", "table locked"

# From the turn `first` to the turn `last` an actor had something open.
Span = collections.namedtuple("Span", "actor first last kind")


class Wait:
    """From the call that waited to its answer; `last` is the run's last turn where none came."""

    def __init__(self, turn):
        self.actor, self.first, self.last, self.call = turn.actor, turn.number, None, turn.call
        self.blockers, self.polls, self.ended = collections.Counter(), 0, None

    def length(self):
        return self.last - self.first


def waits(trace):
    """Each wait, in the order of their first turns."""
    found, open_ = [], {}
    for turn in trace.turns:
        if turn.is_wait():
            wait = open_.get(turn.actor)
            if wait is None:
                wait = open_[turn.actor] = Wait(turn)
                found.append(wait)
            wait.polls += turn.asked == "poll"
            wait.blockers[turn.blocker] += 1
        elif turn.actor in open_:
            wait = open_.pop(turn.actor)
            wait.last, wait.ended = turn.number, turn.answer
            wait.polls += turn.asked == "poll"
    for wait in open_.values():
        wait.last = len(trace.turns)
    return found


def opens(turn):
    """What is open from this turn on, or nothing."""
    if not turn.is_done() or turn.is_loss():
        return None
    if turn.is_client():
        return TRANSACTION if is_begin(turn.call) else None
    return {SPAN: CHUNK, BEGIN: BATCH}.get(turn.call) or (TABLE_LOCK if turn.call.startswith("LOCK TABLES") else None)


def closes(turn):
    if turn.is_loss() or turn.is_timeout():
        return True
    return not turn.is_wait() and (turn.call in (COMMIT, ROLLBACK, UNLOCK) or turn.is_client() and is_end(turn.call))


def spans(trace):
    """What was open: chunks under their lock, transactions, batches, and the table's lock."""
    found, open_ = [], {}
    for turn in trace.turns:
        if turn.actor in open_ and closes(turn):
            first, kind = open_.pop(turn.actor)
            found.append(Span(turn.actor, first, turn.number, kind))
        kind = opens(turn)
        if kind:
            open_[turn.actor] = (turn.number, kind)
    last = len(trace.turns)
    return found + [Span(actor, first, last, kind) for actor, (first, kind) in open_.items()]


def begun_again(trace, actor):
    """How often the chunk or the batch of an actor failed: its session was lost in a call, or with work open, or a wait timed out. That
    the whole tool was lost isn't counted."""
    failed, is_open, is_waiting = 0, False, False
    for turn in trace.turns[: trace.run_length()]:
        if turn.actor == actor:
            failed += turn.is_timeout() or turn.is_loss() and (turn.asked != "cut" or is_open or is_waiting)
            is_open, is_waiting = (is_open or opens(turn) is not None) and not closes(turn), turn.is_wait()
    return failed


def setups_begun_again(trace):
    """How often the setup failed: before its last call was answered the inspector's session was lost in a call, or a wait timed out."""
    failed, is_waiting = 0, False
    for turn in trace.turns:
        if turn.actor == "insp":
            if turn.call == RANGE and turn.is_done() and not turn.is_loss():
                break
            failed += turn.is_timeout() or turn.is_loss() and (turn.asked != "cut" or is_waiting)
            is_waiting = turn.is_wait()
    return failed


def attempts(trace):
    """The turns in which an attempt at the cut-over began."""
    return [turn.number for turn in trace.turns if turn.call.startswith("create the sentry") and turn.asked == "call"]


def mark(trace):
    """The turn in which the RENAME was done, or none."""
    return next((turn.number for turn in trace.turns if turn.actor == "ren" and turn.answer in ("ok 0", "lost done")), None)


def table_of(statement):
    """The table whose rows a statement changes, or none."""
    found = CHANGES.match(statement)
    return found and (found[1][1:-1].replace("``", "`") if found[1][0] == "`" else found[1])


class Curve:
    """A count after each turn in which it changes, from 0 before the first."""

    def __init__(self, title):
        self.title, self.points, self.value, self.most = title, [(0, 0)], 0, 0

    def add(self, turn, value):
        if value != self.value:
            self.value, self.most = value, max(self.most, value)
            self.points.append((turn.number, value))


def reads_of_nothing(trace):
    """The turns in which the applier read a batch with no change of the table: no BEGIN follows."""
    found, following = set(), None
    for turn in reversed(trace.turns):
        if turn.actor == "apply" and turn.asked == "call":
            if turn.call == READ and turn.is_done() and following != BEGIN:
                found.add(turn.number)
            following = turn.call
    return found


class Events:
    """The events that the applier has still to read: those of the migrated table, the hints and the notes."""

    def __init__(self, trace):
        self.table, self.most, self.mark = trace.table(), trace.option("dml_batch_size", 10), mark(trace)
        self.unread, self.open, self.batch, self.is_applying, self.has_begun = 0, {}, 0, False, False
        self.passing, self.rows = reads_of_nothing(trace), set()
        self.trace, self.passed, self.is_resumed = trace, 0, False

    def took(self, turn):
        if self.mark is not None and turn.number > self.mark:
            return
        if self.trace.is_behind(turn) and not self.is_resumed:
            self.resume()
        if turn.is_client():
            self.client(turn)
        elif turn.call == LOG_END or turn.asked == "rename":
            # (here the applier begins; and it is asked for the RENAME once all is read)
            self.unread, self.has_begun = 0, True
        elif turn.call == HINT and turn.is_done():
            self.unread += 1
        elif is_note(turn.call) and turn.actor == "insp" and turn.is_done():
            # (a row that is there already is deleted and written)
            self.unread += 2 if turn.call in self.rows else 1
            self.rows.add(turn.call)
            self.passed = 0 if turn.call == CHECKPOINT else self.passed
        elif turn.actor == "apply":
            self.applier(turn)
        if not self.has_begun:
            self.unread = 0

    def resume(self):
        """A new tool begins at the checkpoint's position: what was passed since is unread again."""
        self.unread, self.passed, self.is_resumed = self.unread + self.passed, 0, True
        self.batch, self.is_applying = 0, False

    def client(self, turn):
        """An event is logged for each row changed, at the COMMIT."""
        if is_begin(turn.call) and turn.is_done():
            self.open[turn.actor] = 0
        elif turn.actor in self.open and (turn.is_loss() or turn.is_timeout()):
            self.open.pop(turn.actor)
        elif is_end(turn.call) and turn.is_done():
            logged = self.open.pop(turn.actor, 0)
            self.unread += logged if turn.call.upper() == COMMIT else 0
        elif turn.is_done() and table_of(turn.call) == self.table:
            if turn.actor in self.open:
                self.open[turn.actor] += turn.count()
            else:
                self.unread += turn.count()

    def applier(self, turn):
        """A batch is passed at its COMMIT; one with nothing to apply once it is read."""
        if turn.call == READ and turn.is_done():
            self.batch = min(self.most, self.unread)
        elif turn.call == BEGIN:
            self.is_applying = turn.is_done()
        if turn.number in self.passing or turn.call == COMMIT and turn.answer == "ok 0":
            self.unread, self.passed = self.unread - self.batch, self.passed + self.batch
            self.batch, self.is_applying = 0, False
        elif turn.is_loss() and (turn.asked != "cut" or self.is_applying) or turn.is_timeout():
            self.batch, self.is_applying = 0, False


def curves(trace):
    """Rows copied, events behind and clients that wait, after each turn."""
    copied, behind, waiting = Curve("rows copied"), Curve("events behind"), Curve("clients that wait")
    events, asleep, rows = Events(trace), set(), 0
    for turn in trace.turns:
        rows += turn.call == COPY and turn.answer.startswith("ok ")
        events.took(turn)
        if turn.is_client():
            (asleep.add if turn.is_wait() else asleep.discard)(turn.actor)
        copied.add(turn, rows)
        behind.add(turn, max(0, events.unread))
        waiting.add(turn, len(asleep))
    return [copied, behind, waiting]


def changes_applied(trace):
    return sum(turn.call == CHANGE and turn.answer.startswith("ok ") for turn in trace.turns)
