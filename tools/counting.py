"""The numbers of a run: what `tools/stats` prints."""
import collections

from calls import COPY
from facts import TABLE_LOCK, attempts, begun_again, changes_applied, curves, mark, setups_begun_again, spans, waits
from traces import name_of

# A statement that the server doesn't run: the load that was meant wasn't there.
NOT_RUN = 1235
MOST_STATEMENTS = 5


class Actor:
    """What one actor took, and how it waited."""

    def __init__(self, actor, trace, waits):
        self.actor = actor
        mine = [turn for turn in trace.turns if turn.actor == actor]
        self.turns = len(mine)
        self.waits = [wait for wait in waits if wait.actor == actor]
        self.polls = sum(wait.polls for wait in self.waits)
        self.longest = max(self.waits, key=lambda wait: wait.length(), default=None)
        self.lost = sum(turn.is_loss() for turn in mine)
        self.timeouts = sum(turn.is_timeout() for turn in mine)

    def row(self):
        longest = self.longest.length() if self.longest else 0
        return [name_of(self.actor), self.turns, len(self.waits), self.polls, longest, self.timeouts, self.lost, self.behind()]

    def behind(self):
        """The longest wait in words: behind whom it was most of the time, and with which call."""
        if self.longest is None:
            return ""
        blocker = self.longest.blockers.most_common(1)[0][0]
        whom = name_of(blocker) if blocker else "a session that is over"
        return f"behind {whom} from turn {self.longest.first}: {self.longest.call[:60]}"


class Numbers:
    """All that is counted of a trace."""

    def __init__(self, trace):
        self.trace, self.waits = trace, waits(trace)
        self.actors = [Actor(actor, trace, self.waits) for actor in trace.actors()]
        self.attempts = attempts(trace)
        self.locks = [span for span in spans(trace) if span.kind == TABLE_LOCK]
        self.statements = sum(turn.is_client() and turn.asked != "cut" and not turn.is_wait() for turn in trace.turns)
        self.errors = collections.defaultdict(list)
        for turn in trace.turns:
            if turn.error() is not None:
                self.errors[turn.error()].append(turn)

    def sums(self):
        """One line each: a title and a number."""
        trace, (copied, behind, waiting) = self.trace, curves(self.trace)
        clients = [wait for wait in self.waits if wait.actor in trace.clients()]
        under_lock = sum(wait.blockers["lock"] + wait.blockers["ren"] for wait in clients)
        yield "turns", len(trace.turns)
        yield "turn of the ALTER", mark(trace) or "none"
        yield "attempts at the cut-over", len(self.attempts)
        yield "setups that were begun again", setups_begun_again(trace)
        yield "chunks that were begun again", begun_again(trace, "copy")
        yield "batches that were begun again", begun_again(trace, "apply")
        yield "turns under the table's lock", sum(span.last - span.first for span in self.locks)
        yield "clients' waits", len(clients)
        yield "clients' longest wait, in turns", max((wait.length() for wait in clients), default=0)
        yield "clients' turns that found the table locked", under_lock
        yield "most clients that waited at once", waiting.most
        yield "statements that were refused", sum(turn.is_client() and turn.error() is not None for turn in trace.turns)
        yield f"statements that weren't run ({NOT_RUN})", len(self.errors.get(NOT_RUN, []))
        yield "sessions that were lost", sum(turn.is_loss() for turn in trace.turns)
        yield "copies of rows", sum(turn.call == COPY and turn.answer.startswith("ok ") for turn in trace.turns)
        yield "changes applied", changes_applied(trace)
        yield "most events behind", behind.most

    def lines(self):
        yield self.trace.verdict
        yield from table([[title, value] for title, value in self.sums()])
        yield ""
        yield from table([["actor", "turns", "waits", "polls", "longest", "timed out", "lost", ""], *(actor.row() for actor in self.actors)])
        for span in self.locks:
            attempt = sum(begun <= span.first for begun in self.attempts)
            yield f"attempt {attempt}: the table was locked from turn {span.first} to turn {span.last}, {span.last - span.first} turns"
        yield from self.resumed()
        yield from self.refused()

    def resumed(self):
        """Where a new tool finished the run, when it came."""
        behind = [turn for turn in self.trace.turns if self.trace.is_behind(turn)]
        if behind:
            lost = sum(turn.is_loss() for turn in behind)
            yield f"after turn {behind[0].number - 1} the whole tool was lost, with {lost} sessions; a new one finished in {len(behind) - lost} turns"

    def refused(self):
        """The errors, those first whose statements weren't run."""
        for number in sorted(self.errors, key=lambda it: (it != NOT_RUN, -len(self.errors[it]), it)):
            turns = self.errors[number]
            meaning = ": these statements weren't run; the server takes no such condition" if number == NOT_RUN else ""
            yield f"error {number}, {len(turns)} of {self.statements} statements{meaning}"
            for turn in turns[:MOST_STATEMENTS]:
                yield f"  turn {turn.number}, {name_of(turn.actor)}: {turn.call}"
            if len(turns) > MOST_STATEMENTS:
                yield f"  and {len(turns) - MOST_STATEMENTS} more"


def table(rows):
    """Rows in columns: the first to the left, numbers to the right, the last as it is."""
    if not rows:
        return
    width = [max(len(str(row[place])) for row in rows) for place in range(len(rows[0]))]
    last = len(width) - 1
    for row in rows:
        cells = [str(cell).ljust(width[0]) if place == 0 else str(cell) if place == last and last > 2 else str(cell).rjust(width[place]) for place, cell in enumerate(row)]
        yield "  ".join(cells).rstrip()


def beside(one, other):
    """The sums of two runs, side by side."""
    yield from table([["", "this run", "the other"], *([title, value, there] for (title, value), (_, there) in zip(one.sums(), other.sums()))])
    yield f"this run: {one.trace.verdict}"
    yield f"the other: {other.trace.verdict}"
