"""Which call each turn of a printed run was. A trace has who asked and what was answered; what was asked follows from the order
in which the tool's actors go through their work (docs/FORMATS.md, "The turns"), and from the clients' scripts."""
import re

from sql import closing, split, words_of

LIST, HINT, WHO = "list the tables", "write the hint", "who waits?"
HEARTBEAT, CHECKPOINT, REACHED = "write heartbeat", "write the checkpoint", "read the checkpoint"
NUMBER = "which number comes next?"
LOG_END, RANGE = "where does the log end?", "least and greatest key"
END, SPAN, COPY = "where does the chunk end?", "lock the chunk's rows", "copy a row"
READ, CHANGE = "read the log", "apply a change"
BEGIN, COMMIT, ROLLBACK, UNLOCK = "BEGIN", "COMMIT", "ROLLBACK", "UNLOCK"
# The stages of an attempt in which the sentry isn't dropped yet: a revert ends it there.
STOPPABLE = ("locking", "hinting", "reading", "setting", "draining", "showing", "dropping")


# What comes after each of the inspector's stages in an attempt.
FOLLOWING = {"hinting": "reading", "reading": "setting", "setting": "draining", "showing": "dropping"}


def lines_of(script):
    """A script's statements: what the program reads of it, without comments and the last `;`."""
    lines = (line.strip() for line in script.split("\n"))
    return [line.removesuffix(";").rstrip() for line in lines if line and not re.match(r"#|--(\s|$)", line)]


def is_begin(line):
    return re.fullmatch(r"(?i)begin|start\s+transaction", line) is not None


def is_end(line):
    return re.fullmatch(r"(?i)commit|rollback", line) is not None


def is_note(call):
    """Whether the inspector writes a row of a note."""
    return call == CHECKPOINT or call.startswith(HEARTBEAT)


class Client:
    """A client on its way through its script."""

    def __init__(self, script):
        self.lines, self.at, self.is_inside = lines_of(script), 0, False

    def call(self, turn):
        return self.lines[self.at] if self.at < len(self.lines) else "?"

    def took(self, turn):
        if turn.is_wait() or turn.is_loss() or self.at >= len(self.lines):
            return
        line = self.lines[self.at]
        self.at += 1
        if turn.is_timeout() and (self.is_inside or is_begin(line)):
            self.skip(line)
        elif is_begin(line) or is_end(line):
            self.is_inside = is_begin(line)

    def skip(self, line):
        """The whole transaction was rolled back: the next line is the one after its end."""
        while not is_end(line) and self.at < len(self.lines):
            line = self.lines[self.at]
            self.at += 1
        self.is_inside = False


def gives_numbers(create, table):
    """Whether that is this table's CREATE TABLE, and a column of it has AUTO_INCREMENT."""
    words = words_of(create)
    if len(words) < 5 or words[2].name() != table or not words[3].is_sign("("):
        return False
    return any(word.is_word("AUTO_INCREMENT") for item in split(words[4 : closing(words, 3)]) for word in item[1:])


class Tables:
    """Which of the tool's own tables exist."""

    def __init__(self, plan):
        table = plan["table"]
        self.table, self.log, self.new, self.old = table, f"_{table}_ghc", f"_{table}_gho", f"_{table}_del"
        creates = " ".join(item.get("create", "") for item in plan.get("tables", []))
        self.is_counting = any(gives_numbers(item.get("create", ""), table) for item in plan.get("tables", []))
        self.there = {name for name in (self.log, self.new, self.old) if re.search(rf"(?i)table\s+`?{re.escape(name)}\b", creates)}

    def listed(self, *names):
        return [name for name in names if name in self.there]

    def setting(self):
        return f"set the counter of {self.new}"

    def rename(self):
        return f"RENAME {self.table} to {self.old}, {self.new} to {self.table}"


class Inspector:
    """It sets up, writes notes while no attempt at the cut-over stands, and looks after each attempt. A checkpoint whose key is so
    long that it has no row is left out, which a trace doesn't show: then the notes after it are named wrongly."""

    def __init__(self, tables, cutover, drops_old):
        self.tables, self.cutover, self.drops_old = tables, cutover, drops_old
        self.setup, self.rest, self.pending = "listing", [], None
        self.begun, self.is_checking = 0, False

    def call(self, turn):
        if self.setup != "over":
            return self.setup_call()
        if self.cutover.phase == "resting":
            return self.note_call()
        calls = {"hinting": HINT, "showing": WHO}
        if self.cutover.holds:
            # (an attempt that has ended keeps the inspector waiting until the tables are unlocked)
            calls |= {"reading": NUMBER, "setting": self.tables.setting()}
        return calls.get(self.cutover.phase) or self.clearing_call(turn)

    def setup_call(self):
        if self.setup == "listing":
            return LIST
        if self.setup == "dropping":
            return f"DROP {self.rest[0]}"
        making = {"log": f"CREATE {self.tables.log}", "new": f"CREATE {self.tables.new}"}
        return making.get(self.setup) or {"end": LOG_END, "range": RANGE}[self.setup]

    def note_call(self):
        return CHECKPOINT if self.is_checking else f"{HEARTBEAT} {self.begun + 1}"

    def clearing_call(self, turn):
        if self.cutover.phase in STOPPABLE:
            self.cutover.fail()
        return f"DROP {self.pending[0]}" if self.pending else LIST

    def took(self, turn):
        if self.setup != "over":
            self.setup_took(turn)
        elif self.cutover.phase == "resting":
            self.note_took(turn)
        elif self.cutover.phase in FOLLOWING:
            if turn.is_loss() or turn.is_timeout():
                self.cutover.fail()
            elif not turn.is_wait():
                following = FOLLOWING[self.cutover.phase]
                self.cutover.phase = "draining" if following == "reading" and not self.tables.is_counting else following
        elif turn.call != self.tables.setting():
            # (the counter may be set after the attempt has ended, and nothing follows from it)
            self.clearing_took(turn)

    def setup_took(self, turn):
        if turn.is_done():
            self.setup_done()
        if turn.is_loss() or turn.is_timeout():
            self.setup = "listing"

    def setup_done(self):
        there = self.tables.there
        if self.setup == "listing":
            self.rest = self.tables.listed(self.tables.log, self.tables.new, self.tables.old)
        elif self.setup == "dropping":
            there.discard(self.rest.pop(0))
        elif self.setup in ("log", "new"):
            there.add(self.tables.log if self.setup == "log" else self.tables.new)
        following = {"log": "new", "new": "end", "end": "range", "range": "over"}
        self.setup = following.get(self.setup) or ("dropping" if self.rest else "log")

    def note_took(self, turn):
        """A note whose row is lost begins again with its heartbeat."""
        if turn.is_loss():
            self.begun -= self.is_checking
            self.is_checking = False
        elif turn.is_done():
            self.begun += not self.is_checking
            self.is_checking = not self.is_checking

    def clearing_took(self, turn):
        if turn.is_done():
            if self.pending:
                self.tables.there.discard(self.pending.pop(0))
                self.cutover.cleared(self.pending)
            else:
                self.listed()
        if turn.is_loss() or turn.is_timeout():
            self.pending = None
            if self.cutover.phase != "finishing":
                self.cutover.phase = "ending"

    def listed(self):
        names = self.tables
        if names.new not in names.there:
            self.cutover.phase = "finishing"
            self.pending = names.listed(names.log, *([names.old] if self.drops_old else []))
        else:
            self.pending = names.listed(names.old)
        self.cutover.cleared(self.pending)


class CutOver:
    """The attempts: locker and renamer, and the stage in which the attempt is."""

    def __init__(self, tables):
        self.tables, self.phase, self.holds, self.attempts = tables, "resting", False, []

    def fail(self):
        if self.phase != "finishing":
            self.phase = "ending"

    def cleared(self, pending):
        if not pending and self.phase == "ending":
            self.phase = "resting"

    def lock_call(self, turn):
        calls = {"resting": f"create the sentry {self.tables.old}", "locking": f"LOCK TABLES {self.tables.table}, {self.tables.old}"}
        calls["dropping"] = f"drop the sentry {self.tables.old}"
        if self.phase in calls:
            return calls[self.phase]
        if self.phase in STOPPABLE:
            self.fail()
        return UNLOCK

    def lock_took(self, turn, call):
        if call.startswith("create"):
            self.attempts.append(turn.number)
            if turn.is_done():
                self.tables.there.add(self.tables.old)
        if call.startswith("drop") and turn.is_done():
            self.tables.there.discard(self.tables.old)
        if turn.is_loss() or turn.is_timeout():
            self.holds = False
            self.fail()
        elif turn.answer.startswith("ok "):
            following = {"resting": "locking", "locking": "hinting", "dropping": "unlocking", "unlocking": "exchanging"}
            self.holds = call.startswith(("LOCK", "drop"))
            self.phase = following.get(self.phase, self.phase)
        elif self.phase == "resting" and not turn.is_wait():
            self.fail()

    def ren_took(self, turn):
        if turn.is_done():
            self.tables.there.discard(self.tables.new)
            self.tables.there.add(self.tables.old)
        if turn.answer.startswith("ok "):
            self.phase = "finishing"
        elif turn.is_loss() or turn.is_timeout():
            self.fail()
        elif turn.is_wait() and self.phase in ("hinting", "draining"):
            self.phase = "showing"


class Worker:
    """The copier or the applier. What an `ok` answers is known by what it asks next: after a COMMIT it begins anew."""

    def __init__(self, first, second, work):
        self.first, self.second, self.work = first, second, work
        self.step, self.is_open = "first", False

    def call(self, turn, following, is_reverting):
        """The name of a call, where `following` is the next call of the same actor, or none."""
        if is_reverting and self.is_open:
            return ROLLBACK
        if self.step == "first" or self.step == "second" and self.second == BEGIN and turn.answer == "other":
            # (nothing to apply was read)
            return self.first
        if self.step == "second":
            return self.second
        if turn.is_loss() or turn.answer == "ok 0" and following is not None and following.is_loss():
            # (what is asked after a loss is the same in both cases)
            return f"{self.work}, or COMMIT"
        return COMMIT if turn.answer == "ok 0" and (following is None or following.answer == "other") else self.work

    def took(self, turn, call):
        if turn.is_loss() or turn.is_timeout():
            self.step, self.is_open = "first", False
        elif turn.is_wait() or turn.error() is not None:
            pass
        elif call == self.first:
            self.step = "second"
        elif call == self.second:
            self.step, self.is_open = "work", True
        elif call in (COMMIT, ROLLBACK):
            self.step, self.is_open = "first", False


class NewTool:
    """Who finishes a run whose whole tool was lost: its inspector. Copier and applier work as those of the run, and the renamer asks
    once."""

    def __init__(self, tables, drops_old):
        self.tables, self.calls = tables, [LIST, REACHED]
        self.ends = [f"DROP {name}" for name in (tables.log, *([tables.old] if drops_old else []))]

    def call(self, turn):
        if not self.calls:
            self.calls = self.rest(turn)
        return self.calls[0]

    def took(self):
        self.calls.pop(0)

    def rest(self, turn):
        """What comes behind the checkpoint. That a sentry stands is known by the answer to the first of these calls."""
        if self.tables.new not in self.tables.there:
            return list(self.ends)
        sentry = [f"DROP {self.tables.old}"] if turn.answer.startswith("ok ") else []
        return [*sentry, *([NUMBER, self.tables.setting()] if self.tables.is_counting else []), RANGE, *self.ends]


def new_workers():
    return {"copy": Worker(END, SPAN, COPY), "apply": Worker(READ, BEGIN, CHANGE)}


class Naming:
    """A trace, turn by turn."""

    def __init__(self, trace):
        self.trace, self.tables = trace, Tables(trace.plan)
        self.cutover = CutOver(self.tables)
        self.drops_old = trace.option("ok_to_drop_table", False)
        self.inspector = Inspector(self.tables, self.cutover, self.drops_old)
        self.workers, self.new_tool = new_workers(), None
        self.clients = dict(zip(trace.clients(), map(Client, trace.plan.get("clients", []))))
        self.commands = commands_in(trace.plan.get("operator", ""))
        self.waiting, self.sessions, self.live, self.made = {}, {}, {}, 0
        self.following = next_calls(trace)
        self.is_resumed = trace.run_length() < len(trace.turns)
        self.cause = None if self.is_resumed else trace.last_cause()

    def name(self):
        for turn in self.trace.turns:
            if self.trace.is_behind(turn) and self.new_tool is None:
                self.new_tool = NewTool(self.tables, self.drops_old)
                self.workers, self.cause = new_workers(), self.trace.last_cause()
            if turn.asked != "word" and turn.actor not in self.live:
                self.open(turn)
            turn.call = self.call(turn)
            if turn.is_wait():
                self.waiting[turn.actor] = turn.call
                turn.blocker = self.sessions.get(int(turn.answer.split()[1]))
            self.took(turn)
            if self.is_resumed and self.new_tool is None and self.cause is None and self.begins_revert(turn):
                self.cause = turn.number
        return self.trace

    def begins_revert(self, turn):
        """Whether the run is reverted from this turn on, by panic or by a row that doesn't fit: a new tool's verdict doesn't say so. Nor
        does a trace say how often a task failed: of a run that was reverted for that the calls behind it are named wrongly."""
        return turn.call == "panic" and turn.asked == "word" or turn.actor in self.workers and turn.error() is not None

    def open(self, turn):
        self.made += 1
        self.live[turn.actor], self.sessions[self.made] = self.made, turn.actor

    def is_reverting(self, turn):
        return self.cause is not None and turn.number > self.cause

    def call(self, turn):
        if turn.asked == "cut":
            return "the session is lost"
        if turn.asked == "word":
            return self.commands.pop(0) if self.commands else "?"
        if turn.asked == "poll":
            return self.waiting.get(turn.actor, "?")
        if self.is_reverting(turn) and self.cutover.phase in STOPPABLE:
            self.cutover.fail()
        if turn.actor in self.workers:
            return self.workers[turn.actor].call(turn, self.following[turn.number - 1], self.is_reverting(turn))
        if turn.actor == "ren":
            return self.tables.rename()
        if self.new_tool is not None:
            return self.new_tool.call(turn)
        return {"insp": self.inspector.call, "lock": self.cutover.lock_call}.get(turn.actor, self.client_call)(turn)

    def client_call(self, turn):
        return self.clients[turn.actor].call(turn) if turn.actor in self.clients else "?"

    def took(self, turn):
        actor = turn.actor
        if self.new_tool is not None and actor == "insp":
            if turn.asked != "cut":
                self.new_tool.took()
        elif actor in self.workers and (turn.asked != "cut" or self.workers[actor].is_open or actor in self.waiting):
            self.workers[actor].took(turn, turn.call)
        elif actor in self.clients:
            self.clients[actor].took(turn)
        elif turn.asked == "cut":
            self.cut(actor)
        elif actor == "insp":
            self.inspector.took(turn)
        elif actor == "lock":
            self.cutover.lock_took(turn, turn.call)
        elif actor == "ren":
            self.cutover.ren_took(turn)
        if turn.is_loss():
            self.live.pop(actor, None)
        if not turn.is_wait():
            self.waiting.pop(actor, None)

    def cut(self, actor):
        """A loss between two calls: where a session of locker or renamer held the lock or waited, the attempt goes with it."""
        if actor == "lock" and (self.cutover.holds or actor in self.waiting) or actor == "ren" and actor in self.waiting:
            self.cutover.fail()
        if actor == "lock":
            self.cutover.holds = False


def next_calls(trace):
    """For each turn the next call of the same actor, or none: a new tool's calls follow on none of the run's."""
    following, last = [None] * len(trace.turns), {}
    for turn in reversed(trace.turns):
        if turn.number == trace.run_length():
            last = {}
        following[turn.number - 1] = last.get(turn.actor)
        if turn.asked in ("call", "rename"):
            last[turn.actor] = turn
    return following


def commands_in(text):
    """The operator's commands, turn by turn."""
    commands = []
    for line in filter(None, (line.strip() for line in text.split("\n"))):
        word, _, number = line.partition(" ")
        commands += ["wait"] * int(number) if word == "wait" and number.strip().isdigit() else [line]
    return commands


def named(trace):
    """The trace, with the call of each turn, and with who blocks each that waits."""
    return Naming(trace).name()
