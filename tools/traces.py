"""A printed run, as the program's command `trace` prints it: the plan, a line for each turn, the verdict, the tables."""
import re
import tomllib

LINE = re.compile(r"(\d+) (op|insp|copy|apply|lock|ren|c\d+) (call|rename|poll|cut|word)(-before|-after)? (.+)")
NAMES = {"op": "operator", "insp": "inspector", "copy": "copier", "apply": "applier", "lock": "locker", "ren": "renamer"}


class NotATrace(Exception):
    """Why a text isn't a printed run."""


class Turn:
    """One line: who asked what, and what was answered. What the call was and whom it waits for, `calls.py` finds out."""

    __slots__ = ("number", "actor", "asked", "side", "answer", "call", "blocker")

    def __init__(self, number, actor, asked, side, answer):
        self.number, self.actor, self.asked, self.side, self.answer = number, actor, asked, side, answer
        self.call, self.blocker = None, None

    def is_client(self):
        return self.actor[0] == "c" and self.actor != "copy"

    def is_wait(self):
        return self.answer.startswith("waits ")

    def is_loss(self):
        """Whether its session was lost in it, or between two calls."""
        return self.answer.startswith("lost")

    def is_timeout(self):
        return self.answer.startswith("timeout ")

    def is_done(self):
        """Whether the server did what was asked, also where the answer was lost."""
        return self.answer.startswith(("ok ", "rows ", "lost done")) or self.answer == "other"

    def count(self):
        """How many rows were changed or met."""
        word, _, number = self.answer.partition(" ")
        return int(number.split()[0]) if word in ("ok", "rows") else 0

    def error(self):
        """MySQL's number, or none."""
        if self.is_timeout() and self.is_client():
            return 1205
        return int(self.answer.split()[1]) if self.answer.startswith("error ") else None


class Trace:
    """A plan, its turns, its verdict as it is printed, and the tables that were left."""

    def __init__(self, plan, turns, verdict, tables):
        self.plan, self.turns, self.verdict, self.tables = plan, turns, verdict, tables

    def option(self, name, otherwise):
        return self.plan.get("options", {}).get(name, otherwise)

    def run_length(self):
        """How many turns are the run's: those behind them are of a new tool."""
        return min(len(self.turns), self.option("turn_limit", 200_000)) if self.option("resume", False) else len(self.turns)

    def is_behind(self, turn):
        """Whether the turn is of a new tool, or the loss of a session before its first."""
        return turn.number > self.run_length()

    def table(self):
        return self.plan["table"]

    def clients(self):
        return [f"c{number}" for number in range(1, len(self.plan.get("clients", [])) + 1)]

    def actors(self):
        """Those that took a turn, in the program's order."""
        there = {turn.actor for turn in self.turns}
        return [actor for actor in (*NAMES, *self.clients()) if actor in there]

    def last_cause(self):
        """The turn at which a reverted run's cause stands, or none."""
        if not self.verdict.startswith("reverted "):
            return None
        words = self.verdict.split()
        if words[1] == "spent":
            return int(words[-1])
        return int(words[words.index("turn") + 1])


def name_of(actor):
    return NAMES.get(actor, actor)


def read_plan(text):
    try:
        plan = tomllib.loads(text)
    except tomllib.TOMLDecodeError as error:
        raise NotATrace(f"before #journal stands no plan: {error}") from None
    if not isinstance(plan.get("table"), str) or not isinstance(plan.get("alter"), str):
        raise NotATrace("before #journal stands no plan: it has no table or no alter")
    return plan


def read_trace(text):
    """The printed run in a text."""
    plan, found, rest = text.rpartition("\n#journal\n")
    if not found:
        raise NotATrace("there is no line #journal: is this what `./ghost trace` printed?")
    lines, turns, at = rest.split("\n"), [], 0
    while at < len(lines):
        read = LINE.fullmatch(lines[at])
        if read is None:
            break
        number, actor, asked, side, answer = read.groups()
        if int(number) != len(turns) + 1:
            raise NotATrace(f"line {at + 1} after #journal: turn {number} comes after turn {len(turns)}")
        turns.append(Turn(int(number), actor, asked, side or "", answer))
        at += 1 + (turns[-1].count() if answer.startswith("rows ") else 0)
    if at >= len(lines) or not lines[at].startswith(("done", "reverted ", "unfinished")):
        raise NotATrace(f"line {at + 1} after #journal is neither a turn nor a verdict")
    return Trace(read_plan(plan), turns, lines[at], lines[at + 1 :])
