"""The numbers that a server gives out: asked of it behind each statement that may draw one."""
from collections import Counter

from counters import auto_column, draws
from wire import Refused
from words import words

# Refusals that come before a statement can draw, in the program as well.
DRAWS_NOTHING = (1054, 1100, 1110, 1136, 1146)
# Those behind which the server has drawn too.
HAS_DRAWN = (1062, 1205)
# By which a server refuses where it has no number left: out of range of the engine's, and failed to read the next one.
NO_NUMBER_LEFT = (167, 1467)
# The table isn't among those that its session locked.
NOT_LOCKED = 1100


def is_write(line):
    return line.lstrip()[:7].upper() in ("INSERT ", "REPLACE")


def forget(session, line):
    """So that LAST_INSERT_ID() is of this statement, or 0."""
    if is_write(line):
        session.need("DO LAST_INSERT_ID(0)")


def drawn(session, line, answer):
    """The number that a statement got, 0 where it got none. A refused one doesn't tell."""
    if not is_write(line) or isinstance(answer, Refused):
        return 0
    return session.need("SELECT LAST_INSERT_ID()").rows[0][0]


def has_moved(plan, difference):
    """Whether an UPDATE that was refused would set the column that gives out numbers to one between the two that were given out."""
    if not difference.is_other_number() or not plan.second:
        return False
    ours, theirs = (int(it.rpartition(" ")[2]) for it in (difference.ours, difference.theirs))
    return any(ours <= number < theirs for line in difference.refused for number in set_numbers(line, "u", plan.second))


def set_numbers(line, table, create):
    """The numbers to which an UPDATE of a table sets the column that gives them out."""
    listed, (auto, _) = words(line), auto_column(create)
    if len(listed) < 6 or not listed[0].is_word("UPDATE") or listed[1].name() != table:
        return []
    end = next((at for at, it in enumerate(listed) if it.is_word("WHERE")), len(listed))
    values = [listed[at + 2].text.strip("'\"") for at in range(3, end - 2) if listed[at].name() == auto and listed[at + 1].text == "="]
    return [int(it) for it in values if it.lstrip("+-").isdigit()]


class Spare:
    """Takes a table's number away where the model draws one and the server doesn't: for a statement that the server refuses before.
    `creates` has the tables that give out numbers, by name. Where the table's name can't be had, its number is owed. `past_range` has the
    tables that had none left."""

    def __init__(self, server, database, creates):
        self.creates, self.owed, self.past_range = creates, Counter(), set()
        self.session = server.session()
        self.session.need(f"USE {database}")
        # What doesn't fit is cut, and no lock is waited for: the number is drawn before.
        self.session.need("SET sql_mode = '', innodb_lock_wait_timeout = 0, lock_wait_timeout = 0")

    def table_of(self, line):
        """The table whose next number a statement asks for; none where it asks for none."""
        return next((name for name, create in self.creates.items() if draws(line, name.lower(), create)), None)

    def see(self, line, answer):
        """Whether the model draws a number there and the server doesn't."""
        table = self.table_of(line)
        if table is None or not isinstance(answer, Refused) or answer.number in (*DRAWS_NOTHING, *HAS_DRAWN):
            return False
        self.past_range |= {table} if answer.number in NO_NUMBER_LEFT else set()
        self.owed[table] += 1
        self.take()
        return True

    def take(self, locker=None):
        """Takes the numbers that are owed, by a session that has locked the table where there is one."""
        for table, number in self.owed.items():
            while number and (self.take_locked(table, locker) if locker else self.take_free(table)):
                number -= 1
            self.owed[table] = number

    def take_free(self, table):
        """Whether the table's name could be had. A write of no row asks for it, and for nothing else."""
        self.session.need("BEGIN")
        is_had = not isinstance(self.session.ask(f"SELECT 1 FROM {table} WHERE FALSE FOR UPDATE"), Refused)
        if is_had:
            self.session.ask(f"INSERT INTO {table} () VALUES ()")
        self.session.need("ROLLBACK")
        return is_had

    @staticmethod
    def take_locked(table, locker):
        """Under LOCK TABLES a BEGIN would unlock them."""
        locker.need("SET @mode = @@sql_mode, sql_mode = '', autocommit = 0")
        answer = locker.ask(f"INSERT INTO {table} () VALUES ()")
        locker.need("ROLLBACK")
        locker.need("SET sql_mode = @mode, autocommit = 1")
        return not isinstance(answer, Refused) or answer.number != NOT_LOCKED

    def close(self):
        self.session.close()
