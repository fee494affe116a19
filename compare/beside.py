"""Clients of transactions beside each other: a server follows the turns of a report, as far as its locks are the model's."""
import time

from counters import draws
from numbers_given import Spare, drawn, forget
from printing import answer_of
from wire import Refused

# Statements by which a server tells that a session waits, and for a lock of which mode and on which row.
WAITS = "SELECT 1 FROM information_schema.PROCESSLIST WHERE ID = {0} AND STATE LIKE 'Waiting for%' UNION SELECT 1 FROM information_schema.INNODB_TRX WHERE trx_mysql_thread_id = {0} AND trx_state = 'LOCK WAIT'"
LOCK = "SELECT l.lock_mode, l.lock_data FROM information_schema.INNODB_TRX t JOIN information_schema.INNODB_LOCKS l ON l.lock_id = t.trx_requested_lock_id WHERE t.trx_mysql_thread_id = {0}"

# The server tells anew which transactions wait where nobody has asked for a tenth of a second: so looks are as far apart, and
# what the first says may be old.
APART = 0.12


class LocksDiffer(Exception):
    """The server waits, or goes on, by a rule that the model doesn't have: after this turn the two have other orders."""


class Client:
    def __init__(self, server, script, draws):
        self.draws = draws  # whether the plan has a table that gives out numbers
        self.session = server.session()
        self.session.need("USE plan")
        self.session.need("SET innodb_lock_wait_timeout = 1000, lock_wait_timeout = 1000")
        self.script, self.place, self.replies = script, 0, []  # replies with their lines, and whether a number was drawn early by then
        self.waiting, self.polls, self.inside = False, 0, False
        self.seen_at = None  # of the statement that waits: how many releases of locks had come when it was last seen to wait

    def line(self):
        return self.script[self.place]

    def said(self):
        """A SELECT outside a transaction takes its locks as one inside does."""
        line = self.line().rstrip("; ")
        is_single = not self.inside and line.upper().startswith("SELECT")
        return f"{line} LOCK IN SHARE MODE" if is_single else line

    def take_answer(self, is_early):
        self.answer = self.session.answer()
        reply = answer_of(self.answer, drawn(self.session, self.line(), self.answer) if self.draws else 0)
        word = self.line().split()[0].upper().rstrip(";")
        self.inside = word in ("BEGIN", "START") or self.inside and word not in ("COMMIT", "ROLLBACK")
        self.replies.append((reply, self.line(), is_early))
        self.place, self.waiting = self.place + 1, False
        return not self.inside

    def time_out(self, monitor, is_early):
        """The whole transaction is rolled back, and the next one follows."""
        monitor.need(f"KILL QUERY {self.session.number}")
        self.session.answer()
        self.session.need("ROLLBACK")
        self.replies.append((("error", 1205), self.line(), is_early))
        self.place, self.waiting = self.place + 1, False
        while self.inside:
            word = self.line().split()[0].upper().rstrip(";")
            self.inside, self.place = word not in ("COMMIT", "ROLLBACK"), self.place + 1


class Beside:
    def __init__(self, server, plan):
        self.monitor, self.limit = server.session(), plan.client_wait
        self.clients = [Client(server, script, plan.second is not None) for script in plan.clients]
        self.releases = 0  # how often locks were given free
        self.sequence = []  # the clients by their replies
        self.second, self.spare = plan.second, Spare(server, "plan", {"u": plan.second}) if plan.spares else None
        self.is_early = False  # whether a statement that draws has waited: the server drew before, and the model draws at its answer

    def waits(self, client):
        """Whether its statement waits for a lock; else it is answered. What waits goes on only once a lock is given free."""
        if client.seen_at == self.releases:
            return not client.session.is_answered(0)
        seen, looks = 0, 0
        while not client.session.is_answered(APART if looks else 0.01):
            looks += 1
            seen = seen + 1 if self.monitor.need(WAITS.format(client.session.number)).rows else 0
            if seen == 2:
                client.seen_at = self.releases
                return True
        return False

    def lock_of(self, client):
        locks = self.monitor.ask(LOCK.format(client.session.number))
        for mode, row in [] if isinstance(locks, Refused) else locks.rows:
            return "a gap" if "GAP" in mode or "supremum" in (row or "") else "a row that it doesn't lock in the model"
        return "a name"

    def turn(self, client, waits):
        """`waits` says whether the session waits in the model, at the turn's end."""
        is_poll = client.waiting
        if not is_poll:
            if self.second:
                forget(client.session, client.line())
            client.session.begin(client.said())
            client.polls, client.seen_at = 0, None
        if not self.waits(client):
            if waits:
                raise LocksDiffer("the server answers where the model waits")
            line = client.line()
            self.releases += client.take_answer(self.is_early)
            if self.spare:
                self.spare.see(line, client.answer)
            return
        self.is_early = self.is_early or self.second is not None and draws(client.line(), "u", self.second)
        client.waiting, client.polls = True, client.polls + is_poll
        if client.polls == self.limit:
            client.time_out(self.monitor, self.is_early)
            self.releases += 1
        elif not waits:
            raise LocksDiffer(f"the server waits where the model doesn't, for {self.lock_of(client)}")

    def follow(self, turns):
        """The replies of each client, whose reply came when, up to the turn after which the locks differ, and why they do. A turn is
        a client, and whether it waits in the model."""
        why = None
        try:
            for at, (number, waits) in enumerate(turns):
                self.turn(self.clients[number], waits)
                self.sequence += [] if self.clients[number].waiting else [number]
                for waiter in [it for it in self.clients if it.waiting]:
                    is_next = [it for it, _ in turns[at + 1 : at + 2]] == [self.clients.index(waiter)]
                    if not is_next and not self.waits(waiter):
                        raise LocksDiffer("a lock is taken before its poll")
        except LocksDiffer as differ:
            why = str(differ)
        return [client.replies for client in self.clients], self.sequence, why

    def close(self):
        for client in self.clients:
            self.monitor.ask(f"KILL {client.session.number}")
            client.session.close()
        time.sleep(0.05)
        if self.spare:
            self.spare.close()
        self.monitor.close()
