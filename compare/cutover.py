"""The end of the cut-over beside a server, many times over: is a client's write lost between the sentry's DROP and UNLOCK?

A round is what gh-ost does: the sentry, LOCK TABLES of the table and the sentry, INSERTs of clients that wait, the RENAME that waits,
INSERTs behind it; then the sentry's DROP under the lock, and UNLOCK. The hint in the log has been passed long ago, so an INSERT that
is then done on the old table is applied by nobody: it is answered `ok`, and lost.
"""
import dataclasses
import time
from collections import Counter

from server import Server
from wire import Refused

SENTRY = "COMMENT='ghost-cut-over-sentry'"
# With this instrument a server tells which name a session waits for; its list of processes doesn't.
NAMES_SEEN = ("--performance-schema=ON", "--performance-schema-instrument=wait/lock/metadata/sql/mdl=ON")
WAITS = "SELECT 1 FROM information_schema.PROCESSLIST WHERE ID = {0} AND STATE LIKE 'Waiting for table metadata lock%'"
LIVES = "SELECT 1 FROM information_schema.PROCESSLIST WHERE ID = {0}"
LOCKS = "performance_schema.metadata_locks l JOIN performance_schema.threads t ON t.THREAD_ID = l.OWNER_THREAD_ID"
WAITS_FOR = "SELECT 1 FROM " + LOCKS + " WHERE t.PROCESSLIST_ID = {0} AND l.OBJECT_NAME = '{1}' AND l.LOCK_STATUS = 'PENDING'"
HELD = f"SELECT t.PROCESSLIST_ID, l.OBJECT_NAME, l.LOCK_TYPE, l.LOCK_STATUS FROM {LOCKS} WHERE l.OBJECT_SCHEMA = 'cutover' AND l.OBJECT_NAME IS NOT NULL ORDER BY 1, 2, 4"
CLIENTS = 6
PATIENCE = 20


@dataclasses.dataclass
class Way:
    """A way to end the cut-over. `mends` says that no write may be lost by it."""

    title: str
    is_lost: bool = False  # the locker's session is lost, in place of its UNLOCK
    looks: bool = False  # before UNLOCK the tool waits until the RENAME is seen to wait for the table
    is_behind: bool = False  # names of the ghost and the sentry that sort behind the table's
    keeps_sentry: bool = False
    mends: bool = False


WAYS = [
    Way("UNLOCK right after the sentry's DROP"),
    Way("the locker is lost right after the sentry's DROP", is_lost=True),
    Way("UNLOCK once the RENAME is seen to wait for the table", looks=True, mends=True),
    Way("names t_gho and t_del, UNLOCK right after DROP", is_behind=True, mends=True),
    Way("names t_gho and t_del, the locker is lost right after DROP", is_lost=True, is_behind=True, mends=True),
    Way("the locker is lost while the sentry stands", is_lost=True, keeps_sentry=True, mends=True),
]


def wait_until(is_so, what):
    end = time.monotonic() + PATIENCE
    while not is_so():
        if time.monotonic() > end:
            raise RuntimeError(f"the server didn't come to this within {PATIENCE} seconds: {what}")
        time.sleep(0.0005)


class Cutover:
    """The tables `t`, ghost and sentry, and the sessions of the locker, the renamer and the clients."""

    def __init__(self, server, monitor, is_behind=False):
        front = "" if is_behind else "_"
        self.ghost, self.sentry = f"{front}t_gho", f"{front}t_del"
        self.server, self.monitor = server, monitor
        monitor.need("DROP DATABASE IF EXISTS cutover")
        server.database(monitor, "cutover")
        for name, words in (("t", ""), (self.ghost, ""), (self.sentry, SENTRY)):
            monitor.need(f"CREATE TABLE {name} (id INT PRIMARY KEY) {words}")
        self.lock, self.ren = self.session(), self.session()
        self.clients = []

    def session(self):
        session = self.server.session()
        session.need("USE cutover")
        return session

    def seen(self, text, *what):
        return bool(self.monitor.need(text.format(*what)).rows)

    def begin(self, session, text):
        """Says a statement that has to wait, and sees that it does."""
        session.begin(text)
        wait_until(lambda: self.seen(WAITS, session.number), f"{text} waits")

    def insert(self, count):
        for number in range(len(self.clients), len(self.clients) + count):
            self.clients.append(self.session())
            self.begin(self.clients[-1], f"INSERT INTO t VALUES ({number})")

    def take_lock(self):
        self.lock.need(f"LOCK TABLES t WRITE, {self.sentry} WRITE")

    def rename(self):
        self.begin(self.ren, f"RENAME TABLE t TO {self.sentry}, {self.ghost} TO t")

    def drop(self):
        self.lock.need(f"DROP TABLE {self.sentry}")

    def waits_for_table(self):
        return self.seen(WAITS_FOR, self.ren.number, "t")

    def lose_locker(self):
        self.monitor.need(f"KILL CONNECTION {self.lock.number}")
        wait_until(lambda: not self.seen(LIVES, self.lock.number), "the locker's session is gone")

    def lost(self):
        """The rows of clients that were done, and stand in the old table."""
        return [int(row[0]) for row in self.monitor.need(f"SELECT id FROM {self.sentry}").rows]

    def close(self):
        for session in [self.lock, self.ren, *self.clients]:
            session.close()


def play(server, monitor, way, seen, planted=False):
    """One round."""
    cutover = Cutover(server, monitor, way.is_behind)
    cutover.take_lock()
    cutover.insert(CLIENTS // 2)
    cutover.rename()
    cutover.insert(CLIENTS - CLIENTS // 2)
    if not way.keeps_sentry:
        cutover.drop()
    while way.looks and not cutover.waits_for_table():
        seen["too early"] += 1
    if way.is_lost:
        cutover.lose_locker()
    else:
        cutover.lock.need("UNLOCK TABLES")
    answer = cutover.ren.answer()
    is_done = not isinstance(answer, Refused)
    seen["done" if is_done else answer.number] += 1
    done = sum(not isinstance(client.answer(), Refused) for client in cutover.clients)
    if done != CLIENTS:
        seen["other answers"] += 1
    if is_done and planted:
        monitor.need(f"INSERT INTO {cutover.sentry} VALUES (0)")
    lost = cutover.lost() if is_done else []
    seen["rounds"] += bool(lost)
    seen["writes"] += len(lost)
    cutover.close()


def tell_steps(server, monitor):
    """What each session holds and asks for, as the server tells it."""
    cutover = Cutover(server, monitor)

    def tell(step):
        time.sleep(0.1)
        print(f"{step}:")
        by = {cutover.lock.number: "lock", cutover.ren.number: "ren", **{it.number: f"c{at + 1}" for at, it in enumerate(cutover.clients)}}
        for number, name, kind, status in monitor.need(HELD).rows:
            if int(number) in by:
                print(f"    {by[int(number)]:5} {'holds' if status == 'GRANTED' else 'asks for':9} {name:8} {kind}")

    cutover.take_lock()
    cutover.insert(1)
    tell("LOCK TABLES; the INSERT of c1 waits")
    cutover.rename()
    tell("the RENAME waits")
    cutover.drop()
    wait_until(cutover.waits_for_table, "the RENAME waits for t")
    tell("the sentry is dropped under the lock, and the RENAME has woken up")
    cutover.lock.need("UNLOCK TABLES")
    for session in (cutover.ren, *cutover.clients):
        session.answer()
    tell("UNLOCK TABLES; the RENAME went first")
    cutover.close()


def run_rounds(ways, rounds, plants):
    """Each way's rounds, on a server that tells names where the way looks at them."""
    for way in ways:
        seen = Counter()
        with Server(*(NAMES_SEEN if way.looks else ())) as server:
            monitor = server.session()
            for number in range(rounds):
                play(server, monitor, way, seen, plants and way.mends and number == rounds - 1)
            monitor.close()
        yield way, seen


def compare_cutovers(rounds, plants):
    """The status: 0 where no way that mends the race lost a write; of a planted one, where it was found."""
    with Server(*NAMES_SEEN) as server:
        print(f"server: {server.version}")
        monitor = server.session()
        tell_steps(server, monitor)
        monitor.close()
    print(f"\n{rounds} rounds of each way, in which {CLIENTS} clients wait:")
    failed = False
    for way, seen in run_rounds(WAYS, rounds, plants):
        refused = ", ".join(f"{count} refused by {number}" for number, count in seen.items() if isinstance(number, int))
        early = f"; {seen['too early']} looks came too early" if way.looks else ""
        other = f"; in {seen['other answers']} an INSERT was refused" if seen["other answers"] else ""
        print(f"  {way.title}: RENAME {seen['done']} done{refused and ', ' + refused}; {seen['rounds']} rounds lost a write, {seen['writes']} writes{early}{other}", flush=True)
        failed |= way.mends and seen["rounds"] > 0
        failed |= way.keeps_sentry and seen["done"] > 0
    print("a way that mends the race LOST a write" if failed else "no way that mends the race lost a write")
    if plants:
        print(f"the planted lost write was {'found' if failed else 'NOT found'}")
        return 0 if failed else 1
    return 1 if failed else 0
