"""How long a server takes to wake a session up. On a busy machine one that has been given its lock is still shown waiting for a while:
it has to run first."""
import time

OS_THREAD = "SELECT THREAD_OS_ID FROM performance_schema.threads WHERE PROCESSLIST_ID = {0}"
STATE = "SELECT 1 FROM information_schema.PROCESSLIST WHERE ID = {0} AND STATE = 'User lock'"
# How many sessions are woken up, one after the other, before one that was given its lock before them is taken to have run.
COUNT = 2


class Wakeups:
    """Two sessions that wait for each other. `slowest` is the longest time that one took, in seconds."""

    def __init__(self, server, monitor, patience):
        self.holder, self.waiter = server.session(), server.session()
        self.monitor, self.patience, self.slowest = monitor, patience, 0.0
        self.process, self.os_threads = server.process.pid, {}

    def is_asleep(self, number):
        """Whether a session's thread sleeps. One that was given its lock is to run, though it is shown waiting until it does; where the
        system doesn't tell, True."""
        if number not in self.os_threads:
            rows = self.monitor.need(OS_THREAD.format(number)).rows
            self.os_threads[number] = rows[0][0] if rows else None
        try:
            with open(f"/proc/{self.process}/task/{self.os_threads[number]}/stat", encoding="ascii") as file:
                return file.read().rpartition(")")[2].split()[0] == "S"
        except OSError:
            return True

    def pass_by(self):
        """Wakes sessions up: whoever was given a lock before has had its time when this returns."""
        for _ in range(COUNT):
            self.holder.need("SELECT GET_LOCK('compare-wakeup', 0)")
            self.waiter.begin(f"SELECT GET_LOCK('compare-wakeup', {self.patience})")
            while not self.monitor.need(STATE.format(self.waiter.number)).rows:
                time.sleep(0.0005)
            began = time.monotonic()
            self.holder.need("SELECT RELEASE_LOCK('compare-wakeup')")
            self.waiter.answer()
            self.slowest = max(self.slowest, time.monotonic() - began)
            self.waiter.need("SELECT RELEASE_LOCK('compare-wakeup')")

    def patient(self, seconds):
        """So many seconds, and more where the server is slow."""
        return max(seconds, 100 * self.slowest)

    def close(self):
        self.holder.close()
        self.waiter.close()
