"""A MariaDB or MySQL server of the comparison's own: its data, its socket and its log lie in a folder of its own, it has no
network, and it is stopped by the number of its process."""
import os
import pwd
import shutil
import subprocess
import tempfile
import time

from wire import Session

FOLDERS = ("/usr/sbin", "/usr/local/sbin", "/usr/libexec", "/usr/local/mysql/bin", "/usr/local/mariadb/bin")
MISSING = "no MariaDB or MySQL server is installed here: apt-get install --no-install-recommends mariadb-server-core mariadb-client-core, or the system's package of mysql-server; it needn't run"
# Nothing of the comparison outlives it, so nothing needs to reach the disk.
COMMON = ["--skip-networking", "--skip-grant-tables", "--innodb-flush-log-at-trx-commit=0"]
COMMON += ["--innodb-buffer-pool-size=64M", "--skip-name-resolve", "--lower-case-table-names=0"]
# As in the model a time-out ends the whole transaction, and nobody looks for deadlocks.
COMMON += ["--innodb-rollback-on-timeout=ON", "--innodb-deadlock-detect=OFF"]
# Refuses what doesn't fit, as the model does.
STRICT = "STRICT_ALL_TABLES,NO_ENGINE_SUBSTITUTION,NO_ZERO_DATE,NO_ZERO_IN_DATE,ERROR_FOR_DIVISION_BY_ZERO"
SECONDS_TO_START = 120


class Missing(Exception):
    """No server is installed."""


def found(*names):
    path = os.pathsep.join([os.environ.get("PATH", ""), *FOLDERS])
    return next((it for it in (shutil.which(name, path=path) for name in names) if it), None)


def said(program, *words):
    ran = subprocess.run([program, *words], stdout=subprocess.PIPE, stderr=subprocess.STDOUT, check=False)
    return ran.stdout.decode(errors="replace")


class Server:
    """Starts at `with`, and is stopped and removed at its end. It keeps no binary log unless its options say so."""

    def __init__(self, *options):
        self.options = options if any(it.startswith("--log-bin") for it in options) else ("--skip-log-bin", *options)
        self.program = found("mariadbd", "mysqld")
        if self.program is None:
            raise Missing(MISSING)
        self.version = said(self.program, "--no-defaults", "--version").strip().split("\n")[-1]
        self.is_mariadb = "mariadb" in self.version.lower()
        self.folder, self.process = None, None

    def __enter__(self):
        self.folder = tempfile.mkdtemp(prefix="compare-", dir="/dev/shm" if os.access("/dev/shm", os.W_OK) else None)
        try:
            self.prepare()
            self.start()
        except BaseException:
            self.__exit__()
            raise
        return self

    def __exit__(self, *_):
        if self.process is not None and self.process.poll() is None:
            self.process.terminate()
            try:
                self.process.wait(timeout=60)
            except subprocess.TimeoutExpired:
                self.process.kill()
                self.process.wait()
        shutil.rmtree(self.folder, ignore_errors=True)

    def user(self):
        """The server refuses to run as root unless it is told to."""
        return [f"--user={pwd.getpwuid(os.getuid()).pw_name}"]

    def prepare(self):
        data = f"{self.folder}/data"
        if self.is_mariadb:
            install = found("mariadb-install-db", "mysql_install_db")
            if install is None or found("my_print_defaults") is None:
                raise Missing(MISSING)
            words = [install, "--no-defaults", f"--datadir={data}", "--skip-test-db", *self.user()]
            words += ["--auth-root-authentication-method=normal"]
        else:
            words = [self.program, "--no-defaults", "--initialize-insecure", f"--datadir={data}", *self.user()]
        with open(f"{self.folder}/install.log", "wb") as log:
            own = {**os.environ, "TMPDIR": self.folder}
            if subprocess.run(words, stdout=log, stderr=subprocess.STDOUT, env=own, check=False).returncode:
                raise RuntimeError(f"the server's folder could not be made:\n{self.tail('install.log')}")

    def start(self):
        words = [self.program, "--no-defaults", f"--datadir={self.folder}/data", f"--socket={self.folder}/socket"]
        # A server that starts removes what others have in a common folder for temporary tables.
        words += [f"--pid-file={self.folder}/pid", f"--tmpdir={self.folder}", *COMMON, *self.options, *self.user()]
        if not self.is_mariadb:
            words += ["--mysqlx=OFF"]
        with open(f"{self.folder}/server.log", "wb") as log:
            self.process = subprocess.Popen(words, stdin=subprocess.DEVNULL, stdout=log, stderr=subprocess.STDOUT)
        for _ in range(SECONDS_TO_START * 10):
            if self.process.poll() is not None:
                break
            try:
                self.session().close()
                return
            except OSError:
                time.sleep(0.1)
        raise RuntimeError(f"the server did not start:\n{self.tail('server.log')}")

    def tail(self, name):
        with open(f"{self.folder}/{name}", encoding="utf-8", errors="replace") as log:
            return "".join(log.readlines()[-20:])

    def collation(self):
        """Texts compare by their bytes, blanks at the end among them."""
        return "utf8mb4_nopad_bin" if self.is_mariadb else "utf8mb4_0900_bin"

    def session(self):
        session = Session(f"{self.folder}/socket")
        session.need(f"SET NAMES utf8mb4 COLLATE {self.collation()}")
        session.need(f"SET SESSION sql_mode = '{STRICT}'")
        session.need("SET SESSION TRANSACTION ISOLATION LEVEL SERIALIZABLE")
        return session

    def database(self, session, name):
        session.need(f"CREATE DATABASE IF NOT EXISTS {name} CHARACTER SET utf8mb4 COLLATE {self.collation()}")
        session.need(f"USE {name}")
