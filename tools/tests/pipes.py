"""Tests of the tools' standard streams: each fault is one line on standard error, and the status 125."""
import os
import pathlib
import subprocess
import tempfile
import unittest

TESTS = pathlib.Path(__file__).resolve().parent
TOOLS = TESTS.parent
TRACE = (TESTS / "traces/beside.trace").read_bytes()
TABLE = b"CREATE TABLE t (id INT PRIMARY KEY)"
PLAN = b'version = 1\ntable = "t"\nalter = "x"\n'
# What stands for the program.
REFUSES = "#!/bin/sh\ncat > /dev/null\necho refused 59 too_long\nexit 2\n"
REPORTS = "#!/bin/sh\ncat > /dev/null\necho done\necho turns 1\necho order insp\n"


class Streams(unittest.TestCase):
    def setUp(self):
        folder = tempfile.TemporaryDirectory(prefix="test-streams-")
        self.addCleanup(folder.cleanup)
        self.refuses, self.reports = (self.program(folder.name, *it) for it in (("refuses", REFUSES), ("reports", REPORTS)))

    def program(self, folder, name, text):
        file = pathlib.Path(folder) / name
        file.write_text(text)
        file.chmod(0o755)
        return str(file)

    def calls(self):
        """Each tool with words, and with what it reads."""
        yield ["convert", "-", "--alter", "ADD a INT"], TABLE
        yield ["explain", "--program", self.refuses], PLAN
        yield ["timeline"], TRACE
        yield ["timeline", "--table"], TRACE
        yield ["stats"], TRACE
        yield ["sweep", "--program", self.reports, "-"], PLAN

    def call(self, words, given=b"", **how):
        how = {"input": given, "stdout": subprocess.PIPE, **how}
        ran = subprocess.run([TOOLS / words[0], *words[1:]], stderr=subprocess.PIPE, timeout=300, **how)
        return ran.returncode, ran.stderr.decode()

    def closed(self, words, stream, given=b""):
        """The same with one of the streams closed."""
        script = f'exec "$@" {stream}&-'
        ran = subprocess.run(["sh", "-c", script, "sh", TOOLS / words[0], *words[1:]], input=given, capture_output=True, timeout=300)
        return ran.returncode, ran.stdout, ran.stderr.decode()

    def expect(self, words, found, line):
        """The last line on standard error; the converter's notes come before it."""
        status, reported = found
        self.assertEqual((status, reported.split("\n")[-2]), (125, f"{words[0]}: {line}"))
        self.assertNotIn("Traceback", reported)

    def test_output_that_cannot_be_written(self):
        for words, given in self.calls():
            with self.subTest(words), open("/dev/full", "wb") as full:
                self.expect(words, self.call(words, given, stdout=full), "standard output can't be written: No space left on device")
                self.expect(words, self.closed(words, ">", given)[::2], "standard output can't be written: Bad file descriptor")

    def test_closed_pipe(self):
        for words, given in [*self.calls(), *(([tool, "--help"], b"") for tool in ("convert", "explain", "timeline", "stats", "sweep"))]:
            with self.subTest(words):
                reading, writing = os.pipe()
                os.close(reading)
                self.expect(words, self.call(words, given, stdout=writing), "standard output can't be written: Broken pipe")
                os.close(writing)

    def test_input_that_cannot_be_read(self):
        for words, _ in self.calls():
            with self.subTest(words):
                self.expect(words, self.closed(words, "<")[::2], "standard input can't be read: Bad file descriptor")

    def test_closed_error(self):
        """What is said on standard error isn't mixed with what is printed."""
        for words, given in self.calls():
            with self.subTest(words):
                open_, closed = (subprocess.run([TOOLS / words[0], *words[1:]], input=given, capture_output=True), self.closed(words, "2>", given))
                self.assertEqual((closed[0], closed[1]), (open_.returncode, open_.stdout))

    def test_empty_input(self):
        for words, line in (
            (["convert", "-", "--alter", "x"], (1, "standard input: 0 changes\nconvert: standard input has no table with columns\n")),
            (["timeline"], (2, "timeline: there is no line #journal: is this what `./ghost trace` printed?\n")),
            (["stats"], (2, "stats: standard input: there is no line #journal: is this what `./ghost trace` printed?\n")),
            (["sweep", "--program", "/bin/true", "-"], (125, "sweep: /bin/true: the program printed no report\n")),
        ):
            with self.subTest(words):
                self.assertEqual(self.call(words), line)

    def test_noise(self):
        """Bytes that are no text are reported as such."""
        noise = bytes(range(256)) * 8
        for words, status in ((["convert", "-", "--alter", "x"], 1), (["timeline"], 2), (["stats"], 2), (["sweep", "--program", self.reports, "-"], 2)):
            with self.subTest(words):
                found, reported = self.call(words, noise)
                self.assertEqual(found, status, reported)
                self.assertNotIn("Traceback", reported)
