"""Tests of the tools that look at a run: `tools/timeline`, `tools/stats` and `tools/sweep`. The traces are an independent model's;
what is wanted of them was read, and looked at as pictures, before it was written down."""
import pathlib
import stat
import subprocess
import sys
import tempfile
import unittest
from xml.etree import ElementTree

TESTS = pathlib.Path(__file__).resolve().parent
TOOLS, TRACES = TESTS.parent, TESTS / "traces"
# Each has a plan, what `trace` prints of it, and its picture.
PICTURES = TESTS.parent.parent / "docs/pictures"

# What stands for the program: a run of five turns, in which a loss of the copier takes two turns more, one of c1 is seen by it,
# and a panic reverts.
PROGRAM = """#!/usr/bin/env python3
import sys, tomllib
plan = tomllib.loads(sys.stdin.read())
if plan["table"] == "bad":
    print("refused 26 missing_table")
    sys.exit(2)
losses = plan.get("faults", [])
more = 2 * sum(loss.startswith("copy") for loss in losses)
lost = any(loss.startswith("c1") for loss in losses)
panics = "panic" in plan.get("operator", "")
print("reverted panic turn 2" if panics else "done")
print("client c1")
print("1.1 lost" if lost else "1.1 error 1062")
print(f"turns {5 + more}")
print(f"order insp copy*{2 + more} c1 insp")
sys.exit(3 if panics else 0)
"""


def run(tool, *words, given=b""):
    ran = subprocess.run([TOOLS / tool, *words], input=given, stdout=subprocess.PIPE, stderr=subprocess.PIPE)
    return ran.returncode, ran.stdout.decode(), ran.stderr.decode()


def trace(name):
    file = TRACES / f"{name}.trace"
    return (file if file.exists() else PICTURES / f"{name}.stdout").read_bytes()


def wanted(name):
    return (TRACES / name).read_text()


class Looked(unittest.TestCase):
    def test_tables(self):
        for file in TRACES.glob("*.table"):
            with self.subTest(file.stem):
                self.assertEqual(run("timeline", "--table", given=trace(file.stem)), (0, file.read_text(), ""))

    def test_stats(self):
        for file in TRACES.glob("*.stats"):
            name, _, other = file.stem.partition("_beside")
            words = ["--beside", TRACES / "beside.trace"] if file.stem.endswith("_beside") else []
            with self.subTest(file.stem):
                self.assertEqual(run("stats", *words, given=trace(name if words else file.stem)), (0, file.read_text(), ""))

    def test_pictures(self):
        for file in PICTURES.glob("*.stdout"):
            with self.subTest(file.stem):
                self.assertEqual(run("timeline", given=file.read_bytes()), (0, file.with_suffix(".svg").read_text(), ""))
                self.assertTrue(file.read_bytes().startswith(file.with_suffix(".toml").read_bytes() + b"\n#journal\n"))
        self.assertEqual(run("timeline", "--overview", given=trace("losses")), (0, wanted("losses.svg"), ""))

    def test_part_of_a_run(self):
        _, picture, _ = run("timeline", "--from", "21", "--to", "39", given=trace("unlock_lost"))
        tips = [title.text for title in ElementTree.fromstring(picture).iter("{http://www.w3.org/2000/svg}title")]
        self.assertEqual(len(tips), 19)
        self.assertEqual(tips[1], "turn 22, locker: LOCK TABLES users, _users_del → waits 4, behind c1")
        self.assertEqual(tips[17], "turn 38, locker: UNLOCK → lost")

    def test_new_tool(self):
        """The turns after `turn_limit` are those of a new tool, and a line says where it comes."""
        given = trace("resumed")
        for words in ([], ["--overview"]):
            self.assertIn("the whole tool is lost", run("timeline", *words, given=given)[1])
        self.assertNotIn("the whole tool is lost", run("timeline", "--to", "27", given=given)[1])
        self.assertNotIn("the whole tool is lost", run("timeline", given=given.replace(b"resume = true", b"resume = false"))[1])

    def test_long_runs_are_small(self):
        """A run of 20,000 turns is an overview of less than a quarter of a megabyte."""
        plan, _, _ = trace("beside").partition(b"#journal\n")
        lines = b"".join(b"%d %s call other\n" % (turn, b"apply" if turn % 3 else b"copy") for turn in range(1, 20001))
        status, picture, _ = run("timeline", given=plan + b"#journal\n" + lines + b"unfinished\ntables t\n")
        self.assertEqual(status, 0)
        self.assertLess(len(picture), 250_000)
        ElementTree.fromstring(picture)

    def test_setups(self):
        """A setup whose session is lost in a call begins again; one that is lost between two calls goes on."""
        plan, _, _ = trace("beside").partition(b"#journal\n")
        lines = ["call other", "call-before lost", "call other", "cut lost", "call ok 0", "call-after lost done"]
        lines += ["call other", *["call ok 0"] * 4, "call other", "call other", "call-before lost"]
        text = "".join(f"{number} insp {line}\n" for number, line in enumerate(lines, 1))
        _, printed, _ = run("stats", given=plan + b"#journal\n" + text.encode() + b"unfinished\ntables t\n")
        self.assertRegex(printed, r"(?m)^setups that were begun again +2$")

    def test_numbers(self):
        """A plan of version 2, whose client draws a number of a table beside the migrated one; also where its answer tells the number."""
        plan = trace("beside").replace(b"version = 1", b"version = 2").replace(b"DELETE FROM t WHERE id = 1", b"INSERT INTO u (v) VALUES (1)")
        plan = plan.replace(b"\n#journal", b"\n[[tables]]\ncreate = 'CREATE TABLE u (id INT AUTO_INCREMENT PRIMARY KEY, v INT)'\n\n#journal")
        for number in (b"", b" id 7"):
            given = plan.replace(b"\n12 c1 poll ok 1\n", b"\n12 c1 poll ok 1" + number + b"\n")
            status, printed, reported = run("timeline", "--table", "--from", "12", "--to", "12", given=given)
            self.assertEqual((status, printed.split(), reported), (0, ["12", "c1", *"INSERT INTO u (v) VALUES (1) ok 1".split(), *number.decode().split()], ""))
            self.assertIn(" ok 1" + number.decode(), run("timeline", given=given)[1])
            status, printed, _ = run("stats", given=given)
            self.assertEqual(status, 0)
            self.assertRegex(printed, r"(?m)^clients' waits +1$")
            # (the event is none of the migrated table)
            self.assertRegex(printed, r"(?m)^most events behind +1$")

    def test_no_turns(self):
        plan, _, _ = trace("beside").partition(b"#journal\n")
        for words in ([], ["--table"], ["--overview"]):
            self.assertEqual(run("timeline", *words, given=plan + b"#journal\nunfinished\ntables t\n")[0], 0)
        self.assertEqual(run("stats", given=plan + b"#journal\nunfinished\ntables t\n")[0], 0)

    def test_faulty_input(self):
        given = trace("beside")
        faults = {
            b"": "there is no line #journal: is this what `./ghost trace` printed?",
            given.replace(b"\n9 c1 call waits 2", b""): "line 9 after #journal: turn 10 comes after turn 8",
            given.replace(b"\n9 c1 call waits 2", b"\n9 c1 asks waits 2"): "line 9 after #journal is neither a turn nor a verdict",
            given.replace(b"table =", b"name ="): "before #journal stands no plan: it has no table or no alter",
        }
        for data, fault in faults.items():
            self.assertEqual(run("timeline", given=data), (2, "", f"timeline: {fault}\n"))
            self.assertEqual(run("stats", given=data), (2, "", f"stats: standard input: {fault}\n"))

    def test_faulty_words(self):
        for words in (["--frob"], ["--from"], ["--from", "0"], ["--from", "99"], ["--from", "9", "--to", "8"], ["x.trace"]):
            with self.subTest(words):
                status, printed, reported = run("timeline", *words, given=trace("beside"))
                self.assertEqual((status, printed), (1, ""))
                self.assertRegex(reported, "^timeline: ")
        self.assertEqual(run("stats", "--beside", given=trace("beside"))[0], 1)
        self.assertEqual(run("stats", "--beside", "/no/such", given=trace("beside"))[::2], (1, "stats: /no/such: No such file or directory\n"))

    def test_help(self):
        for tool in ("timeline", "stats", "sweep"):
            status, printed, _ = run(tool, "--help")
            self.assertEqual(status, 0)
            self.assertIn("usage: ", printed)


class Swept(unittest.TestCase):
    def setUp(self):
        folder = tempfile.TemporaryDirectory()
        self.addCleanup(folder.cleanup)
        self.folder = pathlib.Path(folder.name)
        self.program = self.folder / "program"
        self.program.write_text(PROGRAM.replace("/usr/bin/env python3", sys.executable, 1))
        self.program.chmod(self.program.stat().st_mode | stat.S_IXUSR)
        self.plan = self.folder / "plan.toml"
        self.plan.write_text('version = 1\ntable = "t"\nalter = "ADD COLUMN b INT"\nfaults = ["insp 1 before"]\n[[tables]]\ncreate = "CREATE TABLE t (id INT PRIMARY KEY)"\n')

    def sweep(self, *words):
        return run("sweep", "--program", self.program, *words)

    def test_each_loss(self):
        usual = "without a loss: done, 5 turns; clients see error 1062\n"
        self.assertEqual(
            self.sweep(self.plan),
            (
                0,
                usual + "10 runs, each with one loss of a session:\n"
                "  inspector     4  done  clients see nothing more  longest 5 turns, by `insp 1 before`\n"
                "  copier        4  done  clients see nothing more  longest 7 turns, by `copy 1 before`\n"
                "  c1            2  done  clients see lost          longest 5 turns, by `c1 1 before`\n",
                "",
            ),
        )

    def test_fewer(self):
        _, printed, _ = self.sweep("--every", "2", self.plan)
        self.assertIn("6 runs, each with one loss", printed)

    def test_new_tool(self):
        """No loss strikes a turn behind `turn_limit`: a new tool's."""
        self.plan.write_text(self.plan.read_text().replace("[[tables]]", "[options]\nturn_limit = 3\n[[tables]]"))
        self.assertIn("6 runs, each with one loss", self.sweep(self.plan)[1])

    def test_pairs_and_panics(self):
        _, printed, _ = self.sweep("--pairs", "7", "--panics", self.plan)
        self.assertIn("\n7 runs, each with two losses:\n", printed)
        self.assertIn("\n6 runs, each with a panic:\n  panic     6  reverted panic  clients see nothing more  longest 5 turns, by `panic at turn 1`\n", printed)
        self.assertEqual(self.sweep("--pairs", "7", "--panics", self.plan)[1], printed)

    def test_faults(self):
        self.assertEqual(self.sweep("/no/such")[::2], (1, "sweep: /no/such: No such file or directory\n"))
        self.assertEqual(self.sweep("--every", "0", self.plan)[0], 1)
        self.plan.write_text('table = "bad"\n')
        self.assertEqual(self.sweep(self.plan), (2, "", "sweep: refused 26 missing_table\n"))
        self.plan.write_text("table =\n")
        self.assertRegex(self.sweep(self.plan)[2], "^sweep: .* is no plan: ")
        self.program.unlink()
        self.plan.write_text('table = "t"\n')
        self.assertEqual(self.sweep(self.plan)[0], 125)
