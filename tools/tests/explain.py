#!/usr/bin/env python3
"""Tests of `tools/explain`, by the answers that the program gave: they stand in explained/answers, so that no program is needed.

    tools/tests/explain.py --record PROGRAM   asks a program anew, and prints what differs from what is wanted
"""
import hashlib
import pathlib
import re
import subprocess
import sys
import tempfile
import tomllib
import unittest

HERE = pathlib.Path(__file__).resolve().parent
if __name__ == "__main__":
    sys.dont_write_bytecode = True
    sys.path.insert(0, str(HERE.parent))

from asking import Asking, Program, refusal_in, toml
from explaining import Explanation, advice, options_of
from faults import Search

FOLDER = HERE / "explained"
ANSWERS = FOLDER / "answers"
OPTIONS = ("chunk_size", "postpone", "turn_limit", "show_turns")


def key_of(data):
    return hashlib.sha256(data).hexdigest()[:12]


def cases():
    """Each plan by its name, with the lines that are wanted."""
    for file in sorted(FOLDER.glob("*.toml")):
        yield file.stem, file.read_bytes(), file.with_suffix(".stdout").read_text()
    for part in re.split(r"(?m)^#### case ", (FOLDER / "codes.cases").read_text())[1:]:
        name, _, rest = part.partition("\n")
        plan, _, wanted = rest.partition("#### prints\n")
        yield name, plan.encode(), wanted
    columns = ["id INT PRIMARY KEY", *(f"c{number} INT" for number in range(2, 66))]
    keys = [f"KEY k{number} (c2)" for number in range(1, 10)]
    many = "refused {code} {name} table 1\ntable 1: {item}\n    {code}: without it the rest is read\n"
    for name, items, code in (("too_many_columns", columns, 15), ("too_many_keys", columns[:2] + keys, 16)):
        create = f"CREATE TABLE t ({', '.join(items)})"
        plan = {"version": 1, "table": "t", "alter": "MODIFY c2 BIGINT", "tables": [{"create": create}]}
        yield name, toml(plan).encode(), many.format(code=code, name=name, item=items[-1])


def explained(asking, data):
    return "".join(line + "\n" for line in Explanation(asking, data, OPTIONS).lines())


def read_answers():
    """The refusals of the plans that were asked, by the plans' sums."""
    lines, _, known = ANSWERS.read_text().partition("\n\n")
    lines = ["", *(line + "\n" for line in lines.split("\n"))]
    return {key: lines[int(number)] for key, number in (line.split() for line in known.split("\n") if line)}


class Record:
    """Answers that are known."""

    def __init__(self):
        self.known = read_answers()

    def answer(self, data):
        if key_of(data) not in self.known:
            raise AssertionError("a question is asked whose answer isn't recorded: tools/tests/explain.py --record PROGRAM")
        return self.known[key_of(data)]


class Explained(unittest.TestCase):
    def test_plans(self):
        record = Record()
        for name, data, wanted in cases():
            with self.subTest(name):
                self.assertEqual(explained(Asking(record.answer), data), wanted)

    def test_advice(self):
        """docs/REFUSALS.md has a row for each code that was explained."""
        document = (HERE.parent.parent / "docs/REFUSALS.md").read_text()
        codes = {int(code) for _, _, wanted in cases() for code in re.findall(r"(?m)^(?:refused |    )(\d+)", wanted)}
        for code in codes:
            self.assertRegex("\n".join(advice(document, [code])), rf"\A\n{code} \w+: .")
        found = advice("| 10 `a`, 11 `b` | when | do [it](X.md) |\n| 12 `c` | when |", [11, 12, 13])
        self.assertEqual(found, ["", "11 b: when.", "    do it", "12 c: when."])


    def test_options(self):
        """docs/LIMITS.md has the options by their names."""
        found = options_of((HERE.parent.parent / "docs/LIMITS.md").read_text())
        self.assertEqual(set(OPTIONS) - set(found), set())
        self.assertGreater(len(found), 15)


class Script(unittest.TestCase):
    """The script, with a program that answers each plan alike."""

    def call(self, *words, program="exit 0", plan=b"version = 1"):
        with tempfile.TemporaryDirectory(prefix="test-explain-") as folder:
            file = pathlib.Path(folder) / "program"
            file.write_text(f"#!/bin/sh\ncat > /dev/null\n{program}\n")
            file.chmod(0o755)
            words = [word.replace("PROGRAM", str(file)) for word in words]
            ran = subprocess.run([HERE.parent / "explain", *words], input=plan, capture_output=True, timeout=50)
            return ran.returncode, ran.stdout.decode(), ran.stderr.decode().replace(folder, "")

    def test_answers(self):
        asked = "explain: the program was asked 1 times\n"
        self.assertEqual(self.call("--program", "PROGRAM"), (0, "the plan isn't refused\n", asked))
        status, out, err = self.call("--program", "PROGRAM", program="echo refused 59 too_long; exit 2")
        self.assertEqual((status, out.split("\n")[:3], err), (2, ["refused 59 too_long", "", "59 too_long: more than 16,777,216 bytes."], asked))

    def test_programs_that_cannot_be_asked(self):
        self.assertEqual(self.call("--program", "/nowhere"), (125, "", "explain: /nowhere: No such file or directory\n"))
        err = "explain: /program: the program ended with status 6\n"
        self.assertEqual(self.call("--program", "PROGRAM", program="exit 6"), (125, "", err))

    def test_words(self):
        self.assertIn("usage: tools/explain", self.call("--help")[1])
        status, out, err = self.call("PLAN")
        self.assertEqual((status, out), (1, ""))
        self.assertTrue(err.startswith("explain: unknown word PLAN\n"))

    def test_plans_that_this_script_cannot_read(self):
        status, out, _ = self.call("--program", "PROGRAM", program="echo refused 51 unknown_key; exit 2", plan=b"x = ")
        self.assertEqual((status, out.split("\n")[0]), (2, "refused 51 unknown_key"))
        self.assertIn("this script can't read the plan: ", out)


class Numbers(unittest.TestCase):
    """AUTO_INCREMENT in plans of version 2, with a program that knows nothing else: a table that has it is refused where it has
    no PRIMARY KEY, or begins at 0."""

    def answer(self, data):
        plan = tomllib.loads(data.decode())
        if plan["version"] != 2:
            return "refused 54 out_of_range\n"
        for number, table in enumerate(plan["tables"], 1):
            if "AUTO_INCREMENT" in table["create"] and ("PRIMARY KEY" not in table["create"] or "AUTO_INCREMENT=0" in table["create"]):
                return f"refused 32 auto_column table {number}\n"
        return ""

    def explained(self, *creates):
        plan = {"version": 2, "table": "t", "alter": "ADD b INT", "tables": [{"create": create} for create in creates]}
        return explained(Asking(self.answer), toml(plan).encode()).split("\n")[:-1]

    def test_numbers(self):
        small, beside = "CREATE TABLE t (id INT PRIMARY KEY)", "CREATE TABLE u (id INT AUTO_INCREMENT PRIMARY KEY)"
        self.assertEqual(self.explained(small, beside), ["the plan isn't refused"])
        lines = ["refused 32 auto_column table 2", "table 2: a INT AUTO_INCREMENT", "    32: it gives out no numbers: without `AUTO_INCREMENT` the table is read"]
        self.assertEqual(self.explained(small, "CREATE TABLE u (a INT AUTO_INCREMENT)"), lines)
        lines = ["refused 32 auto_column table 2", "table 2: AUTO_INCREMENT=0", "    32: the table option AUTO_INCREMENT is out of range: without it the table is read"]
        self.assertEqual(self.explained(small, f"{beside} AUTO_INCREMENT=0"), lines)


class Searching(unittest.TestCase):
    """The search for words that aren't read, in a language of sums: numbers with + between them, in parentheses or not."""

    def code_of(self, text):
        return None if re.fullmatch(r"sum \d+( \+ \d+)*", " ".join(text.split())) else 10

    def search(self, text):
        faults, mended = Search(self.code_of, ("", " 1", " + 1"), ("7",)).faults(text)
        return [fault.text() for fault in faults], mended

    def test_faults(self):
        for text, found in (
            ("sum 1 + 2", []),
            ("sum 1 + a", ["`a` isn't read: `7` in its place is"]),
            ("sum a + b", ["`a` isn't read: `7` in its place is", "`b` isn't read: `7` in its place is"]),
            ("sum 1 + 2 more", ["`more` isn't read: without it the rest is"]),
            ("sum 1 2 + 3", ["`2` isn't read: without it the rest is"]),
            ("sum 1 + (2) + 3", ["`(2) +` isn't read: without it the rest is"]),
            ("sum 1 +", ["it ends too early: with `1` after `+` it is read"]),
            ("times", ["`times` isn't read, and nothing that was tried in its place is: leave the whole part out"]),
        ):
            with self.subTest(text):
                self.assertEqual(self.search(text)[0], found)
                mended = self.search(text)[1]
                self.assertTrue(mended is None or self.code_of(mended) is None)

    def test_refusals(self):
        found = refusal_in("refused 58 bad_row table 1 row 12\n")
        self.assertEqual((found.code, found.name, found.place, found.numbers), (58, "bad_row", "table 1 row 12", [1, 12]))
        self.assertIsNone(refusal_in(""))


def record(program):
    known, asked = {}, Program(program)

    def answer(data):
        known[key_of(data)] = asked.answer(data)
        return known[key_of(data)]

    for name, data, wanted in cases():
        found = explained(Asking(answer), data)
        if found != wanted:
            print(f"== {name}, wanted:\n{wanted}== found:\n{found}")
    lines = sorted(set(known.values()) - {""})
    numbers = {"": 0, **{line: number for number, line in enumerate(lines, 1)}}
    ANSWERS.write_text("".join(lines) + "\n" + "".join(f"{key} {numbers[line]}\n" for key, line in sorted(known.items())))


if __name__ == "__main__":
    if sys.argv[1:2] != ["--record"] or len(sys.argv) != 3:
        sys.exit(__doc__)
    record(sys.argv[2])
