#!/usr/bin/env python3
"""What ten usual tables print at each step, from the pasted dump to the sweep: prints docs/TEN_TABLES.md.

    tools/tests/ten_tables.py PROGRAM > docs/TEN_TABLES.md    by a built program, as `./ghost --path` prints one

`tools/test` holds the document to what is recorded of the conversions and of the reports."""
import pathlib
import re
import subprocess
import sys
import tempfile
import unittest

HERE = pathlib.Path(__file__).resolve().parent
if __name__ == "__main__":
    sys.dont_write_bytecode = True
    sys.path.insert(0, str(HERE.parent))

import plans
from sql import position, split, statements_in

CASES, TOOLS = HERE / "converted", HERE.parent
DOCUMENT = TOOLS.parent / "docs/TEN_TABLES.md"
TABLES = {
    "wp_posts": "WordPress, posts",
    "wp_options": "WordPress, options",
    "rails_users": "Rails, users",
    "rails_orders": "Rails, orders",
    "django_user": "Django, auth_user",
    "django_session": "Django, sessions",
    "magento_order": "Magento, sales_order",
    "magento_eav": "Magento, EAV values",
    "audit_events": "an audit log",
    "payments": "payments",
}
HEAD = """# What do ten usual tables print?

For an operator who asks how far his own table is from a plan. Ten tables as SHOW CREATE TABLE and mysqldump print them, each with an ALTER and a client, go through every step: pasted into a plan as they are, explained, converted, checked, run, traced and swept. The files are in `tools/tests/converted`, each plan with the report that it must print; the gate runs them.

This page is what `tools/tests/ten_tables.py PROGRAM` prints; it was printed on 2026-11-30 by the program as `./ghost --unproved` builds it, and what follows each conversion again on 2026-12-01.

The same ten tables were also put into a MariaDB 10.11.19 (without foreign keys, which need other tables, and with a collation that it has) and dumped by its `mysqldump`, with all the comments and settings of such a file: `tools/convert` took the ten dumps, and their plans printed the same ten reports. (That was when the altered table's AUTO_INCREMENT was left out.)

"""
MEANING = """
- *Pasted*: the plan with CREATE TABLE, rows, ALTER and the client's statements as they are, and what the program says. *Places*: how many `tools/explain` then shows.
- *Converted*: how many changes `tools/convert` made, each with a line that says what it costs, and how many things it left as they are.
- *1235*: the client's statements that weren't run, since their condition is on no key. Look for these first.
- *Losses*: how many runs `tools/sweep` made, each with one loss of a session, and how they ended.
"""


def text_of(source, words):
    """The words as they stand in their text."""
    return source[words[0].at : words[-1].end()]


def pasted(name):
    """A plan of the files as they are."""
    source, tables = (CASES / f"{name}.sql").read_text(), {}
    for words in statements_in(source):
        if words[0].is_word("CREATE"):
            tables[words[2].name()] = (text_of(source, words), [])
        elif words[0].is_word("INSERT"):
            rows = split(words[position(words, "VALUES") + 1 :])
            tables[words[2].name()][1].extend(text_of(source, row).replace("\n", " ") for row in rows)
    client = (CASES / f"{name}.client").read_text().strip().split("\n")
    alter = (CASES / f"{name}.alter").read_text().strip()
    return plans.plan(table_of(name), alter, [client], tables.values())


def table_of(name):
    return re.search(r'(?m)^table = "(\w+)"', (CASES / f"{name}.toml").read_text())[1]


def printed(words, given):
    ran = subprocess.run([str(word) for word in words], input=given, stdout=subprocess.PIPE, stderr=subprocess.DEVNULL, text=True)
    return ran.stdout


class Steps:
    """What each step prints of a table."""

    def __init__(self, program, name):
        self.name, self.plan = name, (CASES / f"{name}.toml").read_text()
        self.refusal = printed([program, "check"], pasted(name)).strip()
        explained = printed([TOOLS / "explain", "--program", program], pasted(name)).split("\n\n")[0].split("\n")
        self.places = [line for line in explained if re.match(r"(table|alter|client)\b.*: ", line)]
        self.words = [line.strip() for line in explained if line.startswith("    ")]
        self.notes = (CASES / f"{name}.notes").read_text().strip().split("\n")
        self.schema = printed([program, "check"], self.plan).strip().split("\n")
        self.report = printed([program, "replay"], self.plan).strip().split("\n")
        self.stats = printed([TOOLS / "stats"], printed([program, "trace"], self.plan)).split("\n") if self.is_accepted() else []
        with tempfile.NamedTemporaryFile("w", suffix=".toml") as file:
            file.write(self.plan)
            file.flush()
            self.sweep = printed([TOOLS / "sweep", "--program", program, file.name], "").strip().split("\n") if self.is_accepted() else []

    def is_accepted(self):
        return not self.report[0].startswith("refused ")

    def number(self, title):
        """A number of the stats."""
        return next((line.split()[-1] for line in self.stats if line.startswith(title)), "")

    def converted(self):
        return self.notes[-1].partition(": ")[2].replace(", for which the program refuses the plan", "")

    def losses(self):
        """How many runs the sweep made, and how they ended."""
        if not self.sweep:
            return ""
        kinds = dict.fromkeys(re.search(r" \d+  (.*?)  clients see", line)[1].strip() for line in self.sweep[2:])
        return f"{self.sweep[1].split()[0]}: {', '.join(kinds)}"

    def row(self):
        cells = [TABLES[self.name], f"`{self.refusal}`", len(self.places), self.converted(), f"`{self.report[0]}`"]
        cells += [self.number("turns"), self.number("statements that weren't run"), self.losses()]
        return f"| {' | '.join(map(str, cells))} |"

    def section(self):
        alter = (CASES / f"{self.name}.alter").read_text().strip()
        yield f"\n## {TABLES[self.name]}\n\n`{alter}`\n\nPasted, and explained:\n\n```\n{self.refusal}\n"
        yield from (f"{line}\n" for line in self.words)
        yield "```\n\nConverted, with what it costs:\n\n```\n"
        yield from (f"{line}\n" for line in self.notes)
        if not self.is_accepted():
            yield f"```\n\nRun:\n\n```\n{self.report[0]}\n```\n"
            return
        yield "```\n\nChecked: the schema that the ALTER leaves.\n\n```\n"
        yield from (f"{line}\n" for line in self.schema)
        yield "```\n\nRun:\n\n```\n"
        yield from (f"{line}\n" for line in self.report)
        yield "```\n\nTraced and counted, where the count isn't 0:\n\n```\n"
        yield from (f"{line}\n" for line in self.stats[1 : self.stats.index("")] if line.split()[-1] != "0")
        yield "```\n\nSwept:\n\n```\n"
        yield from (f"{line}\n" for line in self.sweep)
        yield "```\n"


def document(program):
    steps = [Steps(program, name) for name in TABLES]
    yield HEAD
    yield "| Table | Pasted | Places | Converted | Run | Turns | 1235 | Losses |\n|---|---|---|---|---|---|---|---|\n"
    yield from (f"{it.row()}\n" for it in steps)
    yield MEANING
    for it in steps:
        yield from it.section()


class TenTables(unittest.TestCase):
    def test_document(self):
        """The notes of each conversion and its report are those that are recorded."""
        text = DOCUMENT.read_text()
        for name in TABLES:
            with self.subTest(name):
                self.assertIn((CASES / f"{name}.notes").read_text(), text)
                self.assertIn(f"Run:\n\n```\n{(CASES / f'{name}.stdout').read_text()}```", text)

    def test_pasted_plans(self):
        """A pasted plan has the words of its files."""
        for name in TABLES:
            with self.subTest(name):
                self.assertIn((CASES / f"{name}.alter").read_text().strip().replace('"', '\\"'), pasted(name).replace('"', '\\"'))


if __name__ == "__main__":
    if len(sys.argv) != 2 or sys.argv[1].startswith("-"):
        sys.exit(__doc__)
    sys.stdout.writelines(document(sys.argv[1]))
