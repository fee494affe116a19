"""Tests of what the documents show of the tools: that it is what they print."""
import pathlib
import re
import unittest

TESTS = pathlib.Path(__file__).resolve().parent
DOCS = TESTS.parent.parent / "docs"


def blocks(document):
    """The blocks of a document that show what is printed, as lines: those of no language."""
    parts = (DOCS / document).read_text().split("```")[1::2]
    return [part.strip("\n").split("\n") for part in parts if part.startswith("\n")]


class Documents(unittest.TestCase):
    def test_own_tables(self):
        notes = (TESTS / "converted/rails_orders.notes").read_text().replace("rails_orders.sql", "orders.sql")
        places = (TESTS / "explained/orders.stdout").read_text()
        shown = blocks("OWN_TABLES.md")
        self.assertEqual(len(shown), 2)
        for lines, printed in zip(shown, (notes, places)):
            for line in lines:
                if line != "..":
                    self.assertIn(line + "\n", printed)

    def test_flags(self):
        """Each option that stands for a flag is one of a plan's."""
        limits = (DOCS / "LIMITS.md").read_text()
        rows = [line.split(" | ") for line in (DOCS / "FLAGS.md").read_text().split("\n") if line.startswith("| `--")]
        options = {name for cells in rows if len(cells) > 2 for name in re.findall(r"`([a-z]+_[a-z_]+)`", cells[1])}
        self.assertEqual({name for name in options if f"`{name}`" not in limits}, set())
        self.assertGreaterEqual(len(options), 8)

    def test_turns_of_the_cutover(self):
        """The words of `turns` that the documents give are those of the plan that shows them."""
        plan = (DOCS.parent / "examples/at_the_cutover.toml").read_text()
        self.assertIn('turns = "insp*5 copy*1000 ', plan)
        self.assertIn('turns = "insp*5 copy*900000"', (DOCS / "OWN_TABLES.md").read_text())


if __name__ == "__main__":
    unittest.main()
