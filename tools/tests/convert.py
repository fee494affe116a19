"""Tests of `tools/convert`: the files of `converted` with their plans and notes to the byte, and what a file may be."""
import importlib.machinery
import importlib.util
import io
import os
import pathlib
import subprocess
import tempfile
import tomllib
import unittest

from kinds import Kept, Left, kind_at
from sql import statements_in, text_value, value_of, words_of, written

TOOLS = pathlib.Path(__file__).resolve().parent.parent
CASES = TOOLS / "tests/converted"


LOADER = importlib.machinery.SourceFileLoader("convert_script", str(TOOLS / "convert"))
SCRIPT = importlib.util.module_from_spec(importlib.util.spec_from_loader("convert_script", LOADER))
LOADER.exec_module(SCRIPT)


def convert(*words, folder=CASES):
    """Runs the script in this process, in a folder; what it writes is kept."""
    printed, here, status = {1: io.BytesIO(), 2: io.BytesIO()}, os.getcwd(), 0
    os.chdir(folder)
    SCRIPT.STREAMS.put = lambda number, data: printed[number].write(data)
    try:
        SCRIPT.main([str(word) for word in words])
    except SystemExit as end:
        status = end.code or 0
    finally:
        os.chdir(here)
    return subprocess.CompletedProcess(words, status, printed[1].getvalue(), printed[2].getvalue())


class Converted(unittest.TestCase):
    """Each NAME.sql with NAME.alter and NAME.client gives NAME.toml, and NAME.notes on standard error. The gate runs the plans."""

    def test_files(self):
        names = sorted(file.stem for file in CASES.glob("*.sql"))
        self.assertEqual(names, sorted(file.stem for file in CASES.glob("*.toml")))
        for name in names:
            with self.subTest(name):
                alter = (CASES / f"{name}.alter").read_text()
                ran = convert(f"{name}.sql", "--alter", alter, "--client", f"{name}.client")
                self.assertEqual(ran.stderr.decode(), (CASES / f"{name}.notes").read_text())
                self.assertEqual(ran.stdout.decode(), (CASES / f"{name}.toml").read_text())
                self.assertEqual(ran.returncode, 0)

    def test_plans_that_are_refused(self):
        """The plans that the program refuses are those of which something was left as it is."""
        refused = {file.stem for file in CASES.glob("*.status")}
        left = {file.stem for file in CASES.glob("*.notes") if "for which the program refuses the plan" in file.read_text()}
        self.assertEqual(refused, left)


class Files(unittest.TestCase):
    def setUp(self):
        folder = tempfile.TemporaryDirectory(prefix="test-convert-")
        self.addCleanup(folder.cleanup)
        self.folder = pathlib.Path(folder.name)

    def write(self, name, text):
        (self.folder / name).write_bytes(text.encode() if isinstance(text, str) else text)

    def convert(self, text, *words, status=0):
        """The plan and the notes of a text."""
        self.write("t.sql", text)
        ran = convert("t.sql", *words, folder=self.folder)
        self.assertEqual(ran.returncode, status, ran.stderr.decode())
        plan = tomllib.loads(ran.stdout.decode()) if ran.stdout else {}
        return plan, ran.stderr.decode().replace("t.sql:", "")

    def fails(self, status, error, *words):
        ran = convert(*words, folder=self.folder)
        self.assertEqual((ran.returncode, ran.stdout, ran.stderr.decode()), (status, b"", error))

    def test_nothing_to_convert(self):
        self.fails(1, "convert: none.sql: No such file or directory\n", "none.sql", "--alter", "ADD a INT")
        self.write("t.sql", "SET NAMES utf8;")
        self.fails(1, "t.sql: 0 changes\nconvert: t.sql has no table with columns\n", "t.sql", "--alter", "ADD a INT")
        self.write("t.sql", "CREATE TABLE t (id INT PRIMARY KEY);\nCREATE TABLE `u` (id INT PRIMARY KEY)")
        self.fails(1, "convert: the file has 2 tables: --table says which is altered\n", "t.sql", "--alter", "ADD a INT")
        self.fails(1, "convert: the file has no table v, only t, u\n", "t.sql", "--alter", "ALTER TABLE v ADD a INT")
        self.fails(1, "convert: c: No such file or directory\n", "t.sql", "--table", "t", "--alter", "ADD a INT", "--client", "c")
        self.write("t.sql", "CREATE TABLE t LIKE u")
        notes = "t.sql:1: left as it is: CREATE TABLE t LIKE .. has no columns in parentheses\n"
        end = "t.sql: 0 changes, and 1 left as it is, for which the program refuses the plan\nconvert: t.sql has no table with columns\n"
        self.fails(1, notes + end, "t.sql", "--alter", "x")
        self.write("t.sql", "CREATE TABLE")
        self.fails(1, "convert: t.sql:1: CREATE TABLE .. can't be read\n", "t.sql", "--alter", "x")

    def test_words(self):
        self.assertIn(b"usage: tools/convert FILE.sql --alter TEXT", convert("--help").stdout)
        rows = [["t.sql", "--alter", "x", "--rows", number] for number in ("many", "-3")]
        for words in ([], ["t.sql"], *rows, ["t.sql", "--alter", "x", "--frob"]):
            ran = convert(*words, folder=self.folder)
            self.assertEqual((ran.returncode, ran.stdout), (2, b""))
            self.assertRegex(ran.stderr, rb"\Aconvert: .*\n\nMakes a plan of tables")

    def test_files_that_are_cut_off(self):
        """A dump that ends within a statement gives no plan, wherever it ends."""
        first, second = "CREATE TABLE t (id INT PRIMARY KEY, a VARCHAR(9))", ";\nINSERT INTO t VALUES (1, 'a'), (2, 'it''s')"
        for text in (f"{first[:end]}" for end in range(len("CREATE TABLE t ("), len(first))):
            self.write("t.sql", text)
            self.fails(1, "convert: t.sql:1: CREATE TABLE t ( .. isn't whole: a quote or a parenthesis is open. Is the file cut off?\n", "t.sql", "--alter", "x")
        for end in [len(";\nINSERT INTO t VALUES ("), second.index(", 'a'") + 3, second.index("'s'"), len(second) - 1]:
            self.write("t.sql", first + second[:end])
            self.fails(1, "convert: t.sql:2: INSERT INTO t VALUES .. isn't whole: a quote or a parenthesis is open. Is the file cut off?\n", "t.sql", "--alter", "x")

    def test_rows_that_do_not_fit(self):
        """A row with another number of values than columns, or of a column that isn't there, is left for the program to refuse."""
        table = "CREATE TABLE t (id INT PRIMARY KEY, a INT);\n"
        for insert, row, why in (
            ("INSERT INTO t VALUES (1)", "(1)", "it has 1 values, and there are 2 columns"),
            ("INSERT INTO t VALUES (1, 2, 3)", "(1, 2, 3)", "it has 3 values, and there are 2 columns"),
            ("INSERT INTO t (id, b) VALUES (1, 2)", "(1, 2)", "there is no column b"),
        ):
            plan, notes = self.convert(table + insert, "--alter", "ADD c INT")
            self.assertEqual(plan["tables"][0]["rows"], [row])
            self.assertTrue(notes.startswith(f"2: left as it is: a row of t: {why} (58)\n"), notes)

    def test_standard_input(self):
        words = [TOOLS / "convert", "-", "--alter", "ADD a INT"]
        ran = subprocess.run(words, capture_output=True, input=b"CREATE TABLE t (id INT(11) PRIMARY KEY, a DATE)")
        self.assertEqual(ran.returncode, 0)
        self.assertIn(b"  a VARCHAR(10)\n", ran.stdout)
        self.assertIn(b"standard input:1: column a: DATE as VARCHAR(10): ", ran.stderr)

    def test_several_tables(self):
        text = "CREATE TABLE t (id INT PRIMARY KEY); CREATE TABLE u (id INT PRIMARY KEY); INSERT INTO u VALUES (1); INSERT INTO v VALUES (2)"
        plan, notes = self.convert(text, "--table", "U", "--alter", "ADD a INT")
        self.assertEqual(plan["table"], "u")
        self.assertEqual([table.get("rows") for table in plan["tables"]], [None, ["(1)"]])
        self.assertEqual(notes, "1: rows of v are left out: the file has no CREATE TABLE of it before\n 1 change\n")

    def test_rows(self):
        text = "CREATE TABLE t (id INT PRIMARY KEY, a INT DEFAULT 4);\nINSERT INTO t (a, id) VALUES (1, 2), (3, 4), (5, 6);\nINSERT INTO t (id) VALUES (7)"
        plan, notes = self.convert(text, "--alter", "DROP a", "--rows", "2")
        self.assertEqual(plan["tables"][0]["rows"], ["(2, 1)", "(4, 3)"])
        self.assertIn("table t: the rows after the first 2 are left out\n", notes)
        plan, _ = self.convert(text, "--alter", "DROP a")
        self.assertEqual(plan["tables"][0]["rows"], ["(2, 1)", "(4, 3)", "(6, 5)", "(7, 4)"])

    def test_long_values(self):
        text = f"CREATE TABLE t (id INT PRIMARY KEY, a TEXT, b BLOB);\nINSERT INTO t VALUES (1, '{'é' * 1001}', 0x{'ff' * 1001})"
        plan, notes = self.convert(text, "--alter", "DROP a")
        self.assertIn("2: left as it is: column a: a value of 1,001 characters (58); --shorten cuts it\n", notes)
        self.assertIn("2: left as it is: column b: a value of 1,001 bytes (58); --shorten cuts it\n", notes)
        plan, notes = self.convert(text, "--alter", "DROP a", "--shorten")
        number, first, second = plan["tables"][0]["rows"][0].strip("()").split(", ")
        self.assertEqual(number, "1")
        # The sums are those that sha256sum prints of the text's 2,002 bytes and of the 1,001 bytes.
        self.assertEqual(first, f"'{'é' * 983}#8095095994e57c6a'")
        self.assertEqual(second, f"x'{'ff' * 983}{b'#925a5b9e85deef24'.hex()}'")
        self.assertNotIn("left as", notes)

    def test_bytes_that_are_no_text(self):
        self.write("t.sql", b"CREATE TABLE t (id INT PRIMARY KEY, b BLOB);\nINSERT INTO t VALUES (1, _binary '\xff\\0\\'')")
        ran = convert("t.sql", "--alter", "DROP b", folder=self.folder)
        self.assertIn(b"(1, x'ff0027')", ran.stdout)

    def test_texts_of_a_plan(self):
        texts = ["a", 'say "a"', "it's", "''", "a\\b", "'", "'x'", "tab\there"]
        rows = ", ".join(f"({at}, '{text.replace(chr(92), chr(92) * 2).replace(chr(39), chr(39) * 2)}')" for at, text in enumerate(texts))
        plan, _ = self.convert(f"CREATE TABLE t (id INT PRIMARY KEY, a VARCHAR(9));\nINSERT INTO t VALUES {rows}", "--alter", "DROP a")
        for at, (row, text) in enumerate(zip(plan["tables"][0]["rows"], texts)):
            values = [value_of(part) for part in [[word] for word in words_of(row) if word.kind in ("number", "text")]]
            self.assertEqual([values[0].value, values[1].value], [at, text])

    def test_clients_without_semicolons(self):
        self.write("c", "BEGIN\nDELETE FROM t WHERE id = 1 -- gone\n\nCOMMIT\n")
        self.write("d", "DELETE FROM t WHERE\n  id = 2;")
        plan, notes = self.convert("CREATE TABLE t (id INT PRIMARY KEY)", "--alter", "ADD a INT", "--client", "c", "--client", "d")
        self.assertEqual(plan["clients"], ["BEGIN\nDELETE FROM t WHERE id = 1\nCOMMIT\n", "DELETE FROM t WHERE id = 2\n"])
        self.assertEqual(notes, " 0 changes\n")

    def test_transactions(self):
        scripts = {
            "SET autocommit=0; DELETE FROM t WHERE id IN (1, 2); COMMIT; DELETE FROM t; ROLLBACK; COMMIT": (
                "BEGIN\nDELETE FROM t WHERE id = 1\nDELETE FROM t WHERE id = 2\nCOMMIT\nBEGIN\nDELETE FROM t\nROLLBACK\n"
            ),
            "SET @@session.autocommit = OFF; DELETE FROM t; SET autocommit = 1; DELETE FROM t": "BEGIN\nDELETE FROM t\nCOMMIT\nDELETE FROM t\n",
            "START TRANSACTION; DELETE FROM t; COMMIT AND CHAIN; DELETE FROM t; COMMIT AND NO CHAIN RELEASE": (
                "BEGIN\nDELETE FROM t\nCOMMIT\nBEGIN\nDELETE FROM t\nCOMMIT\n"
            ),
            "BEGIN; DELETE FROM t; BEGIN; DELETE FROM t": "BEGIN\nDELETE FROM t\nCOMMIT\nBEGIN\nDELETE FROM t\nCOMMIT\n",
            "COMMIT; SAVEPOINT a; SET NAMES utf8; SELECT 1": "\n",
        }
        for script, wanted in scripts.items():
            self.write("c", script + ";")
            plan, notes = self.convert("CREATE TABLE t (id INT PRIMARY KEY)", "--alter", "ADD a INT", "--client", "c")
            self.assertEqual(plan["clients"], [wanted], script)
            self.assertNotIn("left as", notes)

    def test_numbers_go_on_over_all_clients(self):
        """Where the program gives out no numbers, an INSERT without one gets the next, as the scripts stand."""
        self.write("c", "INSERT INTO t (a) VALUES (1)\nINSERT INTO t VALUES (20, 1)\nINSERT INTO t VALUES (NULL, 1)")
        self.write("d", "INSERT INTO t SET a = 1")
        text = "CREATE TABLE t (id BIGINT UNSIGNED PRIMARY KEY AUTO_INCREMENT, a INT); INSERT INTO t VALUES (4, 0)"
        plan, _ = self.convert(text, "--alter", "ADD b INT", "--client", "c", "--client", "d")
        first = "INSERT INTO t (id, a) VALUES (5, 1)\nINSERT INTO t VALUES (20, 1)\nINSERT INTO t VALUES (21, 1)\n"
        self.assertEqual((plan["version"], plan["clients"]), (1, [first, "INSERT INTO t (id, a) VALUES (22, 1)\n"]))

    def test_numbers_of_several_tables(self):
        """AUTO_INCREMENT stays, of the altered table too, and INSERTs ask for numbers as they did."""
        notes = "CREATE TABLE notes (id INT UNSIGNED NOT NULL AUTO_INCREMENT, a INT, PRIMARY KEY (id)) ENGINE=InnoDB AUTO_INCREMENT=7"
        text = f"CREATE TABLE t (id INT AUTO_INCREMENT PRIMARY KEY, a INT) AUTO_INCREMENT=4; {notes}; INSERT INTO notes VALUES (6, 1)"
        self.write("c", "INSERT INTO t (a) VALUES (1); INSERT INTO notes (a) VALUES (1); INSERT INTO notes VALUES (0, 2); REPLACE INTO notes SET a = 3, id = DEFAULT")
        plan, said = self.convert(text, "--alter", "ALTER TABLE t ADD b INT", "--client", "c")
        self.assertEqual(plan["version"], 2)
        columns = ["  id INT PRIMARY KEY AUTO_INCREMENT,", "  id INT UNSIGNED NOT NULL AUTO_INCREMENT,"]
        self.assertEqual([table["create"].split("\n")[1] for table in plan["tables"]], columns)
        self.assertEqual([table["create"].strip().split("\n")[-1] for table in plan["tables"]], [") AUTO_INCREMENT=4", ") ENGINE=InnoDB AUTO_INCREMENT=7"])
        lines = "INSERT INTO t (a) VALUES (1)\nINSERT INTO notes (a) VALUES (1)\nINSERT INTO notes VALUES (0, 2)\nREPLACE INTO notes (a, id) VALUES (3, NULL)\n"
        self.assertEqual(plan["clients"], [lines])
        self.assertEqual(said, "c:1: INSERT .. SET as INSERT .. VALUES\n 1 change\n")

    def test_numbers_in_an_alter(self):
        """The ALTER's clause of the column keeps AUTO_INCREMENT, under another name too; the first that takes it away decides."""
        text = "CREATE TABLE t (id INT NOT NULL AUTO_INCREMENT, a INT, PRIMARY KEY (id))"
        left = "1: column id: AUTO_INCREMENT is left out: an INSERT without a number gets the next one here, as the scripts stand and not as they run: "
        wide = "BIGINT UNSIGNED, which gives out no numbers in the program"
        self.write("c", "INSERT INTO t (a) VALUES (1)")
        for alter, wanted, why in (
            ("MODIFY id BIGINT AUTO_INCREMENT", "MODIFY COLUMN id BIGINT NOT NULL AUTO_INCREMENT", None),
            ("CHANGE COLUMN id n BIGINT NOT NULL AUTO_INCREMENT FIRST", "CHANGE COLUMN id n BIGINT NOT NULL AUTO_INCREMENT FIRST", None),
            ("ENGINE=InnoDB", "MODIFY COLUMN `id` INT NOT NULL AUTO_INCREMENT", None),
            ("DROP a, AUTO_INCREMENT=9", "DROP a", None),
            ("MODIFY COLUMN ID INT NOT NULL", "MODIFY COLUMN ID INT NOT NULL", "the ALTER takes it away"),
            ("CHANGE id n BIGINT NOT NULL AUTO_INCREMENT, MODIFY n INT NOT NULL", None, "the ALTER takes it away"),
            ("MODIFY id BIGINT UNSIGNED NOT NULL AUTO_INCREMENT", "MODIFY COLUMN id BIGINT UNSIGNED NOT NULL", f"the ALTER makes the column {wide}"),
            ("DROP COLUMN id, ADD COLUMN b INT", None, "the ALTER drops the column"),
        ):
            with self.subTest(alter):
                plan, said = self.convert(text, "--alter", alter, "--client", "c")
                self.assertIn(plan["alter"], (wanted, plan["alter"] if wanted is None else wanted))
                self.assertEqual(f"{left}{why}\n" in said, why is not None)
                line = "INSERT INTO t (id, a) VALUES (1, 1)\n" if why else "INSERT INTO t (a) VALUES (1)\n"
                self.assertEqual((plan["version"], plan["clients"]), (1 if why else 2, [line]))

    def test_number_that_an_alter_gives(self):
        """The program lets no ALTER give a column AUTO_INCREMENT."""
        plan, said = self.convert("CREATE TABLE t (id INT PRIMARY KEY)", "--alter", "MODIFY id INT AUTO_INCREMENT")
        self.assertEqual((plan["version"], plan["alter"]), (1, "MODIFY COLUMN id INT NOT NULL"))
        self.assertIn("--alter: column id: AUTO_INCREMENT is left out: ", said)

    def test_rows_with_numbers_of_their_own(self):
        """A row that draws its number clashes with none where there is no other unique key."""
        text = "CREATE TABLE t (id INT AUTO_INCREMENT PRIMARY KEY, a INT)"
        update = "ON DUPLICATE KEY UPDATE a = VALUES(a)"
        self.write("c", f"INSERT INTO t (a) VALUES (1) {update}; INSERT INTO t VALUES (NULL, 2), (7, 3) {update}")
        plan, said = self.convert(text, "--alter", "ADD b INT", "--client", "c")
        second = "BEGIN\nINSERT INTO t VALUES (NULL, 2)\nINSERT INTO t VALUES (7, 3)\nUPDATE t SET a = 3 WHERE `id` = 7\nCOMMIT\n"
        self.assertEqual(plan["clients"], [f"INSERT INTO t (a) VALUES (1)\n{second}"])
        self.assertIn("c:1: ON DUPLICATE KEY UPDATE is left out: each row gets a number of its own, and the table has no other unique key\n", said)
        self.assertNotIn("left as", said)

    def test_numbers_behind_the_tables(self):
        """The same where keys and numbers are added behind all tables, as phpMyAdmin prints them."""
        behind = "ALTER TABLE u ADD PRIMARY KEY (id); ALTER TABLE u MODIFY id INT NOT NULL AUTO_INCREMENT, AUTO_INCREMENT=40"
        plan, said = self.convert(f"CREATE TABLE t (id INT PRIMARY KEY); CREATE TABLE u (id INT NOT NULL); {behind}", "--table", "t", "--alter", "ADD b INT")
        self.assertEqual((plan["version"], plan["tables"][1]["create"]), (2, "CREATE TABLE u (\n  id INT NOT NULL AUTO_INCREMENT,\n  PRIMARY KEY (id)\n) AUTO_INCREMENT=40\n"))
        self.assertEqual(said, " 0 changes\n")

    def test_numbers_that_the_program_does_not_give_out(self):
        for columns, why in (
            ("id BIGINT UNSIGNED AUTO_INCREMENT PRIMARY KEY", "a column of BIGINT UNSIGNED gives out no numbers in the program"),
            ("id BIGINT(20) UNSIGNED AUTO_INCREMENT PRIMARY KEY", "a column of BIGINT(20) UNSIGNED gives out no numbers in the program"),
            ("id INT AUTO_INCREMENT, a INT NOT NULL, PRIMARY KEY (id, a)", "in the program the column is the PRIMARY KEY alone"),
            ("a INT PRIMARY KEY, id INT AUTO_INCREMENT UNIQUE", "in the program the column is the PRIMARY KEY alone"),
        ):
            self.write("c", "INSERT INTO u (a) VALUES (5)")
            plan, said = self.convert(f"CREATE TABLE t (id INT PRIMARY KEY); CREATE TABLE u ({columns}) AUTO_INCREMENT=3", "--table", "t", "--alter", "ADD b INT", "--client", "c")
            self.assertEqual((plan["version"], plan["clients"]), (1, ["INSERT INTO u (id, a) VALUES (3, 5)\n"]))
            self.assertIn(f"1: column id: AUTO_INCREMENT is left out: an INSERT without a number gets the next one here, as the scripts stand and not as they run: {why}\n", said)

    def test_alter_of_which_nothing_is_left(self):
        plan, notes = self.convert("CREATE TABLE t (id INT NOT NULL COMMENT 'a', PRIMARY KEY (id))", "--alter", "ENGINE=InnoDB")
        self.assertEqual(plan["alter"], "MODIFY COLUMN `id` INT NOT NULL COMMENT 'a'")
        self.assertIn("--alter: nothing is left of the ALTER, so that it builds the table anew: column id is declared as it is\n", notes)

    def test_clauses_on_those_before(self):
        text = "CREATE TABLE t (id INT AUTO_INCREMENT PRIMARY KEY, a DATE, g INT AS (id), KEY (a))"
        clauses = "MODIFY id BIGINT AUTO_INCREMENT, CHANGE a b DATETIME, ALTER b SET DEFAULT '2024-01-01', DROP b, ADD c INT AFTER g"
        plan, notes = self.convert(text, "--alter", clauses)
        first = "MODIFY COLUMN id BIGINT NOT NULL AUTO_INCREMENT, CHANGE COLUMN a b VARCHAR(19), "
        second = "MODIFY COLUMN `b` VARCHAR(19) NULL DEFAULT '2024-01-01 00:00:00', DROP b, ADD COLUMN c INT"
        self.assertEqual(plan["alter"], first + second)
        self.assertIn("--alter: column id: NOT NULL is added: it is in the PRIMARY KEY\n", notes)
        self.assertIn("--alter: a gets the name b: the plan needs approve_renamed_columns = true (28), as gh-ost does\n", notes)
        self.assertIn("--alter: column b: DATE to DATETIME: what is stored stays as it is written\n", notes)
        self.assertIn("--alter: AFTER g is left out: that column is\n", notes)

    def test_clauses_that_are_left(self):
        text = "CREATE TABLE t (id INT PRIMARY KEY, a INT)"
        for clause in ("DROP PRIMARY KEY", "DROP PARTITION p", "ADD PARTITION (PARTITION p VALUES IN (1))", "TRUNCATE PARTITION p", "RENAME TO s"):
            plan, notes = self.convert(text, "--alter", clause)
            self.assertEqual(plan["alter"], clause)
            self.assertTrue(notes.startswith(f"--alter: left as it is: {clause} is no clause that the program reads\n"), notes)

    def test_no_key(self):
        _, notes = self.convert("CREATE TABLE t (id INT, UNIQUE (id))", "--alter", "ADD a INT")
        self.assertIn("1: left as it is: table t has no PRIMARY KEY, nor a unique key without nulls, and gh-ost needs one (14)\n", notes)


class Literals(unittest.TestCase):
    """How a literal is written in a column of a kind. What MySQL stores is by its manual's chapters on data types."""

    def literal(self, kind, text):
        found, rest, _ = kind_at(words_of(kind))
        self.assertEqual(rest, [])
        return found.now, found.literal(value_of(words_of(text)))

    def test_stored(self):
        for kind, now, literals in (
            ("INT", "INT", {"5": "5", "-5": "-5", "'5'": "'5'", "4.5": "5", "-4.5": "-5", "NULL": "NULL", "TRUE": "1", "0x10": "16"}),
            ("BOOL", "TINYINT", {"FALSE": "0"}),
            ("BIT(9)", "SMALLINT UNSIGNED", {"b'101'": "5", "7": "7", "'a'": "97", "_binary '\\0'": "0", "''": "0"}),
            ("VARCHAR(9)", "VARCHAR(9)", {"'it\\'s'": "'it''s'", '"a"': "'a'", "5": "5", "1.50": "'1.50'", "'a' 'b'": "'ab'", "x'61'": "'a'"}),
            ("CHAR(3)", "VARCHAR(3)", {"'a  '": "'a'", "'  a'": "'  a'"}),
            ("BINARY(3)", "VARBINARY(3)", {"'a'": "x'610000'", "0x0102": "x'010200'"}),
            ("BLOB", "VARBINARY(1000)", {"0xABC": "x'0abc'", "''": "''", "_binary 'a\\0'": "x'6100'"}),
            ("DATE", "VARCHAR(10)", {"'2024-1-5'": "'2024-01-05'", "'2024-01-05 10:11:12'": "'2024-01-05'", "20240105": "'2024-01-05'"}),
            ("DATETIME", "VARCHAR(19)", {"'2024-01-05'": "'2024-01-05 00:00:00'", "NOW()": "'2000-01-01 00:00:00'"}),
            ("TIMESTAMP(3)", "VARCHAR(23)", {"'2024-01-05T10:11:12.5'": "'2024-01-05 10:11:12.500'", "20240105101112": "'2024-01-05 10:11:12.000'"}),
            ("TIME", "VARCHAR(10)", {"'-838:59:59'": "'-838:59:59'"}),
            ("YEAR", "SMALLINT UNSIGNED", {"2024": "2024", "'2024'": "'2024'"}),
            ("DECIMAL(5,2)", "VARCHAR(7)", {"1": "'1.00'", "'1.5'": "'1.50'", "-1.005": "'-1.01'", "-0.001": "'0.00'", "1e2": "'100.00'"}),
            ("DECIMAL(2,2) UNSIGNED", "VARCHAR(4)", {".5": "'0.50'"}),
            ("NUMERIC", "VARCHAR(11)", {"7": "'7'", "'0'": "'0'"}),
            ("DOUBLE", "VARCHAR(24)", {"1.0": "'1'", "0.1": "'0.1'", "1e20": "'1e20'", "-2.5e-10": "'-2.5e-10'", "'1e3'": "'1000'"}),
            ("FLOAT", "VARCHAR(24)", {"3.14159274": "'3.14159'", "0.5": "'0.5'"}),
            ("ENUM('a','B')", "VARCHAR(1)", {"'b'": "'B'", "1": "'a'"}),
            ("SET('a','b','c')", "VARCHAR(5)", {"'c,a'": "'a,c'", "6": "'b,c'", "''": "''"}),
            ("JSON", "VARCHAR(1000)", {"'{\\\"a\\\": 1}'": "'{\"a\": 1}'"}),
        ):
            for text, wanted in literals.items():
                with self.subTest(kind=kind, text=text):
                    self.assertEqual(self.literal(kind, text), (now, wanted))

    def test_kept(self):
        for kind, text, wanted in (
            ("DATE", "'5 May'", "'5 May'"),
            ("DATETIME(1)", "'2024-01-05 10:11:12.55'", "'2024-01-05 10:11:12.55'"),
            ("DECIMAL(5,2)", "'many'", "'many'"),
            ("ENUM('a')", "'b'", "'b'"),
            ("ENUM('a')", "2", "'2'"),
            ("SET('a')", "'a,b'", "'a,b'"),
            ("VARCHAR(9)", "0xff", "x'ff'"),
        ):
            with self.subTest(kind=kind, text=text), self.assertRaises(Kept) as kept:
                self.literal(kind, text)
            self.assertEqual(kept.exception.text, wanted)

    def test_left(self):
        for kind, text in (("INT", "a + 1"), ("VARCHAR(9)", "UUID()"), ("INT", "NOW()"), ("DATE", "?"), ("INT", "(SELECT 1)")):
            with self.subTest(kind=kind, text=text), self.assertRaises(Left):
                self.literal(kind, text)

    def test_kinds_that_the_program_has_nothing_like(self):
        for kind in ("POINT", "GEOMETRY", "VECTOR(3)", "frob"):
            self.assertIsNone(kind_at(words_of(kind))[0])


class Words(unittest.TestCase):
    def test_words(self):
        text = "a.`b``c`='it''s\\'' -- x\n/* y */ /*!80000 INVISIBLE */ 1.5e-3 x'0A' 0x1F b'1' <=> 2fa # z"
        found = [(word.kind, word.text, word.line) for word in words_of(text)]
        first = [("name", "a", 1), ("sign", ".", 1), ("quoted", "`b``c`", 1), ("sign", "=", 1), ("text", "'it''s\\''", 1)]
        second = [("name", "INVISIBLE", 2), ("number", "1.5e-3", 2), ("bytes", "x'0A'", 2), ("bytes", "0x1F", 2), ("bits", "b'1'", 2)]
        self.assertEqual(found, [*first, *second, ("sign", "<=>", 2), ("name", "2fa", 2)])
        self.assertEqual(written(words_of("a  =\n 'b\nc' ,d")), "a = 'b\\nc' ,d")

    def test_text_values(self):
        for text, value in (("'a''b'", "a'b"), ('"a\'b"', "a'b"), ("'\\''''", "''"), ("'\\n\\0\\%\\x'", "\n\0\\%x"), ("'\\\\'", "\\")):
            self.assertEqual(text_value(text), value)

    def test_statements(self):
        text = "A;;B 'x;y';\nDELIMITER ;;\nC; D ;;\nDELIMITER ;\nE"
        self.assertEqual([written(statement) for statement in statements_in(text)], ["A", "B 'x;y'", "DELIMITER", "E"])


if __name__ == "__main__":
    unittest.main()
