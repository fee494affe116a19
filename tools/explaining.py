"""Where a plan is refused: part by part, in the order in which the program reads them, each mended before the next."""
import copy
import difflib
import re
import tomllib

from asking import value
from faults import Fault, Search, nearest, short, words_of
from sql import closing

CREATE_WORDS = (10, 11)
# An AUTO_INCREMENT that no number can be given out of.
NUMBERS_GIVEN = 32
ALTER_WORDS = (20, 25, 26, 29, 31)
LINE_WORDS = (40, 41, 42)
NAME = "explained_"
COLUMN = f"{NAME} INT PRIMARY KEY"
CLAUSE = f"ADD COLUMN {NAME}0 INT"
# How many places of a sort are looked for.
MOST_PLACES = 20
# What may be read in the place of words that aren't.
PLAIN = ("'x'", "1000", "x", "INT")
LINE_PLAIN = (*PLAIN, "FROM {}", "INTO {}", "VALUES {}", "SET {}", "*", "= 1", "VALUES")
VALUES = ("0", "'x'", "x'00'", "NULL", "987654321", "''")
# How a text may go on where it is cut off. Which of them is read there, the program says.
ITEM_ENDS = ("", " INT", " NULL", " 'x'", " (9)", " 9)", " )", " KEY", " (x)", " x)", " x (x)", " SET x", " x", " x INT")
TAIL_ENDS = ("", " x", " 'x'", " CHARSET x", " SET x")
HEAD_ENDS = ("", " x", " TABLE x")
CLAUSE_ENDS = (*ITEM_ENDS, " COLUMN x TO y", " x TO y", " TO y", " y", " TABLE x DROP y")
LINE_ENDS = (
    *("", " 'x'", " = 1", " x = 1", " )", " 1)", " (1)", " VALUES (1)", " x) VALUES (1)", " ) VALUES (1)", " x VALUES (1)"),
    *(" INTO x VALUES (1)", " x", " FROM x", " x FROM x", " * FROM x", " *) FROM x", " ) FROM x", " SET x = 1", " x SET x = 1"),
    *(" AND 1", " TRANSACTION", " > 1", " x = 1 AND x = 1"),
)
KEYS = ("version", "table", "alter", "tables", "clients", "operator", "faults", "turns", "options")
TABLE_KEYS = ("create", "rows")
LEAVE_TO_DROP = ("initially_drop_ghost_table", "initially_drop_old_table")
NUMBERS = (0, 1, 64, 1_000, 100_000, 1_000_000)
COMMANDS = ("throttle", "no-throttle", "unpostpone", "panic", "wait 1", "chunk-size=1")


def values_like(word):
    """Values, those of a word's sort first."""
    return sorted(VALUES, key=lambda value: words_of(value)[0].kind != word.kind)


def pieces(text, words, sign=","):
    """The parts of a text between signs outside parentheses, each with its words' text and where that begins."""
    depth, first, found = 0, 0, []
    for at, word in enumerate(words):
        depth += word.is_sign("(") - word.is_sign(")")
        if depth == 0 and word.is_sign(sign):
            found.append(words[first:at])
            first = at + 1
    return [(text[part[0].at : part[-1].end()], part[0].at) for part in [*found, words[first:]] if part]


def without_numbers(text):
    """A text without AUTO_INCREMENT, as an attribute and as a table's option."""
    return re.sub(r"(?i)\s*\bAUTO_INCREMENT\b(\s*=?\s*\d+)?", "", text)


def first_line(text, at):
    return 1 + text[:at].count("\n")


def advice(document, codes):
    """What the tables of docs/REFUSALS.md say of codes: when they come, and what to do."""
    lines = []
    for code in sorted(codes):
        for line in document.split("\n"):
            cells = [re.sub(r"\[([^]]*)\]\([^)]*\)", r"\1", cell).strip() for cell in line.strip("| ").split(" | ")]
            found = re.search(rf"(?:^|, ){code} `(\w+)`", cells[0]) if line.startswith("|") else None
            if found:
                lines.append(f"{code} {found[1]}: {cells[1]}.")
                lines += [f"    {cells[2].rstrip('|').strip()}"] if len(cells) > 2 and cells[2].strip("| ") else []
    return ["", *lines] if lines else []


def options_of(document):
    """The names of a plan's options, by the table of docs/LIMITS.md."""
    table = re.search(r"(?m)^\| Option \|.*\n((?:\|.*\n)*)", document)
    rows = [line.split(" | ")[0] for line in (table[1] if table else "").split("\n")]
    return [name for cell in rows for name in re.findall(r"`(\w+)`", cell)]


class Explanation:
    """`asking` asks the program, `data` is the plan, and `options` are the names that a plan's options may have."""

    def __init__(self, asking, data, options):
        self.asking, self.data, self.options = asking, data, options
        self.found, self.codes = [], set()
        self.is_refused, self.has_clause, self.version = False, True, 1

    def lines(self):
        refusal = self.asking.bytes(self.data)
        if refusal is None:
            return ["the plan isn't refused"]
        self.is_refused = True
        self.found.append(refusal.line())
        self.codes.add(refusal.code)
        if refusal.code == 50:
            self.explain_document()
        elif refusal.code != 59:
            self.explain_plan(refusal)
        return self.found

    def point(self, where, text=""):
        """Adds a place, with the text that stands there."""
        self.found.append(f"{where}: {short(text)}" if text else where)

    def reason(self, code, text):
        """Adds why the place before it is refused."""
        self.codes.add(code)
        self.found.append(f"    {code}: {text}")

    def code(self, plan):
        return self.asking.code(plan)

    # The document

    def explain_document(self):
        """Which lines aren't TOML: those without which the document is."""
        lines = self.data.split(b"\n")
        for at, line in enumerate(lines if len(lines) <= 2000 else []):
            refusal = self.asking.bytes(b"\n".join([*lines[:at], b"", *lines[at + 1 :]]))
            if refusal is None or refusal.code != 50:
                self.point(f"line {at + 1}", line.decode("utf-8", "replace"))
                self.reason(50, "the line isn't read: without it the rest is")
        try:
            tomllib.loads(self.data.decode())
        except UnicodeDecodeError as error:
            self.point(f"byte {error.start + 1} isn't UTF-8")
        except tomllib.TOMLDecodeError as error:
            self.point(f"Python's reader of TOML says: {error}")

    def explain_plan(self, first):
        try:
            plan = tomllib.loads(self.data.decode("utf-8"))
        except (tomllib.TOMLDecodeError, UnicodeDecodeError) as error:
            self.point(f"this script can't read the plan: {error}")
            return
        self.version = 2 if plan.get("version") == 2 else 1
        if 51 <= first.code <= 55:
            plan = self.mended_keys(plan)
        for part in (self.tables, self.rows, self.names, self.alter, self.clients, self.operator, self.faults, self.turns):
            if plan is not None:
                plan = part(plan)
        if plan is not None:
            self.rest(plan)

    def rest(self, plan):
        """What is still refused once all places are mended."""
        refusal = self.asking.plan(plan)
        if refusal is None or (20 <= refusal.code <= 31 and not self.has_clause):
            return
        if len(self.found) > 1:
            self.point(f"once that is mended: {refusal.line()}")
        self.codes.add(refusal.code)

    # Keys

    def least(self, **keys):
        """The least plan, with other keys in it."""
        return {"version": self.version, "table": NAME, "alter": CLAUSE, "tables": [{"create": f"CREATE TABLE {NAME} ({COLUMN})"}], **keys}

    def mended_keys(self, plan):
        """The plan with keys, types and numbers that are read; none where one can't be mended."""
        plan = copy.deepcopy(plan)
        for number, table in enumerate(plan.get("tables") or [], 1):
            if isinstance(table, dict):
                in_table = lambda keys: self.least(tables=[{"create": f"CREATE TABLE {NAME} ({COLUMN})", **keys}])
                self.mend_keys(table, f"table {number}, ", TABLE_KEYS, in_table)
        if isinstance(plan.get("options"), dict):
            self.mend_keys(plan["options"], "options, ", self.options, lambda keys: self.least(options=keys))
        self.mend_keys(plan, "", KEYS, lambda keys: self.least(**keys))
        self.count_keys(plan)
        for key in [key for key in KEYS[:4] if key not in plan]:
            self.point(f"key {key}")
            self.reason(52, "it isn't there")
            return None
        refusal = self.asking.plan(plan)
        if refusal is not None and 51 <= refusal.code <= 55:
            self.rest(plan)
            return None
        return plan

    def mend_keys(self, keys, where, known, with_keys):
        """Mends keys one at a time, each alone in the least plan that `with_keys` makes of it."""
        for key in list(keys):
            code = self.code(with_keys({key: keys[key]}))
            if code not in (51, 53, 54):
                continue
            self.point(f"{where}key {key}", value(keys[key]))
            if code == 51:
                names = [name for name in difflib.get_close_matches(key, known, 3) if name not in keys]
                name = next((name for name in names if self.code(with_keys({name: keys[key]})) not in (51, 53, 54)), None)
                self.reason(code, f"`{key}` isn't read: " + (f"`{name}` in its place is" if name else "without it the rest is"))
                it = keys.pop(key)
                keys.update({name: it} if name else {})
            else:
                values = [it for it in others(keys[key]) if self.code(with_keys({key: it})) not in (51, 53, 54)]
                instead = f": `{short(value(values[0]))}` in its place is" if values else ""
                self.reason(code, f"`{short(value(keys[key]))}` isn't read{instead}")
                if values:
                    keys[key] = values[0]
                elif key not in KEYS[:4]:
                    del keys[key]

    def count_keys(self, plan):
        """Says which lists have more than the program takes: those with whose first alone the plan isn't refused so."""
        refusal = self.asking.plan(plan)
        while refusal is not None and refusal.code == 55:
            fewer = {key: first_of(plan[key]) for key in KEYS[3:8] if key in plan}
            fewer["tables"] = [{**table, "rows": table.get("rows", [])[:1]} for table in plan["tables"]]
            key = next((key for key, it in fewer.items() if self.code({**plan, key: it}) != 55), None)
            if key is None:
                return
            self.point("rows" if key == "tables" else f"key {key}")
            self.reason(55, "they are too many: with the first alone the plan is read")
            plan[key] = fewer[key]
            refusal = self.asking.plan(plan)

    # Tables

    def tables(self, plan):
        """The plan with tables that are read, and without their rows; none where a table can't be mended."""
        self.all_rows = [table.get("rows", []) for table in plan["tables"]]
        self.table = plan["table"]
        found = []
        for number, table in enumerate(plan["tables"], 1):
            create = self.mended_create(number, table["create"])
            if create is None:
                return None
            found.append({"create": create})
        return {**plan, "table": self.table, "tables": found}

    def create_code(self, text):
        code = self.code(self.least(table=self.table, tables=[{"create": text}]))
        return code if code is not None and (10 <= code <= 19 or code == NUMBERS_GIVEN) else None

    def words_code(self, text):
        """The same where words are refused."""
        code = self.create_code(text)
        return code if code in CREATE_WORDS else None

    def mended_create(self, number, text):
        code = self.create_code(text)
        if code is None:
            return text
        words = words_of(text)
        opening = next((at for at, word in enumerate(words) if word.is_sign("(")), None)
        if opening is None or closing(words, opening) == len(words):
            search = Search(self.words_code, [f"{end})" for end in ITEM_ENDS], PLAIN)
            faults, mended = search.faults(text)
            self.show(f"table {number}, ", 1, text, faults)
            return mended if mended is None or self.create_code(mended) is None else None
        end = closing(words, opening)
        head, tail = text[: words[opening].at], text[words[end].end() :]
        mended = self.head(number, self.piece(number, text, 0, head, lambda part: f"{part} ({COLUMN})", HEAD_ENDS))
        if mended is None:
            return None
        items = []
        for item, at in pieces(text, words[opening + 1 : end]):
            items.append(self.piece(number, text, at, item, lambda part: f"CREATE TABLE {NAME} ({COLUMN}, {part}\n)", ITEM_ENDS))
        tail = self.piece(number, text, words[end].end(), tail, lambda part: f"CREATE TABLE {NAME} ({COLUMN}){part}", TAIL_ENDS)
        return self.mended_table(number, *self.mended_numbers(number, mended, [item for item in items if item is not None], tail or ""))

    def mended_numbers(self, number, head, items, tail):
        """What makes a table of items, and the items, with which its numbers can be given out where all else is read."""
        create = lambda items, tail=tail: f"{head} ({', '.join(items)}){tail}"
        if self.create_code(create(items)) != NUMBERS_GIVEN:
            return create, items
        if self.create_code(create(items, without_numbers(tail))) is None:
            self.point(f"table {number}", tail.strip())
            self.reason(NUMBERS_GIVEN, "the table option AUTO_INCREMENT is out of range: without it the table is read")
            return lambda items: create(items, without_numbers(tail)), items
        for at, item in [(at, item) for at, item in enumerate(items) if without_numbers(item) != item]:
            forms = [("UNSIGNED", re.sub(r"(?i)\s+UNSIGNED\b", "", item)), ("AUTO_INCREMENT", without_numbers(item))]
            for word, other in [it for it in forms if it[1] != item]:
                mended = [*items[:at], other, *items[at + 1 :]]
                if self.create_code(create(mended)) is None:
                    self.point(f"table {number}", item)
                    self.reason(NUMBERS_GIVEN, f"it gives out no numbers: without `{word}` the table is read")
                    return create, mended
        return create, items

    def piece(self, number, text, at, part, around, ends):
        """A part of a CREATE TABLE that is read, or none where it can't be mended. `around` makes a whole text of it."""
        code = self.create_code(around(part))
        if code is None:
            return part
        search = Search(lambda part: self.words_code(around(part)), ends, PLAIN, ends is HEAD_ENDS)
        faults, mended = self.constraint(part, around) or (search.faults(part) if code in CREATE_WORDS else ([], part))
        if faults:
            self.show(f"table {number}, ", first_line(text, at), part, faults)
        code = self.create_code(around(mended)) if mended is not None else None
        if code not in (17, 19) or ends is HEAD_ENDS:
            # (a key's columns stand in other parts)
            return mended
        return self.default_or_name(number, text, at, mended, around, code)

    def head(self, number, head):
        """What stands before a table's parenthesis, with a name that a table may have."""
        code = self.create_code(f"{head} ({COLUMN})") if head is not None else None
        if code not in (17, 18):
            return head
        word = words_of(head)[-1]
        name = f"{NAME}{number}"
        self.point(f"table {number}", head)
        self.reason(code, f"`{short(word.text)}` is no name of a table: another in its place is")
        if word.name() == self.table:
            self.table = name
        return head[: word.at] + name

    def constraint(self, part, around):
        """The fault of a part that begins with CONSTRAINT, which the program takes for a column, and the part without it; none
        of another part."""
        words = words_of(part)
        if not words[0].is_word("CONSTRAINT") or len(words) < 3:
            return None
        count = 1 if words[1].is_word("UNIQUE", "PRIMARY", "FOREIGN", "CHECK") else 2
        rest = part[words[count].at :]
        is_read = self.words_code(around(rest)) is None
        code = self.words_code(around(part if is_read else rest))
        fault = Fault(code, part[: words[count - 1].end()] if is_read else part, "" if is_read else None, 1)
        return [fault], rest if is_read else None

    def show(self, where, line, part, faults):
        """The place of faults, and each of them; the words of a part count their lines from 1."""
        self.point(f"{where}line {line + faults[0].line - 1}", part)
        for fault in faults:
            self.reason(fault.code, fault.text())

    def default_or_name(self, number, text, at, part, around, code):
        """A column whose DEFAULT isn't stored, or whose name is too long."""
        self.point(f"table {number}, line {first_line(text, at)}", part)
        words = words_of(part)
        if code == 17:
            self.reason(code, f"`{short(words[0].text)}` is no name of a column: another in its place is")
            return f"{NAME}{at}" + part[words[0].end() :]
        for before, word in zip(words, words[1:]):
            for instead in values_like(word) if before.is_word("DEFAULT") else ():
                new = part[: word.at] + instead + part[word.end() :]
                if self.create_code(around(new)) is None:
                    self.reason(code, f"`{word.text}` isn't stored: `{instead}` in its place is")
                    return new
        self.reason(code, "its DEFAULT isn't stored")
        return None

    def mended_table(self, number, create, items):
        """A table of parts that are read; where the whole isn't, the parts without which it is."""
        for _ in range(MOST_PLACES):
            code = self.create_code(create(items))
            if code is None:
                return create(items)
            if code == 14:
                keys = [f"PRIMARY KEY ({words_of(item)[0].text})" for item in items]
                key = next((key for key in keys if self.create_code(create([*items, key])) is None), None)
                self.point(f"table {number}", create(items))
                self.reason(code, f"with `{key}` it is read" if key else "it has no key")
                items = [*items, key] if key else []
                continue
            # The first part with which those before it are refused so; the columns come first, since keys name them.
            items.sort(key=self.is_key)
            last = next((last for last in range(1, len(items)) if self.create_code(create(items[:last])) == code), len(items)) - 1
            self.point(f"table {number}", items[last])
            self.reason(code, "without it the parts before it are read" if last + 1 < len(items) else "without it the rest is read")
            items = items[:last] + items[last + 1 :]
        return None

    def is_key(self, item):
        return words_of(item)[0].is_word("PRIMARY", "UNIQUE", "KEY", "INDEX")

    # Rows

    def rows(self, plan):
        for number, (table, rows) in enumerate(zip(plan["tables"], self.all_rows), 1):
            self.table_rows(number, table["create"], list(rows))
        return plan

    def rows_refusal(self, create, rows):
        refusal = self.asking.plan(self.least(table=self.table, tables=[{"create": create, "rows": rows}]))
        return refusal if refusal is not None and refusal.code == 58 else None

    def table_rows(self, number, create, rows):
        """Says which rows aren't read, or clash with one before."""
        numbers = list(range(1, len(rows) + 1))
        for _ in range(MOST_PLACES):
            refusal = self.rows_refusal(create, rows)
            if refusal is None:
                return
            at = refusal.numbers[1] - 1
            self.point(f"table {number}, row {numbers[at]}", rows[at])
            if self.rows_refusal(create, [rows[at]]) is None:
                low, high = 0, at
                while low + 1 < high:
                    middle = (low + high) // 2
                    low, high = (low, middle) if self.rows_refusal(create, [*rows[:middle], rows[at]]) else (middle, high)
                self.reason(58, f"it clashes in a unique key with row {numbers[high - 1]}: {short(rows[high - 1])}")
            else:
                self.row(create, rows[at])
            del rows[at], numbers[at]
        self.point(f"table {number}: more rows may be refused")

    def row(self, create, row):
        """Says which values of a row aren't stored, each by its column alone, and what would be."""
        words = words_of(row)
        if not words or not words[0].is_sign("(") or closing(words, 0) != len(words) - 1:
            self.reason(58, "it isn't one list of values in parentheses")
            return
        values, columns = [value for value, _ in pieces(row, words[1:-1])], self.columns(create)
        if len(values) != len(columns):
            self.reason(58, f"values: {len(values)}, columns of the table: {len(columns)}")
            return
        count = len(self.found)
        for place, (value, column) in enumerate(zip(values, columns), 1):
            refusal = self.value_code(column, value)
            size, instead = nearest(words_of(value)) if refusal else (0, "")
            known = ([instead] if size else []) + values_like(words_of(value)[0])
            other = next((other for other in known if refusal and self.value_code(column, other) is None), None)
            if refusal:
                self.reason(58, f"value {place}, `{short(value)}`, isn't stored" + (f": `{other}` in its place is" if other else ""))
        if len(self.found) == count:
            self.reason(58, "a column of its keys stores no NULL" if "NULL" in map(str.upper, values) else "it isn't stored as a whole")

    def columns(self, create):
        """The declarations of a table's columns."""
        words = words_of(create)
        opening = next(at for at, word in enumerate(words) if word.is_sign("("))
        items = pieces(create, words[opening + 1 : closing(words, opening)])
        return [item for item, _ in items if not self.is_key(item)]

    def value_code(self, column, value):
        """Whether a column alone refuses a value."""
        column = without_numbers(column)
        create = f"CREATE TABLE {NAME} ({COLUMN}, {column}\n)"
        if self.create_code(create) is not None:
            return self.rows_refusal(f"CREATE TABLE {NAME} ({column}\n)", [f"({value})"])
        return self.rows_refusal(create, [f"(1, {value})"])

    # Names

    def names(self, plan):
        """The plan with a `table` that is the name of one of its tables, and with leave to drop what an earlier one left."""
        refusal = self.asking.plan({**self.without(plan, *KEYS[4:8]), "alter": CLAUSE})
        if refusal is None or refusal.code not in (56, 57) or refusal.place:
            return plan
        if refusal.code == 56:
            self.point("key table", plan["table"])
            for table in plan["tables"]:
                opening = next(at for at, word in enumerate(words_of(table["create"])) if word.is_sign("("))
                name = words_of(table["create"])[opening - 1].name()
                if self.code({**self.without(plan, *KEYS[4:8]), "alter": CLAUSE, "table": name}) != 56:
                    self.reason(56, f"`{plan['table']}` isn't the name of a table: `{name}` is")
                    return self.names({**plan, "table": name})
            self.reason(56, "no table has this name")
            return None
        for option in LEAVE_TO_DROP:
            options = {**plan.get("options", {}), option: True}
            if self.code({**self.without(plan, *KEYS[4:8]), "alter": CLAUSE, "options": options}) != 57:
                self.point("tables")
                self.reason(57, f"with `{option} = true` among the options they are read")
                return {**plan, "options": options}
        self.point("tables")
        self.reason(57, "what an earlier migration left is among them")
        return None

    def without(self, plan, *keys):
        return {key: value for key, value in plan.items() if key not in keys}

    # ALTER

    def alter_code(self, plan, text):
        code = self.code({**self.without(plan, *KEYS[4:8]), "alter": text})
        return code if code is not None and 20 <= code <= 31 else None

    def alter(self, plan):
        """The plan with the clauses of its ALTER that are read, each on those before it."""
        text = plan["alter"]
        if self.alter_code(plan, text) is None:
            return plan
        words = words_of(text)
        front = words[2].end() if len(words) > 2 and words[0].is_word("ALTER") and words[1].is_word("TABLE") else 0
        if front and self.alter_code(plan, f"{text[:front]} {CLAUSE}") is not None:
            self.point("alter", text[:front])
            self.reason(20, f"`{short(text[:front])}` isn't read: without it the clauses are")
        taken, count = [], len(self.found)
        for clause, at in pieces(text, [word for word in words if word.at >= front]):
            mended = self.clause(plan, first_line(text, at), clause, taken)
            taken += [mended] if mended is not None else []
        if len(self.found) == count and not front:
            self.point("alter", text)
            self.reason(20, "a comma has no clause on both sides" if taken else "it has no clause")
        self.has_clause = bool(taken)
        return {**plan, "alter": ", ".join(taken) or CLAUSE}

    def clause(self, plan, line, clause, taken):
        """A clause that is read after others, or none where it can't be mended."""
        code = self.alter_code(plan, ", ".join([*taken, clause]))
        if code is None:
            return clause
        if self.clause_code(clause) is not None:
            faults, mended = Search(self.clause_code, CLAUSE_ENDS, PLAIN).faults(clause)
            self.show("alter, ", line, clause, faults)
            code = self.alter_code(plan, ", ".join([*taken, mended])) if mended else None
            if code is None:
                return mended
            clause = mended
        self.point(f"alter, line {line}", clause)
        return self.mended_clause(plan, clause, taken, code)

    def clause_code(self, text):
        """The code by which the words of a clause are refused."""
        code = self.alter_code(self.least(), text)
        return code if code in ALTER_WORDS else None

    def mended_clause(self, plan, clause, taken, code):
        """A clause whose words are read, but which can't be done after those before it."""
        reads = lambda text, plan=plan: self.alter_code(plan, ", ".join([*taken, text])) is None
        if code == 28:
            options = {**plan.get("options", {}), "approve_renamed_columns": True}
            if reads(clause, {**plan, "options": options}):
                self.reason(code, "with `approve_renamed_columns = true` among the options it is done")
                plan.setdefault("options", {})["approve_renamed_columns"] = True
                return clause
        for default in (" DEFAULT 0", " DEFAULT ''") if code == 27 else ():
            if reads(clause + default):
                self.reason(code, f"with `{default.strip()}` it is done")
                return clause + default
        names = {word.name() for table in plan["tables"] for word in words_of(table["create"]) if word.is_name()}
        known = {21: sorted(names), 22: [f"{NAME}1"]}.get(code, ())
        for word in [word for word in words_of(clause) if word.is_name()]:
            for name in difflib.get_close_matches(word.name(), known, len(known) or 1, 0):
                new = clause[: word.at] + f"`{name}`" + clause[word.end() :]
                if name != word.name() and reads(new):
                    self.reason(code, f"`{word.text}` isn't there: `{name}` is" if code == 21 else f"`{word.text}` is there already")
                    return new
        self.reason(code, "it is refused as a whole" + (", after the clauses before it" if taken else ""))
        return None

    # Scripts

    def clients(self, plan):
        """The plan with scripts that are read."""
        scripts = list(plan.get("clients", []))
        others = self.without(plan, *KEYS[5:8])
        for _ in range(MOST_PLACES):
            refusal = self.asking.plan({**others, "clients": scripts})
            if refusal is None or not 40 <= refusal.code <= 46:
                return {**plan, "clients": scripts} if scripts else plan
            number, line = refusal.numbers[:2]
            lines = scripts[number - 1].split("\n")
            self.line(plan, f"client {number}, line {line}", lines, line - 1, refusal.code)
            scripts[number - 1] = "\n".join(lines)
        self.point("more lines of clients may be refused")
        return None

    def line(self, plan, where, lines, at, code):
        """Says why a line of a script is refused, and mends it or takes it out."""
        text, lines[at] = lines[at], ""
        self.point(where, text)
        if code in LINE_WORDS:
            faults, mended = Search(self.line_code, LINE_ENDS, LINE_PLAIN).faults(text.strip())
            for fault in faults:
                self.reason(fault.code, fault.text())
            lines[at] = mended or ""
        elif code == 45:
            self.reason(code, "with `COMMIT` after it the script is read")
            lines[at] = text + "\nCOMMIT" if text.strip() else "COMMIT"
        else:
            self.reason(code, "without it the rest is read" if code != 46 else "it names a table of the migration's own")

    def line_code(self, text):
        """The code by which the words of a line are refused."""
        code = self.code({**self.least(), "clients": [text]})
        return code if code in LINE_WORDS else None

    # Operator, losses, turns

    def operator(self, plan):
        lines = plan.get("operator", "").split("\n")
        for _ in range(MOST_PLACES):
            refusal = self.asking.plan({**self.without(plan, "faults", "turns"), "operator": "\n".join(lines)})
            if refusal is None or refusal.code != 47:
                return {**plan, "operator": "\n".join(lines)} if "operator" in plan else plan
            at = refusal.numbers[0] - 1
            self.point(f"operator, line {at + 1}", lines[at])
            reads = lambda text: self.code({**self.least(), "operator": text}) is None
            self.nearest(47, lines, at, [*number_forms(lines[at]), *COMMANDS], reads)
        return None

    def nearest(self, code, lines, at, known, reads):
        """Says what is read in the place of a line, the nearest of some that are known, and puts it there."""
        text = lines[at].strip()
        order = difflib.get_close_matches(text.lower(), known, len(known), 0)
        other = next((other for other in order if reads(other)), None)
        self.reason(code, f"`{short(text)}` isn't read" + (f": `{other}` in its place is" if other else ": without it the rest is"))
        lines[at] = other or ""

    def faults(self, plan):
        lines = list(plan.get("faults", []))
        for _ in range(MOST_PLACES):
            refusal = self.asking.plan({**self.without(plan, "turns"), "faults": lines})
            if refusal is None or not refusal.place.startswith("fault"):
                return {**plan, "faults": lines} if "faults" in plan else plan
            at = refusal.numbers[0] - 1
            self.point(f"fault {at + 1}", lines[at])
            numbers = re.findall(r"[1-9]\d{0,5}", lines[at]) or ["1"]
            actors = self.actors(plan)
            forms = [f"{actor} {number} {side}" for actor in actors for number in numbers for side in ("before", "after")]
            forms += [f"turn {number} {actor}" for actor in actors for number in numbers]
            base = {**self.without(plan, "turns")}
            self.nearest(refusal.code, lines, at, forms, lambda text: self.code({**base, "faults": [text]}) is None)
            lines = [line for line in lines if line]
        return None

    def turns(self, plan):
        words = plan.get("turns", "").split()
        for _ in range(MOST_PLACES):
            refusal = self.asking.plan({**plan, "turns": " ".join(words)})
            if refusal is None or not refusal.place.startswith("turn word"):
                return {**plan, "turns": " ".join(words)} if "turns" in plan else plan
            at = refusal.numbers[0] - 1
            self.point(f"turns, word {at + 1}", words[at])
            times = re.search(r"\*[1-9]\d*$", words[at])
            forms = [actor + (times[0] if times else "") for actor in self.actors(plan)]
            self.nearest(refusal.code, words, at, forms, lambda text: self.code({**plan, "turns": text}) is None)
            words = [word for word in words if word]
        return None

    def actors(self, plan):
        clients = [f"c{number}" for number in range(1, len(plan.get("clients", [])) + 1)]
        return ["insp", "copy", "apply", "lock", "ren", *(["op"] if "operator" in plan else []), *clients]


def first_of(it):
    """The first of a list, or of a text's words or lines."""
    return it[:1] if isinstance(it, list) else re.split(r"[ \n]", it)[0] if isinstance(it, str) else it


def others(it):
    """Values of other types and sizes that may be read in the place of one."""
    if isinstance(it, bool):
        return [int(it), *NUMBERS]
    if isinstance(it, int):
        return [*sorted(NUMBERS, key=lambda number: abs(number - it)), str(it), bool(it)]
    if isinstance(it, str):
        numbers = [int(it)] if re.fullmatch(r"\d+", it) else []
        return [*numbers, it.lower() == "true", [it]]
    if isinstance(it, list) and all(isinstance(part, str) for part in it):
        return ["\n".join(it), " ".join(it)]
    return []


def number_forms(text):
    """The operator's commands with the number of a line."""
    numbers = re.findall(r"[1-9]\d{0,5}", text)
    return [form.format(numbers[0]) for form in ("wait {}", "chunk-size={}")] if numbers else []
