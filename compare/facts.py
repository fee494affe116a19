"""What the rules ask of a plan and a difference."""
import re

from words import clauses, items, joined, words

OTHER_KINDS = (
    "FLOAT DOUBLE REAL DECIMAL NUMERIC DEC FIXED DATE TIME DATETIME TIMESTAMP YEAR CHAR CHARACTER NCHAR BINARY TEXT BLOB ENUM SET BIT "
    "BOOL BOOLEAN JSON SERIAL TINYTEXT LONGTEXT MEDIUMTEXT TINYBLOB LONGBLOB MEDIUMBLOB"
).split()
LEFT_OUT = "AUTO_INCREMENT FOREIGN REFERENCES CHECK GENERATED AS PARTITION FULLTEXT SPATIAL DESC".split()
PASSED_OVER = "ZEROFILL SIGNED ASC USING IF".split()
INTEGERS = "TINYINT SMALLINT MEDIUMINT INT INTEGER BIGINT".split()


class Known:
    """The columns of a CREATE TABLE with their families, the columns of its unique keys, and those of the clustered key."""

    def __init__(self, create):
        self.families, self.unique, self.clustered = {}, set(), set()
        strict, keys = set(), []
        for item in items(create)[0]:
            self.read(item, strict, keys)
        primary = [columns for is_primary, columns in keys if is_primary]
        all_strict = [columns for _, columns in keys if set(columns) <= strict]
        self.unique = {name for _, columns in keys for name in columns}
        self.clustered = (primary or all_strict or [[]])[0]

    def read(self, item, strict, keys):
        if item and item[0].is_word("PRIMARY", "UNIQUE"):
            keys.append((item[0].is_word("PRIMARY"), names_in_parentheses(item)))
        elif len(item) > 1 and not item[0].is_word("KEY", "INDEX"):
            name, texts = item[0].name(), [it.text.upper() for it in item]
            self.families[name] = family(item[1])
            if "PRIMARY" in texts or "UNIQUE" in texts[1:]:
                keys.append(("PRIMARY" in texts, [name]))
            if "NOT" in texts:
                strict.add(name)


def names_in_parentheses(item):
    begin = next((at for at, it in enumerate(item) if it.text == "("), len(item))
    return [it.name() for it in item[begin:] if it.name()]


def family(word):
    text = word.text.upper()
    return "integer" if text in INTEGERS else text


def column_clauses(alter):
    """Of each clause that changes a column: the column's old name, its new name, its new family and the words."""
    for clause in clauses(alter):
        if not clause or not clause[0].is_word("CHANGE", "MODIFY"):
            continue
        rest = clause[2:] if len(clause) > 1 and clause[1].is_word("COLUMN") else clause[1:]
        kind_at = 2 if clause[0].is_word("CHANGE") else 1
        if len(rest) > kind_at:
            yield rest[0].name(), rest[kind_at - 1].name(), family(rest[kind_at]), rest


def has_word(text, *wanted):
    return any(it.is_word(*wanted) for it in words(text))


def has_text(text):
    return any(it.kind in ("text", "bytes") for it in words(text))


def length_is_out(text):
    return any(not 1 <= int(it) <= 1000 for it in re.findall(r"(?i)VAR(?:CHAR|BINARY)\s*\(\s*(\d+)\s*\)", text))


def odd_literals(text):
    """Literals that MySQL reads into a column of another kind, and the model doesn't."""
    return [it for it in words(text) if it.kind == "bytes" or it.kind == "text" and is_odd_number(it.text[1:-1])]


def is_odd_number(text):
    return re.fullmatch(r"[+-]?\d{1,38}", text) is None and re.fullmatch(r"\s*[+-]?\d*\.?\d*(e\d+)?\s*", text) is not None


def ends_in_blanks(text):
    return any(it.kind == "text" and it.text[1:-1].endswith(" ") for it in words(text))


def has_key_attribute(pieces, least):
    """KEY behind a column makes it the primary key in MySQL."""
    places = [(it, at) for it in pieces for at in range(least, len(it)) if it[at].is_word("KEY")]
    return any(not it[at - 1].is_word("PRIMARY", "UNIQUE", "ADD", "DROP") for it, at in places)


def has_odd_default(text):
    """A DEFAULT that is a name, or texts beside each other, which MySQL reads as one."""
    listed = words(text)
    pairs = list(zip(listed, listed[1:]))
    named = any(one.is_word("DEFAULT") and other.name() and not other.is_word("NULL") for one, other in pairs)
    return named or any(one.kind == other.kind == "text" for one, other in pairs)


def is_left_out_of_create(plan, _):
    kinds = [item[1] for item in items(plan.create)[0] if len(item) > 1]
    if has_key_attribute(items(plan.create)[0], 2) or has_odd_default(plan.create):
        return True
    return length_is_out(plan.create) or has_word(plan.create, *LEFT_OUT, *PASSED_OVER) or any(it.is_word(*OTHER_KINDS) for it in kinds)


def is_left_out_of_alter(plan, _):
    if has_key_attribute(clauses(plan.alter), 3) or has_odd_default(plan.alter):
        return True
    return length_is_out(plan.alter) or has_word(plan.alter, *OTHER_KINDS, *LEFT_OUT, *PASSED_OVER) or re.search(r"\d\.\d|COLUMN \(|;\s*\Z", plan.alter)


def drops_unique_column(plan, _):
    unique = Known(plan.create).unique
    dropped = [it[-1].name() for it in clauses(plan.alter) if len(it) in (2, 3) and it[0].is_word("DROP") and not it[1].is_word("INDEX", "KEY")]
    return any(name in unique for name in dropped)


def conversions(plan):
    """Of each clause that changes a column: its old name, and the families that it has then and gets."""
    families = dict(Known(plan.create).families)
    for old, new, wanted, _ in column_clauses(plan.alter):
        yield old, families.get(old), wanted
        families[new] = wanted


def converts_unique_column(plan, _):
    unique = Known(plan.create).unique
    return any(name in unique and old != new for name, old, new in conversions(plan))


def is_loose(text):
    """Whether a column's text makes it one that may be null: of NOT NULL and NULL the last counts."""
    said = re.findall(r"(DEFAULT |NOT )?NULL", text)
    said = [it for it in said if it != "DEFAULT "]
    return not said or said[-1] == ""


def changes_clustered_key(plan, _):
    known = Known(plan.create)
    touched = [rest for old, _, _, rest in column_clauses(plan.alter) if old in known.clustered]
    loosened = [rest for rest in touched if is_loose(joined(rest).upper())]
    return has_word(plan.alter, "PRIMARY") or "`PRIMARY`" in plan.alter or loosened or makes_first_key(plan, known) or re.search(r"(?i)DROP (INDEX|KEY) clustered", plan.alter)


def makes_first_key(plan, known):
    """Without a PRIMARY KEY the first unique key without nulls is the clustered one: another one may come to be."""
    strict = [rest for old, _, _, rest in column_clauses(plan.alter) if old in known.unique - set(known.clustered) and not is_loose(joined(rest).upper())]
    return strict and not has_word(plan.create, "PRIMARY")


def renames_column(plan, _):
    changed = any(old != new for old, new, _, _ in column_clauses(plan.alter))
    return not plan.approve and (changed or re.search(r"(?i)RENAME COLUMN", plan.alter))


def converts_between_families(plan, _):
    allowed = {("integer", "VARCHAR"), ("integer", "VARBINARY"), ("VARCHAR", "VARBINARY")}
    return any(old != new and (old, new) not in allowed for _, old, new in conversions(plan))


def begins_otherwise(plan, _):
    listed = [it for it in clauses(plan.alter) if it]
    odd = ("CONSTRAINT", "FOREIGN", "FULLTEXT", "SPATIAL", "CHECK", "PARTITION")
    return any(not it[0].is_word("ADD", "DROP", "RENAME", "CHANGE", "MODIFY") or len(it) > 1 and it[1].is_word(*odd) for it in listed) or re.search(
        r"(?i)RENAME (INDEX|KEY)", plan.alter
    )


def adds_strict_without_default(plan, _):
    added = [[it.text.upper() for it in clause] for clause in clauses(plan.alter) if clause and clause[0].is_word("ADD")]
    return any("NOT" in it and "DEFAULT" not in it for it in added)


def rows_are_taken(difference):
    return difference.theirs == "[]"


def repeats_a_name(plan, difference):
    """The text has two faults: a name stands twice, and the server names the other."""
    listed = items(plan.create)[0]
    named = [it[0].name() for it in listed if it and not it[0].is_word("PRIMARY", "UNIQUE", "KEY", "INDEX")]
    primaries = sum(1 for it in listed for word in it if word.is_word("PRIMARY"))
    keys = [it[-names_behind(it)].name() for it in listed if it and it[0].is_word("UNIQUE", "KEY", "INDEX") and names_behind(it)]
    twice = [len(set(it)) < len(it) for it in (named, keys)]
    return difference.theirs in ("1064", "1067", "1072") and (any(twice) or primaries > 1)


def names_behind(item):
    """How far from the end of a key's words its name stands; 0 where it has none."""
    begin = next((at for at, it in enumerate(item) if it.text == "("), 0)
    return len(item) - begin + 1 if begin > 1 and not item[begin - 1].is_word("KEY", "INDEX") else 0


def has_left_out_statement(plan):
    """Whether a statement has a word that stands for a clause of MySQL's, where the program wants none: also as a name."""
    return any(has_word(line, "JOIN", "ORDER", "LIMIT", "ON", "DEFAULT") for script in plan.clients for line in script)


def has_null_in_condition(plan):
    return any(re.search(r"(?i) WHERE .*\bNULL\b", line) for script in plan.clients for line in script)


def has_odd_key_name(plan, difference):
    return difference.theirs == "1280" and re.search(r"(?i)``|`primary`|(KEY|INDEX) primary", f"{plan.create} {plan.alter}")


def has_odd_option(plan, difference):
    option = r"(?i)(ENGINE|CHARSET|CHARACTER SET|COLLATE) *=? *(?!InnoDB|utf8mb4)\w"
    return difference.theirs in ("1064", "1115", "1273", "1286") and re.search(option, f"{plan.create} {plan.alter}")


def has_null_in_key(plan, _):
    key = Known(plan.create).clustered
    texts = [joined(rest).upper() for old, _, _, rest in column_clauses(plan.alter) if old in key]
    created = [joined(it).upper() for it in items(plan.create)[0] if it and it[0].name() in key]
    return any("DEFAULT NULL" in it for it in texts + created)


def repeats_in_key(plan, difference):
    keys = [it for it in [*items(plan.create)[0], *clauses(plan.alter)] if any(word.is_word("KEY", "INDEX", "UNIQUE") for word in it)]
    lists = [names_in_parentheses(it) for it in keys]
    return difference.theirs == "1060" and any(len(set(listed)) < len(listed) for listed in lists)


def drops_primary_by_name(plan, _):
    return "`PRIMARY`" in plan.alter.upper()


def counting_item(plan):
    """The declaration of the column that gives out numbers, in capitals."""
    return next((joined(it).upper() for it in items(plan.create)[0] if any(word.is_word("AUTO_INCREMENT") for word in it)), "")


def counts_beyond(plan):
    """Whether the column holds larger numbers than are given out, or they begin out of that range."""
    start = re.search(r"(?i)\)[^)]*AUTO_INCREMENT *=? *(\d+)[^)]*\Z", plan.create)
    return "BIGINT UNSIGNED" in counting_item(plan) or start and not 1 <= int(start.group(1)) < 2**63


UNSTORED = ("error 1048", "error 1264", "error 1366", "error 1406", "error 1265")


def statement_of(difference):
    """The client's line that was answered."""
    return difference.place.partition(": ")[2]


def condition_of(difference):
    statement = statement_of(difference)
    at = statement.upper().find(" WHERE ")
    return statement[at:] if at >= 0 else ""


def begins(difference, *wanted):
    """Whether the statement of an answer begins with one of these words."""
    return statement_of(difference).upper().startswith(wanted)


def leaves_one_out(plan, difference):
    """Whether the server's number is the next but one, and a statement gives the table that counts a negative number."""
    if not difference.is_other_number() or not plan.second:
        return False
    ours, theirs = (int(it.rpartition(" ")[2]) for it in (difference.ours, difference.theirs))
    lines = [line for script in plan.clients for line in script]
    return theirs == ours + 1 and any(re.match(r"(?i)(INSERT|REPLACE) INTO u\b.*[(, ]-\d", line) for line in lines)


def displaces_an_equal_row(_, difference):
    counts = difference.ours.split(" "), difference.theirs.split(" ")
    return begins(difference, "REPLACE") and [it[0] for it in counts] == ["ok", "ok"] and int(counts[0][1]) == int(counts[1][1]) + 1
