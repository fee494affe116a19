"""The rules of this project's own by which it differs from MySQL. docs/MODEL.md tells each with an example.

An `Own` rule is a refusal of the program's, or one of the server's that it doesn't have: it explains a difference where the plan has
what the rule speaks of. A `Rephrasing` says the plan to the server in the words that the rule takes it for: it explains what is
then the same.
"""
import dataclasses
import re
import types

from facts import (
    Known,
    UNSTORED,
    adds_strict_without_default,
    begins,
    begins_otherwise,
    changes_clustered_key,
    condition_of,
    counts_beyond,
    converts_between_families,
    converts_unique_column,
    displaces_an_equal_row,
    drops_primary_by_name,
    drops_unique_column,
    ends_in_blanks,
    has_left_out_statement,
    has_null_in_condition,
    has_null_in_key,
    has_odd_key_name,
    has_odd_option,
    has_text,
    has_word,
    is_left_out_of_alter,
    is_left_out_of_create,
    leaves_one_out,
    odd_literals,
    renames_column,
    repeats_a_name,
    repeats_in_key,
    rows_are_taken,
    statement_of,
)
from numbers_given import NO_NUMBER_LEFT, has_moved
from rephrasing import as_copied, clause_by_clause, keys_as_texts, with_backquotes, with_spare_numbers, with_two_keys, without_collation
from words import clauses, items


@dataclasses.dataclass
class Own:
    """`test` is asked of the plan and the difference, where that is one of `kinds` and the program printed one of `codes`; 0 is none."""

    name: str
    kinds: tuple
    codes: tuple
    test: object

    def explains(self, plan, difference):
        ours = int(re.match(r"(?:error )?(\d*)", difference.ours).group(1) or 0)
        return difference.kind in self.kinds and ours in self.codes and bool(self.test(plan, difference))


LEFT_OUT_RULE = "a kind, a length or a word of MySQL's is left out"
LITERAL_RULE = "a literal is of its column's kind"
CUT_RULE = "nothing is cut, not even blanks at a text's end"
OWN = [
    Own(LEFT_OUT_RULE, ("create",), (10, 11), is_left_out_of_create),
    Own(LEFT_OUT_RULE, ("alter",), (20,), is_left_out_of_alter),
    Own(LITERAL_RULE, ("create",), (19,), lambda plan, _: odd_literals(plan.create)),
    Own(LITERAL_RULE, ("alter",), (27,), lambda plan, _: odd_literals(plan.alter)),
    Own(CUT_RULE, ("create",), (19,), lambda plan, _: ends_in_blanks(plan.create)),
    Own(CUT_RULE, ("alter",), (27,), lambda plan, _: ends_in_blanks(plan.alter)),
    Own(LITERAL_RULE, ("rows",), (58,), lambda plan, difference: rows_are_taken(difference) and any(odd_literals(row) for row in plan.rows)),
    Own(CUT_RULE, ("rows",), (58,), lambda plan, difference: rows_are_taken(difference) and any(ends_in_blanks(row) for row in plan.rows)),
    Own("a column of a unique key isn't dropped", ("alter",), (23,), drops_unique_column),
    Own("a column of a unique key keeps its family of kinds", ("alter",), (24,), converts_unique_column),
    Own("no unique key is added", ("alter",), (25,), lambda plan, _: has_word(plan.alter, "UNIQUE")),
    Own("the clustered key stays", ("alter",), (26,), changes_clustered_key),
    Own("an added column that is NOT NULL has a DEFAULT", ("alter",), (27,), adds_strict_without_default),
    Own("a column gets another name only where that is approved", ("alter",), (28,), renames_column),
    Own("the table keeps its name", ("alter",), (29,), lambda plan, _: re.search(r"(?i)RENAME (TO|AS)", plan.alter)),
    Own("an integer may become a text, a text bytes, and nothing back", ("alter",), (31,), converts_between_families),
    Own("other clauses are left out", ("alter",), (31,), begins_otherwise),
    Own("other clauses are left out", ("rows",), (42,), lambda plan, difference: rows_are_taken(difference) and has_left_out_statement(plan)),
    Own("a condition has no NULL", ("rows",), (41,), lambda plan, difference: rows_are_taken(difference) and has_null_in_condition(plan)),
    Own("the limits are smaller", ("create",), (15, 16), lambda plan, _: len(items(plan.create)[0]) > 9),
    Own("the limits are smaller", ("alter",), (31,), lambda plan, _: len(clauses(plan.alter)) + len(items(plan.create)[0]) > 9),
    Own("the bytes of a key and of a row have no limit", ("create", "alter"), (0,), lambda plan, it: it.theirs in ("1071", "1118")),
    Own("each table has a clustered key", ("create",), (14,), lambda plan, _: not Known(plan.create).clustered),
    Own("a key may name one column twice", ("create", "alter"), (0,), repeats_in_key),
    Own("a column of the clustered key has no DEFAULT NULL", ("create", "alter"), (19, 27), has_null_in_key),
    Own("a key may have any name, also none between its backquotes", ("create", "alter"), (0,), has_odd_key_name),
    Own("ENGINE, CHARSET and COLLATE take any word", ("create", "alter"), (0,), has_odd_option),
    Own("of several faults the first by a fixed order is named", ("create",), (12,), repeats_a_name),
    Own("the PRIMARY KEY has no name", ("alter",), (21,), drops_primary_by_name),
    Own("what gives out numbers is the clustered key's one column", ("create",), (32,), lambda plan, it: it.theirs == "0" and not counts_beyond(plan)),
    Own("numbers are given out up to 9223372036854775807", ("create",), (32,), lambda plan, it: it.theirs == "0" and counts_beyond(plan)),
    Own("a row of a table has its number", ("rows",), (58,), lambda plan, it: rows_are_taken(it) and any("NULL" in row for row in plan.rows)),
]


# Of the clients' statements.
OWN_OF_STATEMENTS = [
    Own("what a key's column can't hold is refused in a condition", ("answer",), (1366,), lambda _, it: has_text(condition_of(it))),
    Own(LITERAL_RULE, ("answer",), (1366,), lambda _, it: odd_literals(statement_of(it))),
    Own(CUT_RULE, ("answer",), (1406,), lambda _, it: ends_in_blanks(statement_of(it))),
    Own("a condition is on a key", ("answer",), (1235,), lambda _, it: condition_of(it)),
    Own("an UPDATE sets a column once", ("answer",), (1110,), lambda _, it: begins(it, "UPDATE")),
    Own("a REPLACE counts each row that it displaces, also an equal one", ("answer",), (0,), displaces_an_equal_row),
    Own("a value that doesn't fit is reported before a column that has none", ("answer",), (1048, 1264, 1366, 1406), lambda _, it: it.theirs == "error 1364"),
    Own("of several columns that don't store the first of the table is named", ("answer",), (1048, 1264, 1366, 1406), lambda _, it: it.theirs in UNSTORED),
    Own("a number past its column's range is refused like any other value", ("answer",), (1264,), lambda _, it: it.theirs in [f"error {number}" for number in NO_NUMBER_LEFT]),
    Own("a statement that waits draws in the turn that answers it", ("answer",), (0,), lambda _, it: it.is_early and it.is_other_number()),
    Own("MariaDB leaves a number out behind a negative one", ("answer",), (0,), leaves_one_out),
    Own("an UPDATE that is refused moves nothing", ("answer",), (0,), has_moved),
]


@dataclasses.dataclass
class Rephrasing:
    """`rephrase` gives the plan in other words: one plan, several of which one may fit, or none where the rule doesn't speak of it."""

    name: str
    rephrase: object
    number: str = None  # where only a refusal by this number is to be explained

    def speaks_of(self, plan, differences):
        is_wanted = self.number is None or any(it.theirs == self.number for it in differences if it.rule is None)
        return is_wanted and bool(self.rephrased(plan))

    def rephrased(self, plan):
        said = self.rephrase(plan)
        return [] if said is None else [said] if not isinstance(said, types.GeneratorType) else list(said)


def in_other_words(plan, rules):
    """The plan as each of these rules says it, one after the other."""
    plans = [plan]
    for rule in rules:
        plans = [other for it in plans for other in rule.rephrased(it) or [it]]
    return plans


# The texts are said in other words first, and then taken in pieces.
REPHRASINGS = [
    Rephrasing("texts compare by their bytes, whatever COLLATE says", without_collation),
    Rephrasing("a number is compared with a text as its decimal text", keys_as_texts),
    Rephrasing("no word is reserved", with_backquotes, "1064"),
    Rephrasing("a refused statement has drawn its number", with_spare_numbers),
    Rephrasing("MariaDB makes one key of UNIQUE and PRIMARY KEY behind one column", with_two_keys),
    Rephrasing("a row that an ALTER can't convert gets the number that an INSERT gets", as_copied),
    Rephrasing("an ALTER's clauses are taken from left to right", clause_by_clause),
]
