"""Answers of a server, and values as `ghost` prints them."""
import re

from wire import Ok, Refused

COLUMN_OF_REFUSAL = re.compile(r"olumn [`']?(?:[^`'.]*[`']?\.[`']?)*([^`']*)[`'] at row")

NULL_COLUMN = re.compile(r"Column '([^']*)' cannot be null")


def printed(value):
    """A value by the printing rules of docs/FORMATS.md."""
    if value is None:
        return "NULL"
    if isinstance(value, int):
        return str(value)
    if isinstance(value, bytes):
        return f"x'{value.hex()}'"
    text = value.replace("\\", "\\\\").replace("'", "''").replace("\n", "\\n").replace("\r", "\\r")
    return "'" + text.replace("\t", "\\t").replace("\0", "\\0") + "'"


def printed_row(row):
    return f"({', '.join(printed(value) for value in row)})"


def answer_of(answer, drawn=0):
    """`drawn` is the number that an AUTO_INCREMENT column got, 0 where none was given out."""
    if isinstance(answer, Ok):
        return "ok", f"{answer.changed} id {drawn}" if drawn else answer.changed
    if isinstance(answer, Refused):
        return "error", answer.number
    return "rows", sorted(printed_row(row) for row in answer.rows)


def refusal_of(answer):
    """The number of a refusal, and the column that it names."""
    if not isinstance(answer, Refused):
        return 0, None
    column = COLUMN_OF_REFUSAL.search(answer.text)
    return answer.number, column.group(1) if column else (NULL_COLUMN.search(answer.text) or [None, None])[1]


def number_of(answer):
    return answer.number if isinstance(answer, Refused) else 0
