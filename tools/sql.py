"""Texts of MySQL's dialect: their words, and the values that literals stand for."""
import decimal
import re

# What a word may be, as MySQL reads it; comments and blanks stand between words. `/*!80023 INVISIBLE */` counts as its words.
WORD = re.compile(
    r"""(?P<gap>[ \t\r\n]+|--(?=[\s]|\Z)[^\n]*|\#[^\n]*|/\*!\d*|/\*(?!!).*?(?:\*/|\Z)|\*/)
    |(?P<bytes>[xX]'[0-9A-Fa-f]*'|0x[0-9A-Fa-f]+\b)
    |(?P<bits>[bB]'[01]*'|0b[01]+\b)
    |(?P<text>'(?:[^'\\]|\\.|'')*'|"(?:[^"\\]|\\.|"")*")
    |(?P<quoted>`(?:[^`]|``)*`)
    |(?P<number>(?:\d+(?:\.\d*)?|\.\d+)(?:[eE][-+]?\d+)?(?![\w$]))
    |(?P<name>@{0,2}[\w$]+)
    |(?P<sign><=>|[<>!]=|<>|:=|\|\||&&|.)""",
    re.S | re.X,
)
ESCAPED = {"0": "\0", "b": "\b", "n": "\n", "r": "\r", "t": "\t", "Z": "\x1a", "%": "\\%", "_": "\\_"}
PLAIN_NAME = re.compile(r"[A-Za-z_$][A-Za-z0-9_$]*")


class Word:
    """A word of a text. `gap` is whether something stands between it and the word before; it begins in this line, at this
    character of the whole text."""

    __slots__ = ("kind", "text", "gap", "line", "at")

    def __init__(self, kind, text, gap=True, line=0, at=0):
        self.kind, self.text, self.gap, self.line, self.at = kind, text, gap, line, at

    def __repr__(self):
        return self.text

    def is_word(self, *names):
        """Whether it is one of these words of the language, which stand without quotes."""
        return self.kind == "name" and self.text.upper() in names

    def is_sign(self, *signs):
        return self.kind == "sign" and self.text in signs

    def end(self):
        return self.at + len(self.text)

    def is_name(self):
        return self.kind in ("name", "quoted")

    def name(self):
        """What a name stands for."""
        return self.text[1:-1].replace("``", "`") if self.kind == "quoted" else self.text


def words_in(text, line=1, comments=False):
    """The words of a text whose first line has this number, one after the other; those of comments too, where they are asked for."""
    gap = True
    for match in WORD.finditer(text):
        kind = match.lastgroup
        if kind == "gap" and comments and match[0].startswith(("/*", "*/")):
            yield Word("comment", match[0], gap, line, match.start())
            gap = False
        elif kind == "gap":
            gap = True
        else:
            yield Word(kind, match[0], gap, line, match.start())
            gap = False
        line += match[0].count("\n")


def words_of(text, line=1):
    return list(words_in(text, line))


def statements_in(text):
    """The statements of a file, which end in `;`. What stands between two DELIMITERs is one, of that word alone."""
    statement, is_skipped = [], False
    for word in words_in(text):
        if word.is_word("DELIMITER") and not statement:
            is_skipped = not is_skipped
            if is_skipped:
                yield [word]
        elif word.is_sign(";"):
            if statement and not is_skipped:
                yield statement
            statement = []
        elif not is_skipped:
            statement.append(word)
    if statement:
        yield statement


def written(words):
    """Words as a text of one line, with a blank where something stood between two."""
    text = ""
    for word in words:
        text += (" " if text and word.gap else "") + word.text
    return text.replace("\r", "\\r").replace("\n", "\\n")


def is_name_text(text):
    """Whether a name needs no quotes, as the program reads names."""
    return bool(PLAIN_NAME.fullmatch(text))


def name_written(word):
    """A name as it is, or in backquotes where the program doesn't read it without."""
    return word.text if word.kind == "quoted" or is_name_text(word.text) else f"`{word.text}`"


def closing(words, at):
    """Where the parenthesis that opens at this place closes; the end where it doesn't."""
    depth = 0
    for place in range(at, len(words)):
        depth += words[place].is_sign("(") - words[place].is_sign(")")
        if depth == 0:
            return place
    return len(words)


def is_whole(words):
    """Whether each quote and each parenthesis that opens closes. (An open quote is read as a sign.)"""
    depth = sum(word.is_sign("(") - word.is_sign(")") for word in words)
    return depth == 0 and not any(word.is_sign("'", '"', "`") for word in words)


def split(words, sign=","):
    """The parts of words between signs that stand outside parentheses; empty parts are none."""
    parts, part, depth = [], [], 0
    for word in words:
        depth += word.is_sign("(") - word.is_sign(")")
        if depth == 0 and word.is_sign(sign):
            parts.append(part)
            part = []
        else:
            part.append(word)
    return [part for part in [*parts, part] if part]


def position(words, *names, start=0):
    """Where the first of these words of the language stands outside parentheses, or none."""
    depth = 0
    for place in range(start, len(words)):
        depth += words[place].is_sign("(") - words[place].is_sign(")")
        if depth == 0 and words[place].is_word(*names):
            return place
    return None


def without_parentheses(words):
    """Words without those pairs of parentheses that enclose all of them."""
    while len(words) > 1 and words[0].is_sign("(") and closing(words, 0) == len(words) - 1:
        words = words[1:-1]
    return words


# Values


def text_value(text):
    """What a text between quotes stands for."""
    piece = re.compile(rf"\\(.)|{text[0] * 2}", re.S)
    return piece.sub(lambda match: ESCAPED.get(match[1], match[1]) if match[1] else text[0], text[1:-1])


def text_written(value):
    """A text between quotes, on one line."""
    value = value.replace("\\", "\\\\").replace("'", "''")
    return "'" + value.replace("\n", "\\n").replace("\r", "\\r").replace("\0", "\\0").replace("\x1a", "\\Z") + "'"


def bytes_written(value):
    return f"x'{value.hex()}'"


def encoded(text):
    """The bytes of a text of a file; what wasn't UTF-8 there is as it was."""
    return text.encode("utf-8", "surrogateescape")


class Value:
    """A literal: `sort` is null, number, text, bytes, bits, default, now or other. `written` is how it stands there."""

    def __init__(self, sort, value=None, written=""):
        self.sort, self.value, self.written = sort, value, written


NOW = ("NOW", "CURRENT_TIMESTAMP", "LOCALTIME", "LOCALTIMESTAMP", "SYSDATE", "UTC_TIMESTAMP")
TODAY = ("CURDATE", "CURRENT_DATE", "UTC_DATE")


def is_call(words, names):
    """Whether the words are one of these functions, with or without parentheses and a number in them."""
    rest = [word for word in words[1:] if word.kind != "number"]
    return words[0].is_word(*names) and [word.text for word in rest] in ([], ["(", ")"])


def value_of(words):
    """The value of an expression, of the sort `other` where it is none that is known without running it."""
    words = without_parentheses(words)
    as_written = written(words)
    sign = words[0].text if words[0].is_sign("-", "+") else ""
    if sign:
        words = words[1:]
    if len(words) == 1 and words[0].kind == "number":
        return Value("number", decimal.Decimal(sign + words[0].text), sign.strip("+") + words[0].text)
    if sign or not words:
        return Value("other", written=as_written)
    first = words[0]
    if first.is_word("NULL") and len(words) == 1:
        return Value("null", written="NULL")
    if first.is_word("TRUE", "FALSE") and len(words) == 1:
        return Value("number", decimal.Decimal(first.is_word("TRUE")), "1" if first.is_word("TRUE") else "0")
    if first.is_word("DEFAULT") and len(words) == 1:
        return Value("default", written=as_written)
    if is_call(words, NOW) or is_call(words, TODAY):
        return Value("now", is_call(words, TODAY), as_written)
    is_binary = first.is_word("_BINARY")
    if len(words) > 1 and first.kind == "name" and (first.text.startswith("_") or first.is_word("N", "DATE", "TIME", "TIMESTAMP")):
        words = words[1:]
    kinds = {word.kind for word in words}
    if kinds == {"text"}:
        text = "".join(text_value(word.text) for word in words)
        return Value("bytes", encoded(text), as_written) if is_binary else Value("text", text, as_written)
    if kinds == {"bytes"} and len(words) == 1:
        digits = words[0].text[2:].rstrip("'")
        return Value("bytes", bytes.fromhex("0" * (len(digits) % 2) + digits), as_written)
    if kinds == {"bits"} and len(words) == 1:
        digits = words[0].text[2:].rstrip("'")
        return Value("bits", int(digits or "0", 2), as_written)
    return Value("other", written=as_written)
