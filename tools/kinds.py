"""Kinds of columns: what MySQL has, the nearest that the program has, what that costs in truth, and how literals are written."""
import decimal
import hashlib
import re
import struct

from sql import bytes_written, closing, encoded, text_written, value_of, written

# The instant that every clock shows.
NOW = "2000-01-01 00:00:00"
MOST = 1000
INTEGERS = ("TINYINT", "SMALLINT", "MEDIUMINT", "INT", "INTEGER", "BIGINT")
SYNONYMS = {
    "BOOL": "TINYINT",
    "BOOLEAN": "TINYINT",
    "INT1": "TINYINT",
    "INT2": "SMALLINT",
    "INT3": "MEDIUMINT",
    "MIDDLEINT": "MEDIUMINT",
    "INT4": "INT",
    "INT8": "BIGINT",
    "CHARACTER": "CHAR",
    "NCHAR": "CHAR",
    "NVARCHAR": "VARCHAR",
    "NUMERIC": "DECIMAL",
    "DEC": "DECIMAL",
    "FIXED": "DECIMAL",
    "REAL": "DOUBLE",
    "FLOAT4": "FLOAT",
    "FLOAT8": "DOUBLE",
}
TEXTS = ("TINYTEXT", "TEXT", "MEDIUMTEXT", "LONGTEXT")
BLOBS = ("TINYBLOB", "BLOB", "MEDIUMBLOB", "LONGBLOB")
INSTANT = re.compile(r"(\d{4})-(\d{1,2})-(\d{1,2})(?:[ T](\d{1,2}):(\d{1,2})(?::(\d{1,2})(?:\.(\d*))?)?)?\s*")


class Left(Exception):
    """What can't be converted, and why: it stays as it is, and the program refuses it."""


class Kept(Exception):
    """A literal that MySQL would write in another way, or refuse. It stays as it is, and the program takes it."""

    def __init__(self, text, why):
        super().__init__(f"{text} stays as it is: {why}")
        self.text = text


class Kind:
    """`was` is the kind as MySQL's, `now` as the program's, `cost` what is lost, or None where it is the same."""

    family = "text"
    # How many characters or bytes a value has at most, where the limit is the program's and not the column's.
    most = None
    # Whether another kind of the sort writes the same value in another way.
    is_respelled = False

    def __init__(self, was, now, cost=None):
        self.was, self.now, self.cost = was, now, cost

    def literal(self, value):
        """A value as the program reads it in this column."""
        if value.sort == "null":
            return "NULL"
        write = getattr(self, f"of_{value.sort}", None)
        if write is None and value.sort == "bytes":
            raise Kept(bytes_written(value.value), f"it is no value of {self.was}")
        if write is None:
            raise Left(f"{value.written} isn't a literal")
        return write(value)

    def condition(self, value):
        """The same, where the value is compared and not stored."""
        return self.literal(value)

    def of_now(self, value):
        raise Left(f"{value.written} in a column of {self.was}")

    def is_too_long(self, value):
        return self.most is not None and value.sort in ("text", "bytes") and len(value.value) > self.most

    def shortened(self, value):
        """A value that is too long, cut, with a sum at the end that tells it apart from others."""
        data = value.value if value.sort == "bytes" else encoded(value.value)
        mark = "#" + hashlib.sha256(data).hexdigest()[:16]
        cut = value.value[: self.most - len(mark)]
        return type(value)(value.sort, cut + (mark.encode() if value.sort == "bytes" else mark), value.written)


class Integer(Kind):
    family = "integer"

    def of_number(self, value):
        return str(int(value.value.to_integral_value(decimal.ROUND_HALF_UP)))

    def of_text(self, value):
        return text_written(value.value)

    def of_bytes(self, value):
        return str(int.from_bytes(value.value, "big"))

    def of_bits(self, value):
        return str(value.value)


class Bits(Integer):
    """BIT: a text is the number of its bytes."""

    def of_text(self, value):
        return str(int.from_bytes(encoded(value.value), "big"))


class Text(Kind):
    def __init__(self, was, now, cost=None, most=None):
        super().__init__(was, now, cost)
        self.most = most

    def of_number(self, value):
        return value.written if re.fullmatch(r"-?\d+", value.written) else text_written(value.written)

    def of_text(self, value):
        return text_written(value.value)

    def of_bytes(self, value):
        try:
            return text_written(value.value.decode("utf-8"))
        except UnicodeDecodeError:
            raise Kept(bytes_written(value.value), "it is no UTF-8") from None

    def of_now(self, value):
        return text_written(NOW[:10] if value.value else NOW)


class Padded(Text):
    """CHAR: MySQL takes the blanks at the end off."""

    def of_text(self, value):
        return text_written(value.value.rstrip(" "))


class Bytes(Kind):
    family = "bytes"

    def __init__(self, was, now, cost=None, most=None, width=0):
        super().__init__(was, now, cost)
        self.most, self.width = most, width

    def literal(self, value):
        if self.width and value.sort in ("text", "bytes"):
            data = encoded(value.value) if value.sort == "text" else value.value
            return bytes_written(data.ljust(self.width, b"\0"))
        return super().literal(value)

    def condition(self, value):
        return super().literal(value)

    def of_number(self, value):
        return value.written if re.fullmatch(r"-?\d+", value.written) else text_written(value.written)

    def of_text(self, value):
        return text_written(value.value) if value.value.isprintable() else bytes_written(encoded(value.value))

    def of_bytes(self, value):
        return bytes_written(value.value)


class Instant(Kind):
    """DATE, DATETIME and TIMESTAMP: a text in MySQL's own form, with as many digits of the second as the column has."""

    is_respelled = True

    def __init__(self, was, now, cost, has_time, digits):
        super().__init__(was, now, cost)
        self.has_time, self.digits = has_time, digits

    def of_text(self, value):
        found = INSTANT.fullmatch(value.value)
        if found is None:
            raise Kept(text_written(value.value), f"it isn't written as {'YYYY-MM-DD hh:mm:ss' if self.has_time else 'YYYY-MM-DD'}")
        year, month, day, hour, minute, second, rest = (part or "" for part in found.groups())
        text = f"{year}-{month:0>2}-{day:0>2}"
        if self.has_time:
            text += f" {hour:0>2}:{minute:0>2}:{second:0>2}"
            if rest[self.digits :].strip("0"):
                raise Kept(text_written(value.value), f"MySQL rounds it to {self.was}")
            text += "." + rest[: self.digits].ljust(self.digits, "0") if self.digits else ""
        return text_written(text)

    def of_number(self, value):
        digits = value.written
        if not re.fullmatch(r"\d{8}|\d{14}", digits):
            raise Kept(text_written(digits), "it isn't written as YYYYMMDD or YYYYMMDDhhmmss")
        day = f"{digits[:4]}-{digits[4:6]}-{digits[6:8]}"
        time = f" {digits[8:10]}:{digits[10:12]}:{digits[12:]}" if digits[8:] else ""
        return self.of_text(type(value)("text", day + time, digits))

    def of_now(self, value):
        return self.of_text(type(value)("text", NOW, value.written))


class Fixed(Kind):
    """DECIMAL: the number's text with all digits after the point, so that equal numbers are equal texts."""

    is_respelled = True

    def __init__(self, was, now, cost, digits):
        super().__init__(was, now, cost)
        self.digits = digits

    def of_number(self, value):
        with decimal.localcontext(decimal.Context(prec=200)):
            number = value.value.quantize(decimal.Decimal(1).scaleb(-self.digits), decimal.ROUND_HALF_UP)
            return f"'{number if number else abs(number):f}'"

    def of_text(self, value):
        try:
            return self.of_number(type(value)("number", decimal.Decimal(value.value.strip()), value.written))
        except decimal.InvalidOperation:
            raise Kept(text_written(value.value), "it isn't a number, and MySQL refuses it") from None


class Floating(Kind):
    """FLOAT and DOUBLE: the shortest text of the number."""

    is_respelled = True

    def __init__(self, was, now, cost, is_single):
        super().__init__(was, now, cost)
        self.is_single = is_single

    def of_number(self, value):
        number = float(value.value)
        text = f"{number:.6g}" if self.is_single and struct.pack("f", number) else repr(number)
        mantissa, letter, exponent = text.partition("e")
        mantissa = mantissa.removesuffix(".0")
        return f"'{mantissa}{letter}{int(exponent) if letter else ''}'"

    def of_text(self, value):
        try:
            return self.of_number(type(value)("number", decimal.Decimal(value.value.strip()), value.written))
        except (decimal.InvalidOperation, OverflowError):
            raise Kept(text_written(value.value), "it isn't a number, and MySQL refuses it") from None


class Choice(Kind):
    """ENUM: the member's text, whatever the case in which it is written; a number is a member's place."""

    def __init__(self, was, now, cost, members):
        super().__init__(was, now, cost)
        self.members = members

    def of_text(self, value):
        for member in self.members:
            if member.lower() == value.value.rstrip(" ").lower():
                return text_written(member)
        raise Kept(text_written(value.value), f"it is none of {self.was}, and MySQL refuses it")

    def of_number(self, value):
        place = int(value.value)
        if not 1 <= place <= len(self.members):
            raise Kept(text_written(value.written), f"{self.was} has no such place, and MySQL refuses it")
        return text_written(self.members[place - 1])


class Choices(Choice):
    """SET: its members in their order, with commas."""

    def of_text(self, value):
        asked = {part.lower() for part in value.value.split(",") if part}
        if asked - {member.lower() for member in self.members}:
            raise Kept(text_written(value.value), f"it has a member that is none of {self.was}, and MySQL refuses it")
        return text_written(",".join(member for member in self.members if member.lower() in asked))

    def of_number(self, value):
        bits = int(value.value)
        return text_written(",".join(member for place, member in enumerate(self.members) if bits >> place & 1))


# Reading


def cut(was, word, size, unit):
    """VARCHAR or VARBINARY of a size, or of the greatest one and what that costs."""
    if size > MOST:
        return f"{word}({MOST})", f"more than {MOST:,} {unit} are refused (58, 1406)", MOST
    return f"{word}({max(size, 1)})", None, None


def instant(word, was, digits):
    has_time = word != "DATE"
    size = 10 if not has_time else 19 + (digits and digits + 1)
    zone = ", and no time zone shifts it" if word == "TIMESTAMP" else ""
    cost = f"a text keeps order and equality{zone}; a day that doesn't exist isn't refused"
    return Instant(was, f"VARCHAR({size})", cost, has_time, digits)


def fixed(was, size, digits, is_unsigned):
    width = size + (digits > 0) + (size == digits) + (not is_unsigned)
    cost = f"a text with {digits} digits after the point keeps equality; order and range are lost"
    return Fixed(was, f"VARCHAR({width})", cost, digits)


def bits(was, size):
    kind = next(name for name, most in (("TINYINT", 8), ("SMALLINT", 16), ("MEDIUMINT", 24), ("INT", 32), ("BIGINT", 64)) if size <= most)
    return Bits(was, f"{kind} UNSIGNED", "a number; one that needs more bits isn't refused")


def choice(word, was, members):
    lengths = [len(member) for member in members]
    size = max(lengths, default=1) if word == "ENUM" else sum(lengths) + len(members) - 1
    now, cut_cost, _ = cut(was, "VARCHAR", size, "characters")
    cost = "another text isn't refused, and texts are in order of their letters" + (f"; {cut_cost}" if cut_cost else "")
    return (Choice if word == "ENUM" else Choices)(was, now, cost, members)


def kind_of(word, was, arguments, is_unsigned, is_zerofill):
    """The kind of this name, or none where the program has nothing like it. `arguments` are the values in parentheses."""
    numbers = [int(argument.value) for argument in arguments if argument.sort == "number"]
    size, digits = (*numbers, None, None)[0], (*numbers, 0, 0)[1]
    if word in INTEGERS:
        now = word + (f"({size})" if size else "") + (" UNSIGNED" if is_unsigned or is_zerofill else "")
        return Integer(was, now, "zeros in front aren't shown" if is_zerofill else None)
    if word in ("VARCHAR", "VARBINARY") and size is not None:
        now, cost, most = cut(was, word, size, "characters" if word == "VARCHAR" else "bytes")
        return (Text if word == "VARCHAR" else Bytes)(was, now, cost, most=most)
    if word == "CHAR":
        cost = "blanks at the end are taken off here, and not by the program"
        return Padded(was, f"VARCHAR({max(size if size is not None else 1, 1)})", cost)
    if word == "BINARY":
        width = max(size if size is not None else 1, 1)
        cost = "zero bytes are filled in at the end here, and not by the program"
        return Bytes(was, f"VARBINARY({width})", cost, width=width)
    if word in ("DATE", "DATETIME", "TIMESTAMP"):
        return instant(word, was, size or 0)
    if word == "TIME":
        cost = "a text keeps equality; times below 0 and from 100 hours on lose their order"
        return Text(was, f"VARCHAR({10 + (size and size + 1 or 0)})", cost)
    if word == "YEAR":
        return Integer(was, "SMALLINT UNSIGNED", "a number; one that is no YEAR isn't refused")
    if word == "DECIMAL":
        return fixed(was, size if size is not None else 10, digits, is_unsigned)
    if word in ("FLOAT", "DOUBLE"):
        cost = "the shortest text keeps equality; order and range are lost"
        return Floating(was, "VARCHAR(24)", cost, word == "FLOAT")
    if word in TEXTS:
        return Text(was, f"VARCHAR({MOST})", f"more than {MOST:,} characters are refused (58, 1406)", most=MOST)
    if word == "JSON":
        cost = f"a text isn't checked and keeps its spelling; more than {MOST:,} characters are refused (58, 1406)"
        return Text(was, f"VARCHAR({MOST})", cost, most=MOST)
    if word in BLOBS:
        return Bytes(was, f"VARBINARY({MOST})", f"more than {MOST:,} bytes are refused (58, 1406)", most=MOST)
    if word in ("ENUM", "SET"):
        return choice(word, was, [argument.value for argument in arguments if argument.sort == "text"])
    if word == "BIT":
        return bits(was, size if size is not None else 1)
    return None


def kind_at(words):
    """The kind at the front of words, and the words after it; no kind where the program has nothing like it."""
    word, count = words[0].text.upper(), 1
    if words[0].is_word("DOUBLE") and words[1:2] and words[1].is_word("PRECISION"):
        count = 2
    if words[0].is_word("CHARACTER", "CHAR") and words[1:2] and words[1].is_word("VARYING"):
        word, count = "VARCHAR", 2
    arguments = []
    if words[count:] and words[count].is_sign("("):
        end = closing(words, count)
        arguments = [value_of([it]) for it in words[count + 1 : end] if not it.is_sign(",")]
        count = end + 1
    signs = set()
    while words[count:] and words[count].is_word("UNSIGNED", "ZEROFILL", "SIGNED"):
        signs.add(words[count].text.upper())
        count += 1
    was = written(words[:count])
    kind = kind_of(SYNONYMS.get(word, word), was, arguments, "UNSIGNED" in signs, "ZEROFILL" in signs)
    return kind, words[count:], was
