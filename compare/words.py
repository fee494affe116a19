"""The words of a text of SQL, as far as the rules need to see them."""
import re

WORD = re.compile(
    r"""(?P<gap>\s+|\#[^\n]*|--\s[^\n]*)
    |(?P<bytes>[xX]'[0-9a-fA-F]*')
    |(?P<text>'(?:[^'\\]|\\.|'')*'|"(?:[^"\\]|\\.|"")*")
    |(?P<quoted>`[^`]*`)
    |(?P<number>[+-]?\d+)
    |(?P<name>[A-Za-z_$][A-Za-z0-9_$]*)
    |(?P<sign><=|>=|.)""",
    re.X | re.S,
)


class Word:
    def __init__(self, kind, text):
        self.kind, self.text = kind, text

    def is_word(self, *texts):
        return self.kind == "name" and self.text.upper() in texts

    def name(self):
        """The name that the word gives a column, a key or a table, without regard to case; none for another word."""
        if self.kind == "quoted":
            return self.text[1:-1].lower()
        return self.text.lower() if self.kind == "name" else None


def words(text):
    found = (Word(it.lastgroup, it.group()) for it in WORD.finditer(text))
    return [it for it in found if it.kind != "gap"]


def joined(listed):
    return spaced(it.text for it in listed)


def spaced(texts):
    """A server knows a function by the bracket right after its name."""
    return " ".join(texts).replace("COUNT (", "COUNT(").replace("count (", "count(")


def split_at_commas(listed):
    """The lists of words between commas that stand in no parentheses."""
    pieces, depth = [[]], 0
    for word in listed:
        if word.kind == "sign" and word.text in "()":
            depth += 1 if word.text == "(" else -1
        if word.kind == "sign" and word.text == "," and depth == 0:
            pieces.append([])
        else:
            pieces[-1].append(word)
    return pieces


def clauses(alter):
    """The clauses of an ALTER, each a list of words."""
    listed = words(alter)
    if len(listed) > 2 and listed[0].is_word("ALTER") and listed[1].is_word("TABLE"):
        listed = listed[3:]
    return split_at_commas(listed)


def items(create):
    """The items between the outer parentheses of a CREATE TABLE, and the words behind them."""
    listed = words(create)
    depth, begin = 0, None
    for place, word in enumerate(listed):
        if word.kind == "sign" and word.text == "(":
            depth += 1
            begin = place + 1 if begin is None else begin
        if word.kind == "sign" and word.text == ")":
            depth -= 1
            if depth == 0 and begin is not None:
                return split_at_commas(listed[begin:place]), listed[place + 1 :]
    return [], []
