"""Finds the words of a text that the program doesn't read, by asking it about parts of the text."""
from kinds import Kept, Left, Text as TextKind, kind_at
from sql import bytes_written, value_of, words_in

# How long a text may be that is shown.
WIDTH = 110
# How many words one of the plain words may replace.
MOST_REPLACED = 6
# How many words a text may have of which no beginning is read, though more of them are one again.
AHEAD = 4


def words_of(text):
    """The words of a text, comments in `/* */` among them: the program doesn't read those."""
    return list(words_in(text, comments=True))


def short(text):
    """A text on one line, no longer than can be read."""
    text = " ".join(text.split())
    return text if len(text) <= WIDTH else text[: WIDTH - 2] + ".."


class Fault:
    """Words that aren't read, and what is read in their place: a text, an empty one where the rest is read without them, or
    none where nothing helps. `code` is what the text was refused with, until it was mended; `is_end` is of a text that isn't
    wrong but ends too early."""

    def __init__(self, code, words, instead, line, is_end=False):
        self.code, self.words, self.instead, self.line, self.is_end = code, words, instead, line, is_end

    def text(self):
        words = short(self.words)
        if self.is_end:
            return f"it ends too early: with `{self.instead}` after `{words}` it is read"
        if self.instead is None:
            return f"`{words}` isn't read, and nothing that was tried in its place is: leave the whole part out"
        return f"`{words}` isn't read: " + (f"`{self.instead}` in its place is" if self.instead else "without it the rest is")


class Search:
    """`code_of` gives the code by which a text's words are refused, or none where they are read. `ends` are ways in which a text
    may go on that is cut off: a beginning is read where it is with one of them. `instead` are words that may be read in the place of
    others, or with a word where they have {}. Where `keeps_last`, the last word is one that has to stay."""

    def __init__(self, code_of, ends, instead, keeps_last=False):
        self.code_of, self.ends, self.instead, self.keeps_last = code_of, ends, instead, keeps_last

    def is_read(self, text):
        return self.code_of(text) is None

    def begins(self, text, count):
        """Whether so many words of a text are the beginning of one that is read."""
        words = words_of(text)
        if not 0 < count <= len(words):
            return count == 0
        part = text[: words[count - 1].end()]
        return any(self.is_read(part + end) for end in self.ends)

    def first_fault(self, text, start=0):
        """The number of the first word that isn't read, where the words before `start` are; none where all are."""
        count = len(words_of(text))
        if self.is_read(text) or count == 0:
            return None
        low, high = start, count
        while True:
            while low + 1 < high:
                middle = (low + high) // 2
                low, high = (middle, high) if self.begins(text, middle) else (low, middle)
            further = next((at for at in range(high + 1, min(high + AHEAD, count)) if self.begins(text, at)), None)
            if further is None:
                return high - 1
            low, high = further, count

    def faults(self, text):
        """The faults from left to right, and the text in which they are mended, or none where one can't be."""
        found, start = [], 0
        while (at := self.first_fault(text, start)) is not None:
            fault, text, start = self.completed(text) or self.mended(text, at)
            found.append(fault)
            if text is None:
                return found, None
        return found, text

    def completed(self, text):
        """The same of a text that ends too early, with what completes it; none of another."""
        words = words_of(text)
        end = next((end for end in self.ends if end and self.is_read(text + end)), None)
        if end is None:
            return None
        return Fault(self.code_of(text), words[-1].text, end.strip(), words[-1].line, is_end=True), text + end, len(words)

    def mended(self, text, at):
        """The fault at a word, with the fewest words that have to go; the text without them, and how many of its words are read."""
        words, code = words_of(text), self.code_of(text)
        for first, size, instead in changes(words, at, self.instead, self.keeps_last):
            last = first + size
            if not is_balanced(words[first:last]):
                continue
            new = text[: words[first].at] + (instead or " ") + text[words[last - 1].end() :]
            read = first + len(words_of(instead))
            if self.is_read(new) or self.goes_on(new, read, words, first, last, instead):
                return Fault(code, text[words[first].at : words[last - 1].end()], instead, words[first].line), new, read
        return Fault(code, text[words[at].at :], None, words[at].line), None, at

    def goes_on(self, new, read, words, first, last, instead):
        """Whether a text in which words were replaced is read as far as the word after them, or up to its end, where an open
        quote was replaced."""
        if self.keeps_last:
            return False
        if last < len(words):
            return self.begins(new, read + 1)
        return bool(instead) and words[first].is_sign("'", '"', "`") and self.begins(new, read)


def is_balanced(words):
    """Whether parentheses open and close in the words alone."""
    depths, depth = [], 0
    for word in words:
        depth += word.is_sign("(") - word.is_sign(")")
        depths.append(depth)
    return depth == 0 and min(depths) == 0


def changes(words, at, plain, keeps_last):
    """Which words may go, by the first and how many, and what may stand in their place: first what the converter has for them,
    then nothing, then plain words."""
    size, instead = nearest(words[at:])
    if size:
        yield at, size, instead
    # Before a point stands a name that goes with it.
    first = at - 1 if at and (keeps_last or words[at].is_sign(".")) else at
    for size in range(1 + at - first, len(words) - first + (not keeps_last)):
        yield first, size, ""
    for size in range(1, min(len(words) - at, MOST_REPLACED) + 1):
        for instead in plain:
            # (a word of the language stands for one word alone)
            if size == 1 or not (instead.isupper() or "{}" in instead):
                yield at, size, instead.format(words[at].text)


def nearest(words):
    """How many words are a kind or a literal that the converter has something for, and what that is."""
    if words[0].kind == "name":
        kind, rest, _ = kind_at(words)
        if kind is not None:
            return len(words) - len(rest), kind.now
    if words[0].kind in ("bytes", "bits"):
        value = value_of(words[:1])
        return 1, str(value.value) if value.sort == "bits" else bytes_written(value.value)
    try:
        return (1, TextKind("", "").literal(value_of(words[:1]))) if words[0].kind == "number" else (0, "")
    except (Kept, Left):
        return 0, ""
