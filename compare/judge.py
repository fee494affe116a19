"""Compares what the program printed for a plan with what a server answered to it."""
import dataclasses

from reports import Report, shape_of

# For each of the program's codes that MySQL has too: the numbers by which a server refuses the same. (4161 is MariaDB's for a word
# that is no kind; 1146 comes where ALTER TABLE names another table.)
SAME_NUMBERS = {
    10: (1064, 4161),
    12: (1060, 1061, 1068),
    13: (1072,),
    15: (1117,),
    17: (1059, 1103, 1166),
    19: (1067,),
    20: (1064, 4161, 1146),
    21: (1054, 1072, 1091, 1176),
    22: (1060, 1061),
    27: (1067,),
    30: (1090,),
    32: (1063, 1067, 1075),
}
# A row that is bad; a statement that is left out, or that is none.
ROWS_REFUSED = (58, 42, 41)


@dataclasses.dataclass
class Difference:
    """`kind` is what was compared: create, rows, answer, alter, shape, unfit or table; `place` says which."""

    kind: str
    place: str
    ours: str
    theirs: str
    rule: str = None
    is_early: bool = False  # whether a statement that draws a number had waited by then
    refused: tuple = ()  # the clients' lines that were refused before

    def is_other_number(self):
        """Whether both gave out a number, and the two differ."""
        ours, theirs = self.ours.split(" "), self.theirs.split(" ")
        return len(ours) == len(theirs) == 4 and ours[:3] == theirs[:3] and ours[3] != theirs[3]

    def key(self):
        return self.kind, self.place


class Count:
    """How many were compared, and how many were the same."""

    KINDS = ("create", "rows", "answer", "alter", "table")

    def __init__(self):
        self.compared = dict.fromkeys(self.KINDS, 0)
        self.same = dict.fromkeys(self.KINDS, 0)
        self.rows_left, self.numbers = 0, 0  # rows in the tables at the end; numbers that both gave out alike
        self.done = 0
        self.left = {}  # plans that were followed up to where the locks differ, by what was seen there
        self.parted = 0  # plans that were followed up to a statement that one side does and the other doesn't

    def add(self, kind, is_same):
        self.compared[kind] += 1
        self.same[kind] += is_same
        return is_same

    def add_answer(self, ours, theirs):
        self.numbers += ours == theirs and " id " in str(ours[1])
        return self.add("answer", ours == theirs)


class Judge:
    """One plan's comparison: the differences, and counts of what was compared. `rule_of` gives a difference's own rule."""

    def __init__(self, plan, check, replay, served, count, rule_of):
        self.plan, self.served, self.count, self.rule_of = plan, served, count, rule_of
        self.report, self.check = Report(replay), check
        self.differences, self.refused = [], []

    def judge(self):
        code = self.report.refused or 0
        first = 0 if self.report.is_of_second else code
        if not self.is_created("", first, self.served.created):
            return self.differences
        if self.plan.second and not self.is_created("u", code - first, self.served.second.created):
            return self.differences
        if self.is_refused_by_words(first):
            return self.differences
        self.shape()
        if self.are_rows_taken(code):
            is_followed = self.answers() if self.served.replies is None else self.replies()
            if is_followed and self.served.left is None:
                self.end()
        return self.differences

    def parts(self):
        """Whether the last difference is explained and leaves other rows on both sides: what comes after it can't be compared."""
        last = self.differences[-1]
        is_change = last.ours.startswith("ok") != last.theirs.startswith("ok") or last.is_other_number()
        if not is_change or self.rule_of(self.plan, last) is None:
            return False
        self.count.parted += 1
        return True

    def differ(self, kind, place, ours, theirs, is_early=False):
        self.differences.append(Difference(kind, place, str(ours), str(theirs), is_early=is_early, refused=tuple(self.refused)))

    def is_created(self, table, code, theirs):
        ours = code if 10 <= code <= 19 or code == 32 else 0
        same = ours == theirs == 0 or theirs in SAME_NUMBERS.get(ours, ())
        if not self.count.add("create", same):
            self.differ("create", table, ours, theirs)
        return ours == theirs == 0

    def is_refused_by_words(self, code):
        """Whether the ALTER is refused, whatever rows there are."""
        if code in ROWS_REFUSED:
            code = Report(self.check).refused or 0
        ours, theirs = code if 20 <= code <= 31 else 0, self.served.altered
        if ours == theirs == 0:
            return False
        if not self.count.add("alter", ours != 0 and theirs in SAME_NUMBERS.get(ours, ())):
            self.differ("alter", "", ours, theirs)
        return True

    def shape(self):
        ours, theirs = shape_of(self.check.text), self.served.shape
        reported = ["none" if it is None else it.reported() for it in (ours, theirs)]
        self.is_shaped = reported[0] == reported[1] if ours else True
        if not self.is_shaped:
            self.differ("shape", "", *reported)

    def are_rows_taken(self, code):
        first = 0 if self.report.is_of_second else code
        theirs = self.rows_taken("", first, self.served.rows_refused)
        if self.plan.second and not theirs and not first:
            theirs = self.rows_taken("u", code, self.served.second.rows_refused)
        if code not in (0, *ROWS_REFUSED):
            self.differ("rows", "", code, "")
        return not theirs and not code

    def rows_taken(self, table, code, refused):
        if not self.count.add("rows", (code in ROWS_REFUSED) == bool(refused)):
            self.differ("rows", table, code, refused)
        return bool(refused)

    def answers(self):
        """Whether the clients' lines could be compared to their end."""
        for client, place, line in self.plan.turns():
            replies = self.report.replies[client] if client < len(self.report.replies) else []
            ours = replies[place] if place < len(replies) else ("none", 0)
            theirs = self.served.answers[client, place]
            self.refused += [line] if theirs[0] == "error" else []
            if not self.count.add_answer(ours, theirs):
                self.differ("answer", f"client {client + 1} line {place + 1}: {line}", reported(ours), reported(theirs))
                if self.parts():
                    return False
        return True

    def replies(self):
        """The same of transactions beside each other: the replies as they came, up to where the locks differ."""
        if self.served.left:
            self.count.left[self.served.left] = self.count.left.get(self.served.left, 0) + 1
        places = [0] * len(self.served.replies)
        for client in self.served.sequence:
            ours, (answer, line, is_early) = self.report.replies[client], self.served.replies[client][places[client]]
            told_by_us = ours[places[client]] if places[client] < len(ours) else ("none", 0)
            places[client] += 1
            self.refused += [line] if answer[0] == "error" else []
            if not self.count.add_answer(told_by_us, answer):
                self.differ("answer", f"client {client + 1} reply {places[client]}: {line}", reported(told_by_us), reported(answer), is_early)
                if self.parts():
                    return False
        if not self.served.left and places != [len(it) for it in self.report.replies]:
            self.differ("answer", "in all", [len(it) for it in self.report.replies], places)
        return True

    def end(self):
        """The ALTER of the table with its rows, and the rows that are left."""
        same = self.is_fit() and self.is_shaped
        self.count.add("alter", same)
        theirs = self.served.columns
        tables = (self.report.columns, self.report.rows), (theirs and ", ".join(theirs), self.served.rows)
        self.count.done += self.report.done()
        self.compare_tables("", *tables)
        if self.plan.second:
            theirs = self.served.second.columns
            second = (theirs and ", ".join(theirs), self.served.second.rows)
            self.compare_tables("u", (self.report.second_columns, self.report.second_rows), second)

    def compare_tables(self, place, ours, theirs):
        self.count.rows_left += len(ours[1] or [])
        if not self.count.add("table", ours == theirs):
            self.differ("table", place, *(f"({columns}) {' '.join(rows or [])}" for columns, rows in (ours, theirs)))

    def is_fit(self):
        ours = self.report.unfit or (0, None)
        theirs = (self.served.copied, self.served.column if self.report.unfit else None)
        if ours == (0, None) and not self.report.done():
            self.differ("unfit", "", f"status {self.report.status}", theirs)
            return False
        if ours[0] != theirs[0] or (ours[1] and ours[1] != theirs[1]):
            self.differ("unfit", "", f"{ours[0]} column {ours[1]}", f"{theirs[0]} column {theirs[1]}")
            return False
        return True


def reported(answer):
    form, what = answer
    return f"{form} {what}" if form != "rows" else f"rows {' '.join(what)}"
