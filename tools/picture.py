"""A run turn by turn: a lane for each actor, a box for each turn."""
from facts import CHUNK, TABLE_LOCK, curves, mark, spans, waits
from svg import BLUE, GREEN, GREY, RED, VIOLET, YELLOW, Picture
from traces import name_of

TURN, LANE, LEFT, TOP, CURVE = 34, 52, 130, 92, 52
BARS = {CHUNK: "#b9cfe8", TABLE_LOCK: "#e8a0a0"}
OPEN = "#b5dcc4"
CURVES = (BLUE, RED, "#d68910")
# The words over a turn, by how its call begins.
SHORT = (
    *(("create the sentry", "sentry"), ("LOCK TABLES", "LOCK"), ("write the hint", "hint"), ("RENAME", "RENAME"), ("who waits?", "who waits?")),
    *(("drop the sentry", "drop sentry"), ("UNLOCK", "UNLOCK"), ("read the log", "read log"), ("COMMIT", "commit"), ("ROLLBACK", "rollback")),
    *(("BEGIN", "begin"), ("list the tables", "list"), ("DROP", "drop"), ("CREATE", "create"), ("lock the chunk", "span"), ("where does the chunk", "chunk")),
    ("read the checkpoint", "checkpoint"),
)
LEGEND = "blue: a call of the tool · green: a client's statement · yellow: waits, a dot for each poll, the dashed line to whom it waits for · red: refused · cross: the session is lost"


def title_of(turn):
    blocked = f", behind {name_of(turn.blocker)}" if turn.blocker else ""
    return f"turn {turn.number}, {name_of(turn.actor)}: {turn.call} → {turn.answer}{blocked}"


def word_over(turn):
    if turn.asked == "poll":
        return ""
    if turn.is_client():
        return turn.call.split()[0].lower() if turn.call else ""
    return next((word for start, word in SHORT if turn.call.startswith(start)), "")


class Timeline:
    """The turns from `first` to `last` of a trace."""

    def __init__(self, trace, first, last):
        self.trace, self.first, self.last = trace, first, last
        self.lanes = {actor: TOP + LANE * place for place, actor in enumerate(trace.actors())}
        self.bottom = TOP + LANE * len(self.lanes)
        self.picture = Picture(LEFT + TURN * (last - first + 1) + 120, self.bottom + CURVE * 3 + 60)

    def x(self, turn):
        return LEFT + TURN * (turn - self.first)

    def drawn(self):
        self.head()
        self.lane_names()
        self.open_things()
        for wait in waits(self.trace):
            self.bar(wait.actor, wait.first, wait.last, "url(#stripes)")
        self.alter()
        self.lost_tool()
        for turn in self.trace.turns[self.first - 1 : self.last]:
            self.turn(turn)
        self.counts()
        self.picture.text(14, self.bottom + CURVE * 3 + 44, LEGEND, font_size=10, fill=GREY)
        return self.picture.whole()

    def head(self):
        trace = self.trace
        self.picture.text(14, 24, f"{trace.table()}: {trace.plan['alter']}"[:140], font_size=16, font_weight="bold")
        self.picture.text(14, 44, f"{trace.verdict} · turns {self.first} to {self.last} of {len(trace.turns)}", fill=GREY)

    def lane_names(self):
        for actor, y in self.lanes.items():
            self.picture.text(LEFT - 10, y + 19, name_of(actor), text_anchor="end", font_weight="bold")
            self.picture.line(LEFT, y + LANE - 10, self.x(self.last + 1), y + LANE - 10, "#eeeeee")

    def bar(self, actor, first, last, fill, text=""):
        if last < self.first or first > self.last:
            return
        first, last = max(first, self.first), min(last, self.last)
        y = self.lanes[actor] + 26
        self.picture.box(self.x(first) + 2, y, TURN * (last - first + 1) - 4, 8, fill, rx=3)
        if text and last > first + 1:
            self.picture.text(self.x(first) + 4, y + 17, text, font_size=9, fill=GREY)

    def open_things(self):
        for span in spans(self.trace):
            if span.kind == TABLE_LOCK:
                self.lock(span)
            self.bar(span.actor, span.first, span.last, BARS.get(span.kind, OPEN), span.kind)

    def lock(self, span):
        """The time of the table's lock goes through all lanes."""
        first, last = max(span.first, self.first), min(span.last, self.last)
        if first <= last:
            self.picture.box(self.x(first), TOP - 8, TURN * (last - first + 1), self.bottom - TOP + 4, RED, opacity=0.07)

    def alter(self):
        turn = mark(self.trace)
        if turn is None or not self.first <= turn <= self.last:
            return
        x = self.x(turn) + TURN // 2
        self.picture.line(x, TOP - 22, x, self.bottom, VIOLET, stroke_width=2, stroke_dasharray="4 3")
        self.picture.text(x + 5, TOP - 14, "ALTER, at this instant", fill=VIOLET, font_weight="bold")

    def lost_tool(self):
        """Where a new tool comes."""
        last = self.trace.run_length()
        if last == len(self.trace.turns) or not self.first <= last < self.last:
            return
        x = self.x(last + 1)
        self.picture.line(x, TOP - 22, x, self.bottom, GREY, stroke_width=2)
        self.picture.text(x - 5, TOP - 14, "the whole tool is lost", text_anchor="end", fill=GREY, font_weight="bold")
        self.picture.text(x + 5, TOP - 14, "a new tool", fill=GREY, font_weight="bold")

    def turn(self, turn):
        picture, x, y = self.picture, self.x(turn.number), self.lanes[turn.actor]
        picture.begin(title_of(turn))
        fill = YELLOW if turn.is_wait() else RED if turn.error() is not None or turn.is_timeout() else GREEN if turn.is_client() else BLUE
        if turn.is_loss():
            picture.cross(x + TURN // 2, y + 14, 8)
        elif turn.is_wait() and turn.asked == "poll":
            picture.dot(x + TURN // 2, y + 14, 4, fill)
        else:
            picture.box(x + 4, y + 4, TURN - 8, 20, fill, rx=4)
            picture.text(x + TURN // 2, y + 18, str(turn.number), fill="#ffffff", text_anchor="middle", font_size=min(10, 40 // len(str(turn.number))))
        word = word_over(turn)
        if word:
            picture.text(x + TURN // 2, y + 1, word, font_size=8, text_anchor="middle", fill="#333333")
        if turn.asked != "poll":
            self.behind(turn, x + TURN // 2, y)
        picture.end()

    def behind(self, turn, x, y):
        """A line to whoever blocks it."""
        if turn.blocker not in self.lanes:
            return
        other = self.lanes[turn.blocker]
        above = other < y
        self.picture.line(x, y + (4 if above else 24), x, other + (26 if above else 4), "#d68910", stroke_dasharray="2 2")

    def counts(self):
        for place, (curve, color) in enumerate(zip(curves(self.trace), CURVES)):
            self.curve(curve, color, self.bottom + 20 + CURVE * (place + 1) - 12)

    def curve(self, curve, color, base):
        height, most = CURVE - 18, max(1, curve.most)
        place = lambda turn, value: (self.x(turn) + TURN // 2, base - height * value / most)
        points, value = [], 0
        for turn, after in curve.points:
            if self.first <= turn <= self.last:
                points += [place(max(turn - 1, self.first), value), place(turn, after)]
            value = after if turn <= self.last else value
        points = [place(self.first, points_at(curve, self.first)), *points, place(self.last, points_at(curve, self.last))]
        self.picture.text(LEFT - 10, base - 8, curve.title, text_anchor="end", fill=color)
        self.picture.line(LEFT, base, self.x(self.last + 1), base, "#cccccc")
        self.picture.curve(points, color)
        self.picture.text(self.x(self.last + 1) + 6, base - height + 10, f"most {curve.most}", fill=color, font_size=10)


def points_at(curve, turn):
    """The value of a curve after a turn."""
    return [value for at, value in curve.points if at <= turn][-1]
