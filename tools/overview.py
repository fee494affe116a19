"""A run of any length in a fixed number of columns."""
import collections

from facts import TABLE_LOCK, curves, mark, spans, waits
from svg import BLUE, GREEN, GREY, RED, VIOLET, YELLOW, Picture
from traces import name_of

COLUMNS, WIDTH, LEFT, TOP, CURVE, MOST_POINTS = 240, 5, 130, 74, 42, 1_200
CURVES = (BLUE, RED, "#d68910")
LEGEND = "blue and green: turns of the tool and of clients, higher where there are more · yellow: waits · red: the table is locked"


class Overview:
    def __init__(self, trace):
        self.trace, self.turns = trace, len(trace.turns)
        actors = trace.actors()
        self.lane = 22 if len(actors) <= 24 else 12
        self.lanes = {actor: TOP + self.lane * place for place, actor in enumerate(actors)}
        self.bottom = TOP + self.lane * len(actors)
        self.picture = Picture(LEFT + WIDTH * COLUMNS + 110, self.bottom + CURVE * 3 + 60)

    def column(self, turn):
        return min(COLUMNS - 1, (turn - 1) * COLUMNS // max(1, self.turns))

    def x(self, column):
        return LEFT + WIDTH * column

    def runs(self, columns):
        """Columns, as pairs of the first and the one after the last of those that are neighbours."""
        first = last = None
        for column in sorted(columns):
            if last is not None and column > last:
                yield first, last
                first = column
            first, last = column if first is None else first, column + 1
        if first is not None:
            yield first, last

    def drawn(self):
        trace, picture = self.trace, self.picture
        picture.text(14, 24, f"{trace.table()}: {trace.plan['alter']}"[:140], font_size=16, font_weight="bold")
        picture.text(14, 44, f"{trace.verdict} · {self.turns} turns, {max(1, self.turns) / COLUMNS:.1f} a column", fill=GREY)
        self.waits()
        self.taken()
        self.locked()
        self.alter()
        self.lost_tool()
        for place, (curve, color) in enumerate(zip(curves(trace), CURVES)):
            self.curve(curve, color, self.bottom + 40 + CURVE * place)
        picture.text(14, self.bottom + CURVE * 3 + 44, LEGEND, font_size=10, fill=GREY)
        return picture.whole()

    def waits(self):
        columns = collections.defaultdict(set)
        for wait in waits(self.trace):
            columns[wait.actor].update(range(self.column(wait.first), self.column(wait.last) + 1))
        for actor, there in columns.items():
            for first, last in self.runs(there):
                self.picture.box(self.x(first), self.lanes[actor] + 1, WIDTH * (last - first), self.lane - 2, YELLOW, opacity=0.5)

    def taken(self):
        counts = collections.Counter((turn.actor, self.column(turn.number)) for turn in self.trace.turns)
        most, whole = self.lane - 4, max(1.0, self.turns / COLUMNS)
        for actor, y in self.lanes.items():
            self.picture.text(LEFT - 8, y + self.lane - 4, name_of(actor), text_anchor="end", font_size=min(11, self.lane - 1))
            heights = [min(most, max(3, round(most * counts[actor, column] / whole))) if counts[actor, column] else 0 for column in range(COLUMNS)]
            color = GREEN if actor in self.trace.clients() else BLUE
            for height in sorted(set(heights) - {0}):
                for first, last in self.runs(column for column, it in enumerate(heights) if it == height):
                    self.picture.box(self.x(first), y + self.lane - 2 - height, WIDTH * (last - first), height, color)

    def locked(self):
        columns = {column for span in spans(self.trace) if span.kind == TABLE_LOCK for column in range(self.column(span.first), self.column(span.last) + 1)}
        for first, last in self.runs(columns):
            self.picture.box(self.x(first), TOP - 4, WIDTH * (last - first), self.bottom - TOP + 8, RED, opacity=0.25)

    def alter(self):
        turn = mark(self.trace)
        if turn is not None:
            x = self.x(self.column(turn)) + WIDTH // 2
            self.picture.line(x, TOP - 10, x, self.bottom + CURVE * 3 + 20, VIOLET, stroke_width=2)
            self.picture.text(x - 6, TOP - 8, f"ALTER at turn {turn}", text_anchor="end", fill=VIOLET, font_weight="bold")

    def lost_tool(self):
        last = self.trace.run_length()
        if last < self.turns:
            x = self.x(self.column(last + 1))
            self.picture.line(x, TOP - 10, x, self.bottom + CURVE * 3 + 20, GREY, stroke_width=2)
            self.picture.text(x - 6, TOP - 8, "the whole tool is lost", text_anchor="end", fill=GREY, font_weight="bold")

    def curve(self, curve, color, base):
        height, most, width = CURVE - 12, max(1, curve.most), WIDTH * COLUMNS
        place = lambda turn, value: (LEFT + width * turn / max(1, self.turns), base - height * value / most)
        self.picture.text(LEFT - 8, base - 8, curve.title, text_anchor="end", fill=color)
        self.picture.line(LEFT, base, LEFT + width, base, "#cccccc")
        self.picture.curve([place(turn, value) for turn, value in steps(self.thinned(curve))], color)
        self.picture.text(LEFT + width + 6, base - height + 10, f"most {curve.most}", font_size=10, fill=color)

    def thinned(self, curve):
        """Some points of a curve, its highest and its last among them."""
        step = max(1, len(curve.points) // MOST_POINTS)
        return [point for place, point in enumerate(curve.points) if place % step == 0 or point[1] == curve.most] + [(self.turns, curve.value)]


def steps(points):
    """A value stays until the next one comes."""
    value = points[0][1]
    for turn, after in points:
        yield turn, value
        yield turn, after
        value = after
